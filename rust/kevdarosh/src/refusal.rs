//! Why a call was refused.

use core::fmt::{Display, Formatter, Result};

use crate::ffi::Size;

macro_rules! refusals {
    ($($number:literal $name:ident $words:literal;)*) => {
        /// Why a call was refused. A refused call changed nothing. The numbers are those of documents 01 and 02.
        #[derive(Clone, Copy, Debug, PartialEq, Eq, Hash)]
        #[non_exhaustive]
        pub enum Refusal {
            $(#[doc = $words] $name,)*
        }

        impl Refusal {
            /// Every refusal, in the order of its number.
            pub const ALL: &'static [Refusal] = &[$(Refusal::$name),*];

            /// Its number, as the C functions give it.
            ///
            /// ```
            /// assert_eq!(kevdarosh::Refusal::BadTable.number(), 14);
            /// ```
            pub const fn number(self) -> u64 {
                match self {
                    $(Refusal::$name => $number,)*
                }
            }

            /// The refusal of a number.
            ///
            /// ```
            /// # use kevdarosh::Refusal;
            /// assert_eq!(Refusal::of_number(14), Some(Refusal::BadTable));
            /// assert_eq!(Refusal::of_number(0), None);
            /// ```
            pub const fn of_number(number: u64) -> Option<Refusal> {
                match number {
                    $($number => Some(Refusal::$name),)*
                    _ => None,
                }
            }
        }

        impl Display for Refusal {
            fn fmt(&self, f: &mut Formatter<'_>) -> Result {
                f.write_str(match self {
                    $(Refusal::$name => $words,)*
                })
            }
        }
    };
}

refusals! {
    1 TooLong "a key over 32 bytes or a value over 64";
    2 NoNode "no such node";
    3 NoKey "no such key to delete";
    4 NinthNode "the table holds eight nodes already";
    5 NodeFull "the node holds 32 keys already, or 16 of the party";
    6 Exhausted "a version or a heartbeat is 2^64-1 and cannot rise";
    7 BadMtu "an MTU below 100 or above 16,384";
    8 NoPlace "a place past the end, or too little room";
    9 Cut "the bytes end inside a field";
    10 BadTag "a tag or a status above 2, or a wanted status that is neither Set nor TTL";
    11 OutOfOrder "an operation before its Node, or versions that do not rise";
    12 NodeTwice "a node twice in one delta";
    13 TooMany "over eight nodes, or a delta over 16,384 bytes";
    14 BadTable "the bytes are not a table, overrides or a grid that obey the rules, or the grid is not the table's";
    15 BadTies "not one tie for each node of the table";
    17 BadForm "a key or a value that a meter table does not take";
    18 SmallerTotal "a smaller total than the one there";
    19 OtherParty "a key of neither party, or of the other one";
    20 BadEdition "no such edition of a digest";
    21 BadPeer "a peer's number above 7";
    22 NobodyPresent "no peer is present";
    23 BadPlan "the plan is not accepted, or its two lists are not as long as each other";
}

impl core::error::Error for Refusal {}

/// A call that was refused by the bytes of a peer, or before it looked at them: why, in a delta the place of the faulty operation's tag, and with [`Refusal::Cut`] how many bytes the field
/// lacks in which the bytes end.
///
/// `?` takes it to a [`Refusal`], where the place is lost, and a [`Refusal`] to it:
///
/// ```
/// use kevdarosh::{Fault, Mode, OwnedTable, Refusal, read_delta};
///
/// fn hear(table: &mut OwnedTable, delta: &[u8]) -> Result<bool, Refusal> {
///     Ok(table.apply_delta(delta, 1_000)?.changed())
/// }
///
/// let mut table = OwnedTable::new(Mode::Plain);
/// assert_eq!(hear(&mut table, &[3]), Err(Refusal::BadTag));
/// assert_eq!(Fault::from(Refusal::NoNode), Fault { refusal: Refusal::NoNode, at: None, need: 0 });
/// assert_eq!(read_delta(&[0, 1]).unwrap_err().to_string(), "the bytes end inside a field, at byte 0, 7 bytes are lacking");
/// ```
#[derive(Clone, Copy, Debug, PartialEq, Eq, Hash)]
pub struct Fault {
    /// Why.
    pub refusal: Refusal,
    /// Where in the delta; none where it is not a delta that was refused.
    pub at: Option<usize>,
    /// How many bytes are lacking, else 0.
    pub need: usize,
}

impl Fault {
    /// A number that is not 0 is a refusal's; those of a delta have a place.
    pub(crate) fn unless(number: u64, at: Size, need: Size) -> core::result::Result<(), Fault> {
        accepted(number).map_err(|refusal| Fault { refusal, at: refusal.is_of_a_delta().then(|| at.get()), need: need.get() })
    }

    /// The same where there is no delta.
    pub(crate) fn nowhere(number: u64, need: Size) -> core::result::Result<(), Fault> {
        accepted(number).map_err(|refusal| Fault { refusal, at: None, need: need.get() })
    }
}

impl Refusal {
    /// Whether a delta's bytes are refused with it.
    const fn is_of_a_delta(self) -> bool {
        matches!(self, Refusal::TooLong | Refusal::Cut | Refusal::BadTag | Refusal::OutOfOrder | Refusal::NodeTwice | Refusal::TooMany)
    }
}

impl From<Refusal> for Fault {
    fn from(refusal: Refusal) -> Fault {
        Fault { refusal, at: None, need: 0 }
    }
}

impl From<Fault> for Refusal {
    fn from(fault: Fault) -> Refusal {
        fault.refusal
    }
}

impl From<Fault> for ListingRefused {
    fn from(fault: Fault) -> ListingRefused {
        ListingRefused::Delta(fault)
    }
}

impl From<ExchangeRefused> for Refusal {
    fn from(refused: ExchangeRefused) -> Refusal {
        refused.refusal
    }
}

impl Display for Fault {
    fn fmt(&self, f: &mut Formatter<'_>) -> Result {
        self.refusal.fmt(f)?;
        if let Some(at) = self.at {
            write!(f, ", at byte {at}")?;
        }
        match self.need {
            0 => Ok(()),
            1 => f.write_str(", 1 byte is lacking"),
            need => write!(f, ", {need} bytes are lacking"),
        }
    }
}

impl core::error::Error for Fault {}

/// A listing of which no delta was made.
#[derive(Clone, Copy, Debug, PartialEq, Eq, Hash)]
pub enum ListingRefused {
    /// The first line that is not exactly as it is listed, number 16. The first of a text is 1; a missing end line is the line after the last.
    Line(usize),
    /// The delta that the lines tell is refused, or it has no room: [`Refusal::NoPlace`].
    Delta(Fault),
}

impl ListingRefused {
    /// Its number, as the C functions give it.
    ///
    /// ```
    /// # use kevdarosh::{ListingRefused, make_delta};
    /// assert_eq!(make_delta(b"no such line", &mut []).unwrap_err().number(), 16);
    /// ```
    pub const fn number(self) -> u64 {
        match self {
            ListingRefused::Line(_) => BAD_LINE,
            ListingRefused::Delta(fault) => fault.refusal.number(),
        }
    }
}

/// The number of a line that is not as it is listed. It has a line and no place, and no other call gives it.
pub(crate) const BAD_LINE: u64 = 16;

impl Display for ListingRefused {
    fn fmt(&self, f: &mut Formatter<'_>) -> Result {
        match self {
            ListingRefused::Line(line) => write!(f, "line {line} is not as it is listed"),
            ListingRefused::Delta(fault) => fault.fmt(f),
        }
    }
}

impl core::error::Error for ListingRefused {}

/// The first line of a plan that is at fault.
#[derive(Clone, Copy, Debug, PartialEq, Eq, Hash)]
pub struct PlanFault {
    /// Which line, counted from 0.
    pub line: usize,
    /// What is wrong with it.
    pub why: LineFault,
}

/// What is wrong with a line of a plan. They are asked in this order.
#[derive(Clone, Copy, Debug, PartialEq, Eq, Hash)]
pub enum LineFault {
    /// The table has no such node.
    NotHeld,
    /// The node is excluded.
    Excluded,
    /// A line before it names the same node.
    NamedBefore,
    /// The digest is not behind with the node.
    UpToDate,
    /// The count is above the node's stale records.
    CountAbove,
    /// The count is 0, though the node has stale records.
    CountZero,
    /// It does not fit into what the lines before it leave of the MTU.
    NoFit,
    /// A node without a count, or a count without a node: the two lists are not as long as each other.
    Alone,
}

impl LineFault {
    /// The fault of a number.
    pub(crate) fn of(number: u64) -> LineFault {
        match number {
            1 => LineFault::NotHeld,
            2 => LineFault::Excluded,
            3 => LineFault::NamedBefore,
            4 => LineFault::UpToDate,
            5 => LineFault::CountAbove,
            6 => LineFault::CountZero,
            7 => LineFault::NoFit,
            // The library's contract gives no other number.
            _ => LineFault::Alone,
        }
    }
}

impl Display for LineFault {
    fn fmt(&self, f: &mut Formatter<'_>) -> Result {
        f.write_str(match self {
            LineFault::NotHeld => "no such node",
            LineFault::Excluded => "the node is excluded",
            LineFault::NamedBefore => "a line before it names the node",
            LineFault::UpToDate => "the digest is not behind with the node",
            LineFault::CountAbove => "more records than are stale",
            LineFault::CountZero => "no record, though some are stale",
            LineFault::NoFit => "it does not fit any more",
            LineFault::Alone => "a node without a count, or a count without a node",
        })
    }
}

impl Display for PlanFault {
    fn fmt(&self, f: &mut Formatter<'_>) -> Result {
        write!(f, "line {}: {}", self.line, self.why)
    }
}

impl core::error::Error for PlanFault {}

impl core::error::Error for LineFault {}

/// An exchange that was refused: by which of its steps, and why.
#[derive(Clone, Copy, Debug, PartialEq, Eq, Hash)]
pub struct ExchangeRefused {
    /// Which step would have been refused.
    pub step: Step,
    /// Why.
    pub refusal: Refusal,
}

/// The steps of an exchange.
#[derive(Clone, Copy, Debug, PartialEq, Eq, Hash)]
pub enum Step {
    /// The follower's digest.
    Digest,
    /// The publisher's delta.
    Delta,
    /// Applying it to the follower.
    Applying,
}

impl Display for ExchangeRefused {
    fn fmt(&self, f: &mut Formatter<'_>) -> Result {
        let step = match self.step {
            Step::Digest => "the digest",
            Step::Delta => "the delta",
            Step::Applying => "applying",
        };
        write!(f, "{step}: {}", self.refusal)
    }
}

impl core::error::Error for ExchangeRefused {}

/// A number that is not 0 is a refusal's.
#[inline]
pub(crate) fn accepted(number: u64) -> core::result::Result<(), Refusal> {
    if number == 0 {
        return Ok(());
    }
    Err(refusal(number))
}

#[cold]
pub(crate) fn refusal(number: u64) -> Refusal {
    // The library's contracts give no other number.
    Refusal::of_number(number).unwrap_or(Refusal::BadTable)
}
