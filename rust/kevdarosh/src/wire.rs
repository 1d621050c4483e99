//! Digests and deltas as bytes.

use crate::NODES;
use crate::ffi;
use crate::refusal::{BAD_LINE, ExchangeRefused, Fault, ListingRefused, Refusal, Step, accepted};

/// The editions of a digest, chitchat's `ProtocolVersion`.
#[derive(Clone, Copy, Debug, PartialEq, Eq, Hash, Default)]
pub enum Edition {
    /// A count, then the entries.
    #[default]
    V0,
    /// The entries alone, to the end of the bytes.
    V1,
}

impl Edition {
    pub(crate) const fn number(self) -> u64 {
        match self {
            Edition::V0 => 0,
            Edition::V1 => 1,
        }
    }
}

/// What a digest tells of a node.
#[derive(Clone, Copy, Debug, PartialEq, Eq, Hash)]
pub struct NodeDigest {
    /// The node's number.
    pub node: u64,
    /// Its heartbeat.
    pub heartbeat: u64,
    /// Its last_gc.
    pub last_gc_version: u64,
    /// Its max.
    pub max_version: u64,
}

/// A digest that was read from the front of a peer's bytes.
#[derive(Clone, Copy, Debug, PartialEq, Eq, Hash)]
pub struct Digest<'a> {
    edition: Edition,
    bytes: &'a [u8],
    count: usize,
    rest: usize,
}

impl<'a> Digest<'a> {
    /// Reads the digest at the front of the bytes.
    ///
    /// # Errors
    ///
    /// [`Refusal::Cut`], [`Refusal::TooMany`].
    ///
    /// ```
    /// # use kevdarosh::{Edition, Digest};
    /// // One entry, and a byte behind it.
    /// let mut bytes = [0; 35];
    /// (bytes[0], bytes[2], bytes[34]) = (1, 7, 99);
    /// let digest = Digest::read(Edition::V0, &bytes).unwrap();
    /// assert_eq!(digest.len(), 1);
    /// let cut = Digest::read(Edition::V0, &bytes[..33]).unwrap_err();
    /// assert_eq!((cut.refusal, cut.at, cut.need), (kevdarosh::Refusal::Cut, None, 1));
    /// ```
    pub fn read(edition: Edition, bytes: &'a [u8]) -> Result<Digest<'a>, Fault> {
        let answer = ffi::read_digest(edition.number(), bytes);
        Fault::nowhere(answer.number, answer.need)?;
        Ok(Digest { edition, bytes, count: answer.count.get(), rest: answer.rest.get() })
    }

    /// How many nodes it tells of.
    ///
    /// ```
    /// # use kevdarosh::{Edition, Digest};
    /// // One entry, and a byte behind it.
    /// let mut bytes = [0; 35];
    /// (bytes[0], bytes[2], bytes[34]) = (1, 7, 99);
    /// let digest = Digest::read(Edition::V0, &bytes).unwrap();
    /// assert_eq!(digest.len(), 1);
    /// ```
    pub fn len(&self) -> usize {
        self.count
    }

    /// Whether it tells of none.
    ///
    /// ```
    /// # use kevdarosh::{Edition, Digest};
    /// // One entry, and a byte behind it.
    /// let mut bytes = [0; 35];
    /// (bytes[0], bytes[2], bytes[34]) = (1, 7, 99);
    /// let digest = Digest::read(Edition::V0, &bytes).unwrap();
    /// assert!(!digest.is_empty());
    /// ```
    pub fn is_empty(&self) -> bool {
        self.count == 0
    }

    /// What it tells, in the order of the bytes.
    ///
    /// ```
    /// # use kevdarosh::{Edition, Digest};
    /// // One entry, and a byte behind it.
    /// let mut bytes = [0; 35];
    /// (bytes[0], bytes[2], bytes[34]) = (1, 7, 99);
    /// let digest = Digest::read(Edition::V0, &bytes).unwrap();
    /// assert_eq!(digest.nodes().next().unwrap().node, 7);
    /// ```
    pub fn nodes(&self) -> impl Iterator<Item = NodeDigest> + use<'a> {
        let (edition, bytes) = (self.edition.number(), self.bytes);
        (0..self.count).map(move |i| {
            let entry = ffi::digest_entry(edition, bytes, i);
            NodeDigest { node: entry.node, heartbeat: entry.heartbeat, last_gc_version: entry.last_gc, max_version: entry.max }
        })
    }

    /// The bytes behind it.
    ///
    /// ```
    /// # use kevdarosh::{Edition, Digest};
    /// // One entry, and a byte behind it.
    /// let mut bytes = [0; 35];
    /// (bytes[0], bytes[2], bytes[34]) = (1, 7, 99);
    /// let digest = Digest::read(Edition::V0, &bytes).unwrap();
    /// assert_eq!(digest.rest(), [99]);
    /// ```
    pub fn rest(&self) -> &'a [u8] {
        &self.bytes[self.rest..]
    }
}

/// What a delta holds.
#[derive(Clone, Copy, Debug, PartialEq, Eq, Hash)]
pub struct DeltaRead {
    /// How many operations.
    pub ops: usize,
    /// How many nodes.
    pub nodes: usize,
}

/// The verdict on a delta, as applying it would give.
///
/// # Errors
///
/// [`Refusal::TooMany`], [`Refusal::Cut`], [`Refusal::TooLong`], [`Refusal::BadTag`], [`Refusal::OutOfOrder`], [`Refusal::NodeTwice`]: the first that is met in its order, with its place.
///
/// ```
/// # use kevdarosh::{DeltaRead, Fault, Refusal, read_delta};
/// assert_eq!(read_delta(&[]), Ok(DeltaRead { ops: 0, nodes: 0 }));
/// assert_eq!(read_delta(&[3]), Err(Fault { refusal: Refusal::BadTag, at: Some(0), need: 0 }));
/// ```
pub fn read_delta(delta: &[u8]) -> Result<DeltaRead, Fault> {
    let answer = ffi::read_delta(delta);
    Fault::unless(answer.number, answer.at, answer.need)?;
    Ok(DeltaRead { ops: answer.ops.get(), nodes: answer.nodes.get() })
}

/// The listing of a delta in words at the front of the buffer, or the one line of a refused delta: how many bytes. [`crate::LISTING`] bytes are always enough. [`make_delta`] has an example.
///
/// # Errors
///
/// [`Refusal::NoPlace`].
///
/// ```
/// # use kevdarosh::{Refusal, list_delta};
/// let mut text = [0; 100];
/// let bytes = list_delta(&[3], &mut text).unwrap();
/// assert_eq!(&text[..bytes], b"end=refused code=10 at=0\n");
/// assert_eq!(list_delta(&[3], &mut text[..9]), Err(Refusal::NoPlace));
/// ```
pub fn list_delta(delta: &[u8], out: &mut [u8]) -> Result<usize, Refusal> {
    let answer = ffi::list_delta(delta, out);
    accepted(answer.number)?;
    Ok(answer.count.get())
}

/// The delta that a listing tells, at the front of the buffer: how many bytes. Every line must be exactly as [`list_delta`] writes it, to the end line with its counts.
/// [`crate::DELTA`] bytes are always enough. Refused, it wrote nothing.
///
/// # Errors
///
/// [`ListingRefused::Line`], of the delta [`Refusal::TooMany`], [`Refusal::OutOfOrder`], [`Refusal::NodeTwice`], then [`Refusal::NoPlace`].
///
/// ```
/// # use kevdarosh::{Fault, LISTING, ListingRefused, Refusal, list_delta, make_delta};
/// let text = b"op=node id=7 gc=0 from=0\nop=kv version=1 status=set key=total value=4\nend=ok ops=2 bytes=45\n";
/// let (mut delta, mut listing) = ([0; 1_400], [0; LISTING]);
/// let bytes = make_delta(text, &mut delta).unwrap();
/// let listed = list_delta(&delta[..bytes], &mut listing).unwrap();
/// assert_eq!(&listing[..listed], text);
///
/// // A space too many in the second line; no room for the delta.
/// let edited = b"op=node id=7 gc=0 from=0\nop=kv  version=1 status=set key=total value=4\nend=ok ops=2 bytes=45\n";
/// assert_eq!(make_delta(edited, &mut delta), Err(ListingRefused::Line(2)));
/// assert_eq!(make_delta(text, &mut [0; 44]), Err(ListingRefused::Delta(Fault { refusal: Refusal::NoPlace, at: None, need: 0 })));
/// ```
pub fn make_delta(text: &[u8], out: &mut [u8]) -> Result<usize, ListingRefused> {
    let answer = ffi::make_delta(text, out);
    if answer.number == BAD_LINE {
        return Err(ListingRefused::Line(answer.line.get()));
    }
    Fault::unless(answer.number, answer.at, answer.need).map_err(ListingRefused::Delta)?;
    Ok(answer.bytes.get())
}

/// The nodes that a delta names, in its order, each once.
#[derive(Clone, Copy, Debug, PartialEq, Eq, Hash)]
pub struct DeltaNodes {
    numbers: [u64; NODES],
    count: usize,
}

impl DeltaNodes {
    /// Their numbers.
    ///
    /// ```
    /// # use kevdarosh::delta_nodes;
    /// assert!(delta_nodes(&[]).unwrap().as_slice().is_empty());
    /// ```
    pub fn as_slice(&self) -> &[u64] {
        &self.numbers[..self.count]
    }
}

/// Which nodes a delta names, without applying it: for a hub that logs or filters. No table is asked, so that a delta that a meter or a shared table refuses is read here too.
///
/// # Errors
///
/// [`Refusal::TooMany`], [`Refusal::Cut`], [`Refusal::TooLong`], [`Refusal::BadTag`], [`Refusal::OutOfOrder`], [`Refusal::NodeTwice`]: as [`read_delta`].
///
/// ```
/// # use kevdarosh::{Fault, Refusal, delta_nodes, make_delta};
/// let mut delta = [0; 100];
/// let bytes = make_delta(b"op=node id=9 gc=0 from=0\nop=node id=7 gc=0 from=0\nend=ok ops=2 bytes=50\n", &mut delta).unwrap();
/// assert_eq!(delta_nodes(&delta[..bytes]).unwrap().as_slice(), [9, 7]);
///
/// // My own node is 7: nobody else may tell of it.
/// assert!(delta_nodes(&delta[..bytes]).unwrap().as_slice().contains(&7));
/// assert_eq!(delta_nodes(&[3]), Err(Fault { refusal: Refusal::BadTag, at: Some(0), need: 0 }));
/// ```
pub fn delta_nodes(delta: &[u8]) -> Result<DeltaNodes, Fault> {
    let mut numbers = [0; NODES];
    let answer = ffi::delta_nodes(delta, &mut numbers);
    Fault::unless(answer.number, answer.at, answer.need)?;
    Ok(DeltaNodes { numbers, count: answer.nodes.get() })
}

/// What an exchange came to.
#[derive(Clone, Copy, Debug, PartialEq, Eq, Hash)]
pub struct Exchanged {
    /// The delta's operations.
    pub ops: usize,
    /// Its bytes.
    pub bytes: usize,
    /// How many nodes were answered.
    pub nodes: usize,
}

/// The two datagrams and the answers of an [`exchange`].
#[derive(Debug)]
pub struct Datagrams<'a> {
    /// For the digest: [`crate::DIGEST`] bytes are enough.
    pub digest: &'a mut [u8],
    /// For the delta: as many bytes as the MTU.
    pub delta: &'a mut [u8],
    /// A place for each node of the publisher.
    pub answers: &'a mut [u8],
}

/// One exchange between two tables in one memory, given by their bytes: the follower's digest in this edition without the unasked nodes, the publisher's delta for it without
/// the unsent ones, the delta applied. Refused, it wrote nothing.
///
/// # Errors
///
/// [`Refusal::BadTable`], [`Refusal::NoPlace`], [`Refusal::BadMtu`], [`Refusal::BadTies`], to a meter table [`Refusal::BadForm`], to a shared one [`Refusal::OtherParty`], each with the step that would have been refused.
///
/// ```
/// use kevdarosh::{DIGEST, Datagrams, Edition, Mode, NODES, OwnedTable, TableView, Wanted, exchange};
///
/// # fn main() -> Result<(), Box<dyn std::error::Error>> {
/// let mut publisher = OwnedTable::new(Mode::Guarded);
/// publisher.add_node(7)?;
/// let mut follower = publisher.as_bytes().to_vec();
/// publisher.write(7, b"total", b"41", Wanted::Set)?;
/// let datagrams = Datagrams { digest: &mut [0; DIGEST], delta: &mut [0; 100], answers: &mut [0; NODES] };
/// let done = exchange(publisher.as_bytes(), &mut follower, Edition::V0, 100, [&[], &[], &[0]], 1_000, datagrams)?;
/// assert_eq!((done.ops, done.nodes), (2, 1));
/// assert_eq!(TableView::over(&follower).get(7, b"total")?, Some(&b"41"[..]));
/// # Ok(())
/// # }
/// ```
pub fn exchange(
    publisher: &[u8],
    follower: &mut [u8],
    edition: Edition,
    mtu: usize,
    [unasked, unsent, ties]: [&[u64]; 3],
    clock: u64,
    datagrams: Datagrams<'_>,
) -> Result<Exchanged, ExchangeRefused> {
    let Datagrams { digest, delta, answers } = datagrams;
    let answer = ffi::exchange(publisher, follower, edition.number(), mtu, unasked, unsent, ties, clock, digest, delta, answers);
    accepted(answer.number).map_err(|refusal| ExchangeRefused {
        step: match answer.step.0 {
            1 => Step::Digest,
            2 => Step::Delta,
            _ => Step::Applying,
        },
        refusal,
    })?;
    Ok(Exchanged { ops: answer.ops.get(), bytes: answer.bytes.get(), nodes: answer.nodes.get() })
}
