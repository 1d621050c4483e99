//! Words to calls.

/// How many tables there are.
pub const HUBS: usize = 4;

/// A byte string of a script: written out, or what the last digest or delta writing wrote.
#[derive(Clone, Debug, PartialEq, Eq)]
pub enum Bytes {
    Given(Vec<u8>),
    LastDigest,
    LastDelta,
}

#[derive(Clone, Debug, PartialEq, Eq)]
pub enum Call {
    /// A number that names no mode or no profile is refused with 14.
    New { mode: u64, profile: u64 },
    Hub(usize),
    /// From now on this party calls.
    Party { number: u64 },
    Add { node: u64 },
    Remove { node: u64 },
    /// Asks for a removed node.
    Removed { node: u64 },
    Write { node: u64, key: Vec<u8>, value: Vec<u8>, status: u64, now: u64 },
    Delete { node: u64, key: Vec<u8>, now: u64 },
    DeleteTtl { node: u64, key: Vec<u8>, now: u64 },
    Offer { node: u64, heartbeat: u64 },
    Beat { node: u64 },
    Get { node: u64, key: Vec<u8> },
    List { node: u64, prefix: Vec<u8>, places: u64 },
    Gc { now: u64, grace: u64 },
    Digest { excluded: Vec<u64>, place: u64, len: usize, edition: u64 },
    ReadDigest { bytes: Bytes, edition: u64 },
    ReadDelta { bytes: Bytes },
    Compute { digest: Bytes, mtu: u64, excluded: Vec<u64>, ties: Vec<u64>, place: u64, len: usize, edition: u64 },
    /// Computing by a plan: how many stale records of which nodes. The two lists may differ in length.
    Plan { digest: Bytes, mtu: u64, excluded: Vec<u64>, nodes: Vec<u64>, counts: Vec<u64>, place: u64, len: usize, edition: u64 },
    /// Asks for the first line of a plan that is at fault.
    PlanFault { digest: Bytes, mtu: u64, excluded: Vec<u64>, nodes: Vec<u64>, counts: Vec<u64>, edition: u64 },
    /// `own`: the nodes that are left alone.
    Apply { bytes: Bytes, now: u64, places: u64, own: Vec<u64> },
    Table { bytes: Bytes },
    Dump,
    /// Overrides without a record in place of the current table. The calls on overrides are on what the current hub has.
    Overrides { number: u64 },
    Label { key: Vec<u8>, value: Vec<u8>, status: u64, now: u64 },
    Unlabel { key: Vec<u8>, now: u64 },
    UnlabelTtl { key: Vec<u8>, now: u64 },
    GcLabels { now: u64, grace: u64 },
    /// Readings over the overrides of a hub and the current table.
    GetOver { hub: usize, node: u64, key: Vec<u8> },
    ListOver { hub: usize, node: u64, prefix: Vec<u8>, places: u64 },
    /// The current hub's grid, made for its table.
    NewGrid,
    Grid { bytes: Bytes },
    DumpGrid,
    GridAdd { node: u64 },
    GridRemove { node: u64 },
    Tell { peer: u64, digest: Bytes, edition: u64 },
    TakeOut { peer: u64 },
    Least { node: u64 },
    Told { peer: u64, node: u64 },
    Careful { now: u64, grace: u64 },
}

/// `x` and two lowercase digits a byte.
pub fn hex(bytes: &[u8]) -> String {
    const DIGITS: &[u8; 16] = b"0123456789abcdef";
    let mut text = String::with_capacity(1 + 2 * bytes.len());
    text.push('x');
    for &byte in bytes {
        text.push(DIGITS[usize::from(byte >> 4)].into());
        text.push(DIGITS[usize::from(byte & 15)].into());
    }
    text
}

pub fn parse_hex(word: &str) -> Option<Vec<u8>> {
    let digits = word.strip_prefix('x')?.as_bytes();
    if digits.len() % 2 != 0 {
        return None;
    }
    let digit = |byte: u8| match byte {
        b'0'..=b'9' => Some(byte - b'0'),
        b'a'..=b'f' => Some(byte - b'a' + 10),
        _ => None,
    };
    digits.chunks(2).map(|pair| Some(digit(pair[0])? << 4 | digit(pair[1])?)).collect()
}

/// Decimal digits alone: the standard reader takes a `+` before them.
fn parse_number(word: &str) -> Option<u64> {
    word.bytes().all(|byte| byte.is_ascii_digit()).then(|| word.parse().ok())?
}

struct Words<'a>(std::str::Split<'a, char>);

impl Words<'_> {
    fn number(&mut self) -> Option<u64> {
        parse_number(self.0.next()?)
    }

    fn size(&mut self) -> Option<usize> {
        self.number().filter(|&size| size <= 1 << 20).map(|size| size as usize)
    }

    fn hub(&mut self) -> Option<usize> {
        self.size().filter(|&hub| hub < HUBS)
    }

    fn numbers(&mut self) -> Option<Vec<u64>> {
        match self.0.next()? {
            "-" => Some(Vec::new()),
            list => list.split(',').map(parse_number).collect(),
        }
    }

    fn text(&mut self) -> Option<Vec<u8>> {
        parse_hex(self.0.next()?)
    }

    fn bytes(&mut self) -> Option<Bytes> {
        match self.0.next()? {
            "@digest" => Some(Bytes::LastDigest),
            "@delta" => Some(Bytes::LastDelta),
            word => parse_hex(word).map(Bytes::Given),
        }
    }
}

impl Call {
    /// Whether it is a call on a grid: its answer ends with the grid's checksum.
    pub fn on_grid(&self) -> bool {
        use Call::{Careful, DumpGrid, Grid, GridAdd, GridRemove, Least, NewGrid, TakeOut, Tell, Told};
        matches!(
            self,
            NewGrid | Grid { .. } | DumpGrid | GridAdd { .. } | GridRemove { .. } | Tell { .. } | TakeOut { .. } | Least { .. } | Told { .. } | Careful { .. }
        )
    }

    /// None: the line is not of the language.
    pub fn parse(line: &str) -> Option<Call> {
        let mut words = Words(line.split(' '));
        let verb = words.0.next()?;
        let w = &mut words;
        let call = match verb {
            "new" => Call::New { mode: 0, profile: 0 },
            "make" => Call::New { mode: w.number()?, profile: 0 },
            "kind" => Call::New { mode: w.number()?, profile: w.number()? },
            "hub" => Call::Hub(w.hub()?),
            "party" => Call::Party { number: w.number()? },
            "add" => Call::Add { node: w.number()? },
            "remove" => Call::Remove { node: w.number()? },
            "removed" => Call::Removed { node: w.number()? },
            "write" => Call::Write {
                node: w.number()?,
                key: w.text()?,
                value: w.text()?,
                status: w.number()?,
                now: w.number()?,
            },
            "delete" => Call::Delete { node: w.number()?, key: w.text()?, now: w.number()? },
            "deletettl" => Call::DeleteTtl { node: w.number()?, key: w.text()?, now: w.number()? },
            "offer" => Call::Offer { node: w.number()?, heartbeat: w.number()? },
            "beat" => Call::Beat { node: w.number()? },
            "get" => Call::Get { node: w.number()?, key: w.text()? },
            "list" => Call::List { node: w.number()?, prefix: w.text()?, places: w.number()? },
            "gc" => Call::Gc { now: w.number()?, grace: w.number()? },
            "digest" => Call::Digest {
                excluded: w.numbers()?,
                place: w.number()?,
                len: w.size()?,
                edition: w.number()?,
            },
            "readdigest" => Call::ReadDigest { bytes: w.bytes()?, edition: w.number()? },
            "readdelta" => Call::ReadDelta { bytes: w.bytes()? },
            "compute" => Call::Compute {
                digest: w.bytes()?,
                mtu: w.number()?,
                excluded: w.numbers()?,
                ties: w.numbers()?,
                place: w.number()?,
                len: w.size()?,
                edition: w.number()?,
            },
            "plan" => Call::Plan {
                digest: w.bytes()?,
                mtu: w.number()?,
                excluded: w.numbers()?,
                nodes: w.numbers()?,
                counts: w.numbers()?,
                place: w.number()?,
                len: w.size()?,
                edition: w.number()?,
            },
            "planfault" => Call::PlanFault {
                digest: w.bytes()?,
                mtu: w.number()?,
                excluded: w.numbers()?,
                nodes: w.numbers()?,
                counts: w.numbers()?,
                edition: w.number()?,
            },
            "apply" => Call::Apply { bytes: w.bytes()?, now: w.number()?, places: w.number()?, own: Vec::new() },
            "leave" => Call::Apply { bytes: w.bytes()?, now: w.number()?, places: w.number()?, own: w.numbers()? },
            "table" => Call::Table { bytes: w.bytes()? },
            "dump" => Call::Dump,
            "overrides" => Call::Overrides { number: w.number()? },
            "label" => Call::Label { key: w.text()?, value: w.text()?, status: w.number()?, now: w.number()? },
            "unlabel" => Call::Unlabel { key: w.text()?, now: w.number()? },
            "unlabelttl" => Call::UnlabelTtl { key: w.text()?, now: w.number()? },
            "gclabels" => Call::GcLabels { now: w.number()?, grace: w.number()? },
            "getover" => Call::GetOver { hub: w.hub()?, node: w.number()?, key: w.text()? },
            "listover" => Call::ListOver { hub: w.hub()?, node: w.number()?, prefix: w.text()?, places: w.number()? },
            "newgrid" => Call::NewGrid,
            "grid" => Call::Grid { bytes: w.bytes()? },
            "dumpgrid" => Call::DumpGrid,
            "gridadd" => Call::GridAdd { node: w.number()? },
            "gridremove" => Call::GridRemove { node: w.number()? },
            "tell" => Call::Tell { peer: w.number()?, digest: w.bytes()?, edition: w.number()? },
            "takeout" => Call::TakeOut { peer: w.number()? },
            "least" => Call::Least { node: w.number()? },
            "told" => Call::Told { peer: w.number()?, node: w.number()? },
            "careful" => Call::Careful { now: w.number()?, grace: w.number()? },
            _ => return None,
        };
        words.0.next().is_none().then_some(call)
    }
}

#[cfg(test)]
mod tests {
    use super::*;

    #[test]
    fn words_become_calls() {
        assert_eq!(
            Call::parse("compute @digest 135 - 5,6 0 200 1"),
            Some(Call::Compute {
                digest: Bytes::LastDigest,
                mtu: 135,
                excluded: vec![],
                ties: vec![5, 6],
                place: 0,
                len: 200,
                edition: 1
            })
        );
        assert_eq!(
            Call::parse("plan x0000 100 9 7,8 1,18446744073709551615,0 3 200 0"),
            Some(Call::Plan {
                digest: Bytes::Given(vec![0, 0]),
                mtu: 100,
                excluded: vec![9],
                nodes: vec![7, 8],
                counts: vec![1, u64::MAX, 0],
                place: 3,
                len: 200,
                edition: 0
            })
        );
        assert_eq!(
            Call::parse("planfault @digest 100 - - 4 1"),
            Some(Call::PlanFault {
                digest: Bytes::LastDigest,
                mtu: 100,
                excluded: vec![],
                nodes: vec![],
                counts: vec![4],
                edition: 1
            })
        );
        assert_eq!(
            Call::parse("write 18446744073709551615 x x00ff 3 7"),
            Some(Call::Write { node: u64::MAX, key: vec![], value: vec![0, 255], status: 3, now: 7 })
        );
        assert_eq!(Call::parse("tell 8 @digest 2"), Some(Call::Tell { peer: 8, digest: Bytes::LastDigest, edition: 2 }));
        assert_eq!(Call::parse("told 0 7"), Some(Call::Told { peer: 0, node: 7 }));
        assert_eq!(Call::parse("party 3"), Some(Call::Party { number: 3 }));
        let calls = ["", "write 1 x x 0", "write 1 x x x 0 0", "write 1 x x -1 0", "get 1 xA0", "get 1 x0", "hub 4", "party", "party m", "party 1 2"];
        let numbers = ["add -1", "add +1", "add :", "add  1", "digest +1 0 2 0", "digest - 0 2"];
        let plans = ["plan x0000 100 - 7 1 0 100", "plan x0000 100 - 7 -1 0 100 0", "planfault x0000 100 - 7 1", "planfault x0000 100 - 7 1 0 100 0"];
        let grids = ["newgrid 1", "grid", "tell 0 x0000", "tell 0 0 x0000", "takeout", "least 1 2", "told 1", "careful 9"];
        for wrong in calls.into_iter().chain(numbers).chain(plans).chain(grids) {
            assert_eq!(Call::parse(wrong), None, "{wrong:?}");
        }
    }
}
