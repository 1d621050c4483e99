//! The hub of examples/hub.rs.
//!
//! What it takes care of, and where the reason stands:
//!
//! - A delta is computed only while every version of its own node is on its disk (docs/NET.md, "When to store a table"). Digests are free, a removal need not be stored, and what it follows is
//!   stored now and then. So it may be killed at any moment. Where the disk is full it says so and sends no delta until there is room.
//! - A file that is missing or damaged never becomes a new table in silence: an owner that forgets gives versions twice.
//! - The heartbeat on the disk runs ahead of the one that is told, so that after a restart the next beat is news to the peers.
//! - Its own node is written by itself alone: a delta leaves it as it is, whatever it says of it and whoever sent it, and its other nodes are taken (`apply_leaving`).
//! - A neighbour whose delta was Fenced hears in the next digest that all of that node is known, so that its other nodes get through (docs/NET.md, "When a hub stays behind").
//!
//! A datagram is a byte, what it is, and its bytes, 1,400 together at most. Each tick a digest goes to the next peer, which asks for an answer: the peer's own digest, and the delta for the one that
//! came. Who gets a digest in answer sends its delta too, so that one tick brings news both ways.

use std::collections::{BTreeMap, BTreeSet};
use std::io::{self, BufRead, ErrorKind, Write};
use std::net::{SocketAddr, UdpSocket};
use std::path::PathBuf;
use std::process::ExitCode;
use std::sync::mpsc::{Receiver, TryRecvError, channel};
use std::time::{Duration, Instant, SystemTime, UNIX_EPOCH};

use kevdarosh::{Answer, Digest, Edition, Mode, NODES, OwnedTable, Wanted, delta_nodes};

use crate::store::{Disk, Stored, Trouble};

const MTU: usize = 1_400;
const TICK: Duration = Duration::from_millis(20);
/// How long what is followed waits until it is stored, and a full disk until it is tried again.
const PAUSE: Duration = Duration::from_secs(1);
/// So many beats the disk is ahead.
const AHEAD: u64 = 10_000;
/// In the digest of edition V0: the count's bytes, an entry's, and those before its max (docs/FORMAT.md).
const COUNT: usize = 2;
const ENTRY: usize = 32;
const MAX_AT: usize = 24;

/// A digest that asks for an answer, a delta, and a digest in answer.
const ASKING: u8 = 0;
const DELTA: u8 = 1;
const TELLING: u8 = 2;

type Outcome<T> = Result<T, Box<dyn std::error::Error>>;

/// What a hub takes care of. A hub at work takes [`Care::ALL`]; tests/hubs.rs tries what becomes of one that leaves a care out.
pub struct Care {
    /// How it takes late deltas.
    pub mode: Mode,
    /// It stores its versions before it sends them.
    pub stores: bool,
    /// It removes what was deleted a grace ago.
    pub removes: bool,
    /// It goes on with the table that it stored.
    pub loads: bool,
}

impl Care {
    pub const ALL: Care = Care { mode: Mode::Guarded, stores: true, removes: true, loads: true };
}

struct Hub {
    care: Care,
    own: u64,
    table: Box<OwnedTable>,
    disk: Disk,
    file: PathBuf,
    /// The own node is written only from this max on: what was let out before its disk was lost.
    least: u64,
    /// The own max and heartbeat that are on the disk.
    stored_max: u64,
    stored_beat: u64,
    /// Something is not on the disk, which is tried at this time again.
    changed: bool,
    again: Instant,
    full: bool,
    grace: u64,
    socket: UdpSocket,
    peers: Vec<SocketAddr>,
    anyone: bool,
    turn: usize,
    /// Of which nodes a peer's last deltas were Fenced.
    fenced: BTreeMap<SocketAddr, BTreeSet<u64>>,
}

/// Milliseconds, as the tables' clock. Tables are stored, so it is one that goes on over a restart.
fn clock() -> u64 {
    SystemTime::now().duration_since(UNIX_EPOCH).map_or(0, |since| since.as_millis() as u64)
}

/// A hub goes on when nobody reads what it says.
fn print(text: impl std::fmt::Display) {
    let _ = writeln!(io::stdout(), "{text}");
}

fn complain(text: impl std::fmt::Display) {
    let _ = writeln!(io::stderr(), "hub: {text}");
}

impl Hub {
    fn own_max(&self) -> Outcome<u64> {
        Ok(self.table.node_state(self.own)?.max_version())
    }

    /// Whether it lost its disk, and has not yet heard again all that it let out.
    fn forgot(&self) -> Outcome<bool> {
        Ok(self.own_max()? < self.least)
    }

    /// Stores the table, with a heartbeat that is ahead. A full disk is no end: it is tried again after a while.
    fn keep(&mut self) -> Outcome<()> {
        if !self.care.stores {
            return Ok(());
        }
        let beat = self.table.node_state(self.own)?.heartbeat().saturating_add(AHEAD);
        let mut table = (*self.table).clone();
        table.try_set_heartbeat(self.own, beat)?;
        self.again = Instant::now() + PAUSE;
        match self.disk.store(&Stored { table, least: self.least }) {
            Ok(()) => {
                (self.stored_max, self.stored_beat, self.changed) = (self.own_max()?, beat, false);
                if self.full {
                    complain(format_args!("{}: stored again, sending goes on", self.file.display()));
                }
                self.full = false;
            }
            Err(error) => {
                if !self.full {
                    complain(format_args!("{}: {error}: no delta is sent until it can be stored", self.file.display()));
                }
                (self.full, self.changed) = (true, true);
            }
        }
        Ok(())
    }

    /// A datagram that cannot be sent is a datagram that was lost.
    fn send(&self, to: SocketAddr, kind: u8, bytes: &[u8]) {
        let _ = self.socket.send_to(&[&[kind], bytes].concat(), to);
    }

    /// A beat, a removal, what is to be stored, and a digest to the next peer.
    fn tick(&mut self) -> Outcome<()> {
        let beat = self.table.node_state(self.own)?.heartbeat();
        if beat < self.stored_beat || !self.care.stores {
            // 2^64 - 1 is not reached in any hub's life.
            let _ = self.table.inc_heartbeat(self.own);
        }
        self.changed |= beat.saturating_add(AHEAD / 2) >= self.stored_beat;
        if self.care.removes {
            self.table.gc_keys_marked_for_deletion(clock(), self.grace)?;
        }
        if self.changed && Instant::now() >= self.again {
            self.keep()?;
        }
        if !self.peers.is_empty() {
            self.turn = (self.turn + 1) % self.peers.len();
            self.tell(self.peers[self.turn], ASKING)?;
        }
        Ok(())
    }

    /// A digest to a peer. Of a node whose last delta from it was Fenced it says once that all is known; the next one is honest again.
    fn tell(&mut self, to: SocketAddr, kind: u8) -> Outcome<()> {
        let mut digest = [0; kevdarosh::DIGEST];
        let bytes = self.table.compute_digest(Edition::V0, &[], &mut digest)?;
        let fenced = self.fenced.remove(&to).unwrap_or_default();
        for (i, node) in self.table.nodes()?.enumerate().filter(|(_, node)| fenced.contains(node)) {
            debug_assert_eq!(digest[COUNT + i * ENTRY..][..8], node.to_le_bytes());
            digest[COUNT + i * ENTRY + MAX_AT..][..8].copy_from_slice(&u64::MAX.to_le_bytes());
        }
        self.send(to, kind, &digest[..bytes]);
        Ok(())
    }

    /// Whatever comes in: bytes from anywhere. What is no digest or delta is refused and changes nothing.
    fn receive(&mut self, from: SocketAddr, datagram: &[u8]) -> Outcome<()> {
        if !self.anyone && !self.peers.contains(&from) {
            return Ok(());
        }
        match datagram {
            [kind @ (ASKING | TELLING), digest @ ..] => self.heard_digest(from, *kind, digest),
            [DELTA, delta @ ..] => self.heard_delta(from, delta),
            _ => Ok(()),
        }
    }

    fn heard_digest(&mut self, from: SocketAddr, kind: u8, digest: &[u8]) -> Outcome<()> {
        let Ok(told) = Digest::read(Edition::V0, digest) else { return Ok(()) };
        let forgot = self.forgot()?;
        for node in told.nodes().filter(|node| node.node != self.own || forgot) {
            // A node that the table has not is refused, and nothing more.
            let _ = self.table.try_set_heartbeat(node.node, node.heartbeat);
        }
        if kind == ASKING {
            self.tell(from, TELLING)?;
        }
        // A delta only while every version of the own node is on the disk.
        if self.care.stores && self.own_max()? != self.stored_max {
            return Ok(());
        }
        // A tie for each node; the clock's low bits shuffle them well enough here.
        let now = clock();
        let ties: [u64; NODES] = std::array::from_fn(|i| (now >> i) & 7);
        let count = self.table.nodes()?.count();
        let mut delta = [0; MTU - 1];
        let sent = self.table.compute_partial_delta_respecting_mtu(Edition::V0, digest, MTU - 1, &[], &ties[..count], &mut delta);
        match sent {
            Ok(sent) if sent.ops > 0 => self.send(from, DELTA, &delta[..sent.bytes]),
            _ => {}
        }
        Ok(())
    }

    fn heard_delta(&mut self, from: SocketAddr, delta: &[u8]) -> Outcome<()> {
        let nodes = self.named(delta)?;
        // The own node is written here alone, but where it was forgotten: whatever a datagram says of it, it stays as it is, and the other nodes of the delta are taken.
        let own = [self.own];
        let own = if self.forgot()? { &own[..0] } else { &own[..] };
        let Ok(answers) = self.table.apply_leaving(own, delta, clock()) else { return Ok(()) };
        self.changed |= answers.changed();
        if self.peers.contains(&from) {
            let fenced = nodes.iter().zip(answers.iter()).filter(|(_, answer)| *answer == Answer::Fenced);
            self.fenced.entry(from).or_default().extend(fenced.map(|(node, _)| node));
        }
        if own.is_empty() && nodes.contains(&self.own) && !self.forgot()? {
            complain(format_args!("node {} has heard version {} again, and may be written", self.own, self.least));
        }
        Ok(())
    }

    /// The nodes that a delta names, in its order; none where it is refused.
    fn named(&self, delta: &[u8]) -> Outcome<Vec<u64>> {
        Ok(delta_nodes(delta).map_or(vec![], |nodes| nodes.as_slice().to_vec()))
    }

    /// One line of standard input, of any bytes: whether to go on.
    fn line(&mut self, line: &[u8]) -> Outcome<bool> {
        let line = line.trim_ascii();
        let (word, rest) = line.split_at(line.iter().position(u8::is_ascii_whitespace).unwrap_or(line.len()));
        let rest = rest.trim_ascii();
        let (key, value) = rest.split_at(rest.iter().position(u8::is_ascii_whitespace).unwrap_or(rest.len()));
        let forgot = self.forgot()?;
        let answer = match (word, key, value.trim_ascii()) {
            (b"set" | b"delete", [_, ..], _) if forgot => {
                print(format_args!("not yet: node {} is at version {} and let out {}", self.own, self.own_max()?, self.least));
                return Ok(true);
            }
            (b"set", [_, ..], value) => self.table.write(self.own, key, value, Wanted::Set),
            (b"delete", [_, ..], b"") => self.table.delete(self.own, key, clock()),
            (b"show", b"", _) => return self.show().map(|()| true),
            (b"quit", b"", _) => return Ok(false),
            _ => {
                print("? set KEY VALUE, delete KEY, show or quit");
                return Ok(true);
            }
        };
        match answer {
            Ok(()) => {
                if self.own_max()? != self.stored_max {
                    self.keep()?;
                }
                let kept = if self.full { ", not stored yet" } else { "" };
                print(format_args!("done version {}{kept}", self.own_max()?));
            }
            Err(refusal) => print(format_args!("refused {}: {refusal}", refusal.number())),
        }
        Ok(true)
    }

    fn show(&self) -> Outcome<()> {
        let mut text = String::new();
        for number in self.table.nodes()? {
            let node = self.table.node_state(number)?;
            text += &format!("node {number} max {} gc {} beat {}\n", node.max_version(), node.last_gc_version(), node.heartbeat());
            for record in node.key_values_including_deleted().filter(|record| !record.is_hidden()) {
                text += &format!("{number} {}={}@{}\n", record.key.escape_ascii(), record.value.escape_ascii(), record.version);
            }
        }
        print(format_args!("{text}end"));
        Ok(())
    }

    fn run(&mut self, lines: &Receiver<Vec<u8>>) -> Outcome<()> {
        let mut datagram = [0; 2_000];
        let mut next = Instant::now();
        loop {
            match lines.try_recv() {
                Ok(line) if !self.line(&line)? => return Ok(()),
                Ok(_) => continue,
                Err(TryRecvError::Empty) => {}
                Err(TryRecvError::Disconnected) => return Ok(()),
            }
            if Instant::now() >= next {
                // A hub that was stopped for an hour does not make up for an hour's ticks.
                next = Instant::now() + TICK;
                self.tick()?;
            }
            match self.socket.recv_from(&mut datagram) {
                Ok((bytes, from)) => self.receive(from, &datagram[..bytes])?,
                // Nothing came, or a signal did.
                Err(error) if matches!(error.kind(), ErrorKind::WouldBlock | ErrorKind::TimedOut | ErrorKind::Interrupted | ErrorKind::ConnectionRefused) => {}
                // The network is down: it may come again.
                Err(error) => {
                    complain(error);
                    std::thread::sleep(PAUSE);
                }
            }
        }
    }
}

/// What to do where there is no table to go on with. Nothing is done in silence.
fn ways_out(trouble: &Trouble, own: u64, file: &str) -> String {
    let mut text = format!("{file}: {trouble}.");
    if matches!(trouble, Trouble::Missing | Trouble::Damaged(_) | Trouble::Refused(_)) {
        text += &format!(
            " It is not made anew by itself: with a new table the owner of node {own} would give versions twice, and no mode heals that. Ways out:
  - The hub never ran before: start it with --new.
  - The file is elsewhere, or the last one that was stored is on a copy of the disk: put it here. An older copy will not do.
  - The disk is lost, and it is known up to which version node {own} was let out: move what is left away and start with --forgot VERSION. The hub hears its peers, and writes when it has heard that version.
  - Otherwise: give the node a new number, with a new file, and remove node {own} everywhere."
        );
    }
    text
}

#[derive(Default)]
struct Start {
    new: bool,
    forgot: Option<u64>,
    anyone: bool,
}

const USAGE: &str = "usage: hub [--new | --forgot VERSION] [--anyone] OWN NODES FILE GRACE ADDRESS PEER..";

fn start(care: Care, mut words: Vec<String>) -> Outcome<()> {
    let mut how = Start::default();
    while words.first().is_some_and(|word| word.starts_with("--")) {
        match words.remove(0).as_str() {
            "--new" => how.new = true,
            "--anyone" => how.anyone = true,
            "--forgot" if !words.is_empty() => how.forgot = Some(words.remove(0).parse()?),
            _ => return Err(USAGE.into()),
        }
    }
    let [own, nodes, file, grace, address, peers @ ..] = &words[..] else { return Err(USAGE.into()) };
    let (own, grace, address) = (own.parse()?, grace.parse()?, address.parse::<SocketAddr>()?);
    let nodes: Vec<u64> = nodes.split(',').map(str::parse).collect::<Result<_, _>>()?;
    let peers = peers.iter().map(|peer| peer.parse()).collect::<Result<_, _>>()?;

    let disk = Disk::take(file.as_ref(), own).map_err(|trouble| ways_out(&trouble, own, file))?;
    let first = || -> Outcome<Stored> {
        let mut table = OwnedTable::new(care.mode);
        table.add_node(own)?;
        Ok(Stored { table, least: how.forgot.unwrap_or(0) })
    };
    if how.new || how.forgot.is_some() {
        disk.begin(&first()?).map_err(|trouble| ways_out(&trouble, own, file))?;
    }
    let stored = if care.loads { disk.load(care.mode).map_err(|trouble| ways_out(&trouble, own, file))? } else { first()? };

    let socket = UdpSocket::bind(address)?;
    socket.set_read_timeout(Some(Duration::from_millis(5)))?;
    let node = stored.table.node_state(own)?;
    let (stored_max, stored_beat) = (node.max_version(), node.heartbeat());
    let mut hub = Hub {
        care,
        own,
        least: stored.least,
        table: Box::new(stored.table),
        disk,
        file: file.into(),
        stored_max,
        stored_beat,
        changed: false,
        again: Instant::now(),
        full: false,
        grace,
        peers,
        anyone: how.anyone,
        turn: 0,
        fenced: BTreeMap::new(),
        socket,
    };
    for node in nodes {
        hub.table.add_node(node)?;
    }
    print(format_args!("hub {own} at {}", hub.socket.local_addr()?));
    if hub.forgot()? {
        complain(format_args!("node {own} is at version {stored_max} and let out {}: it is not written until that is heard", hub.least));
    }
    hub.keep()?;
    let (sender, lines) = channel();
    std::thread::spawn(move || io::stdin().lock().split(b'\n').map_while(Result::ok).try_for_each(|line| sender.send(line)));
    hub.run(&lines)?;
    // What it follows, too. A hub that leaves this out loses nothing but time.
    hub.keep()
}

pub fn main(care: Care, words: Vec<String>) -> ExitCode {
    match start(care, words) {
        Ok(()) => ExitCode::SUCCESS,
        Err(error) => {
            complain(error);
            ExitCode::FAILURE
        }
    }
}
