//! One hub (examples/hub.rs) and what happens to it in years: a signal, a full disk, odd lines, datagrams from anywhere, files that are missing, damaged, another's or taken. The peer is a socket of
//! the test.

mod common;

use std::net::UdpSocket;
use std::time::{Duration, Instant};

use common::{Folder, Hub, ended};
use kevdarosh::{DIGEST, Digest, Edition, Mode, OwnedTable, TABLE_LISTING, TableView, make_delta};

const SOON: Duration = Duration::from_secs(10);
const ASKING: u8 = 0;
const DELTA: u8 = 1;
const TELLING: u8 = 2;

/// A peer that follows nodes 1 and 2.
struct Peer {
    socket: UdpSocket,
    table: OwnedTable,
}

impl Peer {
    fn new() -> Peer {
        let socket = UdpSocket::bind("127.0.0.1:0").unwrap();
        socket.set_read_timeout(Some(Duration::from_millis(20))).unwrap();
        let mut table = OwnedTable::new(Mode::Guarded);
        [1, 2].iter().for_each(|node| table.add_node(*node).unwrap());
        Peer { socket, table }
    }

    fn address(&self) -> String {
        self.socket.local_addr().unwrap().to_string()
    }

    fn send(&self, hub: &Hub, kind: u8, bytes: &[u8]) {
        self.socket.send_to(&[&[kind], bytes].concat(), hub.address).unwrap();
    }

    fn digest(&self) -> Vec<u8> {
        let mut digest = [0; DIGEST];
        let bytes = self.table.compute_digest(Edition::V0, &[], &mut digest).unwrap();
        digest[..bytes].to_vec()
    }

    /// Tells its digest and listens for a while: the kinds of what came. Deltas are applied.
    fn listen(&mut self, hub: &Hub, kind: u8, time: Duration) -> Vec<u8> {
        let begun = Instant::now();
        let (mut kinds, mut buffer) = (vec![], [0; 2_000]);
        while begun.elapsed() < time {
            self.send(hub, kind, &self.digest());
            let Ok((bytes, _)) = self.socket.recv_from(&mut buffer) else { continue };
            if buffer[0] == DELTA {
                self.table.apply_delta(&buffer[1..bytes], 0).unwrap();
            } else {
                Digest::read(Edition::V0, &buffer[1..bytes]).unwrap();
            }
            kinds.push(buffer[0]);
        }
        kinds
    }

    /// Until it has heard so much of node 1.
    fn hears(&mut self, hub: &Hub, max: u64) {
        let begun = Instant::now();
        while self.table.node_state(1).unwrap().max_version() < max {
            assert!(begun.elapsed() < SOON, "version {max} is not heard");
            self.listen(hub, TELLING, Duration::from_millis(30));
        }
    }
}

fn delta(lines: &str, ops: usize, bytes: usize) -> Vec<u8> {
    let mut delta = [0; 1_399];
    let text = format!("{lines}end=ok ops={ops} bytes={bytes}\n");
    let bytes = make_delta(text.as_bytes(), &mut delta).unwrap_or_else(|why| panic!("{why}: {text}"));
    delta[..bytes].to_vec()
}

#[test]
fn both_directions_and_strangers() {
    let (folder, mut peer, mut stranger) = (Folder::new("strangers"), Peer::new(), Peer::new());
    let file = folder.file("hub");
    let mut hub = Hub::start("hub", &["--new", "1", "1,2", &file, "60000", "127.0.0.1:0", &peer.address()]);
    hub.done("set total 41");
    // A digest that asks is answered with a digest and a delta; one in answer with a delta alone, or nothing. The hub asks by itself.
    let kinds = peer.listen(&hub, ASKING, Duration::from_millis(300));
    for kind in [ASKING, DELTA, TELLING] {
        assert!(kinds.contains(&kind), "{kinds:?}");
    }
    assert_eq!(peer.table.get(1, b"total").unwrap(), Some(&b"41"[..]));
    assert_eq!(stranger.listen(&hub, ASKING, Duration::from_millis(200)), []);

    // One node of a follower, from a stranger and from a peer.
    let news = delta("op=node id=2 gc=0 from=0\nop=kv version=1 status=set key=flow value=11\n", 2, 45);
    stranger.send(&hub, DELTA, &news);
    std::thread::sleep(Duration::from_millis(100));
    assert_eq!(hub.show().node(2).max, 0);
    peer.send(&hub, DELTA, &news);
    hub.shows(SOON, "the peer is heard", |shown| shown.reads("2 flow=11@1"));

    // A forged delta of the owner's own node and of another, and what is no datagram at all: the own node is left alone, and the other is taken.
    let text = "op=node id=1 gc=0 from=1\nop=kv version=18446744073709551615 status=set key=total value=0\nop=node id=2 gc=0 from=1\nop=kv version=2 status=set key=flow value=12\n";
    let forged = delta(text, 4, 90);
    for bytes in [&forged[..], &forged[..20], &[]] {
        peer.send(&hub, DELTA, bytes);
        peer.send(&hub, 77, bytes);
    }
    peer.send(&hub, ASKING, &[9, 9]);
    peer.socket.send_to(&[], hub.address).unwrap();
    std::thread::sleep(Duration::from_millis(100));
    assert!(hub.show().reads("1 total=41@1") && hub.show().reads("2 flow=12@2"));
    assert_eq!(hub.done("set total 42"), 2);
    hub.quit();

    // Told so, it hears anyone, at the address that it is told.
    let free = UdpSocket::bind("127.0.0.1:0").unwrap().local_addr().unwrap().to_string();
    let mut hub = Hub::start("hub", &["--anyone", "1", "1,2", &file, "60000", &free, &peer.address()]);
    assert_eq!(hub.address.to_string(), free);
    assert!(hub.show().reads("2 flow=12@2"), "what it followed was stored");
    stranger.hears(&hub, 2);
    hub.quit();
}

#[test]
fn signals_and_odd_lines() {
    let (folder, mut peer) = (Folder::new("signals"), Peer::new());
    let mut hub = Hub::start("hub", &["--new", "1", "1,2", &folder.file("hub"), "60000", "127.0.0.1:0", &peer.address()]);
    for _ in 0..3 {
        hub.signal("-STOP");
        std::thread::sleep(Duration::from_millis(50));
        hub.signal("-CONT");
        std::thread::sleep(Duration::from_millis(50));
    }
    assert_eq!(hub.said(), "", "a signal is nothing to speak of");
    hub.done("set total 41");
    for line in [&b""[..], b" ", b"\xff\xfe", b"set", b"set total", b"delete", b"delete a b", b"show me", &[b'x'; 5_000]] {
        let answer = hub.ask(line);
        assert!(answer.starts_with('?') || line == b"set total" && answer.starts_with("done"), "{answer}");
    }
    // Keys and values are bytes; a value may have spaces.
    assert_eq!(hub.ask(b"set caf\xe9 \xfe two words "), "done version 3");
    assert!(hub.show().reads("1 caf\\xe9=\\xfe two words@3"));
    assert!(hub.ask(&[&b"set "[..], &[b'k'; 33], b" v"].concat()).starts_with("refused 1:"));
    assert!(hub.ask(b"delete nothing").starts_with("refused 3:"));
    peer.hears(&hub, 3);
    hub.quit();
}

/// The temporary file is a link to a device that is always full.
#[test]
fn a_full_disk() {
    let (folder, mut peer) = (Folder::new("full"), Peer::new());
    let file = folder.file("hub");
    let mut hub = Hub::start("hub", &["--new", "1", "1,2", &file, "60000", "127.0.0.1:0", &peer.address()]);
    hub.done("set total 41");
    peer.hears(&hub, 1);
    let stored = std::fs::read(&file).unwrap();
    std::os::unix::fs::symlink("/dev/full", folder.file("hub.kev-new")).unwrap();
    assert_eq!(hub.ask(b"set total 42"), "done version 2, not stored yet");
    hub.says("No space left on device");
    hub.says("no delta is sent until it can be stored");
    let kinds = peer.listen(&hub, ASKING, Duration::from_millis(1_500));
    assert!(!kinds.contains(&DELTA) && kinds.contains(&ASKING), "{kinds:?}");
    assert_eq!(std::fs::read(&file).unwrap(), stored);
    std::fs::remove_file(folder.file("hub.kev-new")).unwrap();
    hub.says("stored again, sending goes on");
    peer.hears(&hub, 2);
    assert_eq!(hub.said().lines().count(), 2, "each is said once: {}", hub.said());
    hub.quit();
}

#[test]
fn files() {
    let (folder, peer) = (Folder::new("files"), Peer::new());
    let address = peer.address();
    let words = |own: &'static str, file: &str, first: &[&str]| -> Vec<String> {
        first.iter().copied().chain([own, "1,2", file, "60000", "127.0.0.1:0", &address]).map(String::from).collect()
    };
    let start = |words: &[String]| Hub::start("hub", &words.iter().map(String::as_str).collect::<Vec<_>>());
    let refused = |words: &[String], why: &str| {
        let output = ended("hub", &words.iter().map(String::as_str).collect::<Vec<_>>());
        let said = String::from_utf8(output.stderr).unwrap();
        assert!(!output.status.success() && said.contains(why), "{why:?} is wanted: {said}");
        said
    };
    // Files of one folder: names that differ in what would be an extension, and one that is another's with a suffix.
    let (one, two, new) = (folder.file("hub.1"), folder.file("hub.2"), folder.file("hub.1.new"));
    let mut hubs = [start(&words("1", &one, &["--new"])), start(&words("2", &two, &["--new"])), start(&words("1", &new, &["--new"]))];
    for (hub, value) in hubs.iter_mut().zip(["a", "b", "c"]) {
        hub.done(&format!("set name {value}"));
    }
    // A file that a hub has is taken, by whatever name.
    std::os::unix::fs::symlink(&one, folder.file("link")).unwrap();
    refused(&words("1", &one, &[]), "another hub has it");
    refused(&words("1", &folder.file("link"), &[]), "another hub has it");
    hubs.into_iter().for_each(Hub::quit);
    for (own, file, value) in [("1", &one, "1 name=a"), ("2", &two, "2 name=b"), ("1", &new, "1 name=c")] {
        let mut hub = start(&words(own, file, &[]));
        assert!(hub.show().reads(value));
        hub.quit();
    }
    refused(&words("1", &folder.file("hub.kev-new"), &["--new"]), "a temporary file's");
    assert!(!refused(&words("1", &folder.file("no folder/hub"), &["--new"]), "No such file or directory").contains("Ways out"));

    // Another's table, another mode, a new table where there is one.
    refused(&words("2", &one, &[]), "it is the table of the owner of node 1");
    refused(&words("1", &one, &["--new"]), "which is not overwritten");
    refused(&words("1", &one, &["--forgot", "9"]), "which is not overwritten");
    let plain = ended("wrong_hub", &["plain", "1", "1", &one, "60000", "127.0.0.1:0"]);
    assert!(String::from_utf8(plain.stderr).unwrap().contains("its mode is Guarded"));

    // A file that is not there, or not whole, or not what was stored, stays as it is; the ways out are named.
    let missing = folder.file("missing");
    let said = refused(&words("1", &missing, &[]), "there is no such file");
    for way in ["--new", "--forgot", "a new number", "An older copy will not do"] {
        assert!(said.contains(way), "{said}");
    }
    assert!(!std::fs::exists(&missing).unwrap());
    let good = std::fs::read(&one).unwrap();
    let mut bad: Vec<Vec<u8>> = vec![vec![], vec![0; 30_004], vec![0; 29_964], good[..good.len() - 1].to_vec(), [&good[..], &[0]].concat(), good[40..].to_vec()];
    // One bit in each part of the file.
    for at in [0, 8, 16, 24, 32, 40, 41, 60, 100, 5_000, good.len() - 1] {
        let mut flipped = good.clone();
        flipped[at] ^= 1 << (at % 8);
        bad.push(flipped);
    }
    for bytes in bad {
        std::fs::write(&one, &bytes).unwrap();
        assert!(refused(&words("1", &one, &[]), "the file is damaged").contains("Ways out"));
        assert_eq!(std::fs::read(&one).unwrap(), bytes);
    }
}

/// An owner whose disk is lost hears its peers, and writes when it has heard all that it let out; a restart between does not forget that.
#[test]
fn an_owner_that_forgot() {
    let (folder, mut peer) = (Folder::new("forgot"), Peer::new());
    let (file, address) = (folder.file("hub"), peer.address());
    let words = ["1", "1,2", &file, "60000", "127.0.0.1:0", &address];
    let mut hub = Hub::start("hub", &[&["--new"], &words[..]].concat());
    hub.done("set total 41");
    hub.done("set tariff night");
    peer.hears(&hub, 2);
    drop(hub);
    std::fs::remove_file(&file).unwrap();

    let hub = Hub::start("hub", &[&["--forgot", "2"], &words[..]].concat());
    hub.says("it is not written until that is heard");
    drop(hub);
    let mut hub = Hub::start("hub", &words);
    assert_eq!(hub.ask(b"set total 42"), "not yet: node 1 is at version 0 and let out 2");
    let mut told = OwnedTable::new(Mode::Guarded);
    [1, 2].iter().for_each(|node| told.add_node(*node).unwrap());
    let (mut digest, mut delta) = ([0; DIGEST], [0; 1_399]);
    let bytes = told.compute_digest(Edition::V0, &[], &mut digest).unwrap();
    let sent = peer.table.compute_partial_delta_respecting_mtu(Edition::V0, &digest[..bytes], 1_399, &[], &[0, 0], &mut delta).unwrap();
    peer.send(&hub, DELTA, &delta[..sent.bytes]);
    hub.says("may be written");
    assert_eq!(hub.done("set total 42"), 3);
    peer.hears(&hub, 3);
    hub.quit();
}

/// examples/disk.rs keeps to the same.
#[test]
fn a_disk() {
    let folder = Folder::new("disk");
    let file = folder.file("x.new");
    let said = |words: &[&str]| {
        let output = ended("disk", words);
        (output.status.success(), String::from_utf8([output.stdout, output.stderr].concat()).unwrap())
    };
    let (done, text) = said(&[&file]);
    assert!(!done && text.contains("begin it with --new") && !std::fs::exists(&file).unwrap(), "{text}");
    for (words, starts) in [(&["--new", &file][..], 1), (&[&file], 2), (&[&file], 3)] {
        assert_eq!(said(words), (true, format!("{file}: {starts} starts, version {starts}\n")));
    }
    assert!(!said(&["--new", &file]).0);
    let mut bytes = std::fs::read(&file).unwrap();
    bytes[29_000] ^= 1;
    std::fs::write(&file, &bytes).unwrap();
    let (done, text) = said(&[&file]);
    assert!(!done && text.contains("its checksum is another. It stays as it is"), "{text}");
    assert_eq!(std::fs::read(&file).unwrap(), bytes);
}

/// `tools/showtable` knows a stored file by its first eight bytes, and lists what stands behind the first 40.
#[test]
fn the_stored_table_can_be_listed() {
    let (folder, peer) = (Folder::new("listed"), Peer::new());
    let file = folder.file("hub");
    let mut hub = Hub::start("hub", &["--new", "1", "1,2", &file, "60000", "127.0.0.1:0", &peer.address()]);
    hub.done("set total 41");
    hub.quit();
    let bytes = std::fs::read(&file).unwrap();
    assert!(bytes.starts_with(b"kevhub 1"));
    let mut text = vec![0; TABLE_LISTING];
    let listed = TableView::over(&bytes[40..]).listing(&mut text).unwrap();
    let text = std::str::from_utf8(&text[..listed]).unwrap();
    assert!(text.starts_with("mode=guarded profile=free\nnode=1 ") && text.contains("\nkey=total value=41 version=1 status=set start=0\nnode=2 "), "{text}");
    assert!(text.ends_with("\nend=ok nodes=2 records=1 removed=0\n"), "{text}");
}
