//! Three hubs (examples/hub.rs) through a relay that loses, doubles and delays datagrams by a seed, and opens and shuts the ways between them. A reading is deleted and comes around the corner; the
//! owner is killed when others have heard what it wrote; another is switched off over a deletion. It ends when all tables agree, and fails if a deleted reading is seen again, if a tombstone stays,
//! or if an owner is behind what it sent. HUBS_SEED chooses the seed.
//!
//! How it was tried: the same story is told with four hubs that leave out one of their cares (examples/wrong_hub.rs), and each must fail at the sentence that its test names.

mod common;

use std::net::{SocketAddr, UdpSocket};
use std::sync::atomic::{AtomicBool, Ordering};
use std::sync::{Arc, Mutex};
use std::time::{Duration, Instant};

use common::{Folder, Hub, Shown};
use kevdarosh::{Digest, Edition};

const HUBS: usize = 3;
const MOST: Duration = Duration::from_secs(60);
const MOST_DATAGRAMS: u64 = 200_000;
/// Of a hundred datagrams on a bad way so many are lost, so many come twice; each comes up to so many milliseconds late.
const LOST: u64 = 25;
const DOUBLED: u64 = 15;
const LATE: u64 = 120;
const GRACE: &str = "400";
/// A removal that has not come then does not come.
const REMOVED: Duration = Duration::from_secs(8);
/// The kind of a datagram that is a delta; the others are digests.
const DELTA: u8 = 1;

/// splitmix64
struct Chance(u64);

impl Chance {
    fn below(&mut self, bound: u64) -> u64 {
        self.0 = self.0.wrapping_add(0x9E37_79B9_7F4A_7C15);
        let mut z = self.0;
        z = (z ^ (z >> 30)).wrapping_mul(0xBF58_476D_1CE4_E5B9);
        z = (z ^ (z >> 27)).wrapping_mul(0x94D0_49BB_1331_11EB);
        (z ^ (z >> 31)) % bound
    }
}

/// The way from one hub to another: which datagrams pass.
#[derive(Clone, Copy)]
struct Way {
    digests: bool,
    /// So many deltas yet.
    deltas: u64,
    bad: bool,
}

const SHUT: Way = Way { digests: false, deltas: 0, bad: false };
const BAD: Way = Way { digests: true, deltas: u64::MAX, bad: true };

/// What stands between the hubs.
struct World {
    hubs: [Option<SocketAddr>; HUBS],
    /// From, to.
    ways: [[Way; HUBS]; HUBS],
    passed: [[u64; HUBS]; HUBS],
    /// What hub 3 told hub 2 of node 1's max, digest by digest.
    told: Vec<u64>,
    came: u64,
    lost: u64,
    doubled: u64,
}

/// A socket stands for each hub: what comes to it goes to that hub, from the socket of the hub that sent it.
fn relay(sockets: &[UdpSocket], world: &Mutex<World>, seed: u64, stop: &AtomicBool) {
    let mut chance = Chance(seed);
    let mut waiting: Vec<(Instant, usize, usize, Vec<u8>)> = Vec::new();
    let mut buffer = [0; 2_000];
    while !stop.load(Ordering::Relaxed) {
        let mut idle = true;
        let mut world = world.lock().unwrap();
        for (to, socket) in sockets.iter().enumerate() {
            let Ok((bytes, from)) = socket.recv_from(&mut buffer) else { continue };
            idle = false;
            let Some(from) = world.hubs.iter().position(|hub| *hub == Some(from)) else { continue };
            world.came += 1;
            let mut copies = 1;
            let mut late = 0;
            if world.ways[from][to].bad {
                if chance.below(100) < LOST {
                    world.lost += 1;
                    continue;
                }
                copies += usize::from(chance.below(100) < DOUBLED);
                late = LATE;
            }
            world.doubled += copies as u64 - 1;
            for _ in 0..copies {
                let at = Instant::now() + Duration::from_millis(chance.below(late + 1));
                waiting.push((at, from, to, buffer[..bytes].to_vec()));
            }
        }
        let now = Instant::now();
        waiting.retain(|(at, from, to, datagram)| {
            if *at > now {
                return true;
            }
            let way = &mut world.ways[*from][*to];
            let passes = if datagram[0] == DELTA { way.deltas > 0 } else { way.digests };
            if passes && datagram[0] == DELTA {
                way.deltas -= u64::from(way.deltas < u64::MAX);
                world.passed[*from][*to] += 1;
            }
            if passes && datagram[0] != DELTA && (*from, *to) == (2, 1) {
                let digest = Digest::read(Edition::V0, &datagram[1..]).unwrap();
                world.told.extend(digest.nodes().filter(|node| node.node == 1).map(|node| node.max_version));
            }
            if let (true, Some(hub)) = (passes, world.hubs[*to]) {
                let _ = sockets[*from].send_to(datagram, hub);
            }
            false
        });
        drop(world);
        if idle {
            std::thread::sleep(Duration::from_millis(1));
        }
    }
}

/// Readings of hub 1 that were deleted, with the version of the deletion. A hub that has heard of that version must not show the reading.
fn look(dead: &[(&str, u64)], hub: usize, shown: &Shown) {
    for (key, version) in dead {
        if shown.node(1).max >= *version {
            let back = shown.readings.iter().find(|line| line.starts_with(&format!("1 {key}=")));
            assert!(back.is_none(), "hub {hub} has heard of version {version} and shows {back:?}");
        }
    }
}

struct Net {
    program: &'static str,
    care: Option<&'static str>,
    folder: Folder,
    gates: Vec<SocketAddr>,
    world: Arc<Mutex<World>>,
    stop: Arc<AtomicBool>,
    thread: Option<std::thread::JoinHandle<()>>,
    begun: Instant,
    dead: Vec<(&'static str, u64)>,
}

impl Net {
    fn new(without: Option<&'static str>) -> Net {
        let seed: u64 = std::env::var("HUBS_SEED").ok().and_then(|seed| seed.parse().ok()).unwrap_or_else(|| {
            std::time::SystemTime::now().duration_since(std::time::UNIX_EPOCH).unwrap().as_nanos() as u64 % 1_000_000
        });
        println!("seed {seed}: of 100 datagrams {LOST} are lost, {DOUBLED} doubled, each up to {LATE} ms late");
        let sockets: Vec<UdpSocket> = (0..HUBS).map(|_| UdpSocket::bind("127.0.0.1:0").unwrap()).collect();
        sockets.iter().for_each(|socket| socket.set_nonblocking(true).unwrap());
        let gates = sockets.iter().map(|socket| socket.local_addr().unwrap()).collect();
        let world = World { hubs: [None; HUBS], ways: [[BAD; HUBS]; HUBS], passed: [[0; HUBS]; HUBS], told: vec![], came: 0, lost: 0, doubled: 0 };
        let (world, stop) = (Arc::new(Mutex::new(world)), Arc::new(AtomicBool::new(false)));
        let thread = {
            let (world, stop) = (world.clone(), stop.clone());
            std::thread::spawn(move || relay(&sockets, &world, seed, &stop))
        };
        let program = if without.is_some() { "wrong_hub" } else { "hub" };
        let folder = Folder::new(&format!("hubs-{}", without.unwrap_or("right")));
        Net { program, care: without, folder, gates, world, stop, thread: Some(thread), begun: Instant::now(), dead: vec![] }
    }

    /// Hub 1, 2 or 3 is started, for the first time or from its file.
    fn start(&self, own: usize, first: bool) -> Hub {
        let file = self.folder.file(&format!("hub.{own}"));
        let own_word = own.to_string();
        let mut words: Vec<&str> = self.care.iter().copied().chain(first.then_some("--new")).collect();
        words.extend([&own_word, "1,2,3", &file, GRACE, "127.0.0.1:0"]);
        let peers: Vec<String> = (1..=HUBS).filter(|hub| *hub != own).map(|hub| self.gates[hub - 1].to_string()).collect();
        words.extend(peers.iter().map(String::as_str));
        let hub = Hub::start(self.program, &words);
        self.world.lock().unwrap().hubs[own - 1] = Some(hub.address);
        hub
    }

    /// All ways are so.
    fn all(&self, way: Way) {
        self.world.lock().unwrap().ways = [[way; HUBS]; HUBS];
        // What is on its way comes to a shut gate.
        std::thread::sleep(Duration::from_millis(if way.digests { 0 } else { LATE + 50 }));
    }

    /// One hub hears another so often: digests go there, and so many deltas come back.
    fn hears(&self, hub: usize, from: usize, deltas: u64) {
        let before = {
            let mut world = self.world.lock().unwrap();
            world.ways[hub - 1][from - 1] = Way { digests: true, ..SHUT };
            world.ways[from - 1][hub - 1] = Way { deltas, ..SHUT };
            world.passed[from - 1][hub - 1]
        };
        let begun = Instant::now();
        while self.world.lock().unwrap().passed[from - 1][hub - 1] < before + deltas {
            assert!(begun.elapsed() < MOST, "hub {from} has nothing for hub {hub}");
            std::thread::sleep(Duration::from_millis(1));
        }
        // It applies the delta before it reads another line.
        std::thread::sleep(Duration::from_millis(100));
    }

    /// What hub 3 told hub 2 of node 1's max, until a digest followed one that said that all is known, or for some seconds.
    fn told(&self) -> Vec<u64> {
        let begun = Instant::now();
        loop {
            let told = self.world.lock().unwrap().told.clone();
            if told.iter().rev().skip(1).any(|max| *max == u64::MAX) || begun.elapsed() > Duration::from_secs(3) {
                return told;
            }
            std::thread::sleep(Duration::from_millis(5));
        }
    }

    /// Until all hubs show the same, which has what is wanted.
    fn agree(&self, hubs: &mut [Hub], wanted: impl Fn(&Shown) -> bool) -> Shown {
        loop {
            let shown: Vec<Shown> = hubs.iter_mut().map(Hub::show).collect();
            for (hub, shown) in shown.iter().enumerate() {
                look(&self.dead, hub + 1, shown);
            }
            let came = self.world.lock().unwrap().came;
            if shown.iter().all(|other| other.agrees(&shown[0])) && wanted(&shown[0]) {
                println!("all agree after {came} datagrams");
                return shown[0].clone();
            }
            assert!(self.begun.elapsed() < MOST, "no agreement after {MOST:?}: {shown:#?}");
            assert!(came < MOST_DATAGRAMS, "no agreement after {MOST_DATAGRAMS} datagrams");
            std::thread::sleep(Duration::from_millis(30));
        }
    }
}

impl Drop for Net {
    fn drop(&mut self) {
        self.stop.store(true, Ordering::Relaxed);
        let _ = self.thread.take().map(|thread| thread.join());
    }
}

fn story(without: Option<&'static str>) {
    let mut net = Net::new(without);
    let mut hubs: Vec<Hub> = (1..=HUBS).map(|own| net.start(own, true)).collect();
    hubs[0].done("set total 004127.3");
    hubs[0].done("set tariff night");
    hubs[1].done("set flow 11");
    hubs[2].done("set heat 21.5");
    net.agree(&mut hubs, |shown| shown.readings.len() == 4);

    println!("all ways are shut; hub 1 deletes the tariff, and removes it");
    net.all(SHUT);
    let deleted = hubs[0].done("delete tariff");
    net.dead.push(("tariff", deleted));
    hubs[0].shows(REMOVED, "the tombstone is removed", |shown| shown.node(1).gc == deleted);
    println!("hub 3 hears hub 1, hub 2 and hub 1: the tariff comes around the corner");
    net.hears(3, 1, 1);
    let reset = hubs[2].show();
    assert_eq!((reset.node(1).gc, reset.node(1).max), (deleted, 1), "hub 3 is in a reset");
    net.world.lock().unwrap().told.clear();
    net.hears(3, 2, 1);
    look(&net.dead, 3, &hubs[2].show());
    let told = net.told();
    net.hears(3, 1, 1);
    let shown = hubs[2].shows(MOST, "hub 3 hears hub 1", |shown| shown.node(1).max >= deleted);
    look(&net.dead, 3, &shown);
    // The delta was Fenced. The digest after it says that all is known, and the one after that is honest.
    let fenced = told.iter().position(|max| *max == u64::MAX).unwrap_or_else(|| panic!("hub 3 told hub 2 {told:?}, though its delta was Fenced"));
    assert!(told.len() > fenced + 1 && told[fenced + 1..].iter().all(|max| *max == 1), "{told:?}");

    net.all(BAD);
    hubs[0].done("set lamp on");
    net.agree(&mut hubs, |shown| shown.readings.len() == 4);
    println!("hub 1 is killed when hub 2 has heard what it wrote");
    let sent = hubs[0].done("set total 004139.0");
    let told = hubs[1].shows(MOST, "hub 2 hears of the total", |shown| shown.node(1).max == sent).node(1).beat;
    hubs[1].shows(MOST, "hub 2 hears some beats more", |shown| shown.node(1).beat > told + 5);
    drop(hubs.remove(0));
    net.world.lock().unwrap().hubs[0] = None;
    net.all(SHUT);
    let most_told = hubs.iter_mut().map(|hub| hub.show().node(1).beat).max().unwrap();
    println!("hub 1 is started again from its file, and hears nobody");
    hubs.insert(0, net.start(1, false));
    let again = hubs[0].show();
    assert!(again.node(1).max >= sent && again.reads("1 total=004139.0"), "hub 1 is behind what it sent: {again:?}");
    assert!(again.node(1).beat >= most_told, "its next heartbeat is no news: {} after {most_told}", again.node(1).beat);
    assert_eq!(hubs[0].done("set note read"), sent + 1);
    net.all(BAD);
    net.agree(&mut hubs, |shown| shown.readings.len() == 5);
    hubs[1].shows(MOST, "its heartbeat is heard", |shown| shown.node(1).beat > most_told);

    println!("hub 3 is killed; the lamp is deleted, and its grace goes by");
    hubs.truncate(2);
    net.world.lock().unwrap().hubs[2] = None;
    let deleted = hubs[0].done("delete lamp");
    net.dead.push(("lamp", deleted));
    net.agree(&mut hubs, |shown| shown.readings.len() == 4);
    for hub in &mut hubs {
        hub.shows(REMOVED, "the tombstone is removed", |shown| shown.node(1).gc == deleted);
    }
    hubs[0].done("set total 004140.5");

    println!("hub 3 is started again from its file");
    hubs.push(net.start(3, false));
    hubs[2].done("set heat 20.0");
    let last = net.agree(&mut hubs, |shown| ["1 note=read", "1 total=004140.5", "2 flow=11", "3 heat=20.0"].iter().all(|want| shown.reads(want)));
    for line in &last.readings {
        println!("  {line}");
    }
    for _ in 0..20 {
        for (hub, shown) in hubs.iter_mut().map(Hub::show).enumerate() {
            look(&net.dead, hub + 1, &shown);
            assert_eq!(shown.readings, last.readings);
        }
        std::thread::sleep(Duration::from_millis(20));
    }
    let world = net.world.lock().unwrap();
    println!("{} datagrams, {} lost, {} doubled; no deleted reading came back", world.came, world.lost, world.doubled);
    drop(world);
    hubs.into_iter().for_each(Hub::quit);
}

#[test]
fn three_hubs_agree_through_a_bad_link() {
    story(None);
}

#[test]
#[should_panic(expected = "has heard of version 3 and shows")]
fn a_plain_hub_is_found() {
    story(Some("plain"));
}

#[test]
#[should_panic(expected = "hub 1 is behind what it sent")]
fn a_hub_that_stores_nothing_before_it_sends_is_found() {
    story(Some("unstored"));
}

#[test]
#[should_panic(expected = "the tombstone is removed: not after")]
fn a_hub_that_never_removes_is_found() {
    story(Some("unremoved"));
}

#[test]
#[should_panic(expected = "hub 1 is behind what it sent")]
fn a_hub_that_begins_anew_is_found() {
    story(Some("anew"));
}
