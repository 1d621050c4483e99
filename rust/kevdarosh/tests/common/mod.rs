//! A hub (examples/hub.rs) as a process of its own. HUBS_RUNNER is the emulator that it runs under, with its words, where the tests are for another processor.

#![allow(dead_code)]

use std::io::{BufRead, BufReader, Read, Write};
use std::net::SocketAddr;
use std::path::{Path, PathBuf};
use std::process::{Child, ChildStdin, ChildStdout, Command, Output, Stdio};
use std::sync::{Arc, Mutex};
use std::time::{Duration, Instant};

/// An example with its words.
pub fn example(name: &str, words: &[&str]) -> Command {
    let example = std::env::current_exe().unwrap().ancestors().nth(2).unwrap().join("examples").join(name);
    assert!(example.exists(), "{} is not there: cargo build --examples", example.display());
    let runner = std::env::var("HUBS_RUNNER").unwrap_or_default();
    let mut command = runner.split_whitespace().map(PathBuf::from).chain([example]);
    let mut started = Command::new(command.next().unwrap());
    started.args(command).args(words);
    started
}

/// A hub that ends by itself: what it said.
pub fn ended(name: &str, words: &[&str]) -> Output {
    example(name, words).stdin(Stdio::null()).output().unwrap()
}

pub struct Hub {
    child: Child,
    input: ChildStdin,
    output: BufReader<ChildStdout>,
    said: Arc<Mutex<String>>,
    pub address: SocketAddr,
}

/// What a hub shows of a node.
#[derive(Clone, Copy, Debug, Default, PartialEq, Eq)]
pub struct Node {
    pub node: u64,
    pub max: u64,
    pub gc: u64,
    pub beat: u64,
}

/// What a hub shows: its nodes, and the readings.
#[derive(Clone, Debug, Default)]
pub struct Shown {
    pub nodes: Vec<Node>,
    pub readings: Vec<String>,
}

impl Shown {
    pub fn node(&self, node: u64) -> Node {
        self.nodes.iter().copied().find(|shown| shown.node == node).unwrap_or_default()
    }

    pub fn reads(&self, reading: &str) -> bool {
        self.readings.iter().any(|line| line.starts_with(reading))
    }

    /// The same readings, and each node heard as far.
    pub fn agrees(&self, other: &Shown) -> bool {
        let heard = |shown: &Shown| shown.nodes.iter().map(|node| (node.node, node.max)).collect::<Vec<_>>();
        heard(self) == heard(other) && self.readings == other.readings
    }
}

impl Hub {
    pub fn start(name: &str, words: &[&str]) -> Hub {
        let mut child = example(name, words).stdin(Stdio::piped()).stdout(Stdio::piped()).stderr(Stdio::piped()).spawn().unwrap();
        let (input, output) = (child.stdin.take().unwrap(), BufReader::new(child.stdout.take().unwrap()));
        let (said, mut errors) = (Arc::new(Mutex::new(String::new())), child.stderr.take().unwrap());
        let heard = said.clone();
        std::thread::spawn(move || {
            let mut buffer = [0; 1_000];
            while let Ok(bytes @ 1..) = errors.read(&mut buffer) {
                heard.lock().unwrap().push_str(&String::from_utf8_lossy(&buffer[..bytes]));
            }
        });
        let mut hub = Hub { child, input, output, said, address: ([127, 0, 0, 1], 0).into() };
        let line = hub.read();
        println!("{line}");
        hub.address = line.rsplit(' ').next().unwrap().parse().unwrap();
        hub
    }

    fn read(&mut self) -> String {
        let mut line = String::new();
        if self.output.read_line(&mut line).unwrap() == 0 {
            std::thread::sleep(Duration::from_millis(100));
            panic!("a hub ended: {}", self.said());
        }
        line.trim_end().to_string()
    }

    /// What it said of itself.
    pub fn said(&self) -> String {
        self.said.lock().unwrap().clone()
    }

    /// Until it says so of itself.
    pub fn says(&self, words: &str) {
        let begun = Instant::now();
        while !self.said().contains(words) {
            assert!(begun.elapsed() < Duration::from_secs(10), "the hub does not say {words:?}, but {:?}", self.said());
            std::thread::sleep(Duration::from_millis(10));
        }
    }

    /// A line of any bytes, and its answer.
    pub fn ask(&mut self, line: &[u8]) -> String {
        self.input.write_all(&[line, b"\n"].concat()).unwrap();
        self.read()
    }

    /// A line that must be done: the version.
    pub fn done(&mut self, line: &str) -> u64 {
        let answer = self.ask(line.as_bytes());
        println!("  {line}: {answer}");
        let version = answer.strip_prefix("done version ").and_then(|version| version.parse().ok());
        version.unwrap_or_else(|| panic!("{line}: {answer}"))
    }

    pub fn show(&mut self) -> Shown {
        let mut line = self.ask(b"show");
        let mut shown = Shown::default();
        while line != "end" {
            let words: Vec<&str> = line.split(' ').collect();
            match words[..] {
                ["node", node, "max", max, "gc", gc, "beat", beat] => {
                    let [node, max, gc, beat] = [node, max, gc, beat].map(|word| word.parse().unwrap());
                    shown.nodes.push(Node { node, max, gc, beat });
                }
                _ => shown.readings.push(line),
            }
            line = self.read();
        }
        shown
    }

    /// Until it shows what is wanted, or the time is over.
    pub fn shows(&mut self, within: Duration, what: &str, wanted: impl Fn(&Shown) -> bool) -> Shown {
        let begun = Instant::now();
        loop {
            let shown = self.show();
            if wanted(&shown) {
                return shown;
            }
            assert!(begun.elapsed() < within, "{what}: not after {within:?}, but {shown:?}");
            std::thread::sleep(Duration::from_millis(5));
        }
    }

    /// A signal by its name.
    pub fn signal(&self, name: &str) {
        // A shell has the command where the machine has it not.
        let command = format!("kill {name} {}", self.child.id());
        assert!(Command::new("sh").args(["-c", &command]).status().unwrap().success(), "{command}");
    }

    /// Ended by its own word.
    pub fn quit(mut self) {
        self.input.write_all(b"quit\n").unwrap();
        assert!(self.child.wait().unwrap().success());
    }
}

/// A hub that is dropped is killed.
impl Drop for Hub {
    fn drop(&mut self) {
        let _ = self.child.kill();
        let _ = self.child.wait();
    }
}

/// A folder of a test's own, which goes with it.
pub struct Folder(PathBuf);

impl Folder {
    pub fn new(name: &str) -> Folder {
        let folder = std::env::temp_dir().join(format!("kevdarosh-{name}-{}", std::process::id()));
        std::fs::create_dir_all(&folder).unwrap();
        Folder(folder)
    }

    pub fn file(&self, name: &str) -> String {
        self.0.join(name).to_str().unwrap().to_string()
    }

    pub fn path(&self) -> &Path {
        &self.0
    }
}

impl Drop for Folder {
    fn drop(&mut self) {
        let _ = std::fs::remove_dir_all(&self.0);
    }
}
