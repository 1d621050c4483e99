//! A hub's table on disk.
//!
//! - A file is never half a table: the bytes go to a temporary file beside it, which is synced and then renamed over it.
//! - Two hubs never share a file, nor a temporary one. The names of the temporary file and of the lock are the whole name of the file and a suffix, and the lock is held as long as the [`Disk`] is.
//! - Before the table stand a magic number, who owns it, how long it is, and a checksum of all the rest. Zeros, a file that was cut, another hub's file and any changed byte are refused.
//! - A file that is not there or is refused is never replaced: [`Disk::begin`] wants that there is none.
//!
//! The file, each number in eight bytes, the low one first: `kevhub 1`, the owner's node, `least`, the length of the table, the checksum, the table. `tools/showtable` lists the
//! table in it.

use std::ffi::OsString;
use std::fmt::{self, Display, Formatter};
use std::fs::{self, File};
use std::io::{self, ErrorKind, Write};
use std::os::fd::AsRawFd;
use std::path::{Path, PathBuf};

use kevdarosh::{Mode, OwnedTable, Refusal};

const MAGIC: &[u8; 8] = b"kevhub 1";
const HEAD: usize = 40;
const TEMPORARY: &str = ".kev-new";
const LOCK: &str = ".kev-lock";

/// Why a hub has no table. None of these changed the file.
#[derive(Debug)]
pub enum Trouble {
    /// There is no file.
    Missing,
    /// There is one, and a new one was wanted.
    There,
    /// Another hub has it.
    Taken,
    /// Its name is that of a temporary file or a lock.
    Name,
    /// It is not what was stored.
    Damaged(&'static str),
    /// It is the table of the owner of another node.
    Owner(u64),
    /// Its table has another mode.
    Mode(Mode),
    /// The library refuses the table.
    Refused(Refusal),
    /// The disk.
    Disk(io::Error),
}

impl Display for Trouble {
    fn fmt(&self, f: &mut Formatter<'_>) -> fmt::Result {
        match self {
            Trouble::Missing => f.write_str("there is no such file"),
            Trouble::There => f.write_str("there is a file already, which is not overwritten"),
            Trouble::Taken => f.write_str("another hub has it"),
            Trouble::Name => write!(f, "a name that ends in {TEMPORARY} or {LOCK} is a temporary file's or a lock's"),
            Trouble::Damaged(how) => write!(f, "the file is damaged: {how}"),
            Trouble::Owner(owner) => write!(f, "it is the table of the owner of node {owner}"),
            Trouble::Mode(mode) => write!(f, "its mode is {mode:?}, another than is wanted"),
            Trouble::Refused(refusal) => write!(f, "refused with {}: {refusal}", refusal.number()),
            Trouble::Disk(error) => error.fmt(f),
        }
    }
}

impl std::error::Error for Trouble {}

impl From<io::Error> for Trouble {
    fn from(error: io::Error) -> Trouble {
        if error.kind() == ErrorKind::NotFound { Trouble::Missing } else { Trouble::Disk(error) }
    }
}

/// A file that this hub alone has, until it ends or is killed.
pub struct Disk {
    file: PathBuf,
    temporary: PathBuf,
    owner: u64,
    _lock: File,
}

/// What is stored.
pub struct Stored {
    pub table: OwnedTable,
    /// The owner writes its node only where its max is at least this: what it let out before it lost its disk, else 0.
    pub least: u64,
}

// From Rust 1.89 on this is `File::try_lock`. The number is the same on Linux, the BSDs and macOS; the lock ends with the process.
unsafe extern "C" {
    safe fn flock(file: std::ffi::c_int, operation: std::ffi::c_int) -> std::ffi::c_int;
}
const ALONE_OR_NOT_AT_ALL: std::ffi::c_int = 2 | 4;

fn beside(file: &Path, suffix: &str) -> PathBuf {
    let mut name = OsString::from(file);
    name.push(suffix);
    name.into()
}

impl Disk {
    /// Takes the file for the owner of this node, whether or not there is one.
    pub fn take(file: &Path, owner: u64) -> Result<Disk, Trouble> {
        // The file itself where the name is a link, so that two names of one file have one lock.
        let file = fs::canonicalize(file).or_else(|_| std::path::absolute(file)).map_err(Trouble::Disk)?;
        if [TEMPORARY, LOCK].iter().any(|suffix| file.as_os_str().as_encoded_bytes().ends_with(suffix.as_bytes())) {
            return Err(Trouble::Name);
        }
        let lock = File::options().create(true).append(true).open(beside(&file, LOCK)).map_err(Trouble::Disk)?;
        if flock(lock.as_raw_fd(), ALONE_OR_NOT_AT_ALL) != 0 {
            return Err(Trouble::Taken);
        }
        Ok(Disk { temporary: beside(&file, TEMPORARY), file, owner, _lock: lock })
    }

    /// The first table of this hub: only where there is no file.
    pub fn begin(&self, first: &Stored) -> Result<(), Trouble> {
        match fs::symlink_metadata(&self.file) {
            Err(error) if error.kind() == ErrorKind::NotFound => Ok(self.store(first)?),
            Err(error) => Err(error.into()),
            Ok(_) => Err(Trouble::There),
        }
    }

    /// Stores the table. When this returns, the file has it even if the power fails; if it fails, the file is what it was.
    pub fn store(&self, stored: &Stored) -> io::Result<()> {
        let bytes = self.bytes(stored);
        // What a store that failed has left is cut off first, so that it takes no room.
        let mut file = File::create(&self.temporary)?;
        file.write_all(&bytes)?;
        file.sync_all()?;
        fs::rename(&self.temporary, &self.file)?;
        // The rename itself is kept by the folder.
        File::open(self.file.parent().unwrap_or(Path::new("/")))?.sync_all()
    }

    /// Loads the table, which must be of the wanted mode.
    pub fn load(&self, wanted: Mode) -> Result<Stored, Trouble> {
        let bytes = fs::read(&self.file)?;
        let Some((head, table)) = bytes.split_first_chunk::<HEAD>() else { return Err(Trouble::Damaged("it is too short")) };
        let number = |at: usize| u64::from_le_bytes(std::array::from_fn(|i| head[at + i]));
        if !head.starts_with(MAGIC) {
            return Err(Trouble::Damaged("it does not begin as a hub's table does"));
        }
        if number(24) != table.len() as u64 {
            return Err(Trouble::Damaged("it is not as long as it says"));
        }
        if number(32) != checksum(&[&head[..32], table]) {
            return Err(Trouble::Damaged("its checksum is another"));
        }
        if number(8) != self.owner {
            return Err(Trouble::Owner(number(8)));
        }
        let table = OwnedTable::from_bytes(table).map_err(Trouble::Refused)?;
        match table.mode() {
            Ok(mode) if mode == wanted => Ok(Stored { table, least: number(16) }),
            Ok(mode) => Err(Trouble::Mode(mode)),
            Err(refusal) => Err(Trouble::Refused(refusal)),
        }
    }

    fn bytes(&self, stored: &Stored) -> Vec<u8> {
        let table = stored.table.as_bytes();
        let mut bytes = Vec::with_capacity(HEAD + table.len());
        bytes.extend(MAGIC);
        for number in [self.owner, stored.least, table.len() as u64] {
            bytes.extend(number.to_le_bytes());
        }
        bytes.extend(checksum(&[&bytes, table]).to_le_bytes());
        bytes.extend(table);
        bytes
    }
}

/// FNV-1a. Each step takes different sums to different sums, so that one changed byte is always found, and any other damage but once in 2^64.
fn checksum(parts: &[&[u8]]) -> u64 {
    parts.iter().copied().flatten().fold(0xcbf2_9ce4_8422_2325, |sum: u64, byte| (sum ^ u64::from(*byte)).wrapping_mul(0x0100_0000_01b3))
}
