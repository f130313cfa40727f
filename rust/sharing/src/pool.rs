//! A pool of keys on disk: a folder with the key bytes, and with the record of how many of them are used. Each byte is used
//! once, whatever stops the program, and whenever: the record is safe on the disk before a byte of a share is written. A run
//! that is stopped in between wastes the bytes that it took.

use crate::failure::{Done, Failure};
use crate::files::{check_regular, disk, failed, read_opened, sync_folder, Input};
use crate::interrupt;
use crate::record::{read_record, text};
use crate::report::counted;
use crate::scheme::Scheme;
use gilunavoi::raw::{self, KeyPool};
use std::fs::{self, File, OpenOptions};
use std::io::{self, ErrorKind};
use std::os::unix::fs::{FileExt, MetadataExt};
use std::path::{Path, PathBuf};

/// The names of the two files.
pub const KEYS: &str = "keys";
pub const RECORD: &str = "record";

/// The most key bytes.
pub const LONGEST: usize = 1 << 30;

/// So many zeros in a row are no chance, which is one in 2^48 at each place, but key bytes that were overwritten, or none at
/// all. The shortest message takes as many in the former default, and twice as many in the default.
const TOO_MANY_ZEROS: usize = 6;

/// What to do with a pool of which it is not known any more which bytes are used.
pub const GIVE_UP: &str = "do not use this pool any more: make a new one of fresh keys";

pub fn has_zeros(keys: &[u8]) -> bool {
    let mut zeros = 0;
    keys.iter().any(|&byte| {
        zeros = if byte == 0 { zeros + 1 } else { 0 };
        zeros == TOO_MANY_ZEROS
    })
}

/// Refuses a file of a pool where keys are named: its bytes would be used twice.
pub fn check_no_pool(path: &Path) -> Done {
    let is = |name: &str| path.file_name() == Some(name.as_ref());
    if (is(KEYS) || is(RECORD)) && read_record(path.with_file_name(RECORD)).is_ok() {
        return Err(Failure::File(format!("{path:?} is a file of a pool: its keys are taken by split --pool alone")));
    }
    Ok(())
}

pub struct Pool {
    pub folder: PathBuf,
    /// The file of the keys, which is locked as long as it is open: the system sees to that even if the program is killed.
    file: File,
    pub keys: Input,
    record: KeyPool,
}

impl Pool {
    /// Opens a pool to take keys out of it. Other runs on it are waited for.
    pub fn to_use(folder: &Path) -> Result<Pool, Failure> {
        Pool::open(folder, OpenOptions::new().read(true).write(true), File::lock)
    }

    pub fn to_look_at(folder: &Path) -> Result<Pool, Failure> {
        Pool::open(folder, OpenOptions::new().read(true), File::lock_shared)
    }

    fn open(folder: &Path, how: &OpenOptions, lock: fn(&File) -> io::Result<()>) -> Result<Pool, Failure> {
        let path = folder.join(KEYS);
        check_regular(&path)?;
        let file = how.open(&path).map_err(|error| failed("open", &path, &error))?;
        lock(&file).map_err(|error| failed("lock", &path, &error))?;
        check_held(&file, &path)?;
        let record = read_record(folder.join(RECORD))?;
        let keys = read_opened(LONGEST, &file, path)?;
        Ok(Pool { folder: folder.to_path_buf(), file, keys, record })
    }

    /// A copy of the record, which the library may move.
    pub fn record(&self) -> KeyPool {
        KeyPool { length: self.record.length, position: self.record.position }
    }

    /// Whether the record fits the keys. The library is asked: an empty message of the earlier form takes no key bytes, so
    /// that nothing else can be wrong.
    pub fn fits(&self) -> bool {
        let Scheme { n, r, z, ref counts, .. } = Scheme::default();
        raw::split_from_pool(&mut self.record(), n, r, z, counts, &[], &self.keys.bytes, &mut []).is_ok()
    }

    /// How many key bytes are left, in a pool whose record fits.
    pub fn left(&self) -> usize {
        self.record.length - self.record.position
    }

    /// Refuses a pool out of which nothing may be taken.
    pub fn check(&self) -> Done {
        if !self.fits() {
            return Err(self.misfit());
        }
        if has_zeros(&self.keys.bytes[self.record.position..]) {
            return Err(Failure::File(format!(
                "among the unused key bytes of the pool {:?} are {TOO_MANY_ZEROS} zeros in a row, as used ones are, and would \
                 hide nothing: its record was set back, or put back from a backup\n{GIVE_UP}",
                self.folder
            )));
        }
        Ok(())
    }

    /// Finishes what a run that was killed has left, and refuses keys that are used. A record that does not fit says nothing
    /// of the keys, and is left to the call that it is refused by.
    pub fn make_ready(&mut self) -> Done {
        if !self.fits() {
            return Ok(());
        }
        self.settle()?;
        self.check()
    }

    /// From here on the key bytes before the new record's position are used. At any moment there is a whole record, the one
    /// before or this one.
    pub fn mark_used(&mut self, record: KeyPool) -> Done {
        let (part, path) = (self.folder.join(".record.part"), self.folder.join(RECORD));
        let moved = write_synced(&part, text(&record).as_bytes())
            .map_err(|error| failed("write", &part, &error))
            // A signal that came before leaves all as it was.
            .and_then(|()| interrupt::check())
            .and_then(|()| fs::rename(&part, &path).map_err(|error| failed("write", &path, &error)));
        match moved {
            Ok(()) => self.record = record,
            Err(_) => {
                let _ = fs::remove_file(part);
            }
        }
        moved
    }

    /// Makes the record safe, and then overwrites the used keys: overwritten keys must never come back as unused.
    pub fn settle(&mut self) -> Done {
        sync_folder(&self.folder)?;
        let used = &mut self.keys.bytes[..self.record.position];
        let Some(first) = used.iter().position(|&byte| byte != 0) else {
            return Ok(());
        };
        used[first..].fill(0);
        let written = self.file.write_all_at(&used[first..], first as u64).and_then(|()| self.file.sync_all());
        written.map_err(|error| failed("overwrite used keys in", &self.keys.path, &error))
    }

    /// What the library refuses of a record that does not fit. It only finds words for that: nothing is decided here.
    pub fn misfit(&self) -> Failure {
        let (folder, KeyPool { length, position }) = (&self.folder, self.record());
        let record = if length != self.keys.bytes.len() {
            format!("was loaded with {}", counted(length, "byte"))
        } else {
            format!("has used {}", counted(position, "byte"))
        };
        Failure::Refused(16, format!("by its record {folder:?} {record}, and {}\n{GIVE_UP}", self.keys))
    }

    /// For a report, and for a failure that comes after keys were used.
    pub fn told(&self, what: &str) -> String {
        format!("Key bytes of the pool {:?}: {what}, {} left", self.folder, self.left())
    }
}

/// While a run waited for the lock, another pool may have taken the name: its record would then be read with other keys.
fn check_held(file: &File, path: &Path) -> Done {
    let inode = |metadata: fs::Metadata| (metadata.dev(), metadata.ino());
    let held = file.metadata().map_err(|error| failed("look at", path, &error))?;
    let named = fs::metadata(path).map_err(|error| failed("look at", path, &error))?;
    if inode(held) != inode(named) {
        return Err(Failure::File(format!("{path:?} was replaced while it was waited for: run the command again")));
    }
    Ok(())
}

/// What a run that was killed has left under this name is nobody's, since the pool is locked. It is removed and not written
/// over: a link there would lead to another file.
fn write_synced(path: &Path, bytes: &[u8]) -> io::Result<()> {
    match fs::remove_file(path) {
        Err(error) if error.kind() != ErrorKind::NotFound => return Err(error),
        _ => {}
    }
    disk::fill(&disk::named(path)?, bytes)
}
