//! What is asked of the system besides reading and writing: files without a name, folders that are safe from a power cut,
//! and rights that no umask takes from the owner.

use std::ffi::{c_char, CString};
use std::fs::{self, DirBuilder, File, OpenOptions, Permissions};
use std::io::{self, ErrorKind, Write};
use std::os::fd::AsRawFd;
use std::os::unix::ffi::OsStrExt;
use std::os::unix::fs::{DirBuilderExt, MetadataExt, OpenOptionsExt, PermissionsExt};
use std::path::Path;

/// What the owner may do with a file and with a folder, and nobody else.
pub const FILE: u32 = 0o600;
const FOLDER: u32 = 0o700;

/// O_TMPFILE, which asks for a file without a name in a folder. On other machines than x86-64 it has another number, and
/// this one is refused.
const UNNAMED: i32 = 0o20200000;

/// "From the folder that the program runs in", and "what the link leads to, not the link itself".
const HERE: i32 = -100;
const FOLLOW: i32 = 0x400;

/// EINVAL and EOPNOTSUPP.
const INVALID: i32 = 22;
const NOT_SUPPORTED: i32 = 95;

extern "C" {
    fn linkat(from: i32, path: *const c_char, to: i32, new_path: *const c_char, flags: i32) -> i32;
}

/// The folder of a name without one is the one that the program runs in.
pub fn or_here(folder: &Path) -> &Path {
    if folder.as_os_str().is_empty() {
        Path::new(".")
    } else {
        folder
    }
}

/// A new file in this folder that has no name, and is gone as soon as nobody has it open. Not every file system has such
/// files.
pub fn unnamed(folder: &Path) -> io::Result<File> {
    OpenOptions::new().write(true).custom_flags(UNNAMED).mode(FILE).open(or_here(folder))
}

/// A new file of this name.
pub fn named(path: &Path) -> io::Result<File> {
    OpenOptions::new().write(true).create_new(true).mode(FILE).open(path)
}

/// Gives a file that has no name this one, unless it is taken.
pub fn give_name(file: &File, path: &Path) -> io::Result<()> {
    let open = CString::new(format!("/proc/self/fd/{}", file.as_raw_fd()))?;
    let path = CString::new(path.as_os_str().as_bytes())?;
    // SAFETY: both are texts that end in a zero byte, live until the call is over, and are only read.
    match unsafe { linkat(HERE, open.as_ptr(), HERE, path.as_ptr(), FOLLOW) } {
        0 => Ok(()),
        _ => Err(io::Error::last_os_error()),
    }
}

/// Writes all of a new file, and waits until it is safe from a power cut. Its owner can read it: a umask may have taken that
/// right too. Where nothing is missing nothing is asked for, since the file systems of sticks know no rights and refuse it.
pub fn fill(mut file: &File, bytes: &[u8]) -> io::Result<()> {
    if file.metadata()?.mode() & FILE != FILE {
        file.set_permissions(Permissions::from_mode(FILE))?;
    }
    file.write_all(bytes)?;
    file.sync_all()
}

/// Makes a folder in which its owner can write, whatever the umask is.
pub fn make(folder: &Path) -> io::Result<()> {
    DirBuilder::new().mode(FOLDER).create(folder)?;
    let missing = fs::metadata(folder).map(|metadata| metadata.mode() & FOLDER != FOLDER);
    let owned = match missing {
        Ok(true) => fs::set_permissions(folder, Permissions::from_mode(FOLDER)),
        other => other.map(|_| ()),
    };
    if owned.is_err() {
        let _ = fs::remove_dir(folder);
    }
    owned
}

/// What was made or renamed in a folder is safe from a power cut only when this is done.
pub fn sync(folder: &Path) -> io::Result<()> {
    File::open(or_here(folder))?.sync_all()
}

/// Whether it is not the disk that failed when a folder was synced: who may write in a folder need not have the right to
/// read it, which is needed for this, and some file systems do not sync folders.
pub fn cannot_be_synced(error: &io::Error) -> bool {
    error.kind() == ErrorKind::PermissionDenied || matches!(error.raw_os_error(), Some(INVALID | NOT_SUPPORTED))
}
