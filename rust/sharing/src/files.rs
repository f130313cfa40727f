//! Reading files, and writing files that appear together or not at all.

use crate::arguments::usage;
use crate::failure::{Done, Failure};
use crate::interrupt;
use crate::report::{counted, say};
use crate::standard;
use std::ffi::OsString;
use std::fmt;
use std::fs::{self, File};
use std::io::{self, ErrorKind, Read};
use std::os::unix::ffi::OsStrExt;
use std::path::{Path, PathBuf};

pub mod disk;

/// No message, key file, share or archive that a library accepts is nearly as long. Reading stops one byte
/// after it, so that an endless file ends in a refusal too.
const LONGEST: usize = 1 << 20;

/// A file that was read, cut one byte after the longest that is wanted.
pub struct Input {
    pub path: PathBuf,
    pub bytes: Vec<u8>,
    longest: usize,
}

pub fn read(path: PathBuf) -> Result<Input, Failure> {
    read_up_to(LONGEST, path)
}

/// Reads a file, or standard input where the path is `-`.
pub fn read_up_to(longest: usize, path: PathBuf) -> Result<Input, Failure> {
    if standard::is_standard(&path) {
        return read_opened(longest, standard::input()?, path);
    }
    let file = File::open(&path).map_err(|error| failed("read", &path, &error))?;
    read_opened(longest, &file, path)
}

/// Reads a file that is opened already, under this path.
pub fn read_opened(longest: usize, file: impl Read, path: PathBuf) -> Result<Input, Failure> {
    let mut bytes = Vec::new();
    match file.take(longest as u64 + 1).read_to_end(&mut bytes) {
        Ok(_) => Ok(Input { path, bytes, longest }),
        Err(error) => Err(failed("read", &path, &error)),
    }
}

impl Input {
    pub fn is_too_long(&self) -> bool {
        self.bytes.len() > self.longest
    }
}

/// How long it is.
impl fmt::Display for Input {
    fn fmt(&self, f: &mut fmt::Formatter) -> fmt::Result {
        let name = standard::named(&self.path);
        if self.is_too_long() {
            write!(f, "{name} has more than {}", counted(self.longest, "byte"))
        } else {
            write!(f, "{name} has {}", counted(self.bytes.len(), "byte"))
        }
    }
}

pub fn failed(action: &str, path: &Path, error: &io::Error) -> Failure {
    Failure::File(format!("cannot {action} {}: {error}", standard::named(path)))
}

/// A pipe in the place of a file would be waited for. One that is not there is left to whoever opens it.
pub fn check_regular(path: &Path) -> Done {
    if fs::metadata(path).is_ok_and(|metadata| !metadata.is_file()) {
        return Err(Failure::File(format!("{path:?} is no regular file")));
    }
    Ok(())
}

fn not_synced(folder: &Path, error: &io::Error) -> Failure {
    failed("sync the folder", disk::or_here(folder), error)
}

/// Makes what was renamed or made in a folder safe from a power cut, or fails.
pub fn sync_folder(folder: &Path) -> Done {
    disk::sync(folder).map_err(|error| not_synced(folder, &error))
}

/// Where one file is to be written: a folder that exists, and a name in it.
pub struct Place {
    folder: PathBuf,
    name: OsString,
}

impl Place {
    pub fn new(path: &Path) -> Result<Place, Failure> {
        match path.file_name() {
            // `out/` and `out/.` have the file name `out` too.
            Some(name) if path.as_os_str().as_bytes().ends_with(name.as_bytes()) => {
                Ok(Place { folder: path.with_file_name(""), name: name.to_os_string() })
            }
            _ => usage(format!("{path:?} is not the name of a file")),
        }
    }
}

/// A file that is written, and has not its name yet.
enum Part {
    /// It has no name at all: nothing is left of it when the program ends, whatever ends it.
    Unnamed(File),
    /// It has another name.
    Named(PathBuf),
}

/// Files in one folder. What was made is removed again unless `keep` succeeds. Only the owner may
/// read them: they are shares, keys, or a message.
pub struct Output {
    folder: PathBuf,
    new_folder: bool,
    names: Vec<OsString>,
    made: Vec<PathBuf>,
}

impl Output {
    fn new(folder: &Path, names: Vec<OsString>) -> Output {
        interrupt::hold();
        Output { folder: folder.to_path_buf(), new_folder: false, names, made: Vec::new() }
    }

    /// For files of these names in a folder, which is made where it does not exist.
    pub fn in_folder(folder: &Path, names: Vec<OsString>) -> Result<Output, Failure> {
        let mut output = Output::new(folder, names);
        output.new_folder = match disk::make(folder) {
            Ok(()) => true,
            Err(error) if error.kind() == ErrorKind::AlreadyExists && folder.is_dir() => false,
            Err(error) => return Err(failed("make the folder", folder, &error)),
        };
        output.checked()
    }

    /// The same in a folder that must not exist.
    pub fn in_new_folder(folder: &Path, names: Vec<OsString>) -> Result<Output, Failure> {
        let mut output = Output::new(folder, names);
        disk::make(folder).map_err(|error| match error.kind() {
            ErrorKind::AlreadyExists => taken(folder),
            _ => failed("make the folder", folder, &error),
        })?;
        output.new_folder = true;
        Ok(output)
    }

    pub fn one_file(place: &Place, bytes: &[u8]) -> Result<Output, Failure> {
        let mut output = Output::new(&place.folder, vec![place.name.clone()]).checked()?;
        output.write(&[bytes])?;
        Ok(output)
    }

    /// A name that is taken already is seen before anything is written.
    fn checked(self) -> Result<Output, Failure> {
        self.names.iter().try_for_each(|name| free(&self.folder.join(name)))?;
        Ok(self)
    }

    /// Tries whether files can be made here, for who would lose something if they cannot: makes an empty one, which does not
    /// stay.
    pub fn try_to_write(&mut self) -> Done {
        let Some(name) = self.names.first().cloned() else {
            return Ok(());
        };
        if let Part::Named(part) = self.write_part(&name, &[])? {
            fs::remove_file(&part).map_err(|error| failed("write", &part, &error))?;
            self.made.retain(|made| *made != part);
        }
        Ok(())
    }

    /// Writes a file for each of the names: all without their names first, and gives them these only when all are written.
    pub fn write(&mut self, contents: &[&[u8]]) -> Result<(), Failure> {
        let names = self.names.clone();
        let mut parts = Vec::new();
        for (name, bytes) in names.iter().zip(contents) {
            interrupt::check()?;
            parts.push(self.write_part(name, bytes)?);
        }
        for ((name, bytes), part) in names.iter().zip(contents).zip(parts) {
            interrupt::check()?;
            self.give_name(name, bytes, part)?;
        }
        Ok(())
    }

    fn write_part(&mut self, name: &OsString, bytes: &[u8]) -> Result<Part, Failure> {
        let Ok(file) = disk::unnamed(&self.folder) else {
            // Not every file system has files without a name. If it was something else, that is found once more.
            return self.write_named(name, bytes).map(Part::Named);
        };
        match disk::fill(&file, bytes) {
            Ok(()) => Ok(Part::Unnamed(file)),
            Err(error) => Err(failed("write", &self.folder.join(name), &error)),
        }
    }

    /// Writes a file under another name, which is no other process's.
    fn write_named(&mut self, name: &OsString, bytes: &[u8]) -> Result<PathBuf, Failure> {
        let mut part = OsString::from(".");
        part.push(name);
        part.push(format!(".{}.part", std::process::id()));
        let (part, path) = (self.folder.join(part), self.folder.join(name));
        let file = disk::named(&part).map_err(|error| match error.kind() {
            ErrorKind::AlreadyExists => Failure::File(format!("cannot write {path:?}: {part:?} is in the way")),
            _ => failed("write", &path, &error),
        })?;
        self.made.push(part.clone());
        disk::fill(&file, bytes).map_err(|error| failed("write", &path, &error))?;
        Ok(part)
    }

    /// Gives the file its name, and fails where another run has taken the name since it was looked at.
    fn give_name(&mut self, name: &OsString, bytes: &[u8], part: Part) -> Result<(), Failure> {
        let path = self.folder.join(name);
        let part = match part {
            Part::Named(part) => part,
            Part::Unnamed(file) => match disk::give_name(&file, &path) {
                Ok(()) => {
                    self.made.push(path);
                    return Ok(());
                }
                Err(error) if error.kind() == ErrorKind::AlreadyExists => return Err(taken(&path)),
                // As where /proc is missing. What has no name cannot get one then, and is written once more.
                Err(_) => self.write_named(name, bytes)?,
            },
        };
        self.rename(&part, path)
    }

    /// The same for a file that has another name. A `rename` alone would overwrite what the other run has written; a link
    /// does it in one step.
    fn rename(&mut self, part: &Path, path: PathBuf) -> Result<(), Failure> {
        match fs::hard_link(part, &path) {
            Ok(()) => {
                self.made.push(path.clone());
                fs::remove_file(part).map_err(|error| failed("write", &path, &error))?;
            }
            Err(error) if error.kind() == ErrorKind::AlreadyExists => return Err(taken(&path)),
            Err(_) => self.take_name(part, &path)?,
        }
        self.made.retain(|made| made != part);
        Ok(())
    }

    /// The same on a file system without links, as many sticks have: an empty file takes the name, and is replaced.
    fn take_name(&mut self, part: &Path, path: &Path) -> Result<(), Failure> {
        disk::named(path).map_err(|error| match error.kind() {
            ErrorKind::AlreadyExists => taken(path),
            _ => failed("write", path, &error),
        })?;
        self.made.push(path.to_path_buf());
        fs::rename(part, path).map_err(|error| failed("write", path, &error))
    }

    /// Tells what was written, and keeps it: from then on it is safe from a power cut, as far as the file system can promise
    /// that. Where nobody can be told, it is not kept.
    pub fn keep(self, told: &str) -> Done {
        self.sync_folders(disk::cannot_be_synced)?;
        self.tell(told)
    }

    /// The same for who relies on that promise: in a folder that cannot be synced nothing is kept.
    pub fn keep_synced(self, told: &str) -> Done {
        self.sync_folders(|_| false)?;
        self.tell(told)
    }

    /// Makes the names of the files, and that of a folder that was made for them, safe from a power cut.
    fn sync_folders(&self, excused: fn(&io::Error) -> bool) -> Done {
        let parent = self.folder.parent().filter(|_| self.new_folder);
        for folder in [Some(&*self.folder), parent].into_iter().flatten() {
            match disk::sync(folder) {
                Err(error) if !excused(&error) => return Err(not_synced(folder, &error)),
                _ => {}
            }
        }
        Ok(())
    }

    fn tell(mut self, told: &str) -> Done {
        // A signal that comes later is too late: the files are announced.
        interrupt::check()?;
        say(told)?;
        self.made.clear();
        self.new_folder = false;
        Ok(())
    }
}

impl Drop for Output {
    fn drop(&mut self) {
        // Nothing more can be done about a file that cannot be removed.
        for path in &self.made {
            let _ = fs::remove_file(path);
        }
        if self.new_folder {
            let _ = fs::remove_dir(&self.folder);
        }
    }
}

fn taken(path: &Path) -> Failure {
    Failure::File(format!("{path:?} exists already, and nothing is overwritten"))
}

fn free(path: &Path) -> Result<(), Failure> {
    match fs::symlink_metadata(path) {
        Ok(_) => Err(taken(path)),
        Err(error) if error.kind() == ErrorKind::NotFound => Ok(()),
        Err(error) => Err(failed("write", path, &error)),
    }
}
