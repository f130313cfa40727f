//! Where a result of one file goes: into a file, or to standard output.

use crate::failure::{Done, Failure};
use crate::files::{Output, Place};
use crate::report::say_aside;
use crate::standard;
use std::fmt;
use std::path::{Path, PathBuf};

pub enum Target {
    File(PathBuf, Place),
    Standard,
}

impl Target {
    pub fn new(path: &Path) -> Result<Target, Failure> {
        if standard::is_standard(path) {
            return Ok(Target::Standard);
        }
        Ok(Target::File(path.to_path_buf(), Place::new(path)?))
    }

    /// Writes the result and tells of it: nothing of it is there before all of it is known to be right. On standard output
    /// it stands alone, so that the next program reads nothing else.
    pub fn put(&self, bytes: &[u8], told: &str) -> Done {
        match self {
            Target::File(_, place) => Output::one_file(place, bytes)?.keep(told),
            Target::Standard => {
                standard::write(bytes)?;
                say_aside(told);
                Ok(())
            }
        }
    }

    /// For a report: after "it is".
    pub fn there(&self) -> String {
        match self {
            Target::File(path, _) => format!("in {path:?}"),
            Target::Standard => "on standard output".to_string(),
        }
    }
}

/// Its name, for a report.
impl fmt::Display for Target {
    fn fmt(&self, f: &mut fmt::Formatter) -> fmt::Result {
        match self {
            Target::File(path, _) => write!(f, "{path:?}"),
            Target::Standard => write!(f, "standard output"),
        }
    }
}
