//! Why a command did not succeed, and the words for it.

use crate::interrupt;
use crate::report::note;
use gilunavoi::Refusal;
use std::fmt;
use std::process::ExitCode;

pub type Done = Result<(), Failure>;

pub enum Failure {
    /// The command line cannot be understood.
    Usage(String),
    /// A library refused: the number, and what was given or is needed.
    Refused(u64, String),
    /// A file could not be read or written, or what was read is not what it has to be.
    File(String),
    /// The signal of this number came while files were being written.
    Interrupted(i32),
    /// One of these, and what is true all the same.
    Besides(Box<Failure>, String),
}

/// The numbers and reasons of all refusals.
pub fn refusals() -> impl Iterator<Item = (u64, String)> {
    (1..).map_while(|number| Some((number, Refusal::from_number(number)?.to_string())))
}

fn reason(number: u64) -> String {
    let known = Refusal::from_number(number);
    known.map_or("for a reason that this program does not know".to_string(), |refusal| refusal.to_string())
}

impl fmt::Display for Failure {
    fn fmt(&self, f: &mut fmt::Formatter) -> fmt::Result {
        match self {
            Failure::Usage(text) => write!(f, "{text}\n(sharing --help says how it is used)"),
            Failure::Refused(number, detail) => write!(f, "refused ({number}): {}\n{detail}", reason(*number)),
            Failure::File(text) => write!(f, "{text}"),
            Failure::Interrupted(_) => write!(f, "interrupted, and nothing is kept of what was written"),
            Failure::Besides(failure, fact) => write!(f, "{failure}\n{fact}"),
        }
    }
}

impl Failure {
    /// Says on standard error what failed, and gives the program's exit status. A signal ends the program here.
    pub fn tell(&self) -> ExitCode {
        // Where standard error cannot be written either, the exit status still tells.
        note(&self.to_string());
        self.end()
    }

    fn end(&self) -> ExitCode {
        match self {
            Failure::Usage(_) => return ExitCode::from(2),
            Failure::Interrupted(number) => interrupt::end(*number),
            Failure::Besides(failure, _) => return failure.end(),
            Failure::Refused(..) | Failure::File(_) => {}
        }
        ExitCode::from(1)
    }
}
