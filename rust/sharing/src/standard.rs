//! Standard input and output, which `-` names in the place of a file.

use crate::arguments::usage;
use crate::failure::{Done, Failure};
use std::io::Write;
use std::path::Path;
use std::sync::atomic::{AtomicI32, Ordering};

const INPUT: usize = 0;
const OUTPUT: usize = 1;

/// The flags that standard input and standard output had when the program was started, or -1 of one that was closed.
static FLAGS: [AtomicI32; 2] = [AtomicI32::new(BOTH), AtomicI32::new(BOTH)];

const CLOSED: i32 = -1;

/// In which directions a file is open. One is numbered as standard input or output is.
const DIRECTIONS: i32 = 3;
const BOTH: i32 = 2;

extern "C" {
    fn fcntl(file: i32, command: i32, ...) -> i32;
}

extern "C" fn look() {
    const GET_FLAGS: i32 = 3;
    for (file, flags) in FLAGS.iter().enumerate() {
        // SAFETY: this command takes nothing else, changes nothing and may be given any number: of a file that is not open
        // it answers -1. Nothing of Rust has to be ready for it, nor for a store into a static variable.
        flags.store(unsafe { fcntl(file as i32, GET_FLAGS) }, Ordering::Relaxed);
    }
}

/// What is closed Rust opens as /dev/null before `main`, and what is open in the other direction alone it takes for that:
/// all that is written would seem to arrive, and nothing would seem to be an empty file. What stands in this section runs
/// earlier.
#[used]
#[link_section = ".init_array"]
static LOOK: extern "C" fn() = look;

/// Does this path name standard input or output? A file of that name is given as `./-`.
pub fn is_standard(path: &Path) -> bool {
    path.as_os_str() == "-"
}

/// A file that is read, for a report or a failure.
pub fn named(path: &Path) -> String {
    if is_standard(path) {
        "standard input".to_string()
    } else {
        format!("{path:?}")
    }
}

/// Refuses a command line with two files that would be read from standard input: the second would be empty.
pub fn check_once<'a>(inputs: impl IntoIterator<Item = &'a Path>) -> Done {
    if inputs.into_iter().filter(|path| is_standard(path)).count() > 1 {
        return usage("- stands for standard input, which can be read once; a file of that name is ./-".to_string());
    }
    Ok(())
}

/// Refuses `-` for a folder, which is neither read nor written as a file is.
pub fn check_folder(folder: &Path, name: &str) -> Done {
    if is_standard(folder) {
        return usage(format!("{name} cannot be -: it is a folder; one of that name is ./-"));
    }
    Ok(())
}

/// Says of one of the two why it cannot serve its purpose: it was closed, or open in the other direction alone.
fn check_open(file: usize, purpose: &str) -> Result<(), String> {
    match FLAGS[file].load(Ordering::Relaxed) {
        CLOSED => Err("it is closed".to_string()),
        flags if ![file as i32, BOTH].contains(&(flags & DIRECTIONS)) => Err(format!("it is not open for {purpose}")),
        _ => Ok(()),
    }
}

pub fn input() -> Result<std::io::Stdin, Failure> {
    let open = check_open(INPUT, "reading").map(|()| std::io::stdin());
    open.map_err(|reason| Failure::File(format!("cannot read standard input: {reason}")))
}

/// Writes all of it, where `print!` would end the program if nobody reads.
pub fn write(bytes: &[u8]) -> Done {
    let written = check_open(OUTPUT, "writing").and_then(|()| {
        let mut out = std::io::stdout();
        out.write_all(bytes).and_then(|()| out.flush()).map_err(|error| error.to_string())
    });
    written.map_err(|reason| Failure::File(format!("cannot write to standard output: {reason}")))
}
