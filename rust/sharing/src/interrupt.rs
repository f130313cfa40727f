//! Signals that end a program. Once files are being made such a signal is only noted, and looked at between two files,
//! so that what was made is removed first. That a file would grow too large is learnt from the call that fails, and not by
//! the signal for it.

use crate::failure::Failure;
use std::ptr;
use std::sync::atomic::{AtomicI32, Ordering};

/// SIGHUP, SIGINT, SIGQUIT and SIGTERM.
const SIGNALS: [i32; 4] = [1, 2, 3, 15];

/// SIGXFSZ: a file would become longer than the user's limit allows.
const FILE_TOO_LARGE: i32 = 25;

/// What may be done about a signal besides calling a function.
const DEFAULT: usize = 0;
const IGNORE: usize = 1;

/// SA_RESTART: what the signal interrupted goes on.
const RESTART: i32 = 0x1000_0000;

/// `struct sigaction`, as both glibc and musl have it on 64-bit Linux machines of these two kinds.
#[repr(C)]
struct Action {
    handler: usize,
    blocked: [u64; 16],
    flags: i32,
    restorer: usize,
}

#[cfg(not(all(target_os = "linux", any(target_arch = "x86_64", target_arch = "aarch64"))))]
compile_error!("how `struct sigaction` is laid out is known of Linux on x86-64 and aarch64 alone");

/// `struct rlimit`: what holds now, and up to what a program may raise it.
#[repr(C)]
struct Limit {
    now: u64,
    most: u64,
}

/// RLIMIT_CORE: how long the file may be into which the system writes the memory of a program that ends by some signals.
const CORE: i32 = 4;

extern "C" {
    fn sigaction(number: i32, new: *const Action, old: *mut Action) -> i32;
    fn raise(number: i32) -> i32;
    fn setrlimit(resource: i32, limit: *const Limit) -> i32;
}

/// The signal that came, 0 as long as none did.
static NOTED: AtomicI32 = AtomicI32::new(0);

extern "C" fn note(number: i32) {
    NOTED.store(number, Ordering::Relaxed);
}

/// From now on signals are noted. Those that were ignored, as `nohup` does, still are. Asking changes nothing: a signal that
/// comes before it is said what to do about it ends the program, which has made no file yet.
pub fn hold() {
    let note: extern "C" fn(i32) = note;
    for number in SIGNALS {
        if handler(number) != IGNORE {
            handle(number, note as usize);
        }
    }
}

/// What would make a file too large fails, as where a disk is full: that is reported, and what was made is removed. The
/// signal would end the program before that.
pub fn let_large_files_fail() {
    handle(FILE_TOO_LARGE, IGNORE);
}

/// Where SIGQUIT, or a fault, ends the program, its memory is not written to a file: the message and the keys are in it. With
/// a limit of 1 there is no such file, nor is the memory handed to a program that collects them, which 0 would allow.
pub fn leave_no_memory() {
    let limit = Limit { now: 1, most: 1 };
    // SAFETY: the limit has the layout that is expected, and is only read. Where it is refused, all is as it was.
    unsafe { setrlimit(CORE, &limit) };
}

/// What is done about a signal.
fn handler(number: i32) -> usize {
    let mut old = Action { handler: DEFAULT, blocked: [0; 16], flags: 0, restorer: 0 };
    // SAFETY: without a new action only the old one is written, into a variable that has its layout.
    unsafe { sigaction(number, ptr::null(), &mut old) };
    old.handler
}

fn handle(number: i32, handler: usize) {
    let new = Action { handler, blocked: [0; 16], flags: RESTART, restorer: 0 };
    // SAFETY: the action has the layout that is expected, and is only read. Its handler is the default, none, or `note`, which
    // takes a number and stores it in one step, as a handler may at any time.
    unsafe { sigaction(number, &new, ptr::null_mut()) };
}

pub fn check() -> Result<(), Failure> {
    match NOTED.load(Ordering::Relaxed) {
        0 => Ok(()),
        number => Err(Failure::Interrupted(number)),
    }
}

/// Ends the program as the signal would have done, so that a script that runs it ends as well.
pub fn end(number: i32) {
    handle(number, DEFAULT);
    // SAFETY: it has no conditions; a number that is no signal would be refused.
    unsafe { raise(number) };
}
