//! The check that split --checked puts behind a message: its SHA-256.
//!
//! The digest comes from the command `sha256sum` and is not made here. Cryptography is better not written once more, and a
//! library would tie the program to one version of it, while coreutils, or busybox, is on every machine that the program is
//! installed on. And an office can look for itself: `head -c -32 opened | sha256sum`.

use crate::failure::Failure;
use gilunavoi::limits::MAX_MESSAGE;
use std::io::{self, ErrorKind, Write};
use std::process::{Command, Output, Stdio};
use std::thread;

const COMMAND: &str = "sha256sum";

/// What an about file calls the check.
pub const NAME: &str = "sha256";

/// The bytes of the check.
pub const LENGTH: usize = 32;

/// The longest message that has one.
pub const LONGEST_MESSAGE: usize = MAX_MESSAGE - LENGTH;

/// What is said of a message that is refused for its length with its check. To the library both together are the message, which
/// may be longer than this one.
pub fn too_long(given: &str) -> String {
    format!("{given}, and the check takes {LENGTH} more: with --checked a message has at most {LONGEST_MESSAGE}")
}

/// The message and its check. Both are split, so that the check is as secret as the message: from a digest beside the
/// shares a single party could find out which of some messages it is.
pub fn with_check(message: &[u8]) -> Result<Vec<u8>, Failure> {
    Ok([message, &sha256(message)?].concat())
}

/// The message without its check, if that fits. The two are compared byte by byte, in any time: who opens has all of the
/// message, and nothing is left to find out.
pub fn without_check(mut opened: Vec<u8>) -> Result<Option<Vec<u8>>, Failure> {
    let Some(end) = opened.len().checked_sub(LENGTH) else {
        return Ok(None);
    };
    let check = opened.split_off(end);
    let digest = sha256(&opened).map_err(|failure| Failure::Besides(Box::new(failure), without_looking()))?;
    Ok((digest == check[..]).then_some(opened))
}

/// What opens a message where no check can be made: who needs it now must not depend on the command.
fn without_looking() -> String {
    format!(
        "to open the message all the same, give neither --about nor --checked, but --scheme and, in the earlier form, \
         --length, as the about file has them: the last {LENGTH} bytes are then the check, and nothing was held against it"
    )
}

/// A text whose SHA-256 is known, from FIPS 180, and that digest.
const KNOWN: &[u8] = b"abc";
#[rustfmt::skip]
const DIGEST_OF_KNOWN: [u8; LENGTH] = [
    0xba, 0x78, 0x16, 0xbf, 0x8f, 0x01, 0xcf, 0xea, 0x41, 0x41, 0x40, 0xde, 0x5d, 0xae, 0x22, 0x23,
    0xb0, 0x03, 0x61, 0xa3, 0x96, 0x17, 0x7a, 0x9c, 0xb4, 0x10, 0xff, 0x61, 0xf2, 0x00, 0x15, 0xad,
];

/// The command is tried with a known text first: one that answers something else would make checks that nobody else can
/// look at, or let everything pass.
fn sha256(bytes: &[u8]) -> Result<[u8; LENGTH], Failure> {
    if digest_by_command(KNOWN)? != DIGEST_OF_KNOWN {
        return Err(fails("answers another digest than SHA-256 for a known text"));
    }
    digest_by_command(bytes)
}

fn fails(why: &str) -> Failure {
    Failure::File(format!("the check cannot be made: {COMMAND} {why}"))
}

fn digest_by_command(bytes: &[u8]) -> Result<[u8; LENGTH], Failure> {
    let (output, fed) = run(bytes).map_err(|error| fails(&format!("cannot be run: {error}")))?;
    // A command that fails need not have read its input, and its status says more.
    if !output.status.success() {
        return Err(fails(&format!("failed, with {}", output.status)));
    }
    fed.map_err(|error| match error.kind() {
        ErrorKind::BrokenPipe => fails("did not read its input"),
        _ => fails(&format!("cannot be given its input: {error}")),
    })?;
    parse(&output.stdout).ok_or_else(|| fails("answered no digest"))
}

/// Runs the command that the path finds, with these bytes on its standard input: what it answered, and whether all of them
/// could be written.
fn run(bytes: &[u8]) -> io::Result<(Output, io::Result<()>)> {
    let mut command = Command::new(COMMAND);
    let mut child = command.stdin(Stdio::piped()).stdout(Stdio::piped()).stderr(Stdio::null()).spawn()?;
    let input = child.stdin.take();
    let feed = move || input.map_or(Ok(()), |mut input| input.write_all(bytes));
    thread::scope(|scope| {
        // From another thread, so that neither waits for the other whatever the command does with its input. Where there can
        // be no thread, the input is closed with what would have written it, and the command comes to its end.
        let feed = thread::Builder::new().spawn_scoped(scope, feed);
        let output = child.wait_with_output()?;
        let fed = feed?.join().unwrap_or_else(|_| Err(io::Error::other("its input was not written")));
        Ok((output, fed))
    })
}

/// The digest at the start of what the command wrote: 64 hexadecimal digits, and then anything but one more.
fn parse(written: &[u8]) -> Option<[u8; LENGTH]> {
    let is_digit = |byte: &u8| byte.is_ascii_hexdigit();
    if written.iter().take_while(|byte| is_digit(byte)).count() != 2 * LENGTH {
        return None;
    }
    let pair = |digits: &[u8]| u8::from_str_radix(std::str::from_utf8(digits).ok()?, 16).ok();
    let bytes: Option<Vec<u8>> = written[..2 * LENGTH].chunks(2).map(pair).collect();
    bytes?.try_into().ok()
}
