//! The program `sharing`: splits a file into shares, cuts prefixes and opens the file again, checks shares and makes a lost
//! one anew, keeps a pool of keys of which each byte is used once, and keeps many shares in one archive. All that is secret
//! sharing, which bytes of a pool come next, and what an archive is, is left to the proved libraries; this program reads
//! files, names refusals in words and writes files.

mod about;
mod archive;
mod arguments;
mod commands;
mod date;
mod digest;
mod failure;
mod files;
mod form;
mod help;
mod interrupt;
mod mix_ups;
mod parties;
mod picture;
mod pool;
mod pool_commands;
mod ramp;
mod range;
mod rebuild;
mod reconstruct;
mod record;
mod report;
mod rows;
mod scheme;
mod scheme_command;
mod split;
mod standard;
mod target;
mod told;

use std::process::ExitCode;

fn main() -> ExitCode {
    interrupt::let_large_files_fail();
    interrupt::leave_no_memory();
    match commands::run(std::env::args_os().skip(1).collect()) {
        Ok(()) => ExitCode::SUCCESS,
        Err(failure) => failure.tell(),
    }
}
