//! The commands. Those on archives stand in `archive`, those on pools of keys in `pool_commands`, those that split and open
//! messages in `split` and `reconstruct`, those that look after shares in `rebuild`, and the one on schemes in
//! `scheme_command`.

use crate::arguments::{ask_for_help, is_help, paths, usage, Arguments};
use crate::failure::{Done, Failure};
use crate::files::read;
use crate::form::Form;
use crate::report::{counted, say};
use crate::scheme::Scheme;
use crate::standard::check_once;
use crate::target::Target;
use crate::told::Told;
use crate::{archive, help, pool_commands, rebuild, reconstruct, scheme_command, split};
use gilunavoi::raw;
use std::ffi::OsString;

/// A command's name, its help, the options it knows and what it does.
struct Command {
    name: &'static str,
    help: fn() -> String,
    options: &'static [&'static str],
    run: fn(&Arguments) -> Done,
}

const COMMANDS: [Command; 8] = [
    Command {
        name: "scheme",
        help: help::scheme,
        options: &["--range", "--first", "--length", "--unpadded", "--checked", "--picture"],
        run: scheme_command::run,
    },
    Command { name: "pool", help: help::pool, options: &[], run: pool_commands::run },
    Command {
        name: "split",
        help: help::split,
        options: &["--scheme", "--unpadded", "--checked", "--label", "--pool"],
        run: split::run,
    },
    Command {
        name: "prefix",
        help: help::prefix,
        options: &["--about", "--scheme", "--length", "--readers"],
        run: prefix,
    },
    Command {
        name: "reconstruct",
        help: help::reconstruct,
        options: &["--about", "--scheme", "--length", "--checked", "--range", "--first"],
        run: reconstruct::run,
    },
    Command {
        name: "rebuild",
        help: help::rebuild,
        options: &["--about", "--scheme", "--party", "--held"],
        run: rebuild::run,
    },
    Command { name: "check", help: help::check, options: &["--about", "--scheme"], run: rebuild::check },
    Command { name: "archive", help: help::archive, options: &[], run: archive::run },
];

pub fn run(words: Vec<OsString>) -> Done {
    let Some((first, rest)) = words.split_first() else {
        return usage(
            "a command is missing: scheme, pool, split, prefix, reconstruct, rebuild, check or archive".to_string(),
        );
    };
    if is_help(first) {
        return say(&help::all());
    }
    if first == "--version" {
        return version(rest);
    }
    let Some(command) = COMMANDS.iter().find(|command| first == command.name) else {
        return usage(format!("there is no command {first:?}"));
    };
    if ask_for_help(rest, command.options) {
        return say(&(command.help)());
    }
    (command.run)(&Arguments::new(rest, command.options)?)
}

fn version(rest: &[OsString]) -> Done {
    match rest.first() {
        Some(word) => usage(format!("--version stands alone, and {word:?} was given after it")),
        None => say(concat!("sharing ", env!("CARGO_PKG_VERSION"), "\n")),
    }
}

fn prefix(arguments: &Arguments) -> Done {
    let [share, out] = paths(&arguments.words, ["SHARE", "OUT"])?;
    let target = Target::new(&out)?;
    let d = arguments.number("--readers")?;
    check_once(arguments.file_options().chain([share.as_path()]))?;
    let told = Told::of(arguments)?;
    let block = told.scheme.check()?;
    let share = read(share)?;
    let Scheme { n, r, z, ref counts, .. } = told.scheme;
    let answer = match told.form {
        Form::Padded => raw::prefix_padded(n, r, z, counts, d, &share.bytes),
        Form::Told(length) => raw::prefix(n, r, z, counts, length, d, &share.bytes),
    };
    let bytes = answer.map_err(|number| match (number, told.form) {
        (5, Form::Told(length)) => Failure::Refused(5, told.length(length)),
        (9, _) => told.wrong_length(&block, block.rows, "a share", &share),
        _ => Failure::Refused(number, format!("--readers is {d}, and the scheme is {}", told.scheme)),
    })?;
    let prefix = &share.bytes[..bytes as usize];
    let (bytes, whole, used) = (counted(prefix.len(), "byte"), share.bytes.len(), told.scheme.used_by_readers());
    let there = target.there();
    target.put(prefix, &format!("The prefix, {bytes} of {whole}, is {there}.\nThe scheme is {used}.\n"))
}
