//! The commands that make a pool of keys and look at it. `split` takes keys out of it.

use crate::arguments::{paths, usage, Arguments};
use crate::failure::{Done, Failure};
use crate::files::{read_up_to, Input, Output};
use crate::pool::{check_no_pool, has_zeros, Pool, KEYS, LONGEST, RECORD};
use crate::record::text;
use crate::report::{counted, say};
use crate::standard::{check_folder, is_standard};
use gilunavoi::raw::KeyPool;
use std::ffi::OsString;

pub fn run(arguments: &Arguments) -> Done {
    let Some((action, words)) = arguments.words.split_first() else {
        return usage("after pool one of new and status is missing".to_string());
    };
    match action.to_str() {
        Some("new") => new(words),
        Some("status") => status(words),
        _ => usage(format!("pool has no command {action:?}: there are new and status")),
    }
}

/// Refuses a file of which no pool can be made.
fn check(keys: &Input) -> Done {
    let why = if keys.bytes.is_empty() {
        "a pool needs at least one key byte"
    } else if keys.is_too_long() {
        "a pool takes no more"
    } else if has_zeros(&keys.bytes) {
        "it has six zeros in a row: these are no keys, or keys that were used and overwritten"
    } else {
        return Ok(());
    };
    Err(Failure::File(format!("{keys}, and {why}")))
}

/// What is to be done about the bytes that a pool was made of.
fn destroy(keys: &Input) -> String {
    if is_standard(&keys.path) {
        return "Keep nothing of what came on standard input: its bytes are in the pool".to_string();
    }
    format!("Destroy {:?} now: its bytes are in the pool", keys.path)
}

fn new(words: &[OsString]) -> Done {
    let [folder, keys] = paths(words, ["POOL", "KEYFILE"])?;
    check_folder(&folder, "POOL")?;
    check_no_pool(&keys)?;
    let keys = read_up_to(LONGEST, keys)?;
    check(&keys)?;
    let record = text(&KeyPool { length: keys.bytes.len(), position: 0 });
    // The record comes last: without it a pool cannot be used.
    let mut output = Output::in_new_folder(&folder, [KEYS, RECORD].map(OsString::from).to_vec())?;
    output.write(&[&keys.bytes, record.as_bytes()])?;
    let bytes = counted(keys.bytes.len(), "key byte");
    let told = destroy(&keys);
    output.keep_synced(&format!(
        "The pool {folder:?} is loaded with {bytes}.\n{told}, and a second pool made of it would use them twice.\n"
    ))
}

fn status(words: &[OsString]) -> Done {
    let [folder] = paths(words, ["POOL"])?;
    check_folder(&folder, "POOL")?;
    let pool = Pool::to_look_at(&folder)?;
    pool.check()?;
    let KeyPool { length, position } = pool.record();
    say(&format!("{}.\n", pool.told(&format!("{length} loaded, {position} used"))))
}
