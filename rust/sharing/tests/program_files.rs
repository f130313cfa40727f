//! How the program `sharing` writes files, whatever the command: safe on the disk before anything is said of them, whole or
//! not at all whatever stops it and wherever it writes, over no other file, and readable for their owner.

use folder::{text, Folder};
use shares_folder::of;
use std::fs;
use std::os::unix::fs::PermissionsExt;
use std::os::unix::process::ExitStatusExt;
use std::path::PathBuf;
use stop::{Run, Stop};

// Of what a folder can do, not all is needed here.
#[allow(dead_code)]
mod folder;
mod shares_folder;
mod stop;

/// The three ways of giving files their names: to files without one; by links; by renaming.
const WAYS: [&str; 3] = ["", " no-tmpfile", " no-tmpfile no-links"];

/// The signals that are noted, as modes and as numbers.
const SIGNALS: [(&str, i32); 4] = [("hup", 1), ("int", 2), ("quit", 3), ("term", 15)];

const SPLIT: &str = "split message keys new";

/// A folder in which every command that writes files can be run, and writes `new`.
struct Trial {
    folder: Folder,
    stop: Stop,
}

impl Trial {
    fn new(test: &str) -> Trial {
        let folder = shares_folder::folder_with_shares(&format!("durable-{test}"));
        folder.says("archive write archive shares/share-1 shares/share-2");
        fs::create_dir(folder.0.join("out")).expect("a new folder");
        Trial { folder, stop: Stop::new(&format!("durable-{test}")) }
    }

    fn lines() -> [String; 8] {
        let one = |parties: &[usize], line: &str| format!("{line}{}", of(parties));
        [
            SPLIT.to_string(),
            "pool new new keys".to_string(),
            "prefix --readers 3 shares/share-1 new".to_string(),
            one(&[1, 2, 3], "reconstruct new"),
            one(&[2, 3, 4], "rebuild --party 1 new"),
            "archive write new shares/share-1".to_string(),
            "archive entry archive 1 new".to_string(),
            "scheme --picture new".to_string(),
        ]
    }

    /// A run in which `new` is not there yet.
    fn run(&self, line: &str, mode: &str, at: usize) -> Run {
        self.folder.remove("new");
        self.stop.run(&self.folder, line, mode, at)
    }

    /// What `new` is: its names, and what stands in them.
    fn made(&self) -> Vec<(String, Vec<u8>)> {
        let path = self.folder.0.join("new");
        let Ok(entries) = fs::read_dir(&path) else {
            return fs::read(path).map(|bytes| ("new".to_string(), bytes)).into_iter().collect();
        };
        let entries = entries.map(|entry| entry.expect("an entry").file_name().into_string().expect("text"));
        let mut made: Vec<_> = entries.map(|name| (name.clone(), self.folder.bytes(&format!("new/{name}")))).collect();
        made.sort();
        made
    }

    /// What a run of this line makes that nothing stops, and its calls.
    fn whole(&self, line: &str, way: &str) -> (Vec<(String, Vec<u8>)>, Vec<String>) {
        let run = self.run(line, &format!("none{way}"), 0);
        assert!(run.output.status.success(), "{line}: {}", text(&run.output.stderr));
        (self.made(), run.calls)
    }

    /// There are no other names than those that a test has put there.
    fn nothing_is_left(&self, before: &[PathBuf], line: &str) {
        assert_eq!(self.folder.names(), before, "{line}");
    }
}

fn failed(run: &Run) -> String {
    assert_eq!((run.output.status.code(), text(&run.output.stdout)), (Some(1), String::new()));
    text(&run.output.stderr)
}

/// The folder is synced between the last name and the report, and so is the one in which it was made itself.
#[test]
fn names_are_safe_before_the_report() {
    let trial = Trial::new("synced");
    for line in Trial::lines() {
        let safe: &[&str] =
            if line.contains("split") || line.contains("pool") { &["fsync new", "fsync ."] } else { &["fsync ."] };
        for (way, name) in WAYS.iter().zip(["link", "unlink", "rename"]) {
            let (made, calls) = trial.whole(&line, way);
            let expected = [safe, &["write output"]].concat();
            let (before, end) = calls.split_at(calls.len() - expected.len());
            assert_eq!(end, expected, "{line}");
            assert!(before.last().is_some_and(|call| call.starts_with(name)), "{line}: {before:?}");
            // All files are written and synced before the first one has its name.
            let first = before.iter().position(|call| call.starts_with("link") || call.starts_with("rename"));
            let (written, named) = before.split_at(first.expect("a name"));
            assert_eq!(written.iter().filter(|call| call.starts_with("fsync")).count(), made.len(), "{line}");
            assert!(!named.iter().any(|call| call.starts_with("write")), "{line}: {named:?}");
        }
    }
    // In another folder, and in one that was there.
    trial.folder.remove("new");
    let calls = trial.stop.run(&trial.folder, "prefix --readers 3 shares/share-1 out/new", "none", 0).calls;
    assert_eq!(calls[calls.len() - 2..], ["fsync out", "write output"]);
    let calls = trial.stop.run(&trial.folder, "split message keys out", "none", 0).calls;
    assert_eq!(calls[calls.len() - 2..], ["fsync out", "write output"]);
    assert!(!calls.contains(&"fsync .".to_string()), "{calls:?}");
}

/// Killed after each call, and in the middle of each that writes: nothing is left but files that are whole and have their
/// names, and the folder.
#[test]
fn killed_at_each_call() {
    let trial = Trial::new("killed");
    trial.folder.remove("new");
    let before = trial.folder.names();
    let mut left = 0;
    for line in Trial::lines() {
        let (made, calls) = trial.whole(&line, "");
        for (at, call) in (1..).zip(&calls) {
            for mode in if call.starts_with("write") { &["kill", "tear"][..] } else { &["kill"] } {
                let run = trial.run(&line, mode, at);
                assert_eq!((run.output.status.signal(), &run.calls[..]), (Some(9), &calls[..at]), "{line}");
                let named = calls[..at].iter().filter(|call| call.starts_with("link")).count();
                let left_over = trial.made();
                assert_eq!(left_over.len(), named, "{line}: {call}");
                assert!(left_over.iter().all(|file| made.contains(file)), "{line}: {call}");
                left += (named > 0) as usize;
                trial.folder.remove("new");
                trial.nothing_is_left(&before, &line);
            }
        }
    }
    assert!(left >= 30, "{left} runs left files");
}

/// Without files that have no name a kill leaves parts of them under names that tell what they are, and never an own name of
/// a file that is not whole. Without links an empty file can have it.
#[test]
fn killed_where_files_have_another_name_first() {
    let trial = Trial::new("killed-parts");
    let mut parts = 0;
    for way in &WAYS[1..] {
        let (made, calls) = trial.whole(SPLIT, way);
        for at in 1..=calls.len() {
            let run = trial.run(SPLIT, &format!("tear{way}"), at);
            assert_eq!(run.output.status.signal(), Some(9));
            for (name, bytes) in trial.made() {
                let (party, part) = match name.strip_prefix('.') {
                    Some(part) => (part.split('.').next().expect("a name").to_string(), true),
                    None => (name, false),
                };
                let (_, whole) = made.iter().find(|(name, _)| *name == party).expect("a share");
                let empty = way.contains("no-links") && bytes.is_empty();
                assert!(if part { whole.starts_with(&bytes) } else { *whole == bytes || empty }, "{party}");
                parts += part as usize;
            }
        }
    }
    assert!(parts >= 100, "{parts} parts");
}

/// Another process takes the name, before any of the calls: one of the two has it in the end, and the other's files are all
/// there or none.
#[test]
fn a_name_that_another_run_takes() {
    let trial = Trial::new("taken");
    for (line, wanted) in [(SPLIT, "new/share-4"), (&Trial::lines()[2], "new")] {
        for way in WAYS {
            let (made, calls) = trial.whole(line, way);
            let (mut ours, mut theirs) = (0, 0);
            for at in 1..=calls.len() {
                trial.folder.remove("new");
                let shell = format!("STOP_WANTED={wanted}; export STOP_WANTED; exec \"$@\"");
                let run = trial.stop.run_in_shell(&trial.folder, &shell, line, &format!("taken{way}"), at);
                if run.output.status.success() {
                    assert_eq!(trial.made(), made);
                    ours += 1;
                } else {
                    let said = failed(&run);
                    let exists = format!("sharing: {wanted:?} exists already, and nothing is overwritten\n");
                    assert_eq!(said, exists, "{line}{way}, {:?}", run.calls);
                    assert_eq!(trial.made(), [(wanted.replace("new/", ""), b"theirs".to_vec())]);
                    theirs += 1;
                }
            }
            assert!(ours >= 2 && theirs >= 3, "{line}{way}: {ours} {theirs}");
        }
    }
}

/// Where files can be made without a name and then cannot get one, as without /proc, they are written once more.
#[test]
fn without_a_way_to_name_them() {
    let trial = Trial::new("no-proc");
    for line in Trial::lines() {
        let (made, _) = trial.whole(&line, "");
        for way in [" no-proc", " no-proc no-links"] {
            let (again, calls) = trial.whole(&line, way);
            assert_eq!(again, made, "{line}");
            let parts = calls.iter().filter(|call| call.starts_with("open ") && call.ends_with(".part")).count();
            assert_eq!(parts, made.len(), "{line}: {calls:?}");
        }
    }
}

/// What stands under the name that a file is to have at first is left there, and nothing else is.
#[test]
fn another_file_in_the_way() {
    let trial = Trial::new("in-the-way");
    trial.folder.remove("new");
    let before = trial.folder.names();
    let shell = "mkdir new; : >new/.share-3.$$.part; exec \"$@\"";
    let said = failed(&trial.stop.run_in_shell(&trial.folder, shell, SPLIT, "none no-tmpfile", 0));
    assert!(said.starts_with("sharing: cannot write \"new/share-3\": \"new/.share-3."), "{said}");
    assert!(said.ends_with(".part\" is in the way\n"), "{said}");
    assert_eq!(trial.folder.names().len(), before.len() + 2, "the folder and the file that stood in the way");
}

/// A folder that cannot be synced or read is no reason to keep nothing; a disk that fails is.
#[test]
fn folders_that_cannot_be_synced() {
    let trial = Trial::new("no-sync");
    trial.folder.remove("new");
    let before = trial.folder.names();
    for line in Trial::lines().into_iter().filter(|line| !line.starts_with("pool")) {
        let folders = if line == SPLIT { 2 } else { 1 };
        let (made, calls) = trial.whole(&line, "");
        for way in [" no-sync", " no-reading"] {
            let (again, fewer) = trial.whole(&line, way);
            assert_eq!(again, made, "{line}");
            assert_eq!(calls.len() - fewer.len(), folders, "{fewer:?}");
        }
        for at in calls.len() - folders..calls.len() {
            let said = failed(&trial.run(&line, "fail", at));
            assert!(said.starts_with("sharing: cannot sync the folder "), "{said}");
            trial.nothing_is_left(&before, &line);
        }
    }
}

/// A signal of each kind at each call: as long as nothing was said the run ends by it and leaves nothing, be it that all
/// files have their names, and afterwards it is too late.
#[test]
fn interrupted_at_each_call() {
    let trial = Trial::new("interrupted");
    trial.folder.remove("new");
    let before = trial.folder.names();
    for line in Trial::lines() {
        for way in &WAYS[..if line == SPLIT { 3 } else { 1 }] {
            let (made, calls) = trial.whole(&line, way);
            // They differ in nothing but their numbers, so that all of them once are enough.
            let signals = if line == SPLIT && way.is_empty() { &SIGNALS[..] } else { &SIGNALS[3..] };
            for &(mode, signal) in signals {
                let run = |at| trial.run(&line, &format!("{mode}{way}"), at);
                for at in 1..calls.len() {
                    let Run { output, calls } = run(at);
                    let ended = (output.status.signal(), text(&output.stdout), text(&output.stderr));
                    let said = "sharing: interrupted, and nothing is kept of what was written\n".to_string();
                    assert_eq!(ended, (Some(signal), String::new(), said), "{line}: {}", calls[at - 1]);
                    trial.nothing_is_left(&before, &line);
                    // No other file is begun, and none gets its name.
                    let goes_on = |call: &String| call.starts_with("open") || call.starts_with("link");
                    assert!(!calls[at..].iter().any(goes_on), "{line}: {calls:?}");
                }
                let Run { output, .. } = run(calls.len());
                assert_eq!((output.status.code(), text(&output.stderr)), (Some(0), String::new()));
                assert_eq!(trial.made(), made);
            }
        }
    }
}

/// A signal that comes while the program says what is to be done about it is not lost either.
#[test]
fn a_signal_at_the_start() {
    let trial = Trial::new("early");
    trial.folder.remove("new");
    let before = trial.folder.names();
    for (mode, signal) in SIGNALS {
        let mut ends = 0;
        for at in 1..20 {
            let run = trial.run(SPLIT, &format!("{mode} early"), at);
            if run.output.status.success() {
                break;
            }
            assert_eq!((run.output.status.signal(), text(&run.output.stdout)), (Some(signal), String::new()), "{mode}");
            trial.nothing_is_left(&before, SPLIT);
            ends += 1;
        }
        assert!((2..9).contains(&ends), "{mode}: {ends}");
    }
}

/// The memory of a run that SIGQUIT ends has the message in it: it is not written to a file, be that what the user's limit
/// allows.
#[test]
fn no_memory_is_left() {
    let trial = Trial::new("memory");
    trial.folder.remove("new");
    let before = trial.folder.names();
    for at in [1, 3] {
        let run = trial.stop.run_in_shell(&trial.folder, "ulimit -c unlimited || :; exec \"$@\"", SPLIT, "quit", at);
        let status = run.output.status;
        assert_eq!((status.signal(), status.core_dumped()), (Some(3), false), "{}", text(&run.output.stderr));
        trial.nothing_is_left(&before, SPLIT);
    }
}

/// A limit on the length of files, which the system tells by a signal of its own: what is too long fails, and nothing is
/// left of what was written before. Of a pool the keys stay used, and are overwritten by the next run.
#[test]
fn files_that_may_not_be_so_long() {
    let folder = Folder::new("too-large");
    // A share has 1206 bytes then, and a block of the limit is 512 or 1024.
    folder.write("message", 1200);
    for name in ["keys", "drawn"] {
        folder.write(name, 2412);
    }
    folder.says("pool new pool drawn");
    let left = folder.names();
    for (line, words) in [
        ("split message keys new", "sharing: cannot write \"new/share-1\": File too large"),
        ("pool new new keys", "sharing: cannot write \"new/keys\": File too large"),
        ("prefix --readers 3 message - >out", "sharing: cannot write to standard output: File too large"),
        ("split --pool pool message new", "Key bytes of the pool \"pool\": 2412 used all the same, 0 left\n"),
    ] {
        folder.shell_fails(&format!("ulimit -f 1; exec \"$0\" {line}"), words);
        folder.remove("out");
        assert_eq!(folder.names(), left, "{line}");
    }
    folder.write("none", 0);
    folder.says("split --unpadded --pool pool none new");
    assert_eq!(folder.bytes("pool/keys"), [0; 2412]);
}

/// Who starts the program can say that signals are to be ignored: then the run comes to its end.
#[test]
fn ignored_signals() {
    let trial = Trial::new("ignored");
    let (made, calls) = trial.whole(SPLIT, "");
    let trap = "trap '' HUP INT QUIT TERM; exec \"$@\"";
    for (shell, mode) in [("nohup \"$@\"", "hup"), (trap, "hup"), (trap, "int"), (trap, "quit"), (trap, "term")] {
        for at in [1, 2, calls.len() - 4, calls.len() - 1, calls.len()] {
            trial.folder.remove("new");
            let run = trial.stop.run_in_shell(&trial.folder, shell, SPLIT, mode, at);
            assert_eq!(run.output.status.code(), Some(0), "{shell}, {mode}: {}", text(&run.output.stderr));
            assert!(text(&run.output.stdout).starts_with("5 shares"), "{}", text(&run.output.stdout));
            assert_eq!(trial.made(), made);
        }
    }
}

/// A umask that takes rights from the owner too does not make files that nobody can read.
#[test]
fn a_umask_that_takes_the_owners_rights() {
    let trial = Trial::new("umask");
    let mode = |name: &str| fs::metadata(trial.folder.0.join(name)).expect("a file").permissions().mode() & 0o7777;
    for line in Trial::lines() {
        for way in WAYS {
            let (made, _) = trial.whole(&line, way);
            for umask in ["777", "0277", "0577", "0"] {
                trial.folder.remove("new");
                let shell = format!("umask {umask}; exec \"$@\"");
                let run = trial.stop.run_in_shell(&trial.folder, &shell, &line, &format!("none{way}"), 0);
                assert!(run.output.status.success(), "{line}: {}", text(&run.output.stderr));
                assert_eq!(trial.made(), made, "{line}");
                if made.len() == 1 {
                    assert_eq!(mode("new"), 0o600, "{line}{way}");
                } else {
                    assert_eq!(mode("new"), 0o700, "{line}{way}");
                    made.iter().for_each(|(name, _)| assert_eq!(mode(&format!("new/{name}")), 0o600, "{line}{way}"));
                }
            }
        }
    }
    // The record of a pool is written again by each split. Rights are asked for only where they are missing.
    let line = "split --pool pool message new";
    trial.folder.says("pool new pool keys");
    trial.folder.remove("new");
    let calls = trial.stop.run_in_shell(&trial.folder, "umask 777; exec \"$@\"", line, "none", 0).calls;
    assert_eq!([mode("pool"), mode("pool/keys"), mode("pool/record"), mode("new")], [0o700, 0o600, 0o600, 0o700]);
    assert!(calls.contains(&"chmod pool/.record.part".to_string()), "{calls:?}");
    assert!(!trial.whole(SPLIT, "").1.iter().any(|call| call.starts_with("chmod")));
}
