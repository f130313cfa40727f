//! `sharing split --pool` and `sharing pool new`, killed, interrupted or on a full disk at each of the calls by which they
//! change the disk: key bytes can be wasted, and none is used twice.

use comparison::random::Random;
use folder::{text, Folder};
use pool_folder::{expected_shares, MESSAGE, NEEDED, OTHER};
use std::collections::HashSet;
use std::fs;
use std::os::unix::process::ExitStatusExt;
use stop::{Run, Stop};

// Of what a folder can do, not all is needed here.
#[allow(dead_code)]
mod folder;
#[allow(dead_code)]
mod pool_folder;
#[allow(dead_code)]
mod stop;

const SPLIT: &str = "split --pool pool message shares";
const OVERWRITTEN: [&str; 2] = ["pwrite pool/keys", "fsync pool/keys"];

/// The two ways of writing files: without a name at first, and under another one where the file system does not have that.
const WAYS: [&str; 2] = ["", " no-tmpfile"];

const KEYS: usize = 500;

/// Where every run starts: so many key bytes are used, and not overwritten, as a run that was killed leaves them.
const START: usize = 24;
const END: usize = START + NEEDED;

struct Trial {
    folder: Folder,
    stop: Stop,
    keys: Vec<u8>,
}

impl Trial {
    fn new(test: &str) -> Trial {
        let trial = Trial { folder: Folder::new(test), stop: Stop::new(test), keys: Random::new(7).bytes(KEYS) };
        trial.folder.put("message", MESSAGE);
        trial.folder.put("other", OTHER);
        trial
    }

    /// Splits the message in a fresh pool, up to the call of this number.
    fn run(&self, mode: &str, at: usize) -> Run {
        self.folder.remove("shares");
        self.folder.remove("other-shares");
        self.folder.put_pool(&self.keys, START);
        self.stop.run(&self.folder, SPLIT, mode, at)
    }

    /// Whether files, be they only parts of shares, are made of a message with the keys from this place on.
    fn explains(&self, place: usize, message: &[u8], files: &[(usize, Vec<u8>)]) -> bool {
        let shares = expected_shares(message, &self.keys[place..place + NEEDED]);
        files.iter().all(|(party, bytes)| shares[party - 1].starts_with(bytes))
    }

    /// The position that the record has after the run: it is untouched, or moved, and that before there is a byte in the
    /// folder of the shares.
    fn position(&self) -> usize {
        let (position, files) = (self.folder.position(), written(&self.folder, "shares"));
        let empty = files.iter().all(|(_, bytes)| bytes.is_empty());
        assert!(position == END || position == START && empty, "{position}, {} files", files.len());
        assert!(self.explains(START, MESSAGE, &files));
        position
    }

    /// A run that was killed leaves nothing but so many files under their names, the shares from the first on, and about.
    fn has_whole_files(&self, many: usize) {
        let shares = expected_shares(MESSAGE, &self.keys[START..END]);
        let mut names = if self.folder.0.join("shares").exists() { self.folder.names_in("shares") } else { Vec::new() };
        if many > shares.len() {
            assert_eq!(names.remove(0), "about");
        }
        let many = many.min(shares.len());
        assert_eq!(names, (1..=many).map(|party| format!("share-{party}")).collect::<Vec<_>>());
        for (name, share) in names.iter().zip(shares) {
            assert_eq!(self.folder.bytes(&format!("shares/{name}")), share);
        }
    }

    /// A run that failed leaves no share and no part of one, and says whether keys are used.
    fn keeps_nothing(&self, said: &str, position: usize) {
        assert!(!self.folder.0.join("shares").exists(), "{said}");
        assert_eq!(self.folder.names_in("pool"), ["keys", "record"], "{said}");
        let left = self.keys.len() - END;
        let used = format!("\nKey bytes of the pool \"pool\": {NEEDED} used all the same, {left} left\n");
        assert_eq!(said.ends_with(&used), position == END, "{said}");
        assert_eq!(said.contains("Key bytes"), position == END, "{said}");
    }

    /// The next run splits the other message with the keys from this position on, which no file has that was left over.
    fn next_run_works(&self, position: usize) {
        let said = self.folder.says("split --pool pool other other-shares");
        let left = self.keys.len() - position - NEEDED;
        let keys = format!("Key bytes of the pool \"pool\": {NEEDED} used for this message, {left} left.\n");
        assert!(said.ends_with(&keys), "{said}");
        assert_eq!(self.folder.position(), position + NEEDED);
        self.folder.holds_shares("other-shares", OTHER, &self.keys[position..position + NEEDED]);
        self.folder.is_overwritten(&self.keys);
        assert_eq!(self.folder.names_in("pool"), ["keys", "record"]);
    }
}

/// What stands in a folder of shares: the party, and the bytes that are written of its share. About holds nothing of one.
fn written(folder: &Folder, shares: &str) -> Vec<(usize, Vec<u8>)> {
    let Ok(entries) = fs::read_dir(folder.0.join(shares)) else {
        return Vec::new();
    };
    let file = |entry: fs::DirEntry| {
        let name = entry.file_name().into_string().expect("a name");
        let name = name.trim_start_matches('.');
        if name.split('.').next() == Some("about") {
            return None;
        }
        let party = name.strip_prefix("share-").and_then(|rest| rest.split('.').next());
        let party = party.and_then(|party| party.parse().ok()).unwrap_or_else(|| panic!("{name} is no share"));
        Some((party, fs::read(entry.path()).expect("a file")))
    };
    entries.flatten().filter_map(file).collect()
}

/// In the order of these calls lies all that is promised: the record is safe on the disk before the keys are overwritten,
/// and both before there is anything of a share; and the shares and their names are safe before anything is said of them.
#[test]
fn the_order_of_the_calls() {
    let trial = Trial::new("pool-order");
    let opened = ["open pool/keys", "flock pool/keys", "fsync pool"];
    let tried = [&["open shares", "fsync shares/unnamed"][..], &["open P", "fsync P", "unlink P"]];
    let moved = [
        "unlink pool/.record.part",
        "open pool/.record.part",
        "write pool/.record.part",
        "fsync pool/.record.part",
        "rename pool/.record.part pool/record",
        "fsync pool",
    ];
    let first = [
        ["open shares", "write shares/unnamed", "fsync shares/unnamed"],
        ["open shares/.share-1.part", "write shares/.share-1.part", "fsync shares/.share-1.part"],
    ];
    for (way, (tried, first)) in WAYS.iter().zip(tried.iter().zip(first)) {
        let calls = trial.run(&format!("none{way}"), 0).calls;
        let expected = [&opened[..], &OVERWRITTEN, &["mkdir shares"], tried, &moved, &OVERWRITTEN].concat();
        let (pool, rest) = calls.split_at(expected.len());
        assert_eq!(pool, expected.iter().map(|call| call.replace('P', "shares/.share-1.part")).collect::<Vec<_>>());
        let (shares, safe) = rest.split_at(rest.len() - 3);
        assert_eq!(safe, ["fsync shares", "fsync .", "write output"]);
        assert!(shares.iter().all(|call| call.contains(" shares") && !call.contains("pool/")), "{shares:?}");
        assert_eq!(shares[..3], first);
    }

    // Where no run was killed before, nothing is left to be overwritten.
    trial.next_run_works(END);
    let next = trial.stop.run(&trial.folder, "split --pool pool message third", "none", 0);
    assert_eq!(next.calls.iter().filter(|call| *call == "pwrite pool/keys").count(), 1);
}

/// Killed after each call, and in the middle of each that writes.
#[test]
fn killed_at_each_call() {
    let trial = Trial::new("pool-killed");
    let (mut places, mut before, mut after, mut left_over) = (HashSet::new(), 0, 0, [0, 0]);
    for (way, left_over) in WAYS.iter().zip(&mut left_over) {
        let calls = trial.run(&format!("none{way}"), 0).calls;
        trial.folder.holds_shares("shares", MESSAGE, &trial.keys[START..END]);
        for (at, call) in (1..).zip(&calls) {
            for mode in if call.contains("write") { &["kill", "tear"][..] } else { &["kill"] } {
                let run = trial.run(&format!("{mode}{way}"), at);
                assert_eq!((run.output.status.signal(), &run.calls[..]), (Some(9), &calls[..at]));
                let position = trial.position();
                *left_over += !written(&trial.folder, "shares").is_empty() as usize;
                before += (position == START) as usize;
                after += (position == END) as usize;
                if way.is_empty() {
                    trial.has_whole_files(calls[..at].iter().filter(|call| call.starts_with("link")).count());
                }
                trial.next_run_works(position);
                places.insert(call.clone());
            }
        }
    }
    println!(
        "{} places; {before} before the record was moved, {after} after it; {left_over:?} left files",
        places.len()
    );
    assert!(places.len() >= 40 && before >= 25 && after >= 65 && left_over[0] >= 5 && left_over[1] >= 25);
}

/// The same where other runs wait for the pool: no two of them have the same keys.
#[test]
fn some_of_several_at_once_are_killed() {
    let trial = Trial::new("pool-killed-at-once");
    let folder = &trial.folder;
    let messages: Vec<String> = (0..6).map(|run| format!("Message {run} of those that are split.")).collect();
    for round in 0..6 {
        folder.put_pool(&trial.keys, 0);
        let start = |(run, message): (usize, &String)| {
            folder.put(&format!("{run}"), message.as_bytes());
            folder.remove(&format!("shares-{run}"));
            // Half of the runs are killed, at calls from the third on to nearly the last.
            let (mode, at) = if run < 3 { ("kill", 3 + 6 * round + run) } else { ("none", 0) };
            trial.stop.start(folder, &format!("split --pool pool {run} shares-{run}"), mode, at)
        };
        let runs: Vec<_> = messages.iter().enumerate().map(start).collect();
        let ends: Vec<_> = runs.into_iter().map(|run| run.wait_with_output().expect("it ends").status).collect();
        assert_eq!(ends.iter().map(|end| end.signal()).collect::<Vec<_>>(), [[Some(9); 3], [None; 3]].concat());
        // All take equally many keys, so the places at which they start are known.
        let mut places: Vec<usize> = (0..folder.position()).step_by(NEEDED).collect();
        for (run, message) in messages.iter().enumerate() {
            let files = written(folder, &format!("shares-{run}"));
            assert!(run < 3 || files.len() == 5);
            if files.iter().any(|(_, bytes)| !bytes.is_empty()) {
                let place = places.iter().position(|place| trial.explains(*place, message.as_bytes(), &files));
                places.remove(place.expect("keys that are used, and by no other run"));
            }
        }
    }
}

/// A disk that is full from some call on, and one on which a single call fails.
#[test]
fn a_full_disk_at_each_call() {
    let trial = Trial::new("pool-full");
    let (mut all, mut positions) = (0, Vec::new());
    for way in WAYS {
        let calls = trial.run(&format!("none{way}"), 0).calls;
        all += calls.len();
        for (at, call) in (1..).zip(&calls) {
            for mode in ["full", "fail"] {
                let run = trial.run(&format!("{mode}{way}"), at);
                let position = trial.position();
                if run.output.status.success() {
                    assert!(mode == "fail" && is_dispensable(call), "{call}");
                    trial.folder.holds_shares("shares", MESSAGE, &trial.keys[START..END]);
                } else {
                    let said = text(&run.output.stderr);
                    assert_eq!(
                        (run.output.status.code(), text(&run.output.stdout)),
                        (Some(1), String::new()),
                        "{said}"
                    );
                    assert!(said.starts_with("sharing: cannot ") && said.contains("No space left on device"), "{said}");
                    trial.keeps_nothing(&said, position);
                    positions.push(position);
                }
                trial.next_run_works(position);
            }
        }
    }
    let before = positions.iter().filter(|position| **position == START).count();
    println!("{before} runs failed before the record was moved, {} after it", positions.len() - before);
    assert!(before >= 26 && positions.len() >= all + 45, "{before} of {}, {all} calls", positions.len());
}

/// Whether a run succeeds though this call does not: it needs no room, or there is another way. In place of a file without a
/// name there is one with another name, in place of a link a renamed file.
fn is_dispensable(call: &str) -> bool {
    call == "open shares" || ["open pool/keys", "flock", "unlink", "link"].iter().any(|kind| call.starts_with(kind))
}

/// The signal TERM at each call: the run ends, and keeps nothing, or comes to its end.
#[test]
fn interrupted_at_each_call() {
    let trial = Trial::new("pool-interrupted");
    for way in WAYS {
        let all = trial.run(&format!("none{way}"), 0).calls.len();
        for at in 1..=all {
            let run = trial.run(&format!("term{way}"), at);
            let (said, position) = (text(&run.output.stderr), trial.position());
            if at == all {
                // The shares are announced.
                assert!(run.output.status.success() && said.is_empty(), "{said}");
                assert_eq!(position, END);
            } else {
                assert_eq!((run.output.status.signal(), text(&run.output.stdout)), (Some(15), String::new()));
                let in_time = !run.calls[..at].iter().any(|call| call.starts_with("rename"));
                assert_eq!(position, if in_time { START } else { END });
                let noted = "sharing: interrupted, and nothing is kept of what was written\n";
                // As long as nothing was made the signal ends the program at once.
                assert!(said.starts_with(noted) || said.is_empty() && at <= 5, "{said}");
                trial.keeps_nothing(&said, position);
            }
            trial.next_run_works(position);
        }
    }
}

/// A pool that `new` has not finished is none: nothing can be split with it.
#[test]
fn a_new_pool_killed_at_each_call() {
    let trial = Trial::new("pool-new-killed");
    let folder = &trial.folder;
    folder.put("keyfile", &trial.keys);
    let (mut none, mut whole) = (0, 0);
    for mode in WAYS.iter().flat_map(|way| ["kill", "tear", "full"].map(|mode| format!("{mode}{way}"))) {
        for at in 1.. {
            folder.remove("pool");
            let run = trial.stop.run(folder, "pool new pool keyfile", &mode, at);
            if run.output.status.success() {
                break;
            }
            assert!(at <= run.calls.len(), "it is not stopped, and fails");
            assert!(!mode.starts_with("full") || !folder.0.join("pool").exists(), "{}", text(&run.output.stderr));
            if folder.0.join("pool/record").exists() {
                let said = folder.says("pool status pool");
                assert_eq!(said, format!("Key bytes of the pool \"pool\": {KEYS} loaded, 0 used, {KEYS} left.\n"));
                folder.is_overwritten(&trial.keys);
                whole += 1;
            } else {
                assert!(folder.fails("pool status pool", 1).contains("cannot "));
                assert!(folder.fails("split --pool pool message shares", 1).contains("cannot "));
                none += 1;
            }
        }
    }
    assert!(none >= 50 && whole >= 13, "{none} {whole}");
}

#[test]
fn the_order_of_the_calls_for_a_new_pool() {
    let trial = Trial::new("pool-new-order");
    trial.folder.put("keyfile", &trial.keys);
    let run = |mode: &str| {
        trial.folder.remove("pool");
        trial.stop.run(&trial.folder, "pool new pool keyfile", mode, 0).calls
    };
    let (made, synced) = (["mkdir pool".to_string()], ["fsync pool", "fsync .", "write output"].map(String::from));
    let unnamed = ["open pool", "write pool/unnamed", "fsync pool/unnamed"].map(String::from);
    let names = ["keys", "record"].map(|file| format!("link pool/unnamed pool/{file}"));
    assert_eq!(run("none"), [&made[..], &unnamed, &unnamed, &names, &synced].concat());

    let part = |file: &str| ["open", "write", "fsync"].map(|call| format!("{call} pool/.{file}.part"));
    let name = |file: &str| [format!("link pool/.{file}.part pool/{file}"), format!("unlink pool/.{file}.part")];
    let expected = [&made[..], &part("keys"), &part("record"), &name("keys"), &name("record"), &synced].concat();
    assert_eq!(run("none no-tmpfile"), expected);
}

/// A pool stands in a folder that can be synced or not at all: that its record is safe before anything of a share is on the
/// disk would else be a hope.
#[test]
fn a_folder_that_cannot_be_synced() {
    let trial = Trial::new("pool-no-sync");
    trial.folder.put("keyfile", &trial.keys);
    for (mode, why) in [("no-sync", "Invalid argument"), ("no-reading", "Permission denied")] {
        let run = trial.stop.run(&trial.folder, "pool new pool keyfile", mode, 0);
        let said = text(&run.output.stderr);
        assert!(said.starts_with(&format!("sharing: cannot sync the folder \"pool\": {why}")), "{said}");
        assert!(!trial.folder.0.join("pool").exists());

        let run = trial.run(mode, 0);
        let said = text(&run.output.stderr);
        assert!(said.starts_with(&format!("sharing: cannot sync the folder \"pool\": {why}")), "{said}");
        assert_eq!(trial.position(), START);
        assert_eq!(trial.folder.bytes("pool/keys"), trial.keys);
        trial.folder.remove("pool");
    }
}
