//! What `sharing pool` and `sharing split --pool` refuse, and that nothing is used or changed then.

use comparison::random::Random;
use folder::Folder;
use gilunavoi::limits::MAX_MESSAGE;
use pool_folder::{MESSAGE, NEEDED};
use std::fs::{self, File};
use std::process::Command;
use std::time::Instant;

// Of what a folder can do, not all is needed here.
#[allow(dead_code)]
mod folder;
#[allow(dead_code)]
mod pool_folder;

const SPLIT: &str = "split --pool pool message shares";
const STATUS: &str = "pool status pool";
const GIVE_UP: &str = "do not use this pool any more: make a new one of fresh keys\n";

/// A folder with a message, and a pool of 200 keys, the first 24 of which are used and overwritten.
fn with_pool(test: &str) -> Folder {
    let folder = Folder::new(test);
    folder.put("message", MESSAGE);
    folder.put_pool(&[&[0; 24], &Random::new(5).bytes(176)[..]].concat(), 24);
    folder
}

/// After this the pool is what it was.
fn leaves_pool<T>(folder: &Folder, run: impl FnOnce() -> T) -> T {
    let files = || (folder.bytes("pool/keys"), fs::read(folder.0.join("pool/record")).ok());
    let before = files();
    let answer = run();
    assert_eq!(files(), before);
    answer
}

fn refuses(folder: &Folder, line: &str, number: u64, detail: &str) {
    leaves_pool(folder, || folder.refuses(line, number, detail));
}

/// The program fails, for a reason that is no refusal of the library.
fn fails(folder: &Folder, line: &str, words: &str) {
    let said = leaves_pool(folder, || folder.fails(line, 1));
    assert!(said.contains(words), "{line}: {said}");
}

#[test]
fn records_that_do_not_fit() {
    let folder = with_pool("pool-misfit");
    // Such a record says nothing of the keys: those before its position are not overwritten.
    for (length, position) in [(199, 24), (201, 99), (0, 0), (usize::MAX, 99), (usize::MAX, usize::MAX), (201, 999)] {
        folder.put_record(length, position);
        let loaded =
            format!("\nby its record \"pool\" was loaded with {length} bytes, and \"pool/keys\" has 200 bytes\n");
        for line in [SPLIT, STATUS] {
            refuses(&folder, line, 16, &format!("{loaded}{GIVE_UP}"));
        }
    }
    for position in [201, usize::MAX] {
        folder.put_record(200, position);
        let used = format!("\nby its record \"pool\" has used {position} bytes, and \"pool/keys\" has 200 bytes\n");
        for line in [SPLIT, STATUS] {
            refuses(&folder, line, 16, &format!("{used}{GIVE_UP}"));
        }
    }
}

/// Too few keys are left: for the message, not for a shorter one.
#[test]
fn too_few_keys() {
    let folder = with_pool("pool-few");
    folder.write("message", 6 * 14);
    let needs = "\nit needs 180 bytes, and \"pool\" has 176 left\nthe scheme is the default, 5,2,2,5,4,3\n";
    refuses(&folder, SPLIT, 16, needs);
    let needs = "\nit needs 210 bytes, and \"pool\" has 176 left\nthe scheme is 9,3,2,9,8,7,6\n";
    refuses(&folder, "split --scheme 9,3,2,9,8,7,6 --pool pool message shares", 16, needs);
    folder.says("split --unpadded --pool pool message shares");
    assert_eq!(folder.position(), 24 + 168);
}

/// What the library looks at first is said first, also where the record does not fit.
#[test]
fn other_refusals_come_first() {
    let folder = with_pool("pool-first");
    folder.write("long", MAX_MESSAGE + 1);
    folder.write("endless", 1 << 21);
    for position in [24, 201] {
        folder.put_record(200, position);
        for unpadded in ["", "--unpadded "] {
            let line = |message: &str| format!("split {unpadded}--pool pool {message} shares");
            refuses(&folder, &line("long"), 5, "\"long\" has 16385 bytes");
            refuses(&folder, &line("endless"), 5, "\"endless\" has more than 1048576 bytes");
        }
        for (scheme, number) in [("1,0,1,1", 1), ("5,5,1,5", 2), ("5,2,1", 3), ("10,4,1,10,9,8,6", 4)] {
            refuses(
                &folder,
                &format!("split --scheme {scheme} --pool pool message shares"),
                number,
                "the scheme is N ",
            );
        }
    }
}

/// Only what the program writes is a record.
#[test]
fn unreadable_records() {
    let folder = with_pool("pool-unreadable");
    let records: [&[u8]; 16] = [
        b"",
        b"length 200\n",
        b"length 200\nposition ",
        b"length 200\nposition 24",
        b"length 200\nposition 24\n\n",
        b"length 200\nposition 24\nposition 48\n",
        b"length 200\r\nposition 24\r\n",
        b"length 0200\nposition 24\n",
        b"length +200\nposition 24\n",
        b"length 200\nposition -1\n",
        b"length 200 \nposition 24\n",
        b"Length 200\nposition 24\n",
        b"position 24\nlength 200\n",
        b"length 200\nposition 18446744073709551616\n",
        b"length 200\nposition 2\xff\n",
        b"\0\0\0\0\0\0\0\0\0\0\0\0\0\0\0\0\0\0\0\0\0\0\0",
    ];
    let words =
        "\"pool/record\" cannot be understood: a record is two lines, length and position, with a number each\n";
    for record in records {
        folder.put("pool/record", record);
        for line in [SPLIT, STATUS] {
            fails(&folder, line, &format!("{words}{GIVE_UP}"));
        }
    }
}

/// A record that is older than the keys: those at its position are zeros. It is noticed where at least six bytes were used
/// since then, as by the shortest message in the former default.
#[test]
fn a_record_that_was_set_back() {
    let folder = with_pool("pool-back");
    folder.put("short", b"five!");
    let zeros =
        "among the unused key bytes of the pool \"pool\" are 6 zeros in a row, as used ones are, and would hide \
                 nothing: its record was set back, or put back from a backup\n";
    for (scheme, message, used) in [("", "message", NEEDED), ("", "short", 12), ("--scheme 5,2,1,5,4,3 ", "short", 6)] {
        let record = folder.bytes("pool/record");
        let said = folder.says(&format!("split {scheme}--pool pool {message} {message}{used}"));
        assert!(said.contains(&format!(": {used} used for this message, ")), "{said}");
        let moved = folder.bytes("pool/record");
        folder.put("pool/record", &record);
        for line in [SPLIT, STATUS, "split --scheme 2,0,1,2 --pool pool short shares"] {
            fails(&folder, line, &format!("{zeros}{GIVE_UP}"));
        }
        folder.put("pool/record", &moved);
    }
    // Zeros further on are noticed too, and fewer in a row are keys like any others.
    folder.put_pool(&[&[1; 100][..], &[0; 6], &[1; 10]].concat(), 0);
    fails(&folder, SPLIT, &format!("{zeros}{GIVE_UP}"));
    folder.put_pool(&[&[0; 5][..], &[1; 60], &[0; 5], &[1; 2], &[0; 5]].concat(), 0);
    folder.says(SPLIT);
}

#[test]
fn missing_files() {
    let folder = with_pool("pool-missing");
    folder.remove("pool/record");
    for line in [SPLIT, STATUS] {
        fails(&folder, line, "cannot read \"pool/record\": ");
    }
    folder.put_record(200, 24);
    fails(&folder, "split --pool pool absent shares", "cannot read \"absent\": ");
    folder.remove("pool/keys");
    for line in [SPLIT, STATUS] {
        assert!(folder.fails(line, 1).contains("cannot open \"pool/keys\": "));
    }
    for pool in ["absent", "message"] {
        let path = format!("cannot open \"{pool}/keys\": ");
        assert!(folder.fails(&format!("split --pool {pool} message shares"), 1).contains(&path));
        assert!(folder.fails(&format!("pool status {pool}"), 1).contains(&path));
    }
}

/// No keys are used for names that are taken and folders that cannot be made.
#[test]
fn nothing_is_overwritten() {
    let folder = with_pool("pool-taken");
    fs::create_dir(folder.0.join("shares")).expect("a folder");
    for name in ["shares/share-5", "shares/share-1"] {
        folder.put(name, b"old");
        fails(&folder, SPLIT, &format!("\"{name}\" exists already, and nothing is overwritten\n"));
        assert_eq!(folder.bytes(name), b"old");
    }
    fails(&folder, "split --pool pool message message", "cannot make the folder \"message\": ");
    fails(&folder, "split --pool pool message no/shares", "cannot make the folder \"no/shares\": ");
    // A folder that is there is used, and stays where it is not.
    fs::create_dir(folder.0.join("empty")).expect("a folder");
    folder.write("long", MAX_MESSAGE + 1);
    refuses(&folder, "split --pool pool long empty", 5, "\"long\" has");
    folder.says("split --pool pool message empty");
}

/// Where nobody can be told of the shares they are removed, and the keys are used all the same.
#[test]
fn nobody_is_told() {
    let folder = with_pool("pool-nobody");
    let left = folder.names();
    for (output, position) in [("/dev/full", 96), ("&-", 168)] {
        let used = format!("\nKey bytes of the pool \"pool\": 72 used all the same, {} left\n", 200 - position);
        folder.shell_fails(&format!("exec \"$0\" {SPLIT} >{output}"), &used);
        assert_eq!((folder.names(), folder.position()), (left.clone(), position));
    }
}

#[test]
fn new_pools() {
    let folder = with_pool("pool-new");
    folder.put("empty", b"");
    folder.put("zeros", &[&[1; 70][..], &[0; 6], &[1; 30]].concat());
    folder.put("keyfile", &Random::new(6).bytes(9000));
    std::os::unix::fs::symlink("nowhere", folder.0.join("link")).expect("a link");
    let taken = |name: &str| format!("\"{name}\" exists already, and nothing is overwritten\n");
    let zeros = "and it has six zeros in a row: these are no keys, or keys that were used and overwritten\n";
    for (line, words) in [
        ("pool new pool keyfile", taken("pool")),
        ("pool new message keyfile", taken("message")),
        ("pool new link keyfile", taken("link")),
        ("pool new no/pool keyfile", "cannot make the folder \"no/pool\": ".to_string()),
        ("pool new other absent", "cannot read \"absent\": ".to_string()),
        ("pool new other .", "cannot read \".\": ".to_string()),
        ("pool new other empty", "\"empty\" has 0 bytes, and a pool needs at least one key byte\n".to_string()),
        ("pool new other zeros", format!("\"zeros\" has 106 bytes, {zeros}")),
        ("pool new other pool/keys", "\"pool/keys\" is a file of a pool: ".to_string()),
        ("pool new other pool/record", "\"pool/record\" is a file of a pool: ".to_string()),
        ("split message pool/keys shares", "\"pool/keys\" is a file of a pool: ".to_string()),
    ] {
        fails(&folder, line, &words);
    }
    // A file of that name is one like any other where it is not beside a record.
    folder.put("keys", &Random::new(8).bytes(NEEDED));
    folder.says("split message keys shares");
    folder.remove("shares");
    folder.says("pool new of-keys keys");
    let left = folder.names();
    folder
        .shell_fails("trap '' XFSZ; ulimit -f 8; exec \"$0\" pool new other keyfile", "cannot write \"other/keys\": ");
    folder.shell_fails("exec \"$0\" pool new other keyfile >/dev/full", "cannot write to standard output: ");
    assert_eq!(folder.names(), left);
    folder.says("pool new other/ keyfile");
}

#[test]
fn usage() {
    let folder = with_pool("pool-usage");
    for (line, words) in [
        ("pool", "after pool one of new and status is missing"),
        ("pool make pool keys", "pool has no command \"make\": there are new and status"),
        ("pool new pool", "needed are POOL, KEYFILE, and 1 word was given"),
        ("pool new pool keys more", "needed are POOL, KEYFILE, and 3 words were given"),
        ("pool new --scheme 5,2,1,5 pool keys", "there is no option \"--scheme\" here"),
        ("pool status", "needed is POOL, and 0 words were given"),
        ("pool status pool pool", "needed is POOL, and 2 words were given"),
        ("split --pool pool message keys shares", "with --pool there are no KEYS: needed are MESSAGE, FOLDER"),
        ("split --pool pool message", "needed are MESSAGE, FOLDER, and 1 word was given"),
        ("split --pool pool message keys shares more", "needed are MESSAGE, FOLDER, and 4 words were given"),
        ("split message shares --pool", "--pool needs a value after it"),
        ("split --pool= message shares", "--pool needs the folder of a pool"),
        ("split --pool pool --pool pool message shares", "--pool stands twice"),
        ("split --pool pool --scheme 5,2 message shares", "a scheme is N, R, Z and the counts"),
        ("prefix --pool pool --readers 3 message out", "there is no option \"--pool\" here"),
    ] {
        let said = leaves_pool(&folder, || folder.fails(line, 2));
        assert!(said.contains(words) && said.contains("sharing --help"), "{line}: {said}");
    }
}

/// Links and pipes where the pool has files of its own: nothing else is written over, and nothing is waited for.
#[test]
fn other_files_in_the_way() {
    let folder = with_pool("pool-links");
    let (part, before) = (folder.0.join("pool/.record.part"), folder.bytes("pool/keys"));
    std::os::unix::fs::symlink("../message", &part).expect("a link");
    folder.says(SPLIT);
    assert_eq!(folder.bytes("message"), MESSAGE);
    assert_eq!(folder.position(), 24 + NEEDED);
    fs::hard_link(folder.0.join("pool/keys"), &part).expect("a link");
    folder.says("split --pool pool message again");
    assert_eq!(folder.bytes("pool/keys")[24 + 2 * NEEDED..], before[24 + 2 * NEEDED..]);
    for name in ["keys", "record"] {
        folder.remove(&format!("pool/{name}"));
        let made = Command::new("mkfifo").arg(folder.0.join("pool").join(name)).status().expect("a pipe");
        assert!(made.success());
        for line in ["split --pool pool message third", STATUS] {
            let said = folder.fails(line, 1);
            assert!(said.contains(&format!("\"pool/{name}\" is no regular file")), "{said}");
        }
        folder.put_pool(&before, 24);
    }
}

/// A run that waits while another pool takes the place of its own does not mix the two.
#[test]
fn a_pool_that_was_replaced() {
    let folder = with_pool("pool-replaced");
    let held = File::open(folder.0.join("pool/keys")).expect("keys");
    held.lock().expect("a lock");
    let run = folder.command(SPLIT).spawn().expect("the program runs");
    let waiting = format!("-> FLOCK  ADVISORY  WRITE {} ", run.id());
    let start = Instant::now();
    while !fs::read_to_string("/proc/locks").expect("locks").contains(&waiting) {
        assert!(start.elapsed().as_secs() < 60, "it does not wait");
    }
    fs::rename(folder.0.join("pool"), folder.0.join("old")).expect("another name");
    folder.put_pool(&Random::new(9).bytes(200), 0);
    let (old, new) = (folder.bytes("old/keys"), folder.bytes("pool/keys"));
    drop(held);
    let output = run.wait_with_output().expect("it ends");
    assert_eq!(output.status.code(), Some(1));
    let said = String::from_utf8(output.stderr).expect("text");
    assert!(said.contains("\"pool/keys\" was replaced while it was waited for: run the command again"), "{said}");
    assert_eq!((folder.bytes("old/keys"), folder.bytes("pool/keys"), folder.position()), (old, new, 0));
    folder.says(SPLIT);
}
