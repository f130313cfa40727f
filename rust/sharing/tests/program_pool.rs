//! `sharing pool` and `sharing split --pool`, run as their users run them, in a folder of its own.

use comparison::random::Random;
use folder::{text, Folder, FORMER_DEFAULT};
use pool_folder::{MESSAGE, NEEDED};
use std::fs;
use std::os::unix::ffi::OsStrExt;
use std::os::unix::fs::PermissionsExt;

// Of what a folder can do, not all is needed here.
#[allow(dead_code)]
mod folder;
#[allow(dead_code)]
mod pool_folder;

/// A new pool of so many random keys.
fn new_pool(folder: &Folder, length: usize) -> Vec<u8> {
    let keys = Random::new(length as u64).bytes(length);
    folder.put("keyfile", &keys);
    let said = folder.says("pool new pool keyfile");
    let destroy =
        "Destroy \"keyfile\" now: its bytes are in the pool, and a second pool made of it would use them twice.\n";
    assert_eq!(said, format!("The pool \"pool\" is loaded with {length} key bytes.\n{destroy}"));
    assert_eq!(folder.bytes("pool/record"), format!("length {length}\nposition 0\n").as_bytes());
    assert_eq!(folder.bytes("pool/keys"), keys);
    keys
}

/// Splits the file "message" with a pool, and with a file of the keys that the pool has at this place: the shares are the
/// same, and so is what is said, but for the keys.
fn splits_alike(folder: &Folder, options: &str, keys: &[u8], left: usize) {
    let said = folder.says(&format!("split {options}--pool pool message shares"));
    folder.put("keys", keys);
    let alike = folder.says(&format!("split {options}message keys alike"));
    let alike = alike.replace("\"alike\"", "\"shares\"").replace("\"alike/", "\"shares/");
    let used = keys.len();
    assert_eq!(said, format!("{alike}Key bytes of the pool \"pool\": {used} used for this message, {left} left.\n"));
    for share in fs::read_dir(folder.0.join("alike")).expect("a folder").flatten() {
        let name = share.file_name().into_string().expect("a name");
        assert_eq!(folder.bytes(&format!("shares/{name}")), folder.bytes(&format!("alike/{name}")), "{name}");
    }
    assert_eq!(folder.names_in("shares"), folder.names_in("alike"));
}

/// One message after another, in both forms and several schemes: each takes the next keys, and opens.
#[test]
fn each_message_takes_the_next_keys() {
    let folder = Folder::new("pool-next");
    let keys = new_pool(&folder, 600);
    let mut position = 0;
    let parties = " 1=shares/share-1 3=shares/share-3 5=shares/share-5";
    let other_parties = " 2=shares/share-2 4=shares/share-4 6=shares/share-6 7=shares/share-7";
    for (scheme, length, padded, unpadded, parties) in [
        ("", 33, 72, 72, parties),
        (FORMER_DEFAULT, 36, 24, 18, parties),
        ("", 0, 12, 0, parties),
        ("--scheme 7,3,2,7,5,4 ", 61, 90, 90, other_parties),
    ] {
        folder.write("message", length);
        for (form, told, needed) in
            [("", String::new(), padded), ("--unpadded ", format!("--length {length} "), unpadded)]
        {
            let next = position + needed;
            splits_alike(&folder, &format!("{scheme}{form}"), &keys[position..next], keys.len() - next);
            position = next;
            assert_eq!(folder.position(), position);
            folder.is_overwritten(&keys);
            let status = folder.says("pool status pool");
            let left = keys.len() - position;
            assert_eq!(status, format!("Key bytes of the pool \"pool\": 600 loaded, {position} used, {left} left.\n"));
            folder.says(&format!("reconstruct {scheme}{told}opened{parties}"));
            assert_eq!(folder.bytes("opened"), folder.bytes("message"));
            ["shares", "alike", "opened"].into_iter().for_each(|name| folder.remove(name));
        }
    }
    assert_eq!(folder.names_in("pool"), ["keys", "record"]);
}

/// The last byte is used too, and after it only a message that takes none can be split.
#[test]
fn the_last_keys() {
    let folder = Folder::new("pool-last");
    let keys = new_pool(&folder, NEEDED + 11);
    folder.put("message", MESSAGE);
    folder.put("short", b"five!");
    folder.put("empty", b"");
    splits_alike(&folder, "", &keys[..NEEDED], 11);
    let needs = "\nit needs 12 bytes, and \"pool\" has 11 left\nthe scheme is the default, 5,2,2,5,4,3\n";
    folder.refuses("split --pool pool short more", 16, needs);
    // A block of a byte takes a key byte here.
    let said = folder.says("split --scheme 2,0,1,2 --unpadded --pool=pool short more");
    assert!(said.ends_with("Key bytes of the pool \"pool\": 5 used for this message, 6 left.\n"), "{said}");
    folder.says("split --scheme 2,0,1,2 --pool pool short last");
    assert_eq!(folder.bytes("pool/keys"), [0; NEEDED + 11]);
    folder.refuses("split --scheme 2,0,1,2 --pool pool empty none", 16, "it needs 1 byte, and \"pool\" has 0 left\n");
    folder.says("split --unpadded --pool pool empty none");
    let status = folder.says("pool status pool");
    assert_eq!(status, "Key bytes of the pool \"pool\": 83 loaded, 83 used, 0 left.\n");
}

#[test]
fn files_are_the_owners_alone() {
    let folder = Folder::new("pool-owner");
    new_pool(&folder, 100);
    let mode = |name: &str| fs::metadata(folder.0.join(name)).expect("a file").permissions().mode() & 0o777;
    let modes = || (mode("pool"), mode("pool/keys"), mode("pool/record"));
    assert_eq!(modes(), (0o700, 0o600, 0o600));
    folder.put("message", MESSAGE);
    folder.says("split --pool pool message shares");
    assert_eq!(modes(), (0o700, 0o600, 0o600));
    assert_eq!((mode("shares"), mode("shares/share-5")), (0o700, 0o600));
}

/// Runs that are started together wait for each other, and take keys one after another.
#[test]
fn several_at_once() {
    let folder = Folder::new("pool-at-once");
    let runs = 8;
    let message = |run: usize| format!("Message {run} of those that are split.").into_bytes();
    let keys = new_pool(&folder, runs * NEEDED + 5);
    for run in 0..runs {
        folder.put(&format!("{run}"), &message(run));
    }
    let start = |run| folder.command(&format!("split --pool pool {run} shares-{run}")).spawn().expect("it runs");
    let started: Vec<_> = (0..runs).map(start).collect();
    let mut places: Vec<usize> = Vec::new();
    for (run, child) in started.into_iter().enumerate() {
        let output = child.wait_with_output().expect("it ends");
        assert!(output.status.success(), "{}", text(&output.stderr));
        let said = text(&output.stdout);
        let (_, keys_said) =
            said.split_once("Key bytes of the pool \"pool\": 72 used for this message, ").expect("keys");
        let left: usize = keys_said.strip_suffix(" left.\n").and_then(|left| left.parse().ok()).expect("a number");
        let end = keys.len() - left;
        folder.holds_shares(&format!("shares-{run}"), &message(run), &keys[end - NEEDED..end]);
        places.push(end);
    }
    places.sort();
    assert_eq!(places, (1..=runs).map(|run| run * NEEDED).collect::<Vec<_>>(), "no two have a key in common");
    assert_eq!(folder.position(), runs * NEEDED);
    folder.is_overwritten(&keys);
}

/// What a run that was killed has not overwritten, the next one does, also where it is refused itself.
#[test]
fn what_a_killed_run_has_left() {
    let folder = Folder::new("pool-leftover");
    let keys = Random::new(3).bytes(200);
    folder.put("message", MESSAGE);
    // For this one too few keys are left.
    folder.write("long", 60);
    for line in ["split --pool pool message shares", "split --pool pool long shares"] {
        folder.put_pool(&keys, 100);
        folder.put("pool/.record.part", b"length 200\nposition 123456789");
        folder.says("pool status pool");
        assert_eq!(folder.bytes("pool/keys"), keys, "who looks changes nothing");
        folder.command(line).output().expect("it runs");
        folder.is_overwritten(&keys);
        folder.remove("shares");
    }
    folder.says("split --pool pool message shares");
    folder.holds_shares("shares", MESSAGE, &keys[100..100 + NEEDED]);
    assert_eq!(folder.names_in("pool"), ["keys", "record"]);
}

/// File names need not be text.
#[test]
fn any_file_name() {
    let folder = Folder::new("pool-names");
    let (pool, keys) = (std::ffi::OsStr::from_bytes(b"\xff=\xfe"), std::ffi::OsStr::from_bytes(b"--\xfd"));
    fs::write(folder.0.join(keys), Random::new(4).bytes(72)).expect("a file");
    folder.put("message", MESSAGE);
    let runs = |line: &str, words: &[&std::ffi::OsStr]| {
        let output = folder.command(line).args(words).output().expect("it runs");
        assert!(output.status.success(), "{}", text(&output.stderr));
    };
    runs("pool new --", &[pool, keys]);
    runs("pool status", &[pool]);
    runs("split message shares --pool", &[pool]);
    assert!(folder.0.join("shares/share-5").exists());
}

#[test]
fn help() {
    let folder = Folder::new("pool-help");
    let (all, one, split) = (folder.says("--help"), folder.says("pool --help"), folder.says("split --help"));
    for line in ["pool -h", "pool new --help", "pool status pool -h"] {
        assert_eq!(folder.says(line), one);
    }
    for command in ["new POOL KEYFILE", "status POOL"] {
        assert!(one.contains(&format!("sharing pool {command}\n")), "{one}");
        assert!(all.contains(&format!("  sharing pool {command}\n")), "{all}");
    }
    assert!(
        all.contains("sharing split [--scheme S] [--unpadded] [--checked] [--label TEXT] --pool POOL MESSAGE FOLDER\n"),
        "{all}"
    );
    assert!(split.contains("[--unpadded] [--checked] [--label TEXT] --pool POOL MESSAGE FOLDER\n"), "{split}");
    assert!(one.contains("recommended") && split.contains("recommended"));
    // What overwriting cannot promise.
    let words = one.replace('\n', " ");
    for word in ["SSDs", "copy on write", "journal", "snapshots", "backup", "Never copy", "encrypted"] {
        assert!(words.contains(word), "{word}: {one}");
    }
}
