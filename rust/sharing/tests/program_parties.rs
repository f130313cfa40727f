//! Files and parties that are mixed up on the command line: one file for two parties is refused, and one file as the message
//! and as its keys; a share that is named as another party's is pointed out.

use folder::{text, Folder};
use shares_folder::{folder_with_shares, of, split};
use std::fs;
use std::os::unix::fs::symlink;

// Of what a folder can do, not all is needed here.
#[allow(dead_code)]
mod folder;
mod shares_folder;

/// The commands that are given files of parties.
fn commands(words: &str) -> [String; 3] {
    ["reconstruct out", "rebuild --party 5 out", "check"].map(|command| format!("{command}{words}"))
}

fn is_bad_usage(folder: &Folder, line: &str, reason: &str) {
    assert_eq!(folder.fails(line, 2), format!("sharing: {reason}\n(sharing --help says how it is used)\n"), "{line}");
}

/// By the same name, by another name for it, by a link of either kind, and through other folders.
#[test]
fn one_file_for_two_parties() {
    let folder = folder_with_shares("parties-one");
    fs::copy(folder.0.join("shares/share-2"), folder.0.join("a")).expect("a copy");
    fs::hard_link(folder.0.join("a"), folder.0.join("hard")).expect("a link");
    symlink("a", folder.0.join("soft")).expect("a link");
    symlink("soft", folder.0.join("shares/further")).expect("a link");
    symlink("../soft", folder.0.join("shares/further-up")).expect("a link");
    for line in commands(&format!(" 2=a{} 4=a", of(&[1, 3]))) {
        is_bad_usage(&folder, &line, "\"a\" is given for party 2 and for party 4");
    }
    for other in ["./a", "hard", "soft", "shares/../a", "shares/further-up"] {
        for line in commands(&format!(" 4={other}{} 2=a", of(&[1, 3]))) {
            let reason = format!("{other:?} is given for party 4 and \"a\" for party 2, and they are one file");
            is_bad_usage(&folder, &line, &reason);
        }
    }
    // It is seen before a file is read, be it absent or no share.
    for words in [" 1=absent 2=absent", " 1=. 2=.", " 1=/dev/null 3=absent 2=/dev/null", " 1=message 9=message"] {
        for line in commands(words) {
            assert!(folder.fails(&line, 2).contains(" is given for party 1 and for party "), "{line}");
        }
    }
    // A link to nowhere is no file, and neither is one that is the same as another.
    for line in commands(" 1=shares/further 2=absent 3=message") {
        assert!(folder.fails(&line, 1).contains("cannot read \"shares/further\": "), "{line}");
    }
}

/// What comes through standard input is a file too.
#[test]
fn standard_input_is_one_of_them() {
    let folder = folder_with_shares("parties-standard");
    let before = folder.names();
    for (input, other) in [("shares/share-1", "shares/share-1"), ("/dev/null", "/dev/null"), ("message", "/dev/stdin")]
    {
        let mut run = folder.command(&format!("reconstruct out 2=- 1={other}{}", of(&[3])));
        let output = run.stdin(fs::File::open(folder.0.join(input)).expect("a file")).output().expect("it runs");
        let said =
            format!("sharing: standard input is given for party 2 and {other:?} for party 1, and they are one file\n");
        assert_eq!(output.status.code(), Some(2));
        assert!(text(&output.stderr).starts_with(&said), "{}", text(&output.stderr));
    }
    assert_eq!(folder.names(), before);
}

/// One party that is named twice is refused as before, and copies of a file are files of their own.
#[test]
fn one_party_twice_and_copies() {
    let folder = folder_with_shares("parties-copies");
    for line in commands(" 1=message 1=message 2=keys") {
        folder.refuses(&line, 7, "[1, 1, 2]");
    }
    let words = folder.copies("keys", &[1, 2, 3]);
    folder.says(&format!("check{words}"));
    folder.says(&format!("rebuild --party 5 rebuilt{words}"));
    folder.says(&format!("reconstruct --length 60 opened{words}"));
}

/// The held copy may be the file of the party that is rebuilt, and of no other.
#[test]
fn held_copies() {
    let folder = folder_with_shares("parties-held");
    symlink("share-2", folder.0.join("shares/link")).expect("a link");
    for held in ["shares/share-2", "shares/link"] {
        folder.says(&format!("rebuild --party 2 --held {held} out{}", of(&[1, 2, 3])));
        folder.remove("out");
    }
    let line = |held: &str| format!("rebuild --party 4 --held {held} out{}", of(&[1, 2, 3]));
    is_bad_usage(&folder, &line("shares/share-2"), "\"shares/share-2\" is given for party 2 and for party 4");
    let reason = "\"shares/share-2\" is given for party 2 and \"shares/link\" for party 4, and they are one file";
    is_bad_usage(&folder, &line("shares/link"), reason);
}

/// A message under its own bytes is not hidden. Here a block has a byte and takes one key byte, so that the lengths fit.
#[test]
fn one_file_as_message_and_keys() {
    let folder = Folder::new("parties-keys");
    folder.write("a", 25);
    fs::copy(folder.0.join("a"), folder.0.join("copy")).expect("a copy");
    fs::hard_link(folder.0.join("a"), folder.0.join("hard")).expect("a link");
    symlink("a", folder.0.join("soft")).expect("a link");
    let line = |files: &str| format!("split --scheme 2,0,1,2 --unpadded {files} shares");
    let drawn = "keys are other bytes, drawn at random";
    for name in ["a", "absent"] {
        let reason = format!("{name:?} is both the message and the file of its keys: {drawn}");
        is_bad_usage(&folder, &line(&format!("{name} {name}")), &reason);
    }
    for other in ["./a", "hard", "soft"] {
        for (message, keys) in [("a", other), (other, "a")] {
            let reason = format!("the message {message:?} and the file of its keys {keys:?} are one file: {drawn}");
            is_bad_usage(&folder, &line(&format!("{message} {keys}")), &reason);
        }
    }
    let input = || fs::File::open(folder.0.join("a")).expect("a file");
    let output = folder.command(&line("- a")).stdin(input()).output().expect("it runs");
    let said = "sharing: the message standard input and the file of its keys \"a\" are one file: ";
    assert_eq!(output.status.code(), Some(2));
    assert!(text(&output.stderr).starts_with(said), "{}", text(&output.stderr));
    folder.says(&line("a copy"));
}

/// The keys of a pool are no message that it hides, by whatever name, and none of them is used.
#[test]
fn the_keys_of_the_pool_as_message() {
    let folder = Folder::new("parties-pool");
    folder.write("drawn", 90);
    folder.says("pool new pool drawn");
    fs::hard_link(folder.0.join("pool/keys"), folder.0.join("hard")).expect("a link");
    symlink("pool", folder.0.join("other")).expect("a link");
    let keys = folder.bytes("pool/keys");
    let line = |message: &str| format!("split --scheme 2,0,1,2 --unpadded --pool pool {message} shares");
    let drawn = "keys are other bytes, drawn at random";
    let reason = format!("\"pool/keys\" is both the message and the file of its keys: {drawn}");
    is_bad_usage(&folder, &line("pool/keys"), &reason);
    for name in ["hard", "other/keys", "./pool/keys"] {
        let reason = format!("the message {name:?} and the file of its keys \"pool/keys\" are one file: {drawn}");
        is_bad_usage(&folder, &line(name), &reason);
    }
    assert_eq!(folder.bytes("pool/keys"), keys);
    folder.says(&line("drawn"));
}

/// What it says aside where it goes on.
fn notes(folder: &Folder, line: &str) -> String {
    let output = folder.command(line).output().expect("it runs");
    assert_eq!(output.status.code(), Some(0), "{line}: {}", text(&output.stderr));
    folder.remove("out");
    text(&output.stderr)
}

/// The names that split gives, and those with a dot after them, tell their party; others do not.
#[test]
fn names_of_other_parties() {
    let folder = folder_with_shares("parties-names");
    let note =
        |name: &str, other: &str| format!("sharing: {name:?} is given for party 2, and its name says party {other}\n");
    for (name, other) in
        [("share-1", "1"), ("share-12", "12"), ("share-03", "3"), ("share-3.old", "3"), ("share-4.", "4")]
    {
        fs::write(folder.0.join(name), [7; 30]).expect("a written file");
        for line in [format!("check 2={name}{}", of(&[1, 3])), format!("rebuild --party 5 out 2={name}{}", of(&[1, 3]))]
        {
            assert_eq!(notes(&folder, &line), note(name, other), "{line}");
        }
        let told = format!("reconstruct --length 30 out 2={name}{}", of(&[1, 3]));
        assert_eq!(notes(&folder, &told), note(name, other));
    }
    for name in
        ["share-2", "share-2.old", "share-02", "share-", "share-x", "share-1-old", "share1", "sent-1", "my-share-1"]
    {
        fs::copy(folder.0.join("shares/share-2"), folder.0.join(name)).expect("a copy");
        assert_eq!(notes(&folder, &format!("check 2={name}{}", of(&[1, 3]))), "", "{name}");
    }
    // The folder has no part in it, and every file that is named so is pointed out.
    fs::create_dir(folder.0.join("share-9")).expect("a folder");
    fs::copy(folder.0.join("shares/share-2"), folder.0.join("share-9/share-2")).expect("a copy");
    assert_eq!(notes(&folder, &format!("check 2=share-9/share-2{}", of(&[1, 3]))), "");
    let said = notes(&folder, "check 1=shares/share-2 2=shares/share-1 3=shares/share-3");
    assert_eq!(said.lines().count(), 2, "{said}");
    // The wrong number opens to other bytes, and nothing else shows it.
    split(&folder, "--unpadded ", 5, 12);
    let line = "reconstruct --length 5 opened 1=shares/share-2 2=shares/share-1 3=shares/share-3";
    assert_eq!(notes(&folder, line).lines().count(), 2);
    assert_ne!(folder.bytes("opened"), folder.bytes("message"));
}

/// Of a share that is rebuilt the held copy and the new name are looked at too.
#[test]
fn names_of_what_is_rebuilt() {
    let folder = folder_with_shares("parties-rebuilt");
    let line = |options: &str, out: &str| format!("rebuild --party 4 {options}{out}{}", of(&[1, 2, 3]));
    let said = notes(&folder, &line("", "share-5"));
    assert_eq!(said, "sharing: \"share-5\" is given for party 4, and its name says party 5\n");
    let said = notes(&folder, &line("--held shares/share-5 ", "out"));
    assert_eq!(said, "sharing: \"shares/share-5\" is given for party 4, and its name says party 5\n");
    assert_eq!(notes(&folder, &line("--held shares/share-4 ", "share-4")), "");
}

/// Where it is refused afterwards, the note stands before the reason.
#[test]
fn before_a_refusal() {
    let folder = folder_with_shares("parties-refused");
    let line = format!("check 2=shares/share-4 4=shares/share-2{}", of(&[1, 3, 5]));
    let said = folder.fails(&line, 1);
    let lines: Vec<&str> = said.lines().take(3).collect();
    assert_eq!(lines[0], "sharing: \"shares/share-4\" is given for party 2, and its name says party 4");
    assert_eq!(lines[1], "sharing: \"shares/share-2\" is given for party 4, and its name says party 2");
    assert!(lines[2].starts_with("sharing: refused (18): "), "{said}");
}

#[test]
fn help() {
    let folder = Folder::new("parties-help");
    for command in ["reconstruct", "rebuild", "check"] {
        let said = folder.says(&format!("{command} --help")).replace('\n', " ");
        assert!(said.contains("One file for two parties is not accepted"), "{said}");
        assert!(said.contains("named share-K"), "{said}");
    }
}
