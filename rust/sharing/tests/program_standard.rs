//! `-` for standard input and standard output, in every command that reads or writes a file.

use folder::{text, Folder};
use shares_folder::{folder_with_shares, of};
use std::fs::{self, OpenOptions};
use std::io::Write;
use std::process::{Output, Stdio};

// Of what a folder can do, not all is needed here.
#[allow(dead_code)]
mod folder;
mod shares_folder;

/// Runs the program with these bytes on its standard input.
fn fed(folder: &Folder, line: &str, input: &[u8]) -> Output {
    let mut run = folder.command(line).stdin(Stdio::piped()).spawn().expect("the program runs");
    let mut pipe = run.stdin.take().expect("a pipe");
    // Who refuses the command line does not read.
    let _ = pipe.write_all(input);
    drop(pipe);
    run.wait_with_output().expect("it ends")
}

/// What it says where it writes a file, or nothing.
fn says(folder: &Folder, line: &str, input: &[u8]) -> String {
    let output = fed(folder, line, input);
    assert_eq!((output.status.code(), text(&output.stderr)), (Some(0), String::new()), "{line}");
    text(&output.stdout)
}

/// What it writes to standard output, and what it says aside.
fn writes(folder: &Folder, line: &str, input: &[u8]) -> (Vec<u8>, String) {
    let before = folder.names();
    let output = fed(folder, line, input);
    assert_eq!(output.status.code(), Some(0), "{line}: {}", text(&output.stderr));
    assert_eq!(folder.names(), before, "{line}: no file is made");
    (output.stdout, text(&output.stderr))
}

/// What it says where it fails: nothing is written anywhere.
fn fails(folder: &Folder, line: &str, input: &[u8], status: i32) -> String {
    let before = folder.names();
    let output = fed(folder, line, input);
    let said = text(&output.stderr);
    assert_eq!((output.status.code(), text(&output.stdout)), (Some(status), String::new()), "{line}: {said}");
    assert_eq!(folder.names(), before, "{line}: nothing is left behind");
    said
}

/// A message, or its keys, that come through a pipe make the same shares as those from files.
#[test]
fn splits() {
    let folder = folder_with_shares("standard-split");
    let (message, keys) = (folder.bytes("message"), folder.bytes("keys"));
    for (line, input) in [("split - keys", &message), ("split message -", &keys)] {
        let said = says(&folder, &format!("{line} piped"), input);
        let told = "5 shares of 30 bytes are in \"piped\", share-1 to share-5.\nThe message has 25 bytes.\n";
        assert!(said.starts_with(told), "{said}");
        for party in 1..=5 {
            assert_eq!(folder.bytes(&format!("piped/share-{party}")), folder.bytes(&format!("shares/share-{party}")));
        }
        folder.remove("piped");
    }
}

/// What a command that failed leaves is an empty message: it is split, and both the report and a note say so.
#[test]
fn an_empty_message() {
    let folder = folder_with_shares("standard-empty");
    folder.write("none", 0);
    folder.write("pool-keys", 24);
    folder.says("pool new pool pool-keys");
    folder.write("keys", 12);
    for (line, length, note) in [
        ("split - keys", 6, "standard input has 0 bytes"),
        ("split none keys", 6, "\"none\" has 0 bytes"),
        ("split --pool pool -", 6, "standard input has 0 bytes"),
        ("split --unpadded --pool pool none", 0, "\"none\" has 0 bytes"),
    ] {
        let output = fed(&folder, &format!("{line} piped"), b"");
        let told =
            format!("5 shares of {length} bytes are in \"piped\", share-1 to share-5.\nThe message has 0 bytes.\n");
        assert!(text(&output.stdout).starts_with(&told), "{line}: {}", text(&output.stdout));
        let aside = format!("sharing: the message is empty: {note}\n");
        assert_eq!((output.status.code(), text(&output.stderr)), (Some(0), aside), "{line}");
        folder.remove("piped");
    }
    // The check is not counted.
    folder.write("keys", 72);
    let said = text(&fed(&folder, "split --checked - keys piped", b"").stdout);
    assert!(said.contains("\nThe message has 0 bytes.\n"), "{said}");
    folder.remove("piped");
    let said = says(&folder, "split --checked - keys piped", b"a");
    assert!(said.contains("\nThe message has 1 byte.\n"), "{said}");
}

/// Keys that go from where they are drawn into a pool, and are in no file before.
#[test]
fn pools() {
    let folder = folder_with_shares("standard-pool");
    let (message, keys) = (folder.bytes("message"), folder.bytes("keys"));
    assert_eq!(
        says(&folder, "pool new pool -", &keys),
        "The pool \"pool\" is loaded with 60 key bytes.\n\
         Keep nothing of what came on standard input: its bytes are in the pool, and a second pool made of it would use \
         them twice.\n"
    );
    let said = says(&folder, "split --pool pool - piped", &message);
    assert!(said.ends_with("Key bytes of the pool \"pool\": 60 used for this message, 0 left.\n"), "{said}");
    assert_eq!(folder.bytes("piped/share-3"), folder.bytes("shares/share-3"));
    let empty = fails(&folder, "pool new other -", b"", 1);
    assert_eq!(empty, "sharing: standard input has 0 bytes, and a pool needs at least one key byte\n");
}

const SCHEME: &str =
    "The scheme is the default, 5,2,2,5,4,3; shares of the former default need --scheme 5,2,1,5,4,3.\n";

#[test]
fn readers() {
    let folder = folder_with_shares("standard-readers");
    let share = folder.bytes("shares/share-2");
    let (prefix, said) = writes(&folder, "prefix --readers 4 - -", &share);
    assert_eq!(prefix, share[..15]);
    assert_eq!(said, format!("The prefix, 15 bytes of 30, is on standard output.\n{SCHEME}"));

    let line = format!("reconstruct - 2=-{}", of(&[1, 3]));
    let (message, said) = writes(&folder, &line, &share);
    assert_eq!(message, folder.bytes("message"));
    let told = "The message, 25 bytes, is on standard output; 90 bytes were fetched from 3 parties.\n";
    assert!(said.starts_with(&format!("{told}{SCHEME}Only its end could be checked: ")), "{said}");
    for (range, bytes, told) in [
        ("--first 3", 0..3, "Bytes 0 to 2 of the message, 3 bytes, are on standard output; "),
        ("--range 9..10", 9..10, "Byte 9 of the message is on standard output; "),
        ("--range 9..9", 9..9, "The range 9..9 is empty, and so is standard output; "),
    ] {
        let (written, said) = writes(&folder, &line.replace(" - ", &format!(" {range} - ")), &share);
        assert_eq!(written, folder.bytes("message")[bytes]);
        assert!(said.starts_with(told), "{said}");
    }
}

#[test]
fn shares() {
    let folder = folder_with_shares("standard-shares");
    let share = folder.bytes("shares/share-2");
    let line = format!("rebuild --party 2 --held - -{}", of(&[1, 3, 4]));
    let (rebuilt, said) = writes(&folder, &line, &share);
    assert_eq!(rebuilt, share);
    let told = "The share of party 2, 30 bytes, is on standard output, rebuilt from the shares of 3 parties.\n\
                No byte of the held copy on standard input was wrong.\n";
    assert!(said.starts_with(told), "{said}");
    let (_, said) = writes(&folder, &line, b"");
    assert!(said.contains("\nThere was no held copy: standard input is empty.\n"), "{said}");
    let said = fails(&folder, &line, &share[..29], 1);
    assert!(said.contains("30 bytes, or empty, and standard input has 29 bytes\n"), "{said}");
    let line = format!("check 2=-{}", of(&[1, 3, 4, 5]));
    assert!(says(&folder, &line, &share).starts_with("The 5 shares agree.\n"));
    let mut wrong = share;
    wrong[3] ^= 1;
    let said = fails(&folder, &line, &wrong, 1);
    assert!(said.contains("\nthe share of party 2, standard input, does not fit the others, "), "{said}");
}

#[test]
fn archives() {
    let folder = folder_with_shares("standard-archive");
    let share = folder.bytes("shares/share-2");
    folder.says("archive write box shares/share-2 shares/share-1");
    let (archive, said) = writes(&folder, "archive write - - shares/share-1", &share);
    assert_eq!(archive, folder.bytes("box"));
    assert!(said.starts_with("The archive, 2 entries in 70 bytes, is on standard output.\nEntries "), "{said}");
    assert_eq!(says(&folder, "archive list -", &archive), folder.says("archive list box"));
    let (entry, said) = writes(&folder, "archive entry - 0 -", &archive);
    assert_eq!((entry, &said[..]), (share, "Entry 0, 30 bytes, is on standard output.\n"));
    let said = fails(&folder, "archive list -", &archive[..9], 1);
    assert!(said.contains("\nthe count and the pairs of 2 entries have 10 bytes, and standard input has 9 bytes\n"));
}

/// What is refused is called standard input, and the pipe stays empty.
#[test]
fn refusals() {
    let folder = folder_with_shares("standard-refusals");
    for (line, input, status, words) in [
        (
            "split - keys piped",
            16385,
            1,
            "refused (5): the message is longer than 16384 bytes\nstandard input has 16385 ",
        ),
        ("split message - piped", 59, 1, "it needs 60 bytes, and standard input has 59 bytes\n"),
        ("split - keys piped", 1 << 21, 1, "\nstandard input has more than 1048576 bytes\n"),
        ("prefix --readers 4 - -", 29, 1, "1 to 2731 blocks, and standard input has 29 bytes\n"),
        ("reconstruct - 1=- 2=shares/share-2 3=shares/share-3", 31, 1, "and standard input has 31 bytes\n"),
        (
            "check 1=- 2=shares/share-2 3=shares/share-3",
            36,
            1,
            "but standard input has 36 bytes and \"shares/share-2\" ",
        ),
        ("archive entry - 9 -", 2, 1, "refused (12): "),
    ] {
        let said = fails(&folder, line, &vec![7; input], status);
        assert!(said.starts_with("sharing: ") && said.contains(words), "{line}: {said}");
    }
    // A folder where standard input should be.
    folder.shell_fails("exec \"$0\" prefix --readers 4 - - <.", "cannot read standard input: ");
}

/// Standard input can be read once, and a folder cannot be one of the two.
#[test]
fn usage() {
    let folder = folder_with_shares("standard-usage");
    for line in [
        "split - - piped",
        "reconstruct out 1=- 2=- 3=shares/share-3",
        "reconstruct - 1=- 2=- 3=shares/share-3",
        "rebuild --party 2 --held - out 1=- 3=shares/share-3 4=shares/share-4",
        "check 1=- 2=shares/share-2 3=-",
        "archive write box - shares/share-1 -",
    ] {
        let said = fails(&folder, line, b"input", 2);
        assert!(said.starts_with("sharing: - stands for standard input, which can be read once"), "{line}: {said}");
    }
    for (line, name) in [
        ("split message keys -", "FOLDER"),
        ("split --pool pool message -", "FOLDER"),
        ("split --pool - message shares", "POOL"),
        ("pool new - keys", "POOL"),
        ("pool status -", "POOL"),
    ] {
        let said = fails(&folder, line, b"", 2);
        assert!(said.starts_with(&format!("sharing: {name} cannot be -: it is a folder")), "{line}: {said}");
    }
}

/// Files and folders of that name are given with their folder.
#[test]
fn files_of_that_name() {
    let folder = folder_with_shares("standard-names");
    fs::copy(folder.0.join("shares/share-2"), folder.0.join("-")).expect("a copy");
    let said = folder.says("prefix --readers 3 ./- out");
    assert!(said.starts_with("The prefix, 30 bytes of 30, is in \"out\".\n"), "{said}");
    assert_eq!(folder.bytes("out"), folder.bytes("-"));
    folder.says(&format!("check 2=./-{}", of(&[1, 3])));
    folder.remove("-");
    folder.says("prefix --readers 3 out ./-");
    assert_eq!(folder.bytes("-"), folder.bytes("out"));
    folder.remove("-");
    folder.says("split message keys ./-");
    assert!(folder.0.join("-/share-5").exists());
}

/// Where standard output is closed or full, or nobody reads, that is said; and a closed input is no empty message.
#[test]
fn closed_and_full() {
    let folder = folder_with_shares("standard-closed");
    let left = folder.names();
    for line in [
        "prefix --readers 3 shares/share-1 -",
        "reconstruct - 1=shares/share-1 2=shares/share-2 3=shares/share-3",
        "rebuild --party 4 - 1=shares/share-1 2=shares/share-2 3=shares/share-3",
        "archive write - shares/share-1",
    ] {
        folder.shell_fails(&format!("exec \"$0\" {line} >/dev/full"), "sharing: cannot write to standard output: ");
        let closed = "sharing: cannot write to standard output: it is closed\n";
        folder.shell_fails(&format!("exec \"$0\" {line} >&-"), closed);
        let other = "sharing: cannot write to standard output: it is not open for writing\n";
        folder.shell_fails(&format!("exec \"$0\" {line} 1</dev/null"), other);
        // The reader is gone before anything is written.
        let (reader, writer) = std::io::pipe().expect("a pipe");
        drop(reader);
        let output = folder.command(line).stdout(writer).output().expect("it runs");
        assert_eq!(output.status.code(), Some(1), "{line}");
        assert!(text(&output.stderr).starts_with("sharing: cannot write to standard output: Broken pipe"), "{line}");
    }
    for line in ["split - keys piped", "split --unpadded message - piped", "prefix --readers 3 - -", "pool new pool -"]
    {
        folder.shell_fails(&format!("exec \"$0\" {line} <&-"), "sharing: cannot read standard input: it is closed\n");
        let other = "sharing: cannot read standard input: it is not open for reading\n";
        folder.shell_fails(&format!("exec \"$0\" {line} 0>/dev/null"), other);
    }
    assert_eq!(folder.names(), left);
}

/// A report that arrives nowhere is no report: nothing is kept. What is open in both directions serves as both.
#[test]
fn directions() {
    let folder = folder_with_shares("standard-directions");
    let left = folder.names();
    for line in ["split message keys more", "pool new pool keys", "prefix --readers 3 shares/share-1 out", "scheme"] {
        let other = "sharing: cannot write to standard output: it is not open for writing\n";
        folder.shell_fails(&format!("exec \"$0\" {line} 1</dev/null"), other);
    }
    assert_eq!(folder.names(), left);
    let both = |name: &str| {
        let mut how = OpenOptions::new();
        how.read(true).write(true).create(true).truncate(false).open(folder.0.join(name)).expect("a file")
    };
    let mut run = folder.command("prefix --readers 4 - -");
    let status = run.stdin(both("shares/share-2")).stdout(both("out")).status().expect("it runs");
    assert!(status.success());
    assert_eq!(folder.bytes("out"), folder.bytes("shares/share-2")[..15]);
}

#[test]
fn help() {
    let all = Folder::new("standard-help").says("--help").replace('\n', " ");
    assert!(all.contains("- is standard input, once in a command line.") && all.contains("given as ./-"), "{all}");
}

/// A picture goes the same way as other results.
#[test]
fn pictures() {
    let folder = Folder::new("standard-picture");
    let said = folder.says("scheme 7,4,1,7,4,3 --picture drawn.svg");
    let (picture, aside) = writes(&folder, "scheme 7,4,1,7,4,3 --picture -", b"");
    assert_eq!(picture, folder.bytes("drawn.svg"));
    assert_eq!(aside, said.replace("in \"drawn.svg\"", "on standard output"));
}
