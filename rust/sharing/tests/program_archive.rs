//! `sharing archive`, run as its users run it, in a folder of its own.

use comparison::cases::archive::{file, WriteCall};
use folder::{text, Folder};
use gilunavoi::limits::{MAX_ENTRIES, MAX_OFFSET_OR_LENGTH};
use std::ffi::OsStr;
use std::fs;
use std::os::unix::ffi::OsStrExt;
use std::os::unix::fs::PermissionsExt;

mod folder;

/// The archive of these files.
fn expected(folder: &Folder, names: &[&str]) -> Vec<u8> {
    let entries: Vec<Vec<u8>> = names.iter().map(|name| folder.bytes(name)).collect();
    WriteCall { lengths: entries.iter().map(Vec::len).collect(), contents: entries.concat(), excess: 0 }.file()
}

/// Shares from several folders, one of them twice, written, listed and taken out again.
#[test]
fn round_trip() {
    let folder = Folder::new("archive-round");
    fs::create_dir(folder.0.join("in")).expect("a folder");
    folder.write("a", 18);
    folder.write("in/a", 12000);
    folder.write("in/b", 1);
    let names = ["a", "in/a", "in/b", "a"];
    assert_eq!(
        folder.says("archive write box a in/a in/b a"),
        "The archive, 4 entries in 12055 bytes, is in \"box\".\n\
         Entries are numbered from 0, in the order in which they were given; their names are not kept.\n"
    );
    assert_eq!(folder.bytes("box"), expected(&folder, &names));
    let mode = fs::metadata(folder.0.join("box")).expect("a file").permissions().mode();
    assert_eq!(mode & 0o777, 0o600);
    let list = folder.says("archive list box");
    assert_eq!(
        list,
        "entry    0  length    18  offset    18\n\
         entry    1  length 12000  offset    36\n\
         entry    2  length     1  offset 12036\n\
         entry    3  length    18  offset 12037\n"
    );
    for (line, name) in list.lines().zip(names) {
        let fields: Vec<&str> = line.split_whitespace().collect();
        let (number, length) = (fields[1], fields[3]);
        let bytes = if length == "1" { "byte" } else { "bytes" };
        let said = folder.says(&format!("archive entry box {number} in/out-{number}"));
        assert_eq!(said, format!("Entry {number}, {length} {bytes}, is in \"in/out-{number}\".\n"));
        assert_eq!(folder.bytes(&format!("in/out-{number}")), folder.bytes(name));
    }
}

#[test]
fn no_entries_and_one() {
    let folder = Folder::new("archive-none");
    assert_eq!(folder.says("archive write none"), "The archive, 0 entries in 2 bytes, is in \"none\".\n");
    assert_eq!(folder.bytes("none"), [0, 0]);
    let output = folder.command("archive list none").output().expect("it runs");
    assert!(output.status.success() && output.stdout.is_empty());
    assert_eq!(text(&output.stderr), "sharing: \"none\" has 2 bytes, and no entries\n");
    let asked = "number 0 is asked for, and \"none\" has 2 bytes and 0 entries, numbered from 0\n";
    folder.refuses("archive entry none 0 out", 14, asked);

    folder.write("share", 1);
    let said = folder.says("archive write one share");
    assert!(said.starts_with("The archive, 1 entry in 7 bytes, is in \"one\".\n"), "{said}");
    assert_eq!(folder.says("archive list one"), "entry    0  length     1  offset     6\n");
    folder.says("archive entry one 0 out");
    assert_eq!(folder.bytes("out"), folder.bytes("share"));
}

/// As many shares as there may be, and the longest archive.
#[test]
fn the_largest() {
    let folder = Folder::new("archive-largest");
    folder.write("share", 12);
    let many = vec!["share"; MAX_ENTRIES];
    let said = folder.says(&format!("archive write many {}", many.join(" ")));
    assert!(said.starts_with("The archive, 4096 entries in 65538 bytes, "), "{said}");
    assert_eq!(folder.bytes("many"), expected(&folder, &many));
    assert!(folder.says("archive list many").ends_with("entry 4095  length    12  offset 65526\n"));
    folder.write("first", MAX_OFFSET_OR_LENGTH - 10);
    folder.write("last", MAX_OFFSET_OR_LENGTH);
    let said = folder.says("archive write long first last");
    assert!(said.starts_with("The archive, 2 entries in 131070 bytes, "), "{said}");
    folder.says("archive entry long 1 out");
    assert_eq!(folder.bytes("out"), folder.bytes("last"));
}

#[test]
fn refusals_of_write() {
    let folder = Folder::new("archive-write");
    let longest = MAX_OFFSET_OR_LENGTH;
    let lengths = [("empty", 0), ("a", 1), ("fits", longest - 10), ("long", longest + 1), ("endless", 1 << 21)];
    for (name, length) in lengths {
        folder.write(name, length);
    }
    folder.refuses("archive write box a empty a", 13, "\n\"empty\" has 0 bytes\n");
    folder.refuses("archive write box a a long empty", 13, "\n\"long\" has 65536 bytes\n");
    folder.refuses("archive write box endless", 13, "\n\"endless\" has more than 1048576 bytes\n");
    let late =
        "\n\"a\" has 1 byte and, even as the last one, would start at 65540; there is room for 2 shares before it\n";
    folder.refuses("archive write box fits a a empty", 13, late);
    // Too many are too many, whatever they are, and none of them is read.
    for name in ["a", "empty", "absent"] {
        let shares = vec![name; MAX_ENTRIES + 1].join(" ");
        folder.refuses(&format!("archive write box {shares}"), 12, "\n4097 shares were given\n");
    }
}

/// What is said of files that are no archives.
#[test]
fn damaged_archives() {
    let folder = Folder::new("archive-damaged");
    let damaged: [(&[u8], u64, &str); 10] = [
        (&[], 12, "the count alone has 2 bytes, and \"box\" has 0 bytes"),
        (&[2], 12, "the count alone has 2 bytes, and \"box\" has 1 byte"),
        (&[1, 16], 12, "it starts with the count 4097, and \"box\" has 2 bytes"),
        // The first pair is wrong, but the second one is cut short.
        (&[2, 0, 9, 0, 0, 0], 12, "the count and the pairs of 2 entries have 10 bytes, and \"box\" has 6 bytes"),
        (&[0, 0, 0], 13, "by its count and its pairs it has 2 bytes, and \"box\" has 3 bytes"),
        (&[1, 0, 6, 0, 1, 0, 7, 7], 13, "by its count and its pairs it has 7 bytes, and \"box\" has 8 bytes"),
        (&[1, 0, 6, 0, 2, 0, 7], 13, "by its count and its pairs it has 8 bytes, and \"box\" has 7 bytes"),
        (&[1, 0, 7, 0, 1, 0, 7, 8], 13, "entry 0 has the offset 7, and has to start at 6"),
        (&[2, 0, 10, 0, 1, 0, 10, 0, 2, 0, 7, 8, 9], 13, "entry 1 has the offset 10, and has to start at 11"),
        (&[2, 0, 10, 0, 1, 0, 11, 0, 0, 0, 7], 13, "entry 1 has no bytes"),
    ];
    for (bytes, number, detail) in damaged {
        fs::write(folder.0.join("box"), bytes).expect("a written file");
        for line in ["archive list box", "archive entry box 0 out", "archive entry box 9 out"] {
            folder.refuses(line, number, &format!("\n{detail}\n"));
        }
    }
    // Only so much of an endless file is read.
    fs::write(folder.0.join("box"), file(1, &[(6, 1)], &vec![0; 1 << 21])).expect("a written file");
    folder.refuses("archive list box", 13, "it has 7 bytes, and \"box\" has more than 1048576 bytes\n");
}

#[test]
fn numbers_of_entries() {
    let folder = Folder::new("archive-numbers");
    folder.write("a", 3);
    folder.says("archive write box a a");
    for number in ["2", "65536", "4294967296", "18446744073709551615"] {
        let asked = format!("\nnumber {number} is asked for, and \"box\" has 16 bytes and 2 entries, numbered from 0");
        folder.refuses(&format!("archive entry box {number} out"), 14, &asked);
    }
    for number in ["one", "-1", "+1", "", "0x0", "18446744073709551616"] {
        let said = folder.fails(&format!("archive entry box {number} out"), 2);
        assert!(said.starts_with("sharing: NUMBER: "), "{said}");
    }
}

#[test]
fn nothing_is_overwritten_or_left_behind() {
    let folder = Folder::new("archive-left");
    folder.write("a", 5000);
    folder.says("archive write box a a");
    let (share, archive) = (folder.bytes("a"), folder.bytes("box"));
    std::os::unix::fs::symlink("nowhere", folder.0.join("link")).expect("a link");
    for (line, words) in [
        ("archive write a a", "\"a\" exists already, and nothing is overwritten\n"),
        ("archive write a box a", "\"a\" exists already"),
        ("archive write box box", "\"box\" exists already"),
        ("archive write link a", "\"link\" exists already"),
        ("archive write no/box a", "cannot write \"no/box\": "),
        ("archive write new new", "cannot read \"new\": "),
        ("archive write new a absent", "cannot read \"absent\": "),
        ("archive list .", "cannot read \".\": "),
        ("archive entry box 0 a", "\"a\" exists already"),
        ("archive entry box 0 box", "\"box\" exists already"),
        ("archive entry box 1 link", "\"link\" exists already"),
        ("archive entry absent 0 out", "cannot read \"absent\": "),
    ] {
        assert!(folder.fails(line, 1).contains(words), "{line}");
    }

    // A disk that is full in the middle, and nobody who can be told.
    let left = folder.names();
    for (line, out) in [("archive write new a a", "new"), ("archive entry box 0 out", "out")] {
        let limited = format!("trap '' XFSZ; ulimit -f 8; exec \"$0\" {line}");
        folder.shell_fails(&limited, &format!("cannot write \"{out}\": "));
        for output in ["/dev/full", "&-"] {
            folder.shell_fails(&format!("exec \"$0\" {line} >{output}"), "cannot write to standard output: ");
        }
    }
    folder.shell_fails("exec \"$0\" archive list box >/dev/full", "cannot write to standard output: ");
    assert_eq!((folder.names(), folder.bytes("a"), folder.bytes("box")), (left, share, archive));
}

#[test]
fn interrupts() {
    let folder = Folder::new("archive-interrupts");
    folder.write("share", 12);
    let shares = vec!["share"; MAX_ENTRIES].join(" ");
    folder.interrupts(&format!("archive write box {shares}"), "box", 1, "4096 entries");
    folder.says(&format!("archive write kept {shares}"));
    folder.interrupts("archive entry kept 4095 out", "out", 1, "Entry 4095, 12 bytes");
}

/// File names need not be text, and after `--` they may start with two dashes.
#[test]
fn any_file_name() {
    let folder = Folder::new("archive-names");
    let (name, out) = (OsStr::from_bytes(b"\xff=\xfe"), OsStr::from_bytes(b"\xfd"));
    fs::write(folder.0.join(name), [7]).expect("a file");
    fs::write(folder.0.join("--help"), [8, 9]).expect("a file");
    for (line, last) in [("archive write -- --box --help", name), ("archive entry -- --box 1", out)] {
        let output = folder.command(line).arg(last).output().expect("it runs");
        assert_eq!(output.status.code(), Some(0), "{line}: {}", text(&output.stderr));
    }
    assert_eq!(folder.bytes("--box"), [2, 0, 10, 0, 2, 0, 12, 0, 1, 0, 8, 9, 7]);
    assert_eq!(fs::read(folder.0.join(out)).expect("a file"), [7]);
}

#[test]
fn help_and_usage() {
    let folder = Folder::new("archive-usage");
    let (all, one) = (folder.says("--help"), folder.says("archive --help"));
    for line in ["archive -h", "archive write --help", "archive list box -h", "archive entry --help"] {
        assert_eq!(folder.says(line), one);
    }
    for command in ["write FILE [SHARE ..]", "list FILE", "entry FILE NUMBER OUT"] {
        assert!(one.contains(&format!("sharing archive {command}\n")), "{one}");
        assert!(all.contains(&format!("  sharing archive {command}\n")), "{all}");
    }
    assert!(one.contains("at most 4096 ") && one.contains("1 to 65535 bytes"), "{one}");
    for (line, words) in [
        ("archive", "after archive one of write, list and entry is missing"),
        ("archive extract box", "archive has no command \"extract\": there are write, list and entry"),
        ("archive write", "needed is FILE, and then the shares"),
        ("archive write box/ a", "\"box/\" is not the name of a file"),
        ("archive write --scheme 5,2,1,5 box a", "there is no option \"--scheme\" here"),
        ("archive list", "needed is FILE, and 0 words were given"),
        ("archive list box box", "needed is FILE, and 2 words were given"),
        ("archive list --all box", "there is no option \"--all\" here"),
        ("archive entry box 0", "needed are FILE, NUMBER, OUT, and 2 words were given"),
        ("archive entry box 0 out/", "\"out/\" is not the name of a file"),
        ("archive entry box 0 out more", "and 4 words were given"),
    ] {
        let said = folder.fails(line, 2);
        assert!(said.contains(words) && said.contains("sharing --help"), "{line}: {said}");
    }
}
