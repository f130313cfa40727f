//! `sharing rebuild` and `sharing check` where they refuse, or fail: what is said, and that nothing is left behind.

use folder::{text, Folder};
use shares_folder::{folder_with_shares, of};
use std::ffi::OsStr;
use std::fs;
use std::os::unix::ffi::OsStrExt;

mod folder;
mod shares_folder;

/// Both commands refuse these words.
fn both_refuse(folder: &Folder, words: &str, number: u64, detail: &str) {
    folder.refuses(&format!("check{words}"), number, detail);
    folder.refuses(&format!("rebuild --party 2 out{words}"), number, detail);
}

#[test]
fn refusals() {
    let folder = folder_with_shares("rebuild-refusals");
    folder.write("share", 30);
    for (parties, detail) in [
        (&[1, 2, 2][..], "[1, 2, 2]"),
        (&[0, 2, 3], "[0, 2, 3]"),
        (&[6, 2, 3], "[2, 3, 6]"),
        (&[255], "[255]"),
        // Too few as well, and that is looked at later.
        (&[1, 1], "[1, 1]"),
    ] {
        let words = folder.copies("share", parties);
        let detail = format!("\nthe parties are {detail}, and the scheme is N 5, R 2, Z 2, counts 5,4,3\n");
        both_refuse(&folder, &words, 7, &detail);
    }
    for party in [0, 6, 255] {
        let detail = format!("\nthe one to rebuild is {party}, and the scheme is N 5, R 2, ");
        folder.refuses(&format!("rebuild --party {party} out{}", of(&[1, 2])), 7, &detail);
    }
    // Where the list is at fault too, it is blamed: it is tested first.
    for (words, list) in [(of(&[1, 2, 2]), "[1, 2, 2]"), (format!(" 6=keys{}", of(&[1, 2])), "[1, 2, 6]")] {
        let detail = format!("\nthe parties are {list}, and the scheme is N 5, R 2, ");
        folder.refuses(&format!("rebuild --party 6 out{words}"), 7, &detail);
    }
    let few =
        "\nneeded are whole shares of 3 parties or more, and 2 were given; the scheme is N 5, R 2, Z 2, counts 5,4,3\n";
    both_refuse(&folder, &of(&[1, 3]), 17, few);
    both_refuse(&folder, " 1=shares/share-1 3=keys", 17, few);
    folder.refuses("rebuild --party 2 out", 17, "and 0 were given;");
    both_refuse(&folder, &of(&[4]), 17, "and 1 was given;");
    both_refuse(&folder, &format!(" 4=message{}", of(&[1, 3])), 9, "and \"message\" has 25 bytes\n");
    for scheme in ["1,0,1,1", "5,3,2,5", "5,2,2,5,4", "10,4,1,10,9,8,6"] {
        for line in
            [format!("check --scheme {scheme} 1=keys"), format!("rebuild --scheme {scheme} --party 1 out 1=keys")]
        {
            let said = folder.fails(&line, 1);
            assert!(said.starts_with("sharing: refused (") && said.contains("\nthe scheme is N "), "{said}");
        }
    }
}

/// Lengths that no share has, and files that are too long and too short by as much.
#[test]
fn lengths() {
    let folder = folder_with_shares("rebuild-lengths");
    for (name, length) in
        [("29", 29), ("31", 31), ("24", 24), ("36", 36), ("most", 2731 * 6), ("more", 2732 * 6), ("endless", 1 << 21)]
    {
        folder.write(name, length);
    }
    let needed = "\na whole share has 6 bytes for each of at most 2731 blocks, and";
    for (words, detail) in [
        (" 4=29", format!("{needed} \"29\" has 29 bytes\n")),
        (" 3=31 4=29", format!("{needed} \"31\" has 31 bytes\n")),
        (&folder.copies("more", &[3, 4]), format!("{needed} \"more\" has 16392 bytes\n")),
        (" 4=endless", format!("{needed} \"endless\" has more than 1048576 bytes\n")),
        (" 4=24", "equally long, but \"shares/share-2\" has 30 bytes and \"24\" has 24 bytes\n".to_string()),
        (" 3=36 4=24", "equally long, but \"shares/share-2\" has 30 bytes and \"36\" has 36 bytes\n".to_string()),
    ] {
        both_refuse(&folder, &format!("{}{words}", of(&[1, 2])), 9, &detail);
    }
    both_refuse(&folder, &folder.copies("more", &[1, 2, 3]), 9, &format!("{needed} \"more\" has 16392 bytes\n"));
    folder.says(&format!("rebuild --party 4 out{}", folder.copies("most", &[1, 2, 3])));
    assert_eq!(folder.bytes("out").len(), 2731 * 6);
}

#[test]
fn nothing_is_overwritten_or_left_behind() {
    let folder = folder_with_shares("rebuild-left");
    let shares = of(&[1, 3, 4, 5]);
    std::os::unix::fs::symlink("nowhere", folder.0.join("link")).expect("a link");
    let before = folder.bytes("shares/share-2");
    for (line, words) in [
        (
            format!("rebuild --party 2 shares/share-2{shares}"),
            "\"shares/share-2\" exists already, and nothing is overwritten\n",
        ),
        (
            format!("rebuild --party 2 --held shares/share-2 shares/share-2{shares}"),
            "\"shares/share-2\" exists already",
        ),
        (format!("rebuild --party 2 link{shares}"), "\"link\" exists already"),
        (format!("rebuild --party 2 no/out{shares}"), "cannot write \"no/out\": "),
        (format!("rebuild --party 2 out{shares} 2=absent"), "cannot read \"absent\": "),
        ("rebuild --party 2 out 1=out".to_string(), "cannot read \"out\": "),
        (format!("check{shares} 2=absent"), "cannot read \"absent\": "),
        ("check 1=.".to_string(), "cannot read \".\": "),
    ] {
        assert!(folder.fails(&line, 1).contains(words), "{line}");
    }
    assert_eq!(folder.bytes("shares/share-2"), before);

    // A disk that is full in the middle, and nobody who can be told.
    for party in 1..=3 {
        folder.write(&format!("long-{party}"), 6000);
    }
    let (left, line) = (folder.names(), "rebuild --party 4 out 1=long-1 2=long-2 3=long-3");
    folder.shell_fails(&format!("trap '' XFSZ; ulimit -f 8; exec \"$0\" {line}"), "cannot write \"out\": ");
    for output in ["/dev/full", "&-"] {
        folder.shell_fails(&format!("exec \"$0\" {line} >{output}"), "cannot write to standard output: ");
        folder.shell_fails(&format!("exec \"$0\" check{shares} >{output}"), "cannot write to standard output: ");
    }
    assert_eq!(folder.names(), left);
    folder.interrupts(line, "out", 1, "The share of party 4, 6000 bytes");
}

/// File names need not be text, and after `--` they may start with two dashes.
#[test]
fn any_file_name() {
    let folder = folder_with_shares("rebuild-names");
    let name = OsStr::from_bytes(b"\xff=\xfe");
    fs::copy(folder.0.join("shares/share-3"), folder.0.join(name)).expect("a copy");
    let last = OsStr::from_bytes(b"3=\xff=\xfe");
    for line in [format!("rebuild --party=2 -- --out{}", of(&[1, 4])), format!("check{}", of(&[1, 4]))] {
        let output = folder.command(&line).arg(last).output().expect("it runs");
        assert_eq!(output.status.code(), Some(0), "{line}: {}", text(&output.stderr));
    }
    assert_eq!(folder.bytes("--out"), folder.bytes("shares/share-2"));
}

#[test]
fn help_and_usage() {
    let folder = Folder::new("rebuild-usage");
    let all = folder.says("--help");
    for (name, words) in [("rebuild", "--party P [--held FILE] OUT PARTY=FILE"), ("check", "PARTY=FILE")] {
        let one = folder.says(&format!("{name} --help"));
        assert_eq!(folder.says(&format!("{name} 1=a -h")), one);
        assert!(one.starts_with(&format!("sharing {name} [--about FILE | --scheme N,R,Z,D1,D2..] {words} ")), "{one}");
        assert!(one.contains("--scheme 5,2,1,5,4,3") && one.contains("destroy the copies afterwards"), "{one}");
        assert!(all.contains(&format!("  sharing {name} [--about FILE | --scheme S] {words} ..\n")), "{all}");
    }
    for (line, words) in [
        ("rebuild", "needed are OUT and PARTY=FILE, as often as there are shares"),
        ("rebuild --party 2", "needed are OUT and PARTY=FILE, as often as there are shares"),
        ("rebuild out 1=a 2=b 3=c", "--party is missing"),
        ("rebuild --party two out 1=a", "--party: needed is a number, not \"two\""),
        ("rebuild --party 256 out 1=a", "--party: \"256\" is too large: numbers end at 255 here"),
        ("rebuild --party= out 1=a", "--party: needed is a number, not \"\""),
        ("rebuild --party 2 --party 3 out 1=a", "--party stands twice"),
        ("rebuild --party 2 1=a 2=b 3=c", "OUT is missing: \"1=a\" looks like PARTY=FILE"),
        ("rebuild --party 2 out/ 1=a", "\"out/\" is not the name of a file"),
        ("rebuild --party 2 out a", "needed is PARTY=FILE, not \"a\""),
        ("rebuild --party 2 --length 5 out 1=a", "there is no option \"--length\" here"),
        ("rebuild --party 2 out 1=a --held", "--held needs a value after it"),
        ("check", "needed is PARTY=FILE, as often as there are shares"),
        ("check shares", "needed is PARTY=FILE, not \"shares\""),
        ("check --party 2 1=a", "there is no option \"--party\" here"),
        ("check --held a 1=a", "there is no option \"--held\" here"),
        ("check 256=a", "\"256\" is too large: numbers end at 255 here"),
    ] {
        let said = folder.fails(line, 2);
        assert!(said.contains(words) && said.contains("sharing --help"), "{line}: {said}");
    }
}
