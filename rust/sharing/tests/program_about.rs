//! The file `about` that split writes beside the shares, and the commands that take it with `--about`.

use comparison::random::Random;
use folder::{text, Folder, FORMER_DEFAULT};
use pool_folder::MESSAGE;
use shares_folder::{of, split};
use std::ffi::OsStr;
use std::fs;
use std::io::Write;
use std::os::unix::ffi::OsStrExt;
use std::process::{Command, Stdio};

// Of what a folder can do, not all is needed here.
#[allow(dead_code)]
mod folder;
#[allow(dead_code)]
mod pool_folder;
#[allow(dead_code)]
mod shares_folder;

const PADDED: &str = "gilunavoi about 1\nscheme 5,2,2,5,4,3\nform padded\ndate 2026-11-17\n";
const WRITTEN: &str =
    "What readers need to know, and nothing secret, is in \"shares/about\": give it to every party.\n";
const SCHEME: &str = "The scheme is 5,2,2,5,4,3, as \"shares/about\" says.\n";
const END_CHECKED: &str =
    "Only its end could be checked: a wrong scheme, party, prefix, form or number of readers can go unnoticed.\n";
const FITS: &str = "It is the message that was split: a check of 32 bytes inside it fits.\n";

/// A folder with the letter, split with these options and so many keys.
fn folder_with_letter(test: &str, options: &[&str], keys: usize) -> Folder {
    let folder = Folder::new(test);
    folder.put("message", MESSAGE);
    folder.put("keys", &Random::new(keys as u64).bytes(keys));
    let mut command = folder.command("split message keys shares");
    let output = command.args(options).output().expect("it runs");
    assert_eq!((output.status.code(), text(&output.stderr)), (Some(0), String::new()), "{options:?}");
    assert!(text(&output.stdout).ends_with(WRITTEN), "{}", text(&output.stdout));
    folder
}

/// What stands in it, in both forms, with and without a check and a label, and with a pool.
#[test]
fn what_split_writes() {
    let label = "label Lindqvist, will\n";
    for (number, (options, keys, about)) in [
        (&[][..], 72, PADDED.to_string()),
        (&["--scheme", "5 2 2 5 4 3"], 72, PADDED.to_string()),
        (&["--label", "Lindqvist, will"], 72, format!("{PADDED}{label}")),
        (&["--label= a label: \"Größe\" — 1/2 "], 72, format!("{PADDED}label  a label: \"Größe\" — 1/2 \n")),
        (&["--label=Mu\u{308}ller, \u{5d0}"], 72, format!("{PADDED}label Mu\u{308}ller, \u{5d0}\n")),
        (&["--scheme=5,2,1,5,4,3"], 18, PADDED.replace("5,2,2", "5,2,1")),
        (&["--unpadded"], 72, PADDED.replace("form padded\n", "form unpadded\nlength 33\n")),
        (&["--checked"], 132, PADDED.replace("date", "check sha256\ndate")),
        (
            &["--unpadded", "--checked", "--label=Lindqvist, will"],
            132,
            format!("{}{label}", PADDED.replace("form padded\n", "form unpadded\nlength 65\ncheck sha256\n")),
        ),
    ]
    .into_iter()
    .enumerate()
    {
        let folder = folder_with_letter(&format!("about-written{number}"), options, keys);
        assert_eq!(text(&folder.bytes("shares/about")), about);
        assert_eq!(folder.names_in("shares").len(), 6);
        let keys = folder.bytes("keys");
        folder.put_pool(&keys, 0);
        let said = folder.command("split --pool pool message from-pool").args(options).output().expect("it runs");
        assert!(text(&said.stdout).contains(&WRITTEN.replace("shares/", "from-pool/")), "{}", text(&said.stdout));
        assert_eq!(text(&folder.bytes("from-pool/about")), about);
    }
}

/// Neither the bytes of the message nor the keys change it, nor how long a padded message is.
#[test]
fn it_holds_nothing_of_the_message() {
    let folder = Folder::new("about-nothing");
    for (length, keys) in [(0, 12), (33, 72), (1000, 2004)] {
        split(&folder, "", length, keys);
        assert_eq!(text(&folder.bytes("shares/about")), PADDED);
    }
}

/// Cuts, opens, checks and rebuilds with nothing but the about file. Answers what is said of the message.
fn reads(folder: &Folder, d: usize) -> String {
    let mut line = "reconstruct --about shares/about opened".to_string();
    for party in 1..=d {
        let said = folder.says(&format!("prefix --about shares/about --readers {d} shares/share-{party} sent-{party}"));
        assert!(said.contains(", as \"shares/about\" says.\n") && !said.contains("former default"), "{said}");
        line += &format!(" {party}=sent-{party}");
    }
    let opened = folder.says(&line);
    assert_eq!(folder.bytes("opened"), folder.bytes("message"), "{opened}");
    let four = of(&[1, 3, 4, 5]);
    let said = folder.says(&format!("rebuild --about shares/about --party 2 rebuilt{four}"));
    assert!(said.contains("\nThe 4 shares agree.\nThe scheme is ") && said.ends_with(", as \"shares/about\" says.\n"));
    assert_eq!(folder.bytes("rebuilt"), folder.bytes("shares/share-2"));
    let said = folder.says(&format!("check --about=shares/about{four}"));
    assert!(said.ends_with(", as \"shares/about\" says.\n") && !said.contains("former default"), "{said}");
    opened
}

#[test]
fn readers() {
    let told = "The message, 33 bytes, is in \"opened\"; ";
    let fetched = |bytes: usize| format!("{told}{bytes} bytes were fetched from 4 parties.\n");
    let labelled = "It is labelled \"Lindqvist, will\" and was split on 2026-11-17.\n";
    let split_on = "It was split on 2026-11-17.\n";
    let nothing =
        "Nothing can tell whether the scheme, the length, the parties and the prefixes were the right ones.\n";
    let label = "--label=Lindqvist, will";
    for (number, (options, keys, report)) in [
        (&[][..], 72, format!("{}{split_on}{SCHEME}{END_CHECKED}", fetched(72))),
        (&[label], 72, format!("{}{labelled}{SCHEME}{END_CHECKED}", fetched(72))),
        (&["--unpadded"], 72, format!("{}{split_on}{SCHEME}{nothing}", fetched(72))),
        (&["--checked", label], 132, format!("{}{labelled}{SCHEME}{FITS}", fetched(132))),
        (&["--checked", "--unpadded"], 132, format!("{}{split_on}{SCHEME}{FITS}", fetched(132))),
        (
            &["--scheme=5,2,1,5,4,3", "--unpadded"],
            18,
            format!("{}{split_on}{}{nothing}", fetched(48), SCHEME.replace("5,2,2", "5,2,1")),
        ),
    ]
    .into_iter()
    .enumerate()
    {
        let folder = folder_with_letter(&format!("about-readers{number}"), options, keys);
        assert_eq!(reads(&folder, 4), report);
    }
}

/// The file may come through standard input, and have lines that end in CR and LF.
#[test]
fn other_ways_to_give_it() {
    let folder = folder_with_letter("about-ways", &["--label", "a label"], 72);
    let windows = text(&folder.bytes("shares/about")).replace('\n', "\r\n");
    folder.put("windows", windows.as_bytes());
    let said = folder.says(&format!("reconstruct --about windows opened{}", of(&[1, 2, 3])));
    assert!(said.contains("\nIt is labelled \"a label\" and was split on 2026-11-17.\n"), "{said}");
    let line = format!("reconstruct --about - -{}", of(&[1, 2, 3]));
    let mut run = folder.command(&line).stdin(Stdio::piped()).spawn().expect("it runs");
    run.stdin.take().expect("a pipe").write_all(&folder.bytes("shares/about")).expect("written");
    let output = run.wait_with_output().expect("it ends");
    assert_eq!((output.status.code(), &output.stdout[..]), (Some(0), MESSAGE));
    let said = text(&output.stderr);
    assert!(said.contains("\nThe scheme is 5,2,2,5,4,3, as standard input says.\n"), "{said}");
    for line in ["prefix --about - --readers 3 - out", "reconstruct --about - out 1=-", "check --about - 1=-"] {
        assert!(folder.fails(line, 2).contains("- stands for standard input, which can be read once"), "{line}");
    }
}

/// The scheme and the length need not be typed, and must not be; a check that is asked for has to be there.
#[test]
fn options_beside_it() {
    let folder = folder_with_letter("about-options", &[], 72);
    let shares = of(&[1, 2, 3]);
    let scheme = "--about and --scheme cannot stand together: the about file says it\n";
    let length = "--about and --length cannot stand together: the about file says it\n";
    for (line, words) in [
        ("prefix --scheme 5,2,2,5,4,3 --about shares/about --readers 3 shares/share-1 out".to_string(), scheme),
        ("prefix --length 33 --about shares/about --readers 3 shares/share-1 out".to_string(), length),
        (format!("reconstruct --about shares/about --scheme 5,2,2,5,4,3 out{shares}"), scheme),
        (format!("reconstruct --about shares/about --length 33 out{shares}"), length),
        (format!("rebuild --about shares/about --scheme 5,2,2,5,4,3 --party 4 out{shares}"), scheme),
        (format!("check --about absent --scheme 5,2,2,5,4,3{shares}"), scheme),
        (format!("check --about shares/about --about shares/about{shares}"), "--about stands twice\n"),
        ("split --about shares/about message keys more".to_string(), "there is no option \"--about\" here\n"),
    ] {
        assert!(folder.fails(&line, 2).starts_with(&format!("sharing: {words}")), "{line}");
    }
    let without_check = |folder: &Folder, about: &str| {
        let said = folder.fails(&format!("reconstruct --about {about} --checked out{shares}"), 1);
        let why = format!("--checked is given, and by {about:?} the message was split without a check");
        assert_eq!(said, format!("sharing: {why}\n"));
    };
    without_check(&folder, "shares/about");
    // The same twice is no contradiction.
    let folder = folder_with_letter("about-both", &["--checked"], 132);
    folder.put("changed", text(&folder.bytes("shares/about")).replace("check sha256\n", "").as_bytes());
    without_check(&folder, "changed");
    assert!(folder.says(&format!("reconstruct --about shares/about --checked out{shares}")).ends_with(FITS));
    let said = folder.fails(&format!("reconstruct --about shares/about --checked --first 3 more{shares}"), 2);
    assert!(said.contains("--checked is for a whole message"), "{said}");
}

/// The readers of shares fail for this reason.
fn refused(folder: &Folder, about: &[u8], why: &str) {
    folder.put("other", about);
    for line in [
        "prefix --about other --readers 3 shares/share-1 out".to_string(),
        format!("reconstruct --about other out{}", of(&[1, 2, 3])),
        format!("rebuild --about other --party 4 out{}", of(&[1, 2, 3])),
        format!("check --about other{}", of(&[1, 2, 3])),
    ] {
        assert_eq!(folder.fails(&line, 1), format!("sharing: \"other\" is no about file that can be used: {why}\n"));
    }
}

/// Only what split writes is an about file, and it is said which line is wrong.
#[test]
fn lines_that_are_wrong() {
    let folder = folder_with_letter("about-lines", &[], 72);
    let unpadded = PADDED.replace("form padded\n", "form unpadded\nlength 33\n");
    let scheme = "needed is N,R,Z and the counts";
    for (about, why) in [
        (
            PADDED.replace("scheme 5,2,2,5,4,3\n", ""),
            "line 2 has to say the scheme, and is \"form padded\"".to_string(),
        ),
        (PADDED.replace("scheme", "Scheme"), "line 2 has to say the scheme, and is \"Scheme 5,2,2,5,4,3\"".to_string()),
        (PADDED.replace("scheme ", "scheme  "), format!("line 2 is \"scheme  5,2,2,5,4,3\", and {scheme}")),
        (PADDED.replace("5,2,2", "05,2,2"), format!("line 2 is \"scheme 05,2,2,5,4,3\", and {scheme}")),
        (PADDED.replace("5,2,2", "5 2,2"), format!("line 2 is \"scheme 5 2,2,5,4,3\", and {scheme}")),
        (PADDED.replace(",2,2,5,4,3", ",2"), format!("line 2 is \"scheme 5,2\", and {scheme}")),
        (PADDED.replace("5,2,2", "500,2,2"), format!("line 2 is \"scheme 500,2,2,5,4,3\", and {scheme}")),
        (PADDED.replace("form padded\n", ""), "line 3 has to say the form, and is \"date 2026-11-17\"".to_string()),
        (PADDED.replace("form", "form padded\nform"), "line 4 has to say the date, and is \"form padded\"".to_string()),
        (PADDED.replace("padded", "Padded"), "line 3 is \"form Padded\", and needed is padded or unpadded".to_string()),
        (PADDED.replace("padded", "unpadded"), "line 4 has to say the length, and is \"date 2026-11-17\"".to_string()),
        (PADDED.replace("date", "length 33\ndate"), "line 4 has to say the date, and is \"length 33\"".to_string()),
        (unpadded.replace("33", "16385"), "line 4 is \"length 16385\", and needed is a number up to 16384".to_string()),
        (unpadded.replace("33", "033"), "line 4 is \"length 033\", and needed is a number up to 16384".to_string()),
        (unpadded.replace("33", "-1"), "line 4 is \"length -1\", and needed is a number up to 16384".to_string()),
        (
            unpadded.replace("33", "31").replace("date", "check sha256\ndate"),
            "line 5 tells of a check, which has 32 bytes, and the length before it is 31".to_string(),
        ),
        (unpadded.replace("33", ""), "line 4 is \"length \", and needed is a number up to 16384".to_string()),
    ] {
        refused(&folder, about.as_bytes(), &why);
    }
}

/// The lines after those of the form, and lines that are too many.
#[test]
fn more_lines_that_are_wrong() {
    let folder = folder_with_letter("about-more-lines", &[], 72);
    let label = "needed is text of 1 to 200 bytes, without control characters and line ends";
    for (about, why) in [
        (PADDED.replace("date", "check md5\ndate"), "line 4 is \"check md5\", and needed is sha256".to_string()),
        (
            PADDED.replace("date", "check sha256\ncheck sha256\ndate"),
            "line 5 has to say the date, and is \"check sha256\"".to_string(),
        ),
        (PADDED.replace("date 2026-11-17\n", ""), "the line that says the date is missing".to_string()),
        (format!("{PADDED}date 2026-11-17\n"), "line 5 does not belong there: \"date 2026-11-17\"".to_string()),
        (format!("{PADDED}check sha256\n"), "line 5 does not belong there: \"check sha256\"".to_string()),
        (format!("{PADDED}label a\nlabel a\n"), "line 6 does not belong there: \"label a\"".to_string()),
        (format!("{PADDED}\n"), "line 5 does not belong there: \"\"".to_string()),
        (format!("{PADDED}digest 00\n"), "line 5 does not belong there: \"digest 00\"".to_string()),
        (format!("{PADDED}label\n"), "line 5 does not belong there: \"label\"".to_string()),
        (format!("{PADDED}label \n"), format!("line 5 is \"label \", and {label}")),
        (format!("{PADDED}label  \u{3000}\n"), format!("line 5 is \"label  \\u{{3000}}\", and needed is {SEEN}")),
        (format!("{PADDED}label a\u{202e}b\n"), format!("line 5 is \"label a\\u{{202e}}b\", and needed is {SEEN}")),
        (format!("{PADDED}label a\tb\n"), format!("line 5 is \"label a\\tb\", and {label}")),
        (format!("{PADDED}label a\r\r\n"), format!("line 5 is \"label a\\r\", and {label}")),
    ] {
        refused(&folder, about.as_bytes(), &why);
    }
    let long = "x".repeat(201);
    refused(&folder, format!("{PADDED}label {long}\n").as_bytes(), &format!("line 5 is \"label {long}\", and {label}"));
}

/// Days that there are not.
#[test]
fn dates_that_are_wrong() {
    let folder = folder_with_letter("about-dates", &[], 72);
    for date in
        "2026-1-17|2026-11-31|2026-02-29|1900-02-29|2026-00-10|2026-13-10|2026-11-00|26-11-17|2026/11/17|+026-11-17|\
                 2026-11-17 |2026-11-17T00:00|20261117|2026-11--7|"
            .split('|')
    {
        let why = format!("line 4 is {:?}, and needed is a day, as in 2026-11-17", format!("date {date}"));
        refused(&folder, PADDED.replace("2026-11-17", date).as_bytes(), &why);
    }
    for date in ["2024-02-29", "2000-02-29", "2026-12-31", "1970-01-01", "9999-12-31"] {
        folder.put("other", PADDED.replace("2026-11-17", date).as_bytes());
        let said = folder.says(&format!("reconstruct --about other out{}", of(&[1, 2, 3])));
        assert!(said.contains(&format!("\nIt was split on {date}.\n")), "{said}");
        folder.remove("out");
    }
}

/// Files that are no text, too long, cut short, of a later version or something else.
#[test]
fn other_files() {
    let folder = folder_with_letter("about-files", &[], 72);
    let first = "line 1 is not \"gilunavoi about 1\"";
    let later = "it was written by a later version of this program";
    let no_end = "its last line has no end, as if the rest were lost";
    for (about, why) in [
        (&b""[..], first),
        (b"\n", first),
        (b"gilunavoi about 0\n", first),
        (b"gilunavoi about 01\nscheme 5,2,2,5,4,3\n", first),
        (b"gilunavoi about one\n", first),
        (b"gilunavoi about 1 \n", first),
        (b"\xef\xbb\xbfgilunavoi about 1\n", first),
        (b"\x7fELF\xff\xff\xff", first),
        (b"gilunavoi about 2\nof which nothing is known \xff", later),
        (b"gilunavoi about 10\r\n", later),
        (b"gilunavoi about 1", no_end),
        (&PADDED.as_bytes()[..PADDED.len() - 1], no_end),
        (b"gilunavoi about 1\nscheme 5,2", no_end),
        (b"gilunavoi about 1\n", "the line that says the scheme is missing"),
        (
            b"gilunavoi about 1\nscheme 5,2,2,5,4,3\nform padded\ndate 2026-11-17\nlabel \xff\n",
            "it is no text in UTF-8",
        ),
    ] {
        refused(&folder, about, why);
    }
    let endless = [b"gilunavoi about 1\n".to_vec(), vec![b'x'; 1 << 21]].concat();
    refused(&folder, &endless, "it has more than 1000 bytes");
    let later_too = [b"gilunavoi about 2\n".to_vec(), vec![b'x'; 1 << 21]].concat();
    refused(&folder, &later_too, later);
    assert!(folder
        .fails("prefix --about absent --readers 3 shares/share-1 out", 1)
        .contains("cannot read \"absent\": "));
    assert!(folder.fails("prefix --about . --readers 3 shares/share-1 out", 1).contains("cannot read \".\": "));
}

/// A scheme that the library refuses, and shares that are not those that the file is about.
#[test]
fn refusals() {
    let folder = folder_with_letter("about-refusals", &[], 72);
    let shares = of(&[1, 2, 3]);
    folder.put("other", PADDED.replace("5,4,3", "5,4").as_bytes());
    let says = "\nthe scheme is N 5, R 2, Z 2, counts 5,4, as \"other\" says\n";
    for line in ["prefix --about other --readers 3 shares/share-1 out", &format!("check --about other{shares}")] {
        folder.refuses(line, 3, says);
    }
    folder.put("other", PADDED.replace("form padded\n", "form unpadded\nlength 20\n").as_bytes());
    let scheme = "the scheme is 5,2,2,5,4,3, as \"other\" says: shares have to be split, and prefixes cut, in it too\n";
    let hint = "\n\"other\" has to be the file that was written with these shares\n";
    let needs = |what: &str, bytes: usize| {
        format!("\nwith the length in \"other\", 20, {what} has {bytes} bytes, and \"shares/share-1\" has 36 bytes{hint}{scheme}")
    };
    folder.refuses("prefix --about other --readers 4 shares/share-1 out", 9, &needs("a share", 24));
    folder.refuses(&format!("reconstruct --about other out{shares}"), 9, &needs("a prefix for 3 parties", 24));
    let past = "\nthe range is 3..21, and the message has 20 bytes, as \"other\" says\n";
    folder.refuses(&format!("reconstruct --about other --range 3..21 out{shares}"), 15, past);
    // Other shares of the same length, that end in no padding.
    folder.put("other", PADDED.replace("5,2,2,5,4,3", "4,1,1,4,3").as_bytes());
    let said = folder.fails(&format!("reconstruct --about other out{shares}"), 1);
    assert!(said.starts_with("sharing: refused (11): "), "{said}");
    assert!(said.contains(&format!("cut for 3 readers, and{}", hint.replacen('\n', " ", 1))), "{said}");
}

/// Whole shares of another length than the file tells, which agree: those of a shorter message, and empty ones.
#[test]
fn whole_shares_of_other_messages() {
    let folder = folder_with_letter("about-whole", &["--unpadded"], 72);
    folder.put("short", b"five!");
    folder.put("few-keys", &[3; 12]);
    folder.says("split --unpadded short few-keys others");
    folder.put("empty", b"");
    let (others, empty) = (of(&[1, 2, 3, 4]).replace("shares/", "others/"), folder.copies("empty", &[1, 2, 3, 4]));
    let needed = "\nwith the length in \"shares/about\", 33, a whole share has 36 bytes, and";
    for (words, has) in [(&others, "\"others/share-1\" has 6 bytes"), (&empty, "\"empty\" has 0 bytes")] {
        for command in ["check", "rebuild --party 5 out"] {
            folder.says(&format!("{command}{words}"));
            folder.remove("out");
            let (name, rest) = command.split_once(' ').unwrap_or((command, ""));
            let line = format!("{name} --about shares/about {rest}{words}").replace("  ", " ");
            folder.refuses(&line, 9, &format!("{needed} {has}\n\"shares/about\" has to be the file that was written "));
        }
    }
    folder.put("padded", PADDED.as_bytes());
    let blocks = "a whole share has 6 bytes for each of 1 to 2731 blocks, and \"empty\" has 0 bytes\n";
    folder.refuses(&format!("check --about padded{empty}"), 9, blocks);
    folder.says(&format!("check --about padded{others}"));
}

/// A wrong share, and another message's about file, where it tells of a check.
#[test]
fn the_check() {
    let folder = folder_with_letter("about-check", &["--checked", "--unpadded"], 132);
    let mut share = folder.bytes("shares/share-2");
    share[5] ^= 1;
    folder.put("wrong", &share);
    let words = format!("{} 2=wrong", of(&[1, 3]));
    let expected = "sharing: what was opened is not what was split: the check of 32 bytes at its end does not fit\n\
         a share, party, prefix or number of readers is wrong, or \"shares/about\" is another message's\n\
         the scheme is 5,2,2,5,4,3, as \"shares/about\" says\n";
    assert_eq!(folder.fails(&format!("reconstruct --about shares/about out{words}"), 1), expected);
    folder.says(&format!("reconstruct --length 65 unnoticed{words}"));
    folder.put("other", text(&folder.bytes("shares/about")).replace("65", "64").as_bytes());
    let said = folder.fails(&format!("reconstruct --about other out{}", of(&[1, 2, 3])), 1);
    assert!(said.contains("the check of 32 bytes at its end does not fit\n"), "{said}");
}

/// What is said of a range of a message that has a check: it is not looked at, and no part of the message.
#[test]
fn ranges_before_the_check() {
    let not_looked_at = "The check inside the message was not looked at: that takes the whole of it.\n";
    let origin = "The message was split on 2026-11-17.\n";
    for (form, past) in [
        (&["--checked"][..], "the message has 33 bytes\nthe scheme is 5,2,2,5,4,3, as \"shares/about\" says: shares"),
        (&["--checked", "--unpadded"], "the message has 33 bytes, as \"shares/about\" says\n"),
    ] {
        let folder = folder_with_letter(&format!("about-range{}", form.len()), form, 132);
        let shares = of(&[1, 2, 3]);
        let line = |range: &str| format!("reconstruct --about shares/about --range {range} out{shares}");
        let said = folder.says(&line("0..33"));
        assert_eq!(folder.bytes("out"), MESSAGE);
        let rest = said.split_once("rows (3-5 2 0-1).\n").expect("rows").1;
        assert!(rest.starts_with(&format!("{origin}{not_looked_at}{SCHEME}")), "{said}");
        folder.remove("out");
        for range in ["0..34", "20..65", "0..65"] {
            folder.refuses(&line(range), 15, &format!("\nthe range is {range}, and {past}"));
        }
    }
    // Where rows are missing it is not known where the message ends: it may be 32 bytes before the last block.
    let folder = folder_with_letter("about-range-end", &["--checked", "--label=x"], 132);
    for (range, over) in [("26..27", false), ("28..29", true), ("64..65", true)] {
        let said = folder.says(&format!("reconstruct --about shares/about --range {range} out{}", of(&[1, 2, 3])));
        let end =
            "From byte 28 on the message may be over, and its check and padding follow: not all rows were used.\n";
        assert_eq!(said.contains(&format!(".\n{end}The message is labelled \"x\" and ")), over, "{said}");
        assert!(said.contains(&format!("\n{not_looked_at}{SCHEME}Nothing of it could be checked: ")), "{said}");
        folder.remove("out");
    }
}

/// Its name is taken like those of the shares: before a key is used.
#[test]
fn nothing_is_overwritten() {
    let folder = Folder::new("about-taken");
    let keys = Random::new(5).bytes(72);
    folder.put("message", MESSAGE);
    folder.put("keys", &keys);
    folder.put_pool(&keys, 0);
    fs::create_dir(folder.0.join("shares")).expect("a folder");
    folder.put("shares/about", b"old");
    for line in ["split message keys shares", "split --pool pool message shares"] {
        let said = folder.fails(line, 1);
        assert_eq!(said, "sharing: \"shares/about\" exists already, and nothing is overwritten\n");
    }
    assert_eq!((folder.bytes("shares/about"), folder.position()), (b"old".to_vec(), 0));
    assert_eq!(folder.bytes("pool/keys"), keys);
}

const SEEN: &str = "text that is not blank, without invisible characters";

/// Blank labels, and characters that hide or turn around what is printed beside a label: the first and the last of each range,
/// and not those before and after it. Other letters stand in a report as they are.
#[test]
fn characters_of_labels() {
    let folder = Folder::new("about-characters");
    folder.put("message", MESSAGE);
    folder.put("keys", &Random::new(7).bytes(72));
    let split = |label: &str| {
        ["shares", "opened"].into_iter().for_each(|name| folder.remove(name));
        folder.command("split message keys shares --label").arg(label).output().expect("it runs")
    };
    let ranges =
        [(0x61c, 0x61c), (0x200b, 0x200b), (0x200e, 0x200f), (0x202a, 0x202e), (0x2060, 0x206f), (0xfeff, 0xfeff)];
    let characters = ranges.into_iter().flat_map(|(first, last)| first..=last);
    let hidden = characters.map(|character| format!("a{}b", char::from_u32(character).expect("a character")));
    for label in hidden.chain([" ".to_string(), " \u{a0}\u{3000}".to_string()]) {
        let output = split(&label);
        assert_eq!(output.status.code(), Some(2), "{label:?}");
        let said = format!("sharing: --label: needed is {SEEN}\n");
        assert!(text(&output.stderr).starts_with(&said), "{label:?}: {}", text(&output.stderr));
    }
    // Before the fourth range line ends stand, which are refused in other words.
    let around = ranges.into_iter().flat_map(|(first, last)| [first - 1, last + 1]).filter(|&other| other != 0x2029);
    for character in around.chain([0x308, 0x5d0, 0x1f600]) {
        let label = format!("u{}", char::from_u32(character).expect("a character"));
        let output = split(&label);
        assert_eq!(output.status.code(), Some(0), "{character:x}: {}", text(&output.stderr));
        let said = folder.says(&format!("reconstruct --about shares/about opened{}", of(&[1, 2, 3])));
        assert!(said.contains(&format!("\nIt is labelled \"{label}\" and was split on 2026-11-17.\n")), "{said}");
    }
}

/// Labels that do not fit into a line, or are too long, and times that are none: nothing is split.
#[test]
fn labels_and_times() {
    let folder = Folder::new("about-labels");
    folder.put("message", MESSAGE);
    folder.put_pool(&Random::new(6).bytes(500), 0);
    let before = folder.names();
    let longest = "ä".repeat(100);
    let too_long = format!("{longest}x");
    for label in [
        &b""[..],
        b"a\nb",
        b"a\r",
        b"\x1b[1m",
        b"\x7f",
        b"\xff",
        "a\u{85}".as_bytes(),
        "\u{2028}".as_bytes(),
        too_long.as_bytes(),
    ] {
        let mut command = folder.command("split --pool pool message shares --label");
        let output = command.arg(OsStr::from_bytes(label)).output().expect("it runs");
        let said = "sharing: --label: needed is text of 1 to 200 bytes, without control characters and line ends\n";
        assert_eq!(output.status.code(), Some(2), "{label:?}");
        assert!(text(&output.stderr).starts_with(said), "{}", text(&output.stderr));
    }
    for time in ["", "now", "-1", "1.5", "253402300800"] {
        let mut command = folder.command("split --pool pool message shares");
        let output = command.env("SOURCE_DATE_EPOCH", time).output().expect("it runs");
        assert_eq!(output.status.code(), Some(2), "{time}");
        assert!(text(&output.stderr).starts_with("sharing: SOURCE_DATE_EPOCH: "), "{}", text(&output.stderr));
    }
    assert_eq!((folder.names(), folder.position()), (before, 0));
    folder.says(&format!("split --pool pool message shares --label {longest}"));
    assert_eq!(text(&folder.bytes("shares/about")), format!("{PADDED}label {longest}\n"));
    folder.says(&format!("reconstruct --about shares/about out{}", of(&[1, 2, 3])));
}

/// The days that the command `date` names, in years of all kinds, and today without a time that is told.
#[test]
fn days() {
    let folder = Folder::new("about-days");
    folder.put("message", b"");
    folder.put("keys", b"");
    let date = |folder: &Folder, time: Option<u64>| {
        let mut command = folder.command("split --unpadded message keys shares");
        match time {
            Some(time) => command.env("SOURCE_DATE_EPOCH", time.to_string()),
            None => command.env_remove("SOURCE_DATE_EPOCH"),
        };
        assert!(command.output().expect("it runs").status.success());
        let about = text(&folder.bytes("shares/about"));
        folder.remove("shares");
        about.lines().find_map(|line| line.strip_prefix("date ")).expect("a date").to_string()
    };
    let expected = |time: &str| {
        let output = Command::new("date").args(["-u", "-d", time, "+%Y-%m-%d"]).output().expect("date");
        text(&output.stdout).trim_end().to_string()
    };
    let day = 24 * 60 * 60;
    // The ends of February in years of all kinds, ends of years, and some days in between.
    let ends = [951_782_400, 951_868_800, 1_709_164_800, 4_107_456_000, 4_107_542_400, 253_402_300_799];
    let years = (0..60).map(|year| year * 36_525 * day / 100 + 59 * day);
    for time in ends.into_iter().chain([0, day - 1, day, 1_794_900_000]).chain(years) {
        assert_eq!(date(&folder, Some(time)), expected(&format!("@{time}")), "{time}");
    }
    let before = expected("now");
    let today = date(&folder, None);
    assert!(today == before || today == expected("now"), "{today}");
}

#[test]
fn help() {
    let folder = Folder::new("about-help");
    for command in ["prefix", "reconstruct", "rebuild", "check"] {
        let said = folder.says(&format!("{command} --help"));
        assert!(said.contains("[--about FILE | ") && said.contains("\n--about FILE is the file that split"), "{said}");
    }
    let said = folder.says("split --help");
    assert!(said.contains("[--label TEXT]") && said.contains("SOURCE_DATE_EPOCH") && said.contains("1 to 200 bytes"));
    assert!(folder.says("--help").contains("with --about, has nothing else to remember"));
    assert!(folder.says("--help").contains(FORMER_DEFAULT.trim_end().trim_start_matches("--scheme ")));
}
