//! `sharing rebuild` and `sharing check`, run as their users run them, in a folder of its own.

use comparison::cases::Form;
use comparison::stored::STORED;
use folder::Folder;
use gilunavoi::limits::MAX_MESSAGE;
use shares_folder::{folder_with_shares, of, split};
use std::fs;
use std::os::unix::fs::PermissionsExt;

// Of what a folder can do, not all is needed here.
#[allow(dead_code)]
mod folder;
mod shares_folder;

const SCHEME: &str =
    "The scheme is the default, 5,2,2,5,4,3; shares of the former default need --scheme 5,2,1,5,4,3.\n";
const HINT: &str = "\neach file has to be a whole share, and no prefix\n\
    the scheme is the default, 5,2,2,5,4,3; shares of the former default need --scheme 5,2,1,5,4,3\n";

const MANY: &str =
    "\nmore than one is wrong, or they are of different messages: whichever is left out, the others do not agree";

const UNLIKELY: &str = "possible for shares of one message, but unlikely.\n";

impl Folder {
    /// A file of these bytes, of which those at these places are made others.
    fn damaged(&self, name: &str, from: &str, places: &[usize]) {
        let mut bytes = self.bytes(from);
        places.iter().for_each(|&place| bytes[place] ^= 0x5a);
        fs::write(self.0.join(name), bytes).expect("a written file");
    }

    /// Rebuilds a share, and answers what is said after where it is.
    fn rebuilds(&self, options: &str, party: usize, parties: &[usize]) -> String {
        let said = self.says(&format!("rebuild {options}--party {party} out{}", of(parties)));
        let (share, many) = (self.bytes(&format!("shares/share-{party}")), parties.len());
        assert!(self.bytes("out") == share, "{said}");
        self.remove("out");
        let bytes = if share.len() == 1 { "byte" } else { "bytes" };
        let start = format!("The share of party {party}, {} {bytes}, is in \"out\", ", share.len());
        let rest = said.strip_prefix(&format!("{start}rebuilt from the shares of {many} parties.\n"));
        rest.unwrap_or_else(|| panic!("{said}")).to_string()
    }
}

/// Every party's share, from others and from its own too, named in any order.
#[test]
fn byte_for_byte() {
    let folder = folder_with_shares("rebuild");
    let three =
        "Nothing could be checked: 3 shares always agree, right or wrong. It takes one more to notice a wrong one.\n";
    let lists: [(&[usize], &str); 5] = [
        (&[1, 2, 3], three),
        (&[5, 3, 4], three),
        (&[5, 1, 4, 2], "The 4 shares agree.\n"),
        (&[2, 3, 4, 5], "The 4 shares agree.\n"),
        (&[1, 2, 3, 4, 5], "The 5 shares agree.\n"),
    ];
    for (parties, agree) in lists {
        for party in 1..=5 {
            assert_eq!(folder.rebuilds("", party, parties), format!("There was no held copy.\n{agree}{SCHEME}"));
        }
    }
    folder.says(&format!("rebuild --party 2 new{}", of(&[1, 3, 5])));
    let mode = fs::metadata(folder.0.join("new")).expect("a file").permissions().mode();
    assert_eq!(mode & 0o777, 0o600);
}

/// Messages of both forms: none and one, a block more for the padding, the longest, and in blocks of one byte.
#[test]
fn both_forms_and_other_schemes() {
    let folder = Folder::new("rebuild-forms");
    for (options, length, keys) in [
        ("", 0, 12),
        ("--unpadded ", 0, 0),
        ("--unpadded ", 24, 48),
        ("", 24, 60),
        ("", MAX_MESSAGE, 32772),
        ("--unpadded ", MAX_MESSAGE, 32772),
    ] {
        split(&folder, options, length, keys);
        folder.rebuilds("", 4, &[1, 3, 5]);
        folder.rebuilds("", 4, &[1, 2, 3, 5]);
        assert!(folder.says(&format!("check{}", of(&[1, 2, 3, 4, 5]))).starts_with("The 5 shares agree.\n"));
    }
    split(&folder, "--scheme 4,2,1,2 ", MAX_MESSAGE, MAX_MESSAGE + 1);
    let said = folder.rebuilds("--scheme 4,2,1,2 ", 2, &[1, 3, 4]);
    assert_eq!(said, "There was no held copy.\nThe 3 shares agree.\nThe scheme is 4,2,1,2.\n");
    // All that there are, and no more can be given.
    split(&folder, "--scheme 2,0,1,2 ", 1, 2);
    let said = folder.says(&format!("check --scheme 2,0,1,2{}", of(&[1, 2])));
    let expected = "Nothing could be checked: 2 shares always agree, right or wrong.\n\
                    No more share may be lost: 2 are needed to open the message.\nThe scheme is 2,0,1,2.\n";
    assert_eq!(said, expected);
}

#[test]
fn held_copies() {
    let folder = folder_with_shares("rebuild-held");
    folder.write("empty", 0);
    folder.damaged("one", "shares/share-2", &[29]);
    folder.damaged("some", "shares/share-2", &[0, 7, 8]);
    folder.damaged("all", "shares/share-2", &(0..30).collect::<Vec<usize>>());
    for (held, told) in [
        ("empty", "There was no held copy: \"empty\" is empty.\n"),
        ("shares/share-2", "No byte of the held copy \"shares/share-2\" was wrong.\n"),
        ("one", "1 of the 30 bytes of the held copy \"one\" was wrong.\n"),
        ("some", "3 of the 30 bytes of the held copy \"some\" were wrong.\n"),
        ("all", "30 of the 30 bytes of the held copy \"all\" were wrong.\n"),
    ] {
        let before = folder.bytes(held);
        let said = folder.rebuilds(&format!("--held {held} "), 2, &[1, 3, 4, 5]);
        assert_eq!(said, format!("{told}The 4 shares agree.\n{SCHEME}"));
        assert_eq!(folder.bytes(held), before);
    }
    folder.write("short", 29);
    let line = |held: &str| format!("rebuild --party 2 --held {held} out{}", of(&[1, 3, 4, 5]));
    let needed = "\na held copy is as long as the shares, 30 bytes, or empty, and";
    folder.refuses(&line("short"), 9, &format!("{needed} \"short\" has 29 bytes\n"));
    folder.refuses(&line("keys"), 9, &format!("{needed} \"keys\" has 60 bytes\n"));
    assert!(folder.fails(&line("absent"), 1).contains("cannot read \"absent\": "));
}

/// Three shares do not tell which is right, they or the held copy: here party 1's is wrong first, then the copy.
#[test]
fn held_copies_that_cannot_be_judged() {
    let folder = folder_with_shares("rebuild-unjudged");
    folder.damaged("bad", "shares/share-1", &[0]);
    folder.damaged("one", "shares/share-2", &[29]);
    folder.damaged("some", "shares/share-2", &[0, 7, 8]);
    let nothing =
        "Nothing could be checked: 3 shares always agree, right or wrong. It takes one more to notice a wrong one.\n";
    let open = "from this share; which is right could not be checked.\n";
    for (words, held, told) in [
        (" 1=bad", "shares/share-2", format!("1 of the 30 bytes of the held copy \"shares/share-2\" differs {open}")),
        (" 1=shares/share-1", "some", format!("3 of the 30 bytes of the held copy \"some\" differ {open}")),
        (" 1=shares/share-1", "shares/share-2", "No byte of the held copy \"shares/share-2\" was wrong.\n".to_string()),
        (" 2=some", "one", format!("4 of the 30 bytes of the held copy \"one\" differ {open}")),
    ] {
        let said = folder.says(&format!("rebuild --party 2 --held {held} out{words}{}", of(&[3, 4])));
        let end = format!("rebuilt from the shares of 3 parties.\n{told}{nothing}{SCHEME}");
        assert!(said.ends_with(&end), "{said}");
        folder.remove("out");
    }
}

#[test]
fn shares_that_agree() {
    let folder = folder_with_shares("check");
    let before = folder.names();
    for (parties, told) in [
        (&[1, 2, 3, 4, 5][..], "The 5 shares agree.\n2 more shares may be lost: any 3 open the message and rebuild the others.\n"),
        (&[4, 1, 5, 2], "The 4 shares agree.\n1 more share may be lost: any 3 open the message and rebuild the others.\n"),
        (
            &[5, 2, 3],
            "Nothing could be checked: 3 shares always agree, right or wrong. It takes one more to notice a wrong one.\n\
             No more share may be lost: 3 are needed to open the message.\n",
        ),
    ] {
        assert_eq!(folder.says(&format!("check{}", of(parties))), format!("{told}{SCHEME}"));
    }
    assert_eq!(folder.names(), before, "nothing is written");
}

/// Both commands say the same of shares that do not agree.
fn disagree(folder: &Folder, options: &str, words: &str, detail: &str) {
    folder.refuses(&format!("check {options}{}", &words[1..]), 18, detail);
    folder.refuses(&format!("rebuild {options}--party 1 out{words}"), 18, detail);
}

#[test]
fn a_wrong_share_is_named() {
    let folder = folder_with_shares("rebuild-named");
    for party in 1..=5 {
        for places in [&[0][..], &[29], &[3, 4, 20]] {
            folder.damaged("bad", &format!("shares/share-{party}"), places);
            let words = of(&[1, 2, 3, 4, 5]).replace(&format!("shares/share-{party}"), "bad");
            let detail = format!(
                "\nthe share of party {party}, \"bad\", does not fit the others, which agree without it\n\
                 sharing rebuild --party {party} rebuilds it from the others\n\
                 the scheme is the default, 5,2,2,5,4,3; shares of the former default need --scheme 5,2,1,5,4,3\n"
            );
            disagree(&folder, "", &words, &detail);
            let others: Vec<usize> = (1..=5).filter(|&other| other != party).collect();
            let said = folder.rebuilds("--held bad ", party, &others);
            assert!(
                said.starts_with(&format!("{} of the 30 bytes of the held copy \"bad\" w", places.len())),
                "{said}"
            );
        }
    }
}

/// The second of two wrong shares is rebuilt from the first: party 3, whose share is right, is named.
#[test]
fn a_right_share_is_named() {
    let folder = folder_with_shares("rebuild-innocent");
    folder.write("bad-1", 30);
    folder.says(&format!("rebuild --party 2 bad-2 1=bad-1{}", of(&[4, 5])));
    let named = "\nthe share of party 3, \"shares/share-3\", does not fit the others, which agree without it\n";
    disagree(&folder, "", &format!(" 1=bad-1 2=bad-2{}", of(&[3, 4, 5])), named);
}

/// What both commands say after these words of files that agree, though they are hardly what they are taken for.
fn doubted(folder: &Folder, words: &str, doubts: &str) {
    let nothing =
        "Nothing could be checked: 3 shares always agree, right or wrong. It takes one more to notice a wrong one.\n";
    let agree = match words.split(' ').count() - 1 {
        3 => nothing.to_string(),
        many => format!("The {many} shares agree.\n"),
    };
    let checked = folder.says(&format!("check{words}"));
    assert!(
        checked.starts_with(&format!("{agree}{doubts}")) && checked.ends_with(&format!(".\n{SCHEME}")),
        "{checked}"
    );
    assert_eq!(checked.lines().count(), 3 + doubts.lines().count(), "{checked}");
    let rebuilt = folder.says(&format!("rebuild --party 2 out{words}"));
    assert!(rebuilt.ends_with(&format!("\nThere was no held copy.\n{agree}{doubts}{SCHEME}")), "{rebuilt}");
    folder.remove("out");
}

#[test]
fn empty_files() {
    let folder = Folder::new("rebuild-empty");
    folder.write("empty", 0);
    let doubts = "The files are empty: they are shares of an empty message of the earlier form, or no shares at all.\n";
    for parties in [&[1, 2, 3][..], &[1, 2, 3, 4, 5]] {
        doubted(&folder, &folder.copies("empty", parties), doubts);
    }
}

/// Copies of one file agree, whatever is in it.
#[test]
fn the_same_bytes() {
    let folder = folder_with_shares("rebuild-same");
    fs::copy(folder.0.join("shares/share-3"), folder.0.join("copy")).expect("a copy");
    let doubts = |files: &str| format!("The files of the parties {files}, hold the same bytes: {UNLIKELY}");
    doubted(&folder, " 1=copy 3=shares/share-3 4=shares/share-4", &doubts("1 and 3, \"copy\" and \"shares/share-3\""));
    let five =
        doubts("1, 2, 3, 4 and 5, \"copy-copy1\", \"copy-copy2\", \"shares/share-3\", \"copy-copy4\" and \"copy\"");
    doubted(&folder, &format!("{} 3=shares/share-3", folder.copies("copy", &[5, 4, 1, 2])), &five);
    // Two pairs, in a scheme in which four parties are needed.
    split(&folder, "--scheme 5,1,2,5,4 ", 25, 30);
    fs::copy(folder.0.join("shares/share-1"), folder.0.join("one")).expect("a copy");
    fs::copy(folder.0.join("shares/share-2"), folder.0.join("two")).expect("a copy");
    let said = folder.says(&format!("check --scheme 5,1,2,5,4 3=two 4=one{}", of(&[1, 2])));
    let [first, second] =
        [doubts("1 and 4, \"shares/share-1\" and \"one\""), doubts("2 and 3, \"shares/share-2\" and \"two\"")];
    assert!(said.contains(&format!("one.\n{first}{second}No more share may be lost")), "{said}");
}

#[test]
fn nobody_is_named() {
    let folder = folder_with_shares("rebuild-unnamed");
    for party in 1..=4 {
        folder.damaged(&format!("bad-{party}"), &format!("shares/share-{party}"), &[party]);
    }
    let few = format!("\n4 shares are too few to tell which one does not fit: that takes 5{HINT}");
    disagree(&folder, "", &format!(" 1=bad-1{}", of(&[2, 3, 5])), &few);
    // One file for two parties, of which one holds a copy.
    fs::copy(folder.0.join("shares/share-1"), folder.0.join("first")).expect("a copy");
    let same = "the files of the parties 1 and 2, \"shares/share-1\" and \"first\", hold the same bytes: possible for \
                shares of one message, but unlikely";
    let few_and_same = few.replace(HINT, &format!("\n{same}{HINT}"));
    disagree(&folder, "", &format!("{} 2=first", of(&[1, 3, 5])), &few_and_same);
    let many = format!("{MANY}{HINT}");
    disagree(&folder, "", &format!("{} 2=bad-2 4=bad-4", of(&[1, 3, 5])), &many);
    for (copy, party) in [("second", 2), ("fourth", 4)] {
        fs::copy(folder.0.join(format!("shares/share-{party}")), folder.0.join(copy)).expect("a copy");
    }
    disagree(&folder, "", &format!("{} 2=fourth 4=second", of(&[1, 3, 5])), &many);
    // Five parties of which one may be absent: there is nobody more to ask.
    split(&folder, "--scheme 5,1,2,5,4 ", 25, 30);
    folder.damaged("bad", "shares/share-5", &[2]);
    let only = "\n5 shares are too few to tell which one does not fit: that takes 6, and there are only 5 parties\n";
    disagree(&folder, "--scheme 5,1,2,5,4 ", &format!("{} 5=bad", of(&[1, 2, 3, 4])), only);
}

/// The prefixes that 5 readers are sent of 3 blocks are as long as shares of one block.
#[test]
fn prefixes() {
    let folder = Folder::new("rebuild-prefixes");
    split(&folder, "", 16, 36);
    let mut words = String::new();
    for party in 1..=5 {
        folder.says(&format!("prefix --readers 5 shares/share-{party} short-{party}"));
        words += &format!(" {party}=short-{party}");
    }
    disagree(&folder, "", &words, &format!("{MANY}{HINT}"));
}

/// Shares that are stored from before the default changed: its name is needed.
#[test]
fn shares_of_the_former_default() {
    let folder = Folder::new("rebuild-former");
    for stored in STORED.iter().filter(|stored| stored.form == Form::Padded) {
        folder.remove("shares");
        fs::create_dir(folder.0.join("shares")).expect("a folder");
        for (share, party) in stored.shares.chunks(stored.shares.len() / 5).zip(1..) {
            fs::write(folder.0.join(format!("shares/share-{party}")), share).expect("a written file");
        }
        let said = folder.rebuilds(folder::FORMER_DEFAULT, 3, &[1, 2, 4, 5]);
        assert!(said.ends_with("The 4 shares agree.\nThe scheme is 5,2,1,5,4,3.\n"), "{said}");
        for parties in [&[1, 2, 4, 5][..], &[1, 2, 3, 4, 5]] {
            folder.refuses(&format!("check{}", of(parties)), 18, HINT);
        }
        // Three are taken for what they are not.
        folder.says(&format!("rebuild --party 3 other{}", of(&[1, 2, 5])));
        assert!(folder.bytes("other") != folder.bytes("shares/share-3"));
        folder.remove("other");
    }
}
