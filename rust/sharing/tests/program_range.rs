//! A range of a message with the program `sharing`: `reconstruct` opens it, and `scheme` says what it costs.

use comparison::cases::{Form, Scheme, FORMS};
use comparison::reference::range::{rows_in_order, rows_taken};
use folder::{text, Folder, FORMER_DEFAULT};
use gilunavoi::limits::MAX_MESSAGE;
use std::fs;

// Of what a folder can do, not all is needed here.
#[allow(dead_code)]
mod folder;

const DEFAULT: &str = "5,2,2,5,4,3";
/// Three groups of one row each.
const FEW_ROWS: &str = "7,4,1,7,4,3";
/// Blocks of 840 bytes, the longest, in 168 rows, of which 105, 120, 140 and 168 are sent.
const LONG_BLOCKS: &str = "9,3,1,9,8,7,6";

const DEFAULT_USED: &str =
    "The scheme is the default, 5,2,2,5,4,3; shares of the former default need --scheme 5,2,1,5,4,3.\n";

fn scheme_of(in_a_row: &str) -> Scheme {
    let numbers: Vec<u8> = in_a_row.split(',').map(|number| number.parse().expect("a number")).collect();
    Scheme::new(numbers[0], numbers[1], numbers[2], numbers[3..].to_vec()).expect("an accepted scheme")
}

/// Makes an empty folder in place of one that may be there.
fn make_anew(folder: &Folder, name: &str) {
    let path = folder.0.join(name);
    if path.exists() {
        fs::remove_dir_all(&path).expect("removed");
    }
    fs::create_dir(path).expect("a new folder");
}

/// Splits the file "message", with as many keys as it needs, into the folder "shares". Answers the options for its shares.
fn split(folder: &Folder, form: Form, in_a_row: &str) -> String {
    let (scheme, length) = (scheme_of(in_a_row), folder.bytes("message").len());
    let (unpadded, told) = match form {
        Form::Padded => ("", String::new()),
        Form::Earlier => ("--unpadded ", format!("--length {length} ")),
    };
    make_anew(folder, "shares");
    folder.write("keys", form.blocks(length, scheme.m) * scheme.b * scheme.z as usize);
    folder.says(&format!("split --scheme {in_a_row} {unpadded}message keys shares"));
    format!("--scheme {in_a_row} {told}")
}

/// Cuts what the parties 1 to d send, into the folder "sent". Answers the words that name it.
fn prefixes(folder: &Folder, options: &str, d: usize) -> String {
    make_anew(folder, "sent");
    let cut = |party: usize| {
        folder.says(&format!("prefix {options}--readers {d} shares/share-{party} sent/{party}"));
        format!(" {party}=sent/{party}")
    };
    (1..=d).map(cut).collect()
}

/// A message of 33 bytes in the default scheme, 6 blocks of 6 bytes, of which each of 4 parties sends 18 bytes.
fn letter(folder: &Folder, form: Form) -> String {
    fs::write(folder.0.join("message"), "Call the client back before noon.").expect("a written file");
    let options = split(folder, form, DEFAULT);
    prefixes(folder, &options, 4)
}

/// What a command says that writes the file "out", and what it writes, which does not stay.
fn opened(folder: &Folder, line: &str) -> (String, Vec<u8>) {
    let opened = (folder.says(line), folder.bytes("out"));
    fs::remove_file(folder.0.join("out")).expect("removed");
    opened
}

/// What the table that `scheme` prints with a range says of a count.
struct Cost {
    numbers: [usize; 6],
    /// Which rows are used, as it is written.
    which: String,
}

/// The beginning of the table's headings, also without a range.
const HEADINGS: &str = "parties  from each  in all";

/// What `scheme` says from its table on.
fn table(folder: &Folder, words: &str) -> String {
    let said = folder.says(&format!("scheme {words}"));
    let start = said.find("Bytes of a block to fetch").unwrap_or_else(|| panic!("{words}: {said}"));
    said[start..].to_string()
}

/// The lines of that table.
fn costs(folder: &Folder, scheme: &str, range: &str) -> Vec<Cost> {
    let cost = |line: &str| {
        let words: Vec<&str> = line.split_whitespace().collect();
        let numbers: Vec<usize> = words[..6].iter().map(|number| number.parse().expect("a number")).collect();
        Cost { numbers: numbers.try_into().expect("six of them"), which: words[6..].join(" ") }
    };
    table(folder, &format!("{scheme} {range}")).lines().skip(2).map(cost).collect()
}

/// The rows that are named so: numbers, and the first and the last of several.
fn rows_named(which: &str) -> Vec<usize> {
    let number = |word: &str| word.parse::<usize>().expect("a number");
    let rows = |word: &str| match word.split_once('-') {
        Some((first, last)) => (number(first)..=number(last)).collect(),
        None => vec![number(word)],
    };
    which.split_whitespace().filter(|&word| word != "none").flat_map(rows).collect()
}

/// In both forms and from every number of parties what is written is that range of the message, and the bytes used are
/// those that `scheme` says, for each block.
#[test]
fn ranges_of_messages() {
    let folder = Folder::new("range-messages");
    for (scheme, length) in [(DEFAULT, 20), (FEW_ROWS, 18), (LONG_BLOCKS, 2000)] {
        folder.write("message", length);
        let (message, m) = (folder.bytes("message"), scheme_of(scheme).m);
        for form in FORMS {
            let (options, blocks) = (split(&folder, form, scheme), form.blocks(length, m));
            for (start, end) in [(0, 1), (0, m), (m - 1, m + 1), (2, length), (m, m), (length, length)] {
                let range = format!("--range {start}..{end}");
                for Cost { numbers: [d, _, in_all, rows, of, bytes], which } in costs(&folder, scheme, &range) {
                    let words = prefixes(&folder, &options, d);
                    let (said, written) = opened(&folder, &format!("reconstruct {options}{range} out{words}"));
                    assert_eq!(written, message[start..end], "{options}{range}{words}");
                    let (used, sent) = (d * rows * blocks, in_all * blocks);
                    let rows = if of == 1 { "row" } else { "rows" };
                    let told = format!(
                        "; {used} bytes were used of {sent} in the prefixes of {d} parties, {} of {of} {rows} ({which}).\n",
                        used / (d * blocks)
                    );
                    assert!(said.contains(&told) && used == bytes * blocks, "{options}{range}: {said}");
                }
            }
        }
    }
}

const NOT_CHECKED: &str =
    "Nothing of it could be checked: a wrong scheme, party, prefix, form or number of readers, or a row \
                           that has not come, can go unnoticed.\n";
const END_CHECKED: &str =
    "Only its end could be checked: a wrong scheme, party, prefix, form or number of readers can go unnoticed.\n";

/// The rows of 4 parties hold the bytes 0 1 2, 3 4 5 and 2 5 of a block. The last one is used first. Where all three are
/// used, the end of the message is known.
#[test]
fn reports_on_padded_messages() {
    let folder = Folder::new("range-padded");
    let words = letter(&folder, Form::Padded);
    let over = "From byte 30 on the message may be over, and padding follow: not all rows were used.\n";
    let rows = ["0 of 3 rows (none)", "1 of 3 rows (2)", "2 of 3 rows (2 0)", "3 of 3 rows (2 0-1)"];
    for (range, written, told, used, end) in [
        ("--first 15", &b"Call the client"[..], "Bytes 0 to 14 of the message, 15 bytes, are in \"out\"", 3, ""),
        ("--range 9..11", b"cl", "Bytes 9 to 10 of the message, 2 bytes, are in \"out\"", 3, ""),
        ("--range=9..10", b"c", "Byte 9 of the message is in \"out\"", 3, ""),
        ("--first=1", b"C", "Byte 0 of the message is in \"out\"", 2, ""),
        ("--range 9..9", b"", "The range 9..9 is empty, and so is \"out\"", 0, ""),
        ("--first 0", b"", "The range 0..0 is empty, and so is \"out\"", 0, ""),
        // Up to the last block, and into it.
        ("--range 29..30", b"o", "Byte 29 of the message is in \"out\"", 1, ""),
        ("--range 29..31", b"oo", "Bytes 29 to 30 of the blocks, 2 bytes, are in \"out\"", 2, over),
        ("--range 32..33", b".", "Byte 32 of the blocks is in \"out\"", 1, over),
        ("--range 27..33", b" noon.", "Bytes 27 to 32 of the message, 6 bytes, are in \"out\"", 3, ""),
        ("--range 35..36", b"\0", "Byte 35 of the blocks is in \"out\"", 1, over),
        ("--range 36..36", b"", "The range 36..36 is empty, and so is \"out\"", 0, ""),
    ] {
        let (said, bytes) = opened(&folder, &format!("reconstruct {range} out{words}"));
        let caution = if used == 3 { END_CHECKED } else { NOT_CHECKED };
        let told =
            format!("{told}; {} bytes were used of 72 in the prefixes of 4 parties, {}.\n", 24 * used, rows[used]);
        assert_eq!(said, format!("{told}{end}{DEFAULT_USED}{caution}"));
        assert_eq!(bytes, written, "{range}");
    }
    // Of one block every byte may be padding.
    folder.write("message", 1);
    split(&folder, Form::Padded, DEFAULT);
    let line = "reconstruct --first 1 out 5=shares/share-5 4=shares/share-4 1=shares/share-1";
    let (said, bytes) = opened(&folder, line);
    assert!(said.contains(&over.replace("30", "0")) && bytes == folder.bytes("message"), "{said}");
}

/// Where all rows are used, it is known where the message ends, and bytes that end in no padding are refused.
#[test]
fn the_end_of_a_padded_message() {
    let folder = Folder::new("range-end");
    let words = letter(&folder, Form::Padded);
    for range in ["31..36", "28..34", "0..36", "34..36", "33..34"] {
        let has = format!("the range is {range}, and the message has 33 bytes\nthe scheme is the default, ");
        folder.refuses(&format!("reconstruct --range {range} out{words}"), 15, &has);
    }
    // In the last block all parties' bytes are others, so that there is no end. Where a row is left out that is not seen.
    for row in 0..3 {
        for party in 1..=4 {
            let name = format!("sent/{party}");
            let mut bytes = folder.bytes(&name);
            bytes[row * 6 + 5] ^= [1, 7, 90, 201][party - 1];
            fs::write(folder.0.join(name), bytes).expect("a written file");
        }
    }
    let whole = folder.fails(&format!("reconstruct out{words}"), 1);
    for range in ["--first 15", "--range 9..10", "--range 27..33"] {
        assert_eq!(folder.fails(&format!("reconstruct {range} out{words}"), 1), whole);
    }
    let (said, bytes) = opened(&folder, &format!("reconstruct --first 1 out{words}"));
    assert!(bytes == b"C" && said.ends_with(NOT_CHECKED), "{said}");
}

#[test]
fn reports_on_messages_of_the_earlier_form() {
    let folder = Folder::new("range-told");
    let words = letter(&folder, Form::Earlier);
    let caution =
        "Nothing can tell whether the scheme, the length, the parties and the prefixes were the right ones.\n";
    for (range, written, told, used) in [
        ("--first 15", &b"Call the client"[..], "Bytes 0 to 14 of the message, 15 bytes, are in \"out\"", 72),
        ("--range 30..33", b"on.", "Bytes 30 to 32 of the message, 3 bytes, are in \"out\"", 48),
        ("--range 32..33", b".", "Byte 32 of the message is in \"out\"", 24),
        ("--range 33..33", b"", "The range 33..33 is empty, and so is \"out\"", 0),
    ] {
        let (said, bytes) = opened(&folder, &format!("reconstruct --length 33 {range} out{words}"));
        let rows = ["0 of 3 rows (none)", "1 of 3 rows (2)", "2 of 3 rows (2 0)", "3 of 3 rows (2 0-1)"][used / 24];
        let told = format!("{told}; {used} bytes were used of 72 in the prefixes of 4 parties, {rows}.\n");
        assert_eq!(said, format!("{told}{DEFAULT_USED}{caution}"));
        assert_eq!(bytes, written, "{range}");
    }
    // Beside a scheme that was named no former one is pointed out.
    let (said, _) = opened(&folder, &format!("reconstruct --scheme {DEFAULT} --length 33 --first 1 out{words}"));
    assert!(said.contains("\nThe scheme is 5,2,2,5,4,3.\n"), "{said}");
    // The message without a byte.
    folder.write("empty", 0);
    let empty = folder.copies("empty", &[1, 2, 3]);
    let (said, bytes) = opened(&folder, &format!("reconstruct --length 0 --first 0 out{empty}"));
    let told = "The range 0..0 is empty, and so is \"out\"; 0 bytes were used of 0 in the prefixes of 3 parties, 0 of ";
    assert!(said.starts_with(told) && bytes.is_empty(), "{said}");
}

/// Changes every byte of these rows in what was sent of so many blocks.
fn damage(folder: &Folder, d: usize, blocks: usize, rows: std::ops::Range<usize>) {
    for party in 1..=d {
        let name = format!("sent/{party}");
        let mut bytes = folder.bytes(&name);
        for (place, byte) in bytes[rows.start * blocks..rows.end * blocks].iter_mut().enumerate() {
            *byte ^= (place * 29 + party) as u8 | 1;
        }
        fs::write(folder.0.join(name), bytes).expect("a written file");
    }
}

/// What stands in rows that are not used changes nothing of the range. Here they are the same for every number of parties:
/// the rows of the first group that come after the range's own. All later groups are used before it.
#[test]
fn rows_not_used() {
    let folder = Folder::new("range-rows");
    for (in_a_row, length, first, not_used) in [(DEFAULT, 40, 1, 1..2), (LONG_BLOCKS, 2000, 80, 10..105)] {
        folder.write("message", length);
        let (message, scheme) = (folder.bytes("message"), scheme_of(in_a_row));
        for form in FORMS {
            let (options, blocks) = (split(&folder, form, in_a_row), form.blocks(length, scheme.m));
            for d in scheme.counts.iter().map(|&d| d as usize) {
                let words = prefixes(&folder, &options, d);
                let line = format!("reconstruct {options}--first {first} out{words}");
                let undamaged = opened(&folder, &line);
                assert_eq!(undamaged.1, message[..first]);
                damage(&folder, d, blocks, not_used.clone());
                assert_eq!(opened(&folder, &line), undamaged, "{line}");
                // The others are used for a whole block. Of a padded message the end is then looked for, too.
                let mut block = folder.command(&format!("reconstruct {options}--first {} block{words}", scheme.m));
                match block.output().expect("it runs").status.code() {
                    Some(0) => {
                        assert_ne!(folder.bytes("block"), message[..scheme.m], "{line}");
                        fs::remove_file(folder.0.join("block")).expect("removed");
                    }
                    status => assert!(status == Some(1) && form == Form::Padded, "{line}"),
                }
                damage(&folder, d, blocks, not_used.start - 1..not_used.start);
                assert_ne!(opened(&folder, &line).1, message[..first], "{line}: the row before them is used");
            }
        }
    }
}

#[test]
fn ranges_past_the_end() {
    let folder = Folder::new("range-past");
    let words = letter(&folder, Form::Padded);
    let most = usize::MAX;
    for range in ["33..37".to_string(), "37..37".to_string(), format!("0..{most}"), format!("{most}..{most}")] {
        // In the earlier form the letter makes as many blocks. With its length told the scheme has no part in this.
        let line = format!("reconstruct --length 33 --range {range} out{words}");
        let told = format!("message\nthe range is {range}, and --length is 33\n");
        folder.refuses(&line, 15, &told);
        assert!(folder.fails(&line, 1).ends_with(&told), "{line}");
        let room = format!(
            "message\nthe range is {range}, and the blocks have room for 36 bytes of a message\nt{}",
            &DEFAULT_USED[1..]
        );
        folder.refuses(&format!("reconstruct --range {range} out{words}"), 15, &room.replace("4,3.\n", "4,3\n"));
    }
    folder.refuses(&format!("reconstruct --length 33 --first 34 out{words}"), 15, "the range is 0..34, and");
    folder.refuses(&format!("reconstruct --first {most} out{words}"), 15, &format!("the range is 0..{most}, and"));
    // Shares of the former default have 12 bytes of a message where those of the default have 6.
    folder.write("keys", 18);
    folder.says(&format!("split {FORMER_DEFAULT}message keys former"));
    let three = "1=former/share-1 2=former/share-2 3=former/share-3";
    let hint = "the blocks have room for 18 bytes of a message\nthe scheme is the default, 5,2,2,5,4,3; shares of the \
                former default need ";
    folder.refuses(&format!("reconstruct --range 20..30 out {three}"), 15, hint);
    let (_, bytes) = opened(&folder, &format!("reconstruct {FORMER_DEFAULT}--range 20..30 out {three}"));
    assert_eq!(bytes, folder.bytes("message")[20..30]);
}

/// Refusals that come before that of the range, which is past the end here.
fn earlier_refusals(folder: &Folder, length: &str, words: &str) {
    let line = |words: &str| format!("reconstruct {length}--first 99 out{words}");
    folder.refuses(&format!("reconstruct --scheme 1,0,1,1 {length}--first 99 out{words}"), 1, "N 1");
    folder.refuses(&line(" 1=sent/1"), 6, "the parties are [1], and the scheme is N 5");
    folder.refuses(&line(""), 6, "the parties are [], and the scheme is N 5");
    folder.refuses(&line(&words.replace(" 4=", " 6=")), 7, "[1, 2, 3, 6]");
    folder.refuses(&line(&words.replace(" 4=", " 3=")), 7, "[1, 2, 3, 3]");
}

/// What is sent says how many blocks there are, so that its lengths are looked at before the end of the range.
#[test]
fn refusals_of_padded_messages() {
    let folder = Folder::new("range-refusals");
    let words = letter(&folder, Form::Padded);
    earlier_refusals(&folder, "", &words);
    for (name, length) in [("more", 21), ("less", 15), ("cut", 17), ("none", 0), ("most", 2732 * 6)] {
        folder.write(name, length);
    }
    let more = words.replace("sent/2", "more");
    let unequal = "equally long, but \"sent/1\" has 18 bytes and \"more\" has 21 bytes\nthe scheme is the default, ";
    for range in ["--first 0", "--first 1", "--first 36", "--first 99"] {
        let line = |words: &str| format!("reconstruct {range} out{words}");
        folder.refuses(&line(&more), 9, unequal);
        // Together they have the right length.
        folder.refuses(&line(&more.replace("sent/3", "less")), 9, unequal);
        let cut = "1 to 2731 blocks, and \"cut\" has 17 bytes\n";
        folder.refuses(&line(&words.replace("sent/4", "cut")), 9, cut);
    }
    // No block, and one more than the longest message has.
    for (name, length) in [("none", 0), ("most", 2732 * 6)] {
        let three = folder.copies(name, &[1, 2, 3]);
        let has = format!("1 to 2731 blocks, and \"{name}\" has {length} bytes\n");
        for range in ["--first 0", "--first 1", "--first 16384", "--first 16392", "--first 16393"] {
            folder.refuses(&format!("reconstruct {range} out{three}"), 9, &has);
            folder.refuses(&format!("reconstruct {range} out{}", three.replace("3=", "2=")), 7, "[1, 2, 2]");
        }
    }
}

#[test]
fn refusals_of_the_earlier_form() {
    let folder = Folder::new("range-refusals-told");
    let words = letter(&folder, Form::Earlier);
    earlier_refusals(&folder, "--length 33 ", &words);
    for length in [MAX_MESSAGE + 1, usize::MAX] {
        let line = format!("reconstruct --length {length} --first {} out{words}", usize::MAX);
        folder.refuses(&line, 5, &format!("--length is {length}\n"));
    }
    folder.write("more", 21);
    folder.write("less", 15);
    let more = words.replace("sent/2", "more");
    // Together these have the right length.
    for words in [&more, &more.replace("sent/3", "less")] {
        let has = "with --length 33 a prefix for 4 parties has 18 bytes, and \"more\" has 21 bytes\n";
        folder.refuses(&format!("reconstruct --length 33 --first 33 out{words}"), 9, has);
        // Where the message ends is known without them.
        folder.refuses(&format!("reconstruct --length 33 --first 34 out{words}"), 15, "--length is 33\n");
    }
}

/// The longest message fills blocks of 1 byte and of 2. Its padding is a block more, which is left out.
#[test]
fn ranges_of_the_longest_message_that_fills_its_blocks() {
    let folder = Folder::new("range-fills");
    for (scheme, d, blocks, m) in [("2,0,1,2", 2, 16385, 1), ("3,0,1,3", 3, 8193, 2), ("4,1,1,4,3", 3, 2731, 6)] {
        folder.write("message", MAX_MESSAGE);
        let message = folder.bytes("message");
        let options = split(&folder, Form::Padded, scheme);
        let words = prefixes(&folder, &options, d);
        for (start, end) in [(0, 1), (5, 5), (0, m), (16383, 16384), (9000, 9000 + m), (16384, 16384)] {
            let (_, bytes) = opened(&folder, &format!("reconstruct {options}--range {start}..{end} out{words}"));
            assert_eq!(bytes, message[start..end]);
        }
        let room = "and the blocks have room for 16384 bytes of a message\n";
        folder.refuses(&format!("reconstruct {options}--range 5..16385 out{words}"), 15, room);
        let rows = folder.bytes("sent/1").len() / blocks;
        folder.write("more", rows * (blocks + 1));
        folder.write("less", rows * (blocks - 1));
        let more = words.replace("sent/2", "more");
        let has = format!("1 to {blocks} blocks, and \"more\" has {} bytes\n", rows * (blocks + 1));
        for range in ["--first 1", "--range 5..5", "--range 16383..16384", "--first 99999"] {
            let line = |words: &str| format!("reconstruct {options}{range} out{words}");
            // Together they have the right length, and then a block too much.
            folder.refuses(&line(&more.replace("sent/1", "less")), 9, &has);
            let all_more = folder.copies("more", &(1..=d).collect::<Vec<_>>());
            folder.refuses(&line(&all_more), 9, &has);
            folder.refuses(&line(&all_more.replace(" 2=", " 1=")), 7, "the parties are [1, 1");
        }
        assert_eq!(opened(&folder, &format!("reconstruct {options}out{words}")).1, message);
        // One byte less makes a block less where it is one of its own.
        folder.write("message", MAX_MESSAGE - 1);
        split(&folder, Form::Padded, scheme);
        let words = prefixes(&folder, &options, d);
        let (_, last) = opened(&folder, &format!("reconstruct {options}--range 16382..16383 out{words}"));
        assert_eq!(last, folder.bytes("message")[16382..]);
    }
}

/// It does not fill blocks of 6 bytes: what passes its length is padding, and left out.
#[test]
fn ranges_of_the_longest_padded_message() {
    let folder = Folder::new("range-longest");
    folder.write("message", MAX_MESSAGE);
    let message = folder.bytes("message");
    let options = split(&folder, Form::Padded, DEFAULT);
    let words = prefixes(&folder, &options, 5);
    for (start, end, over) in [(0, 1, false), (16379, 16380, false), (16380, 16381, true), (16380, 16384, false)] {
        let (said, bytes) = opened(&folder, &format!("reconstruct {options}--range {start}..{end} out{words}"));
        assert_eq!(bytes, message[start..end]);
        assert_eq!(said.contains("\nFrom byte 16380 on the message may be over"), over, "{said}");
    }
    for end in [16385, 16386, 16387] {
        let past = format!("the range is 5..{end}, and the blocks have room for 16384 bytes of a message\n");
        folder.refuses(&format!("reconstruct {options}--range 5..{end} out{words}"), 15, &past);
    }
}

/// The command with these options cannot be understood, for this reason.
fn is_bad_usage(folder: &Folder, command: &str, options: &[&str], reason: &str) {
    let before = folder.names();
    let output = folder.command(command).args(options).output().expect("it runs");
    let said = format!("sharing: {reason}\n(sharing --help says how it is used)\n");
    assert_eq!((output.status.code(), text(&output.stderr)), (Some(2), said), "{command} {options:?}");
    assert!(output.stdout.is_empty() && folder.names() == before, "{command} {options:?}");
}

#[test]
fn bad_usage() {
    let folder = Folder::new("range-usage");
    folder.write("share", 6);
    for command in ["reconstruct out 1=share 2=share 3=share", "scheme"] {
        let fails = |options: &[&str], reason: &str| is_bad_usage(&folder, command, options, reason);
        for word in
            "5|5..|..5|..||a..b|1..b|0 ..5|0.. 5| 0..5|0..5 |0..5..9|0...5|-1..5|+1..5|1.5|0-5|0,5|١..٢".split('|')
        {
            fails(&["--range", word], &format!("--range: needed is START..END, as in 0..80, not {word:?}"));
        }
        fails(&["--range", "7..3"], "--range: \"7..3\" starts after its end");
        for large in ["18446744073709551616", "99999999999999999999999"] {
            let reason = format!("\"{large}\" is too large: numbers end at 18446744073709551615 here");
            fails(&["--range", &format!("0..{large}")], &format!("--range: {reason}"));
            fails(&["--range", &format!("{large}..5")], &format!("--range: {reason}"));
            fails(&["--first", large], &format!("--first: {reason}"));
        }
        for word in ["", "a", "0..5", "-1", "5 "] {
            fails(&["--first", word], &format!("--first: needed is a number, not {word:?}"));
        }
        for both in [["--range=0..5", "--first=5"], ["--first=5", "--range=0..5"]] {
            fails(&both, "--range and --first cannot stand together");
        }
        fails(&["--first=5", "--first=5"], "--first stands twice");
        fails(&["--range"], "--range needs a value after it");
    }
    for command in ["split message keys shares", "prefix --readers 3 share out", "archive list share"] {
        is_bad_usage(&folder, command, &["--range", "0..5"], "there is no option \"--range\" here");
        is_bad_usage(&folder, command, &["--first=5"], "there is no option \"--first\" here");
    }
}

#[test]
fn nothing_is_overwritten() {
    let folder = Folder::new("range-taken");
    let words = letter(&folder, Form::Padded);
    for range in ["--first 3", "--range 5..5"] {
        let said = folder.fails(&format!("reconstruct {range} message{words}"), 1);
        assert_eq!(said, "sharing: \"message\" exists already, and nothing is overwritten\n");
    }
    assert_eq!(folder.bytes("message"), b"Call the client back before noon.");
    assert!(folder.fails(&format!("reconstruct --first 3 no/out{words}"), 1).contains("cannot write \"no/out\": "));
}

#[test]
fn tables() {
    let folder = Folder::new("range-tables");
    let default = "Bytes of a block to fetch, and what of them the range 0..1 needs:\n\
        parties  from each  in all  rows   of  bytes  which rows\n      \
        5          2      10     1    2      5  0\n      \
        4          3      12     2    3      8  2 0\n      \
        3          6      18     5    6     15  3-5 2 0\n";
    assert_eq!(table(&folder, "--first 1"), default);
    assert_eq!(table(&folder, "--range=0..1 5 2 2 5,4,3"), default);
    let few_rows = "Bytes of a block to fetch, and what of them the range 8..9 needs:\n\
        parties  from each  in all  rows   of  bytes  which rows\n      \
        7          1       7     1    1      7  0\n      \
        4          2       8     2    2      8  1 0\n      \
        3          3       9     1    3      3  2\n";
    assert_eq!(table(&folder, "7,4,1,7,4,3 --range 8..9"), few_rows);
    let long_blocks = "Bytes of a block to fetch, and what of them the range 0..80 needs:\n\
        parties  from each  in all  rows   of  bytes  which rows\n      \
        9        105     945    10  105     90  0-9\n      \
        8        120     960    25  120    200  105-119 0-9\n      \
        7        140     980    45  140    315  120-139 105-119 0-9\n      \
        6        168    1008    73  168    438  140-167 120-139 105-119 0-9\n";
    assert_eq!(table(&folder, "--first 80 9 3 1 9,8,7,6"), long_blocks);
    for (scheme, with_range) in [(DEFAULT, default), (FEW_ROWS, few_rows), (LONG_BLOCKS, long_blocks)] {
        without_a_range(&folder, scheme, with_range);
    }
}

/// Without a range all is said but what is said of the range.
fn without_a_range(folder: &Folder, scheme: &str, with_range: &str) {
    let columns = with_range.lines().skip(1).map(|line| line[..HEADINGS.len()].to_string());
    let lines = ["Bytes of a block to fetch:".to_string()].into_iter().chain(columns);
    let without: String = lines.map(|line| line + "\n").collect();
    assert_eq!(table(folder, scheme), without);
    let before_it = |words: &str| {
        let said = folder.says(&format!("scheme {words}"));
        said[..said.len() - table(folder, words).len()].to_string()
    };
    assert_eq!(before_it(scheme), before_it(&format!("{scheme} --first 1")));
}

/// The rows that are named are those of the other implementation, in its order.
#[test]
fn which_rows() {
    let folder = Folder::new("range-which");
    for in_a_row in [DEFAULT, FEW_ROWS, LONG_BLOCKS, "5,2,1,5,4,3", "12,4,3,12,9,8", "2,0,1,2"] {
        let scheme = scheme_of(in_a_row);
        for (start, length) in [(0, 1), (0, scheme.m.min(80)), (scheme.m - 1, 2), (7, 0), (3, 3), (1, scheme.m)] {
            for cost in costs(&folder, in_a_row, &format!("--range {start}..{}", start + length)) {
                let order = rows_in_order(scheme.m, scheme.z, &scheme.counts, cost.numbers[0]);
                assert_eq!(rows_named(&cost.which), rows_taken(&order, scheme.m, (start, length)), "{in_a_row}");
            }
        }
    }
}

/// An empty range needs no row, one as long as a block all of them, and one past the longest message is refused.
#[test]
fn the_shortest_and_the_longest_ranges() {
    let folder = Folder::new("range-ends");
    for scheme in [DEFAULT, FEW_ROWS, LONG_BLOCKS, "2,0,1,2"] {
        for range in ["--first 0", "--range 7..7", "--range 16384..16384"] {
            for Cost { numbers: [_, from_each, _, rows, of, bytes], which } in costs(&folder, scheme, range) {
                assert_eq!((rows, of, bytes, &which[..]), (0, from_each, 0, "none"), "{scheme} {range}");
            }
        }
        let m = scheme_of(scheme).m;
        for range in [format!("--first {m}"), format!("--range {}..{}", m + 1, 2 * m + 1), "--first 16384".to_string()]
        {
            for Cost { numbers: [_, from_each, in_all, rows, of, bytes], .. } in costs(&folder, scheme, &range) {
                assert_eq!((rows, of, bytes), (from_each, from_each, in_all), "{scheme} {range}");
            }
        }
        for end in [MAX_MESSAGE + 1, usize::MAX] {
            for range in [format!("0..{end}"), format!("{end}..{end}")] {
                let least = format!("\na message that has the range {range} has {end} bytes at least\n");
                folder.refuses(&format!("scheme {scheme} --range {range}"), 5, &least);
            }
        }
    }
    folder.refuses("scheme 1 0 1 1 --first 99999", 1, "the scheme is N 1");
    folder.refuses("scheme 10 4 1 10,9,8,6 --first 99999", 4, "the scheme is N 10");
}

/// The help says what the tables say of the default scheme.
#[test]
fn help() {
    let folder = Folder::new("range-help");
    for command in ["", "scheme ", "reconstruct "] {
        let said = folder.says(&format!("{command}--help"));
        assert!(said.contains("[--range START..END | --first BYTES]"), "{said}");
    }
    let said = folder.says("reconstruct --help");
    let costs = costs(&folder, DEFAULT, "--first 1");
    let first: Vec<_> = costs.iter().map(|Cost { numbers: [d, _, _, rows, of, _], .. }| (*rows, *of, *d)).collect();
    assert_eq!(first, [(1, 2, 5), (2, 3, 4), (5, 6, 3)]);
    let words = said.replace('\n', " ");
    assert!(words.contains("takes 1 of 2, 2 of 3 and 5 of 6 rows for 5, 4 and 3 parties."), "{said}");
    assert!(words.contains("blocks of 6 bytes, every range of 6 bytes or more does"), "{said}");
}
