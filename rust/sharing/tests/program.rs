//! The program `sharing`, run as its users run it, in a folder of its own.

use folder::{text, Folder, FORMER_DEFAULT};
use gilunavoi::limits::{DEFAULT_N, DEFAULT_Z, MAX_MESSAGE};
use gilunavoi::raw;
use std::fs;
use std::process::Command;

mod folder;

impl Folder {
    /// The five shares in a folder, party after party.
    fn shares(&self, folder: &str) -> Vec<u8> {
        (1..=5).flat_map(|party| self.bytes(&format!("{folder}/share-{party}"))).collect()
    }
}

/// The words of a command line that ask for a form of message: of `split`, and of the other two.
fn padded(_: usize) -> (String, String) {
    (String::new(), String::new())
}

fn unpadded(length: usize) -> (String, String) {
    ("--unpadded ".to_string(), format!("--length {length} "))
}

/// Cuts prefixes for these parties and opens them: what is said at last. Nothing of it stays.
fn opened(folder: &Folder, options: &str, parties: &[usize]) -> (String, Vec<u8>) {
    let mut line = format!("reconstruct {options}opened");
    for party in parties {
        let d = parties.len();
        folder.says(&format!("prefix {options}--readers {d} shares/share-{party} part-{party}"));
        line += &format!(" {party}=part-{party}");
    }
    let sent: usize = parties.iter().map(|party| folder.bytes(&format!("part-{party}")).len()).sum();
    let said = folder.says(&line);
    assert!(said.contains(&format!(" {sent} bytes were fetched from {} parties", parties.len())), "{said}");
    let message = folder.bytes("opened");
    for party in parties {
        fs::remove_file(folder.0.join(format!("part-{party}"))).expect("removed");
    }
    fs::remove_file(folder.0.join("opened")).expect("removed");
    (said, message)
}

/// Splits a message, and opens it from each of the lists of parties. The keys have the length that is needed.
fn round_trip(
    folder: &Folder,
    form: fn(usize) -> (String, String),
    scheme: &str,
    length: usize,
    keys: usize,
    readings: &[&[usize]],
) {
    let (split, read) = form(length);
    folder.write("message", length);
    folder.write("keys", keys);
    let said = folder.says(&format!("split {scheme}{split}message keys shares"));
    assert_eq!(said.contains(&format!("\nKeep the message's length, {length}: ")), !split.is_empty(), "{said}");
    for parties in readings {
        let (said, message) = opened(folder, &format!("{scheme}{read}"), parties);
        assert_eq!(said.contains("\nNothing can tell whether the scheme, the length, "), !read.is_empty(), "{said}");
        assert_eq!(said.contains("\nOnly its end could be checked: "), read.is_empty(), "{said}");
        assert_eq!(message, folder.bytes("message"));
    }
    fs::remove_dir_all(folder.0.join("shares")).expect("removed");
}

/// In both forms. A padded message that fills its blocks has one more, and so has an empty one.
#[test]
fn round_trips() {
    let folder = Folder::new("round");
    // The parties may be named in any order.
    let readings: [&[usize]; 4] = [&[1, 2, 3, 4, 5], &[5, 1, 4, 2], &[2, 4, 5], &[3, 2, 1]];
    let default = [(100, 204, 204), (0, 12, 0), (5, 12, 12), (6, 24, 12), (MAX_MESSAGE, 32772, 32772)];
    let former = [(100, 54, 54), (0, 6, 0), (11, 6, 6), (12, 12, 6), (MAX_MESSAGE, 8196, 8196)];
    for (scheme, lengths) in [("", default), (FORMER_DEFAULT, former)] {
        for (length, keys, earlier_keys) in lengths {
            round_trip(&folder, padded, scheme, length, keys, &readings);
            round_trip(&folder, unpadded, scheme, length, earlier_keys, &readings);
        }
    }
    let readings: [&[usize]; 3] = [&[7, 6, 5, 4, 3, 2, 1], &[1, 3, 5, 6, 7], &[2, 4, 6, 7]];
    for form in [padded, unpadded] {
        round_trip(&folder, form, "--scheme=7,3,2,7,5,4 ", 61, 90, &readings);
    }
    assert_eq!(folder.names().len(), 2, "the message and the keys");
}

/// The longest message under blocks of one byte: the most blocks that there are.
#[test]
fn the_most_blocks() {
    let folder = Folder::new("most");
    round_trip(&folder, padded, "--scheme=2,0,1,2 ", MAX_MESSAGE, MAX_MESSAGE + 1, &[&[1, 2]]);
    round_trip(&folder, unpadded, "--scheme=2,0,1,2 ", MAX_MESSAGE, MAX_MESSAGE, &[&[1, 2]]);
}

/// Without a scheme the program takes the one that the library takes, and the form that was asked for.
#[test]
fn the_default_scheme() {
    let folder = Folder::new("default");
    folder.write("message", 25);
    folder.write("keys", 60);
    let (message, keys) = (folder.bytes("message"), folder.bytes("keys"));
    let said = folder.says("split message keys shares");
    assert_eq!(folder.shares("shares"), expected_shares(raw::split_padded_default, &message, &keys));
    let about = |name: &str| {
        format!("What readers need to know, and nothing secret, is in \"{name}/about\": give it to every party.\n")
    };
    assert!(said.ends_with(&format!("\nThe scheme is the default, 5,2,2,5,4,3.\n{}", about("shares"))), "{said}");
    folder.says("split --unpadded message keys unpadded");
    assert_eq!(folder.shares("unpadded"), expected_shares(raw::split_default, &message, &keys));
    // The same scheme, named.
    let said = folder.says("split --scheme 5,2,2,5,4,3 message keys named");
    assert_eq!(folder.shares("named"), folder.shares("shares"));
    assert!(said.ends_with(&format!("\nThe scheme is 5,2,2,5,4,3.\n{}", about("named"))), "{said}");
}

/// What is left to do after a split: the shares and the message.
#[test]
fn what_is_left_to_do() {
    let folder = Folder::new("left-to-do");
    let help = folder.says("split --help").replace('\n', " ");
    assert!(help.contains("Hand each share to its party, then remove it from there, and remove the message"), "{help}");
}

/// What is said to who takes shares of one form for the other. The message of 24 bytes fills its blocks, so that its
/// shares are longer in the padded form; those of the message of 25 bytes are not.
#[test]
fn the_two_forms_mixed_up() {
    let folder = Folder::new("mixed");
    let need = "shares of the earlier form, which split --unpadded writes, need --length\n";
    let only = "--length is for shares of the earlier form, which split --unpadded writes\n";
    for (name, length, keys, earlier_keys) in [("25", 25, 60, 60), ("24", 24, 60, 48), ("0", 0, 12, 0)] {
        folder.write(name, length);
        folder.write("keys", keys);
        folder.says(&format!("split {name} keys padded-{name}"));
        folder.write("keys", earlier_keys);
        folder.says(&format!("split --unpadded {name} keys earlier-{name}"));
    }
    let reading = |shares: &str| format!("1={shares}/share-1 2={shares}/share-2 5={shares}/share-5");

    // Shares of the earlier form without their length.
    for name in ["24", "25"] {
        let line = format!("reconstruct out {}", reading(&format!("earlier-{name}")));
        folder.refuses(&line, 11, "\nthe parties are [1, 2, 5]\n");
        folder.refuses(&line, 11, need);
    }
    folder.refuses("prefix --readers 3 earlier-0/share-1 out", 9, need);
    folder.refuses(&format!("reconstruct out {}", reading("earlier-0")), 9, need);

    // Padded shares with the length: it comes out as it was told.
    folder.says(&format!("reconstruct --length 25 right {}", reading("padded-25")));
    assert_eq!(folder.bytes("right"), folder.bytes("25"));
    folder.says(&format!("reconstruct --length 26 longer {}", reading("padded-25")));
    assert_eq!(folder.bytes("longer"), [folder.bytes("25"), vec![128]].concat());
    folder.refuses("prefix --length 24 --readers 3 padded-24/share-1 out", 9, only);
    folder.refuses(&format!("reconstruct --length 24 out {}", reading("padded-24")), 9, only);
    folder.refuses(&format!("reconstruct --length 0 out {}", reading("padded-0")), 9, only);
}

#[test]
fn files_are_the_owners_alone() {
    use std::os::unix::fs::PermissionsExt;
    let folder = Folder::new("owner");
    folder.write("message", 5);
    folder.write("keys", 12);
    folder.says("split message keys shares");
    let mode = |name: &str| fs::metadata(folder.0.join(name)).expect("a file").permissions().mode() & 0o777;
    assert_eq!((mode("shares"), mode("shares/share-3")), (0o700, 0o600));
}

#[test]
fn schemes() {
    let folder = Folder::new("schemes");
    let sheet = "N 7, R 4, Z 1, counts 7,4,3\n\
        A block has 6 bytes in 3 rows, and takes 3 key bytes.\n\
        1 party learns nothing of a message but its length in blocks, and any 3 open it.\n\
        2 parties together learn part of it, and can test a guess of all of it, whatever the keys: a wrong one hardly ever fits.\n\
        Where fewer than 3 shall learn nothing, which is Shamir's promise, take 7,4,2,7,4,3. Its price:\n\
        a share as long as the message, not half as long; 2 key bytes for a message byte, not 1/2;\n\
        1 2/5, 2 and 3 bytes to fetch for a message byte from 7, 4 and 3 parties, not 1 1/6, 1 1/3 and 1 1/2.\n\
        Bytes of a block to fetch:\n\
        parties  from each  in all\n      \
        7          1       7\n      \
        4          2       8\n      \
        3          3       9\n";
    assert_eq!(folder.says("scheme 7 4 1 7,4,3"), sheet);
    assert_eq!(folder.says("scheme 7,4,1,7,4,3"), sheet);
    let default = "N 5, R 2, Z 2, counts 5,4,3\n\
        A block has 6 bytes in 6 rows, and takes 12 key bytes.\n";
    assert!(folder.says("scheme").starts_with(default));
    assert_eq!(folder.says("scheme"), folder.says("scheme 5 2 2 5 4 3"));
    for (scheme, number) in [
        ("1 0 1 1", 1),
        ("17 2 1 17,15", 1),
        ("5 2 0 5,4,3", 2),
        ("5 255 1 5,4,3", 2),
        ("5 2 1", 3),
        ("5 2 1 5,4", 3),
        ("5 2 1 4,5,3", 3),
        ("10 4 1 10,9,8,6", 4),
    ] {
        folder.refuses(&format!("scheme {scheme}"), number, "the scheme is N ");
    }
    folder.write("message", 3);
    folder.refuses("split --scheme 5,2,1 message message shares", 3, "Z 1, no counts");
    for length in ["", "--length 3 "] {
        folder.refuses(&format!("prefix --scheme 5,5,1,5 {length}--readers 5 message out"), 2, "R 5");
        folder.refuses(&format!("reconstruct --scheme 0,5,1,5 {length}out 1=message"), 1, "N 0");
    }
}

#[test]
fn refusals_of_split() {
    let folder = Folder::new("refusals-split");
    let long = MAX_MESSAGE + 1;
    for (name, length) in [("message", 24), ("keys", 18), ("short", 17), ("long", long), ("endless", 1 << 21)] {
        folder.write(name, length);
    }
    for (unpadded, needed) in [("", 60), ("--unpadded ", 48)] {
        let needs = format!("needs {needed} bytes, and");
        folder.refuses(&format!("split {unpadded}long keys shares"), 5, &format!("\"long\" has {long} bytes"));
        folder.refuses(&format!("split {unpadded}endless keys shares"), 5, "\"endless\" has more than 1048576 bytes");
        let short = format!("{needs} \"short\" has 17 bytes\nthe scheme is the default, 5,2,2,5,4,3\n");
        folder.refuses(&format!("split {unpadded}message short shares"), 8, &short);
        let endless = format!("{needs} \"endless\" has more than 1048576 bytes");
        folder.refuses(&format!("split {unpadded}message endless shares"), 8, &endless);
    }
}

/// Of both forms, `length` being the option that asks for the earlier one. The message has 25 bytes.
fn refusals_of_readers(folder: &Folder, unpadded: &str, length: &str) {
    folder.write("message", 25);
    folder.write("keys", 60);
    folder.write("short", 17);
    folder.says(&format!("split {unpadded}message keys shares"));
    let lengths = |what: &str, of_a_block: usize, file: &str| match length {
        "" => format!("\n{what} has {of_a_block} bytes for each of 1 to 2731 blocks, and {file} bytes\n"),
        _ => format!("\nwith --length 25 {what} has {} bytes, and {file} bytes\n", 5 * of_a_block),
    };

    let no_count = "--readers is 2, and the scheme is N 5";
    folder.refuses(&format!("prefix {length}--readers 2 shares/share-1 out"), 6, no_count);
    let wrong = lengths("a share", 6, "\"short\" has 17");
    folder.refuses(&format!("prefix {length}--readers 4 short out"), 9, &wrong);
    for party in 1..=5 {
        folder.says(&format!("prefix {length}--readers 4 shares/share-{party} p{party}"));
    }
    for (parties, number, detail) in [
        (" 1=p1 2=p2", 6, "the parties are [1, 2], and"),
        ("", 6, "the parties are [], and"),
        (&folder.copies("p1", &(1..=16).collect::<Vec<_>>()), 6, "14, 15, 16], and"),
        (" 1=p1 4=p2 3=p3 4=p4", 7, "[1, 3, 4, 4]"),
        (" 0=p1 2=p2 3=p3 4=p4", 7, "[0, 2, 3, 4]"),
        (" 1=p1 2=p2 3=p3 6=p4", 7, "[1, 2, 3, 6]"),
        (" 1=p1 2=short 3=p3 4=p4", 9, &lengths("a prefix for 4 parties", 3, "\"short\" has 17")),
    ] {
        folder.refuses(&format!("reconstruct {length}out{parties}"), number, detail);
    }
}

#[test]
fn refusals_of_readers_of_padded_messages() {
    let folder = Folder::new("refusals-padded");
    refusals_of_readers(&folder, "", "");
    // 20 bytes are 3 for each of 6.7 blocks; the whole share of one party has them for each of 10.
    folder.write("20", 20);
    folder.refuses("reconstruct out 1=p1 2=p2 3=p3 4=20", 9, "2731 blocks, and \"20\" has 20 bytes");
    let unequal = "equally long, but \"p3\" has 15 bytes and \"shares/share-4\" has 30 bytes";
    folder.refuses("reconstruct out 1=p1 2=p2 3=p3 4=shares/share-4", 9, unequal);
    folder.write("empty", 0);
    folder.refuses("prefix --readers 4 empty out", 9, "2731 blocks, and \"empty\" has 0 bytes");
    let empty = folder.copies("empty", &[1, 2, 3, 4]);
    folder.refuses(&format!("reconstruct out{empty}"), 9, "2731 blocks, and \"empty\" has 0 bytes");
    // One block more than the longest message has.
    folder.write("long", 2732 * 6);
    folder.refuses("prefix --readers 3 long out", 9, "2731 blocks, and \"long\" has 16392 bytes");
    let long = folder.copies("long", &[1, 2, 3]);
    folder.refuses(&format!("reconstruct out{long}"), 9, "2731 blocks, and \"long\" has 16392 bytes");
}

#[test]
fn refusals_of_readers_who_tell_the_length() {
    let folder = Folder::new("refusals-told");
    refusals_of_readers(&folder, "--unpadded ", "--length 25 ");
    let huge = usize::MAX;
    folder.refuses(&format!("prefix --length {huge} --readers 4 shares/share-1 out"), 5, &format!("{huge}"));
    let all = "1=p1 2=p2 3=p3 4=p4";
    folder.refuses(&format!("reconstruct --length {huge} out {all}"), 5, &format!("{huge}"));
}

/// Splits a message in this scheme, in which it needs so many keys, and cuts prefixes for 5 readers out of the shares.
fn shares_and_prefixes(folder: &Folder, scheme: &str, keys: usize, name: &str, message: &[u8]) {
    fs::write(folder.0.join(name), message).expect("a written file");
    let keys: Vec<u8> = message.iter().copied().cycle().take(keys).collect();
    fs::write(folder.0.join("keys"), keys).expect("a written file");
    folder.says(&format!("split {scheme}{name} keys {name}-shares"));
    for party in 1..=5 {
        let share = format!("{name}-shares/share-{party} {name}-shares/short-{party}");
        folder.says(&format!("prefix {scheme}--readers 5 {share}"));
    }
}

/// Opens from three parties, the files of the first two being named alike.
fn of_three(options: &str, files: &str, last: &str) -> String {
    format!("reconstruct {options}out 1={files}-1 2={files}-2 3={last}")
}

/// Prefixes that do not end as a padded message does: a share of another message, of another party, another scheme, and
/// prefixes that were cut for more readers, so that they look like those of fewer blocks.
#[test]
fn no_end() {
    let folder = Folder::new("no-end");
    // 3 blocks of 6 bytes: the prefixes for 5 readers are as long as a share of one.
    shares_and_prefixes(&folder, "", 36, "a", b"Call the client.");
    shares_and_prefixes(&folder, "", 36, "b", b"The car is here.");
    fs::copy(folder.0.join("a-shares/share-4"), folder.0.join("other")).expect("a copy");
    for (options, files, last) in [
        ("", "a-shares/share", "b-shares/share-3"),
        ("", "a-shares/share", "other"),
        ("--scheme 4,1,1,4,3 ", "a-shares/share", "a-shares/share-3"),
        ("", "a-shares/short", "a-shares/short-3"),
    ] {
        let line = of_three(options, files, last);
        folder.refuses(&line, 11, "\nthe parties are [1, 2, 3]\n");
        folder.refuses(&line, 11, "\nevery prefix must have been cut for 3 readers, and shares of the earlier form, ");
    }
    folder.says(&of_three("", "a-shares/share", "a-shares/share-3"));
    assert_eq!(folder.bytes("out"), folder.bytes("a"));
}

/// The end is all that is looked at, and it is said that the rest may be wrong. Here it is: a false byte of another block;
/// prefixes that were cut for more readers, and whole shares where prefixes are needed (read for another number of
/// parties, the rows of messages of these lengths end in 128 too); shares of the earlier form whose message ends in a
/// byte 128. Of the messages a and b the keys that they need in this scheme, and the lengths that are opened at last.
fn unnoticed(folder: &Folder, scheme: &str, a: (&str, usize, usize), b: (&str, usize, usize)) {
    for (name, (message, keys, _)) in [("a", a), ("b", b)] {
        shares_and_prefixes(folder, scheme, keys, name, message.as_bytes());
    }
    let mut share = folder.bytes("a-shares/share-3");
    share[0] ^= 1;
    fs::write(folder.0.join("false"), share).expect("a written file");
    let five: String = (1..=5).map(|party| format!(" {party}=b-shares/share-{party}")).collect();
    // In UTF-8 its last letter ends in a byte 128. It needs as many keys as a.
    fs::write(folder.0.join("c"), "Rendez-vous À").expect("a written file");
    folder.write("keys", a.1);
    folder.says(&format!("split {scheme}--unpadded c keys c-shares"));
    for (line, message, length) in [
        (of_three(scheme, "a-shares/share", "false"), "a", a.0.len()),
        (of_three(scheme, "a-shares/short", "a-shares/short-3"), "a", a.2),
        (format!("reconstruct {scheme}out{five}"), "b", b.2),
        (of_three(scheme, "c-shares/share", "c-shares/share-3"), "c", 13),
    ] {
        let said = folder.says(&line);
        assert!(said.contains("form or number of readers can go unnoticed.\n"), "{said}");
        let opened = folder.bytes("out");
        assert!(opened.len() == length && opened != folder.bytes(message), "{line}: {said}");
        fs::remove_file(folder.0.join("out")).expect("removed");
    }
}

#[test]
fn what_goes_unnoticed() {
    unnoticed(&Folder::new("unnoticed"), "", ("Call the client", 36, 5), ("Call the client at noon", 48, 69));
}

#[test]
fn what_goes_unnoticed_in_the_former_default() {
    let folder = Folder::new("unnoticed-former");
    unnoticed(&folder, FORMER_DEFAULT, ("Call the client back.", 12, 11), ("Call the client at noon", 12, 45));
}

/// The joined prefixes have the right length, and yet two of them are not what a party sends. With a message of 25 bytes
/// the right ones, a and d, are for 4 readers; b is a byte too long and c too short, e and f are so by a block.
fn too_long_and_too_short(folder: &Folder, scheme: &str, block: usize, blocks: usize, most: usize) {
    let right = block * blocks;
    let lengths = [right, right + 1, right - 1, right, right + block, right - block];
    for (name, length) in ["a", "b", "c", "d", "e", "f"].iter().zip(lengths) {
        folder.write(name, length);
    }
    let told = format!("reconstruct {scheme}--length 25 out");
    let byte_more = format!("and \"b\" has {} bytes", right + 1);
    folder.refuses(&format!("{told} 1=a 2=b 3=c 4=d"), 9, &format!("has {right} bytes, {byte_more}"));
    let padded = format!("reconstruct {scheme}out");
    folder.refuses(&format!("{padded} 1=a 2=b 3=c 4=d"), 9, &format!("{most} blocks, {byte_more}"));
    let block_more = format!("and \"e\" has {} bytes", right + block);
    folder.refuses(&format!("{told} 1=a 2=d 3=e 4=f"), 9, &format!("has {right} bytes, {block_more}"));
    folder.refuses(&format!("{padded} 1=a 2=d 3=e 4=f"), 9, &format!("but \"d\" has {right} bytes {block_more}"));
}

#[test]
fn one_prefix_too_long_and_one_too_short() {
    let folder = Folder::new("odd");
    too_long_and_too_short(&folder, "", 3, 5, 2731);
    too_long_and_too_short(&folder, FORMER_DEFAULT, 4, 3, 1366);
}

#[test]
fn nothing_is_overwritten_or_left_behind() {
    let folder = Folder::new("left");
    folder.write("message", 25);
    folder.write("keys", 60);
    fs::create_dir(folder.0.join("shares")).expect("a folder");
    folder.write("shares/share-2", 4);
    let before = folder.bytes("shares/share-2");
    let said = folder.fails("split message keys shares", 1);
    assert!(said.contains("\"shares/share-2\" exists already"), "{said}");
    assert_eq!(folder.bytes("shares/share-2"), before);

    // A link to nowhere is a name that is taken too.
    std::os::unix::fs::symlink("nowhere", folder.0.join("link")).expect("a link");
    folder.fails("prefix --readers 3 keys link", 1);
    let said = folder.fails("prefix --readers 3 keys message", 1);
    assert!(said.contains("\"message\" exists already"), "{said}");
    assert!(folder.fails("split message keys message", 1).contains("cannot make the folder \"message\""));
    assert!(folder.fails("split message keys no/folder", 1).contains("cannot make the folder \"no/folder\""));
    assert!(folder.fails("prefix --readers 3 keys no/out", 1).contains("cannot write \"no/out\": "));
}

type Splitter = fn(&[u8], &[u8], &mut [u8]) -> raw::Answer;

/// The shares that the default scheme makes of a message, party after party.
fn expected_shares(split: Splitter, message: &[u8], keys: &[u8]) -> Vec<u8> {
    let share = keys.len() / DEFAULT_Z as usize;
    let mut shares = vec![0; DEFAULT_N as usize * share];
    assert_eq!(split(message, keys, &mut shares), Ok(share as u64));
    shares
}

/// Of several runs at once into one folder one succeeds, and what it wrote stays whole.
#[test]
fn runs_at_once_into_one_folder() {
    let folder = Folder::new("at-once");
    folder.write("keys", 60);
    let messages = ["a", "b", "c", "d"];
    for (place, name) in messages.iter().enumerate() {
        fs::write(folder.0.join(name), vec![place as u8; 25]).expect("a written file");
    }
    for round in 0..40 {
        let shares = format!("shares-{round}");
        let runs =
            messages.map(|name| folder.command(&format!("split {name} keys {shares}")).spawn().expect("it runs"));
        let ends = runs.map(|run| run.wait_with_output().expect("it ends").status.success());
        let winners: Vec<&str> =
            messages.into_iter().zip(ends).filter(|(_, well)| *well).map(|(name, _)| name).collect();
        let [winner] = winners[..] else { panic!("{winners:?} succeeded") };
        let expected = expected_shares(raw::split_padded_default, &folder.bytes(winner), &folder.bytes("keys"));
        assert_eq!(folder.shares(&shares), expected, "round {round}");
        assert_eq!(
            fs::read_dir(folder.0.join(&shares)).expect("a folder").count(),
            6,
            "nothing but the shares and about"
        );
    }
}

#[test]
fn a_failure_in_the_middle() {
    let folder = Folder::new("middle");
    folder.write("message", MAX_MESSAGE);
    folder.write("keys", 32772);
    let left = folder.names();

    // A share of 16,386 bytes does not fit into a file of at most 8 × 512 bytes.
    let limited = "trap '' XFSZ; ulimit -f 8; exec \"$0\" split message keys shares";
    folder.shell_fails(limited, "cannot write \"shares/share-1\": ");
    assert_eq!(folder.names(), left);

    // Nobody is told of the shares where standard output is full or closed, so they go again.
    for output in ["/dev/full", "&-"] {
        let line = format!("exec \"$0\" split message keys shares >{output}");
        folder.shell_fails(&line, "cannot write to standard output: ");
        assert_eq!(folder.names(), left);
    }
    folder.shell_fails("exec \"$0\" --help >&-", "cannot write to standard output: it is closed");
}

/// Signals at all times of a run: it keeps all shares and says so, or none.
#[test]
fn interrupts() {
    let folder = Folder::new("interrupts");
    folder.write("message", MAX_MESSAGE);
    folder.write("keys", MAX_MESSAGE + 1);
    // The folder, the shares and about.
    folder.interrupts("split --scheme 16,14,1,2 message keys shares", "shares", 18, "16 shares");
}

#[test]
fn unreadable_files() {
    let folder = Folder::new("unreadable");
    folder.write("keys", 18);
    assert!(folder.fails("split absent keys shares", 1).contains("cannot read \"absent\": "));
    assert!(folder.fails("split . keys shares", 1).contains("cannot read \".\": "));
    assert!(folder.fails("split keys . shares", 1).contains("cannot read \".\": "));
    assert!(folder.fails("prefix --readers 3 absent out", 1).contains("cannot read \"absent\": "));
    assert!(folder.fails("reconstruct out 1=absent", 1).contains("cannot read \"absent\": "));
}

#[test]
fn help() {
    let folder = Folder::new("help");
    let all = folder.says("--help");
    assert_eq!(folder.says("-h"), all);
    assert_eq!(folder.says("--version"), format!("sharing {}\n", include_str!("../../../VERSION").trim_end()));
    let said = folder.fails("--version x", 2);
    assert!(said.starts_with("sharing: --version stands alone, and \"x\" was given after it\n"), "{said}");
    for name in ["scheme", "split", "prefix", "reconstruct"] {
        let one = folder.says(&format!("{name} --help"));
        assert_eq!(folder.says(&format!("{name} -h")), one);
        assert!(one.starts_with(&format!("sharing {name} ")), "{one}");
        assert!(all.contains(&format!("sharing {name} ")), "{all}");
    }
    for said in [all, folder.says("split message --help")] {
        assert!(said.contains("never draws keys") && said.contains("one message only"), "{said}");
    }
}

/// The value of an option is one, whatever it looks like.
#[test]
fn values_that_look_like_help() {
    let folder = Folder::new("help-values");
    folder.write("message", 5);
    folder.write("keys", 12);
    for value in ["-h", "--help", "--"] {
        folder.says(&format!("split --label {value} message keys shares"));
        assert!(text(&folder.bytes("shares/about")).ends_with(&format!("\nlabel {value}\n")), "{value}");
        folder.remove("shares");
    }
    let help = folder.says("split --help");
    for line in ["split --label -h -h", "split --label=x -h", "split --checked -h", "split --label -- --help"] {
        assert_eq!(folder.says(line), help, "{line}");
    }
    folder.says("split message keys -- --help");
    assert!(folder.0.join("--help/share-5").exists());
}

/// The same behind =.
#[test]
fn values_behind_an_equals_sign() {
    let folder = Folder::new("equals-values");
    folder.write("message", 5);
    folder.write("keys", 12);
    for value in ["-h", "--help", "--", "--checked"] {
        folder.says(&format!("split --label={value} message keys shares"));
        assert!(text(&folder.bytes("shares/about")).ends_with(&format!("\nlabel {value}\n")), "{value}");
        folder.remove("shares");
    }
}

/// Files whose names start with two dashes, as the values of all options that are given files.
#[test]
fn files_with_two_dashes() {
    let folder = Folder::new("dashes");
    folder.write("message", 5);
    folder.write("--keys", 24);
    folder.says("pool new -- --pool --keys");
    folder.says("split --pool=--pool message -- --shares");
    let shares = "1=--shares/share-1 2=--shares/share-2 3=--shares/share-3";
    let about = "--about=--shares/about";
    folder.says(&format!("rebuild {about} --party 1 --held=--shares/share-1 out {shares} 4=--shares/share-4"));
    folder.says(&format!("reconstruct {about} opened {shares}"));
    folder.says("scheme --picture=--drawn");
    assert!(folder.bytes("--drawn").starts_with(b"<svg"));
    assert_eq!(
        (folder.bytes("out"), folder.bytes("opened")),
        (folder.bytes("--shares/share-1"), folder.bytes("message"))
    );
}

#[test]
fn bad_usage() {
    let folder = Folder::new("usage");
    for line in [
        "",
        "help",
        "version",
        "scheme 5 2",
        "scheme 300 2 1 5,4,3",
        "scheme 5 2 1 5,4,",
        "scheme 5 -2 1 5",
        "scheme +5 2 1 5",
        "scheme --scheme 5,2,1,5",
        "split message keys",
        "split message keys shares more",
        "split --scheme 5,2 message keys shares",
        "split --scheme 5,2,x,5 message keys shares",
        "split --scheme 5,2,1,256 message keys shares",
        "split --scheme 5,2,1,5 --scheme 5,2,1,5 message keys shares",
        "split message keys shares --scheme",
        "split --unpadded --unpadded message keys shares",
        "split --unpadded= message keys shares",
        "split --unpadded=yes message keys shares",
        "split --unpad message keys shares",
        "split --length 5 message keys shares",
        "split --=5 message keys shares",
        "prefix --length= --readers 3 share out",
        "prefix --length=25 --length=25 --readers 3 share out",
        "prefix --length 25 share out",
        "prefix share out",
        "prefix --unpadded --readers 3 share out",
        "prefix --length 25 --readers three share out",
        "prefix --length 99999999999999999999999 --readers 3 share out",
        "reconstruct",
        "reconstruct --unpadded out 1=p1",
        "reconstruct --length out 1=p1",
        "reconstruct --length 25",
        "reconstruct --length 25 out p1",
        "reconstruct --length 25 out 256=p1",
        "reconstruct --length 25 out =p1",
    ] {
        assert!(folder.fails(line, 2).contains("sharing --help"), "{line}");
    }
    assert_eq!(Command::new(env!("CARGO_BIN_EXE_sharing")).output().expect("it runs").status.code(), Some(2));
}

/// Messages that say what to do, and how many.
#[test]
fn plain_words() {
    let folder = Folder::new("words");
    folder.write("share", 1);
    for (line, status, words) in [
        ("split message", 2, "needed are MESSAGE, KEYS, FOLDER, and 1 word was given"),
        ("split message keys", 2, "and 2 words were given"),
        ("scheme 300 2 1 5,4,3", 2, "\"300\" is too large: numbers end at 255 here"),
        ("scheme 5 -2 1 5", 2, "needed is a number, not \"-2\""),
        ("split --unpadded=no message keys shares", 2, "--unpadded has no value, and \"no\" was given"),
        (
            "prefix --length 99999999999999999999999 --readers 3 share out",
            2,
            "--length: \"99999999999999999999999\" is too",
        ),
        ("prefix --readers 3 share out/", 2, "\"out/\" is not the name of a file"),
        ("prefix --readers 3 share out/.", 2, "\"out/.\" is not the name of a file"),
        ("reconstruct out/ 1=share 2=share 3=share", 2, "\"out/\" is not the name of a file"),
        ("reconstruct 1=share 2=share 3=share", 2, "OUT is missing: \"1=share\" looks like PARTY=FILE"),
        ("prefix --length 1 --readers 3 share out", 1, "a share has 6 bytes, and \"share\" has 1 byte\n"),
    ] {
        assert!(folder.fails(line, status).contains(words), "{line}");
    }
    assert!(folder.says("scheme 2 0 1 2").contains("A block has 1 byte in 1 row, and takes 1 key byte."));
}

/// File names need not be text.
#[test]
fn any_file_name() {
    use std::os::unix::ffi::OsStrExt;
    let folder = Folder::new("names");
    folder.write("keys", 12);
    let name = std::ffi::OsStr::from_bytes(b"\xff=\xfe");
    fs::write(folder.0.join(name), b"").expect("a file");
    let mut command = Command::new(env!("CARGO_BIN_EXE_sharing"));
    let command = command.arg("split").args([name, "keys".as_ref(), "--".as_ref(), "--shares".as_ref()]);
    assert_eq!(command.current_dir(&folder.0).output().expect("it runs").status.code(), Some(0));
    assert!(folder.0.join("--shares/share-5").exists());
}
