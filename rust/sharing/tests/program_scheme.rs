//! What the program `sharing` says of a scheme: who learns what of a message, and what a message costs.

use comparison::cases::{Form, Scheme, FORMS};
use folder::Folder;
use gilunavoi::limits::MAX_MESSAGE;

// Of what a folder can do, not all is needed here.
#[allow(dead_code)]
mod folder;

/// What is said between the lines on a block and the table of its bytes.
fn ramp(folder: &Folder, scheme: &str) -> String {
    let said = folder.says(&format!("scheme {scheme}"));
    let (before, _) = said.split_once("Bytes of a block to fetch:\n").expect("a table");
    before.lines().skip(2).map(|line| format!("{line}\n")).collect()
}

/// Where Z is N - R - 1 nobody learns only part, and no other scheme is offered.
#[test]
fn who_learns_nothing_or_all() {
    let folder = Folder::new("scheme-shamir");
    for (scheme, learn, enough) in [
        ("5,2,2,5,4,3", "Up to 2 parties together learn", 3),
        ("2,0,1,2", "1 party learns", 2),
        ("3,1,1,3,2", "1 party learns", 2),
        ("16,0,15,16", "Up to 15 parties together learn", 16),
    ] {
        let expected = format!(
            "{learn} nothing of a message but its length in blocks, and any {enough} open it.\n\
             No number of parties learns only part of it: fewer than {enough} learn nothing, which is Shamir's promise.\n"
        );
        assert_eq!(ramp(&folder, scheme), expected, "{scheme}");
    }
}

#[test]
fn who_learns_part() {
    let folder = Folder::new("scheme-ramp");
    let former = "1 party learns nothing of a message but its length in blocks, and any 3 open it.\n\
        2 parties together learn part of it, and can test a guess of all of it, whatever the keys: a wrong one hardly ever fits.\n\
        Where fewer than 3 shall learn nothing, which is Shamir's promise, take 5,2,2,5,4,3. Its price:\n\
        a share as long as the message, not half as long; 2 key bytes for a message byte, not 1/2;\n\
        1 2/3, 2 and 3 bytes to fetch for a message byte from 5, 4 and 3 parties, not 1 1/4, 1 1/3 and 1 1/2.\n";
    assert_eq!(ramp(&folder, "5,2,1,5,4,3"), former);
    let nine = "1 party learns nothing of a message but its length in blocks, and any 6 open it.\n\
        2 to 5 parties together learn part of it, and already 2 can test a guess of all of it, whatever the keys: a wrong one hardly ever fits.\n\
        Where fewer than 6 shall learn nothing, which is Shamir's promise, take 9,3,5,9,8,7,6. Its price:\n\
        a share as long as the message, not a fifth as long; 5 key bytes for a message byte, not 1/5;\n\
        2 1/4, 2 2/3, 3 1/2 and 6 bytes to fetch for a message byte from 9, 8, 7 and 6 parties, \
        not 1 1/8, 1 1/7, 1 1/6 and 1 1/5.\n";
    assert_eq!(ramp(&folder, "9,3,1,9,8,7,6"), nine);
    // With Z 5 the first three counts, less it, are 11, 10 and 9, and only multiples of 990 are divided by all. Without one
    // of them it is a block of 110, 99 or 90 bytes; the first has the larger counts.
    let fewer_counts =
        "Up to 4 parties together learn nothing of a message but its length in blocks, and any 6 open it.\n\
        5 parties together learn part of it, and can test a guess of all of it, whatever the keys: a wrong one hardly ever fits.\n\
        Where fewer than 6 shall learn nothing, which is Shamir's promise, take 16,10,5,16,15,6 \
        (its block would be too long with the counts 16,15,14,6). Its price:\n\
        a share as long as the message, not half as long; 5 key bytes for a message byte, not 2;\n\
        1 5/11, 1 1/2 and 6 bytes to fetch for a message byte from 16, 15 and 6 parties, \
        not 1 1/3, 1 4/11, 1 2/5 and 3 from 16, 15, 14 and 6 parties.\n";
    assert_eq!(ramp(&folder, "16,10,4,16,15,14,6"), fewer_counts);
    assert!(
        ramp(&folder, "16,0,1,16").contains("a share as long as the message, not a fifteenth as long; 15 key bytes")
    );
    assert!(ramp(&folder, "8,2,4,8,6").contains("5 key bytes for a message byte, not 2;"));
    assert!(ramp(&folder, "7,0,4,7").contains("not a third as long; 6 key bytes for a message byte, not 1 1/3;"));
}

/// The scheme that is offered is accepted, has as many of the counts as it can, and in it nobody learns only part.
#[test]
fn the_scheme_that_is_offered() {
    let folder = Folder::new("scheme-offer");
    for (scheme, expected) in [
        ("5,2,1,5,4,3", "5,2,2,5,4,3"),
        ("7,4,1,7,4,3", "7,4,2,7,4,3"),
        ("9,3,1,9,8,7,6", "9,3,5,9,8,7,6"),
        ("11,8,1,11,9,7,6,3", "11,8,2,11,9,7,3"),
        ("16,10,4,16,15,14,6", "16,10,5,16,15,6"),
        ("12,4,3,12,9,8", "12,4,7,12,9,8"),
        ("16,0,1,16", "16,0,15,16"),
    ] {
        let said = ramp(&folder, scheme);
        let offered = said.split_once(" promise, take ").expect("an offer").1.split([' ', '.']).next().expect("a word");
        assert_eq!(offered, expected, "{scheme}");
        assert!(
            ramp(&folder, offered).contains("\nNo number of parties learns only part of it: "),
            "{scheme}: {offered}"
        );
    }
}

/// What is said of a message, from the line on its blocks on.
fn message(folder: &Folder, words: &str) -> String {
    let said = folder.says(&format!("scheme {words}"));
    let start = said.find("A message of ").unwrap_or_else(|| panic!("{words}: {said}"));
    said[start..].to_string()
}

#[test]
fn what_a_message_costs() {
    let folder = Folder::new("scheme-length");
    let default = "A message of 33 bytes makes 6 blocks and takes 72 key bytes.\n\
        A share of it has 36 bytes, and all 5 shares together have 180 bytes.\n\
        Bytes of this message to fetch:\n\
        parties  from each  in all  times the message\n      \
        5         12      60               1.82\n      \
        4         18      72               2.18\n      \
        3         36     108               3.27\n";
    assert_eq!(message(&folder, "--length 33"), default);
    assert_eq!(message(&folder, "5 2 2 5,4,3 --length=33"), default);
    // The last block is not full, so that the earlier form makes as many.
    let earlier = default.replace("33 bytes makes", "33 bytes in the earlier form makes");
    assert_eq!(message(&folder, "--length 33 --unpadded"), earlier);
    // Blocks of 12 bytes are full with 24; padded, there is one more.
    let former = "A message of 24 bytes in the earlier form makes 2 blocks and takes 12 key bytes.\n\
        A share of it has 12 bytes, and all 5 shares together have 60 bytes.\n\
        Bytes of this message to fetch:\n\
        parties  from each  in all  times the message\n      \
        5          6      30               1.25\n      \
        4          8      32               1.33\n      \
        3         12      36               1.50\n";
    assert_eq!(message(&folder, "--unpadded --length 24 5,2,1,5,4,3"), former);
    let padded = message(&folder, "--length 24 5,2,1,5,4,3");
    assert!(padded.starts_with("A message of 24 bytes makes 3 blocks and takes 18 key bytes.\n"), "{padded}");
    assert!(padded.ends_with("\n      3         18      54               2.25\n"), "{padded}");
    // The table of a block, with a range too, stays before it as it was.
    for range in ["", " --first 5"] {
        let said = folder.says(&format!("scheme --length 33{range}"));
        assert_eq!(said, folder.says(&format!("scheme{range}")) + default);
    }
}

/// Nothing times nothing is anything: an empty message has no such number.
#[test]
fn the_shortest_messages() {
    let folder = Folder::new("scheme-shortest");
    let empty = "A message of 0 bytes in the earlier form makes 0 blocks and takes 0 key bytes.\n\
        A share of it has 0 bytes, and all 2 shares together have 0 bytes.\n\
        Bytes of this message to fetch:\n\
        parties  from each  in all  times the message\n      \
        2          0       0                  -\n";
    assert_eq!(message(&folder, "2,0,1,2 --length 0 --unpadded"), empty);
    let padded = "A message of 0 bytes makes 1 block and takes 1 key byte.\n\
        A share of it has 1 byte, and all 2 shares together have 2 bytes.\n\
        Bytes of this message to fetch:\n\
        parties  from each  in all  times the message\n      \
        2          1       2                  -\n";
    assert_eq!(message(&folder, "2,0,1,2 --length 0"), padded);
    assert!(message(&folder, "2,0,1,2 --length 1").starts_with("A message of 1 byte makes 2 blocks "));
}

/// In both forms a message is split with as many keys as `scheme` says, into shares as long as it says, and what its
/// parties send is as long as it says.
#[test]
fn what_is_split_is_as_long() {
    let folder = Folder::new("scheme-split");
    for (in_a_row, length) in
        [("5,2,2,5,4,3", 36), ("7,4,1,7,4,3", 41), ("9,3,1,9,8,7,6", 2000), ("2,0,1,2", MAX_MESSAGE)]
    {
        folder.write("message", length);
        for form in FORMS {
            is_as_long(&folder, form, in_a_row, length);
        }
    }
}

fn is_as_long(folder: &Folder, form: Form, in_a_row: &str, length: usize) {
    let (unpadded, told) = match form {
        Form::Padded => ("", String::new()),
        Form::Earlier => (" --unpadded", format!(" --length {length}")),
    };
    let said = message(folder, &format!("{in_a_row} --length {length}{unpadded}"));
    let numbers: Vec<usize> = said.split(|character: char| !character.is_ascii_digit()).flat_map(str::parse).collect();
    let [_, blocks, keys, share, n, all, ref table @ ..] = numbers[..] else { panic!("{said}") };
    assert_eq!((blocks, all), (form.blocks(length, scheme_of(in_a_row).m), n * share), "{said}");
    folder.write("keys", keys);
    folder.says(&format!("split --scheme {in_a_row}{unpadded} message keys shares"));
    assert_eq!(folder.bytes("shares/share-1").len(), share);
    // The last column has a point in it.
    for line in table.chunks(5) {
        let (d, sent, in_all) = (line[0], line[1], line[2]);
        folder.says(&format!("prefix --scheme {in_a_row}{told} --readers {d} shares/share-1 sent"));
        assert_eq!((folder.bytes("sent").len(), d * sent), (sent, in_all), "{said}");
        folder.remove("sent");
    }
    folder.remove("shares");
}

fn scheme_of(in_a_row: &str) -> Scheme {
    let numbers: Vec<u8> = in_a_row.split(',').map(|number| number.parse().expect("a number")).collect();
    Scheme::new(numbers[0], numbers[1], numbers[2], numbers[3..].to_vec()).expect("an accepted scheme")
}

#[test]
fn refusals() {
    let folder = Folder::new("scheme-refusals");
    for unpadded in ["", " --unpadded"] {
        for length in [MAX_MESSAGE + 1, usize::MAX] {
            folder.refuses(&format!("scheme --length {length}{unpadded}"), 5, &format!("\n--length is {length}\n"));
        }
        folder.says(&format!("scheme --length {MAX_MESSAGE}{unpadded}"));
        // The scheme is looked at first.
        folder.refuses(&format!("scheme 10,4,1,10,9,8,6 --length 99999{unpadded}"), 4, "the scheme is N 10");
    }
    for (line, reason) in [
        ("scheme --unpadded", "--unpadded is the form of a message, and needs --length here"),
        ("scheme --unpadded=33", "--unpadded has no value"),
        ("scheme --length", "--length needs a value after it"),
        ("scheme --length many", "--length: needed is a number, not \"many\""),
        ("scheme --length 1 --length 1", "--length stands twice"),
    ] {
        let said = folder.fails(line, 2);
        assert!(said.contains(reason) && said.contains("sharing --help"), "{line}: {said}");
    }
}
