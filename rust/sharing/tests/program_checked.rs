//! `split --checked` and `reconstruct --checked`: the check inside a message, what it notices and what it does not.

use comparison::random::Random;
use folder::{text, Folder, FORMER_DEFAULT};
use gilunavoi::limits::MAX_MESSAGE;
use gilunavoi::raw;
use pool_folder::MESSAGE;
use shares_folder::{of, split};
use std::fs;
use std::io::Write;
use std::process::{Command, Stdio};

// Of what a folder can do, not all is needed here.
#[allow(dead_code)]
mod folder;
#[allow(dead_code)]
mod pool_folder;
#[allow(dead_code)]
mod shares_folder;

/// The bytes of a check, and the longest message that has one.
const CHECK: usize = 32;
const LONGEST: usize = MAX_MESSAGE - CHECK;

const FITS: &str = "It is the message that was split: a check of 32 bytes inside it fits.\n";
const DOES_NOT_FIT: &str =
    "sharing: what was opened is not what was split: the check of 32 bytes at its end does not fit\n\
     a share, party, prefix, scheme, form, length or number of readers is wrong, or it was split without --checked\n\
     the scheme is ";

/// A folder with the letter, split with a check: 65 bytes, which make 11 blocks and shares of 66 bytes in both forms.
fn folder_with_letter(test: &str, options: &str) -> Folder {
    let folder = Folder::new(test);
    folder.put("message", MESSAGE);
    folder.put("keys", &Random::new(11).bytes(132));
    folder.says(&format!("split {options}--checked message keys shares"));
    folder
}

/// SHA-256 by the same command, asked in another way.
fn sha256(folder: &Folder, name: &str) -> Vec<u8> {
    let output = Command::new("sha256sum").arg(folder.0.join(name)).output().expect("sha256sum");
    let digits = text(&output.stdout)[..2 * CHECK].to_string();
    (0..CHECK).map(|place| u8::from_str_radix(&digits[2 * place..2 * place + 2], 16).expect("two digits")).collect()
}

/// What is said of a message that opens, and that it is the right one.
fn opens(folder: &Folder, line: &str) -> String {
    let said = folder.says(line);
    assert_eq!(folder.bytes("opened"), folder.bytes("message"), "{line}");
    folder.remove("opened");
    said
}

/// In both forms, several schemes and from every number of parties.
#[test]
fn round_trips() {
    let folder = Folder::new("checked-round");
    // The keys of both forms: of a message of this length and its check.
    for (scheme, m, of_a_block, readings) in [
        ("", 6, 12, [&[1, 2, 3, 4, 5][..], &[5, 1, 4, 2], &[3, 2, 5]]),
        (FORMER_DEFAULT, 12, 6, [&[1, 2, 3, 4, 5], &[5, 1, 4, 2], &[3, 2, 5]]),
        ("--scheme 7,3,2,7,5,4 ", 30, 30, [&[1, 2, 3, 4, 5, 6, 7], &[7, 5, 4, 2, 1], &[3, 2, 5, 6]]),
    ] {
        for length in [0, 1, 28, 33, LONGEST] {
            for (form, told, blocks) in [
                ("", String::new(), (length + CHECK) / m + 1),
                ("--unpadded ", format!("--length {} ", length + CHECK), (length + CHECK).div_ceil(m)),
            ] {
                split(&folder, &format!("{scheme}{form}--checked "), length, of_a_block * blocks);
                for parties in readings {
                    let mut line = format!("reconstruct {scheme}{told}--checked opened");
                    for party in parties {
                        let (d, sent) = (parties.len(), format!("shares/sent-{party}-{}", parties.len()));
                        folder.says(&format!("prefix {scheme}{told}--readers {d} shares/share-{party} {sent}"));
                        line += &format!(" {party}={sent}");
                    }
                    let said = opens(&folder, &line);
                    assert!(said.ends_with(FITS) && said.matches('\n').count() == 3, "{said}");
                    let bytes = if length == 1 { "byte" } else { "bytes" };
                    assert!(said.starts_with(&format!("The message, {length} {bytes}, is in \"opened\"; ")), "{said}");
                }
            }
        }
    }
}

/// The digests of FIPS 180 for "abc" and for nothing, which come out with the message where nobody takes them off.
#[test]
fn the_check_is_the_digest() {
    let folder = Folder::new("checked-vectors");
    let empty = "e3b0c44298fc1c149afbf4c8996fb92427ae41e4649b934ca495991b7852b855";
    let abc = "ba7816bf8f01cfea414140de5dae2223b00361a396177a9cb410ff61f20015ad";
    for (message, digest) in [(&b""[..], empty), (b"abc", abc)] {
        folder.put("message", message);
        folder.put("keys", &[9; 72]);
        folder.remove("shares");
        folder.says("split --checked message keys shares");
        folder.says(&format!("reconstruct whole{}", of(&[1, 2, 3])));
        let whole = folder.bytes("whole");
        let digits: String = whole[message.len()..].iter().map(|byte| format!("{byte:02x}")).collect();
        assert_eq!((&whole[..message.len()], &digits[..]), (message, digest));
        folder.remove("whole");
    }
}

#[test]
fn reports_of_split() {
    let folder = folder_with_letter("checked-report", "");
    let line = "A check of 32 bytes is split with the message: ";
    let said = folder.says("split --checked message keys padded");
    assert!(said.contains(line) && !said.contains("Keep the "), "{said}");
    let said = folder.says("split --checked --unpadded message keys unpadded");
    let keep =
        "Keep the length, 65, in which the check is counted: it is needed to open the message, and the shares do \
                not hold it.\n";
    assert!(said.contains(line) && said.contains(keep), "{said}");
}

/// The keys come out of a pool: those for the check too.
#[test]
fn from_a_pool() {
    let folder = Folder::new("checked-pool");
    folder.put("message", MESSAGE);
    let keys = Random::new(12).bytes(140);
    folder.put_pool(&keys, 0);
    let said = folder.says("split --checked --pool pool message shares");
    assert!(said.ends_with("Key bytes of the pool \"pool\": 132 used for this message, 8 left.\n"), "{said}");
    opens(&folder, &format!("reconstruct --checked opened{}", of(&[1, 2, 3])));
    folder.put_pool(&keys[..131], 0);
    folder.refuses("split --checked --pool pool message more", 16, "it needs 132 bytes, and \"pool\" has 131 left\n");
    assert_eq!(folder.bytes("pool/keys"), keys[..131]);
}

/// A wrong byte anywhere in a share is noticed, where without the check it opens to another message in most places.
#[test]
fn a_wrong_byte() {
    for (form, told) in [("", ""), ("--unpadded ", "--length 65 ")] {
        let folder = folder_with_letter(&format!("checked-byte{}", told.len()), form);
        let share = folder.bytes("shares/share-2");
        let mut passed = 0;
        for place in 0..share.len() {
            let mut wrong = share.clone();
            wrong[place] ^= 1 << (place % 8);
            folder.put("wrong", &wrong);
            let words = format!("2=wrong{}", of(&[1, 5]));
            let output = folder.command(&format!("reconstruct {told}other {words}")).output().expect("it runs");
            if output.status.success() {
                assert_ne!(folder.bytes("other")[..], [MESSAGE, &sha256(&folder, "message")].concat());
                folder.remove("other");
                let said = folder.fails(&format!("reconstruct {told}--checked opened {words}"), 1);
                assert!(said.starts_with(DOES_NOT_FIT), "{said}");
                passed += 1;
            }
        }
        assert!(passed >= 58, "only the end is looked at: {passed}");
    }
}

/// What is not noticed without the check: a share of another message or of another party, another scheme or length, and a
/// message that was split without a check.
#[test]
fn wrong_openings() {
    let folder = folder_with_letter("checked-wrong", "--unpadded ");
    folder.put("other", b"The car is waiting at the corner.");
    folder.put("keys", &Random::new(13).bytes(132));
    folder.says("split --checked --unpadded other keys others");
    folder.put("keys", &Random::new(14).bytes(72));
    folder.says("split --unpadded message keys unchecked");
    fs::copy(folder.0.join("shares/share-4"), folder.0.join("fourth")).expect("a copy");
    let unchecked = of(&[1, 2, 3]).replace("shares/", "unchecked/");
    for (options, words) in [
        ("--length 65 ", format!("{} 3=others/share-3", of(&[1, 2]))),
        ("--length 65 ", format!("{} 3=fourth", of(&[1, 2]))),
        ("--scheme 5,2,2,5,3 --length 65 ", of(&[1, 2, 3])),
        ("--length 64 ", of(&[1, 2, 3])),
        ("--length 66 ", of(&[1, 2, 3])),
        ("--length 33 ", unchecked.clone()),
        ("--length 31 ", unchecked),
    ] {
        folder.says(&format!("reconstruct {options}out{words}"));
        folder.remove("out");
        let said = folder.fails(&format!("reconstruct {options}--checked out{words}"), 1);
        assert!(said.starts_with(DOES_NOT_FIT), "{said}");
        let named =
            if options.starts_with("--scheme") { "5,2,2,5,3\n" } else { "the default, 5,2,2,5,4,3; shares of " };
        assert!(said[DOES_NOT_FIT.len()..].starts_with(named), "{said}");
    }
    // Nothing goes to standard output either.
    let words = format!("{} 3=fourth", of(&[1, 2]));
    assert!(folder.fails(&format!("reconstruct --length 65 --checked -{words}"), 1).starts_with(DOES_NOT_FIT));
    // What the library refuses is refused as before.
    let fewer = "with --length 60 a prefix for 3 parties has 60 bytes, and \"shares/share-1\" has 66 bytes\n";
    folder.refuses(&format!("reconstruct --length 60 --checked out{}", of(&[1, 2, 3])), 9, fewer);
}

/// A false first block of a padded message, whose end is right.
#[test]
fn a_padded_message_with_a_right_end() {
    let folder = folder_with_letter("checked-end", "");
    let mut share = folder.bytes("shares/share-3");
    share[0] ^= 1;
    folder.put("wrong", &share);
    let words = format!("{} 3=wrong", of(&[1, 2]));
    let said = folder.says(&format!("reconstruct out{words}"));
    assert!(said.contains("\nOnly its end could be checked: "), "{said}");
    let said = folder.fails(&format!("reconstruct --checked opened{words}"), 1);
    assert!(said.starts_with(DOES_NOT_FIT), "{said}");
}

/// It is no signature: who knows the message, and is read from with so few others that a row has one byte of it, can change
/// the own share so that another message with its check opens.
#[test]
fn what_it_does_not_notice() {
    let folder = Folder::new("checked-forged");
    folder.put("message", MESSAGE);
    folder.put("forged", b"Pay the client back, with a bonus");
    folder.put("keys", &Random::new(15).bytes(65));
    folder.says("split --scheme 2,0,1,2 --unpadded --checked message keys shares");
    let whole = |name: &str| [folder.bytes(name), sha256(&folder, name)].concat();
    let (message, forged, share) = (whole("message"), whole("forged"), folder.bytes("shares/share-2"));
    // A row is k + mx, so that the message is the sum of both values divided by 1 + 2.
    let change = |place: usize| share[place] ^ raw::mul(3, message[place] ^ forged[place]);
    folder.put("changed", &(0..share.len()).map(change).collect::<Vec<u8>>());
    let line = "reconstruct --scheme 2,0,1,2 --length 65 --checked opened 1=shares/share-1 2=changed";
    assert!(folder.says(line).ends_with(FITS));
    assert_eq!(folder.bytes("opened"), folder.bytes("forged"));
}

/// A message that leaves no room for the check is refused before keys are looked at, or used.
#[test]
fn too_long() {
    let folder = Folder::new("checked-long");
    folder.put_pool(&Random::new(16).bytes(100), 0);
    folder.put("keys", &[1]);
    for length in [LONGEST + 1, MAX_MESSAGE, MAX_MESSAGE + 1] {
        folder.write("message", length);
        let detail = format!(
            "\n\"message\" has {length} bytes, and the check takes 32 more: with --checked a message has at most 16352\n"
        );
        for line in ["message keys shares", "--pool pool message shares", "--unpadded --pool pool message shares"] {
            folder.refuses(&format!("split --checked {line}"), 5, &detail);
        }
    }
    assert_eq!(folder.position(), 0);
    // Without a check nothing is said of one.
    folder.refuses("split message keys shares", 5, "bytes\n\"message\" has 16385 bytes\n");
}

/// What a message costs with its check is what one of 32 bytes more does, but for how many times the message is fetched.
#[test]
fn what_it_costs() {
    let folder = Folder::new("checked-costs");
    let costs = "A message of 33 bytes with a check of 32 bytes makes 11 blocks and takes 132 key bytes.\n\
        A share of it has 66 bytes, and all 5 shares together have 330 bytes.\n\
        Bytes of this message to fetch:\n\
        parties  from each  in all  times the message\n      \
        5         22     110               3.33\n      \
        4         33     132               4.00\n      \
        3         66     198               6.00\n";
    assert_eq!(folder.says("scheme --length 33 --checked"), folder.says("scheme") + costs);
    // All columns but the last.
    let costs = |said: String| -> Vec<String> {
        let (_, costs) = said.split_once(" makes ").expect("blocks");
        let columns = |line: &str| line.split_whitespace().take(3).collect::<Vec<_>>().join(" ");
        costs.lines().map(|line| if line.starts_with(' ') { columns(line) } else { line.to_string() }).collect()
    };
    for (options, form) in [("", ""), (" --unpadded", " in the earlier form")] {
        for length in [0, 28, 34, LONGEST] {
            let checked = folder.says(&format!("scheme --length {length} --checked{options}"));
            assert!(checked.contains(&format!("\nA message of {length} bytes{form} with a check of 32 bytes makes ")));
            let longer = folder.says(&format!("scheme --length {}{options}", length + CHECK));
            assert_eq!(costs(checked), costs(longer), "{length}{options}");
        }
        for length in [LONGEST + 1, usize::MAX] {
            let detail = format!(
                "\n--length is {length}, and the check takes 32 more: with --checked a message has at most 16352\n"
            );
            folder.refuses(&format!("scheme --checked --length {length}{options}"), 5, &detail);
        }
    }
    let said = folder.fails("scheme --checked", 2);
    assert!(said.starts_with("sharing: --checked is for a message, and needs --length here\n"), "{said}");
}

impl Folder {
    /// A command `sha256sum` that does this, in a folder of its own. A shell writes it: a file that this process has open
    /// for writing while another test starts a program cannot be run.
    fn put_command(&self, script: &str) {
        let line = "mkdir -p bin && printf '#!/bin/sh\\n%s\\n' \"$0\" >bin/sha256sum && chmod 700 bin/sha256sum";
        let written = Command::new("sh").args(["-c", line, script]).current_dir(&self.0).status().expect("a shell");
        assert!(written.success());
    }

    /// What is said where this command is the one that is found, and nothing is left behind.
    fn fails_with_command(&self, line: &str) -> String {
        let before = self.names();
        // A shell is needed by the commands here, and sha256sum must not be found beside it.
        let output = self.command(line).env("PATH", self.0.join("bin")).stdin(Stdio::null()).output().expect("it runs");
        let said = text(&output.stderr);
        assert_eq!((output.status.code(), text(&output.stdout)), (Some(1), String::new()), "{line}: {said}");
        assert_eq!(self.names(), before, "{line}");
        said
    }
}

/// Where no digest can be had, nothing is split, no key is used, and nothing is opened.
#[test]
fn without_the_command() {
    let folder = folder_with_letter("checked-command", "");
    let keys = Random::new(17).bytes(200);
    folder.put_pool(&keys, 0);
    let all_fail = |words: &str| {
        for line in [
            "split --checked message keys more".to_string(),
            "split --checked --pool pool message more".to_string(),
            format!("reconstruct --checked opened{}", of(&[1, 2, 3])),
            format!("reconstruct --checked -{}", of(&[1, 2, 3])),
        ] {
            let said = folder.fails_with_command(&line);
            assert!(said.starts_with(&format!("sharing: the check cannot be made: sha256sum {words}")), "{said}");
        }
        assert_eq!((folder.bytes("pool/keys"), folder.position()), (keys.clone(), 0));
    };
    fs::create_dir(folder.0.join("bin")).expect("a folder");
    all_fail("cannot be run: ");
    let digits = "0123456789abcdef".repeat(4);
    for (script, words) in [
        ("exit 3".to_string(), "failed, with exit status: 3\n"),
        (format!("echo {digits}; exit 1"), "failed, with exit status: 1\n"),
        ("kill -9 $$".to_string(), "failed, with signal: 9"),
    ] {
        folder.put_command(&script);
        all_fail(words);
    }
    for answer in ["", &digits[1..], &format!("{digits}0"), &format!(" {digits}"), &format!("{}g", &digits[1..])] {
        folder.put_command(&format!("while read -r line; do :; done; echo '{answer}'"));
        all_fail("answered no digest\n");
    }
    // An answer that does not depend on the input, be that read or not; what is not read may be noticed by that too.
    for digest in [digits, "0".repeat(64)] {
        folder.put_command(&format!("while read -r line; do :; done; echo {digest}"));
        all_fail("answers another digest than SHA-256 for a known text\n");
        folder.put_command(&format!("echo '{digest}  -'"));
        for line in ["split --checked message keys more", "split --checked --pool pool message more"] {
            let said = folder.fails_with_command(line);
            let ends = ["answers another digest than SHA-256 for a known text\n", "did not read its input\n"];
            assert!(ends.iter().any(|end| said.ends_with(&format!(": sha256sum {end}"))), "{said}");
        }
    }
    // Without --checked the command is not needed, and not run.
    folder.put_command("exit 3");
    let mut split = folder.command("split message keys more");
    folder.put("keys", &[5; 72]);
    assert!(split.env("PATH", folder.0.join("bin")).output().expect("it runs").status.success());
}

/// Where no digest can be had, the refusal says how the message opens all the same, in both forms, and so it does.
#[test]
fn a_way_out_without_the_command() {
    for (form, told) in [("", ""), ("--unpadded ", "--length 65 ")] {
        let folder = folder_with_letter(&format!("checked-out{}", told.len()), form);
        fs::create_dir(folder.0.join("bin")).expect("a folder");
        let way_out =
            "\nto open the message all the same, give neither --about nor --checked, but --scheme and, in the \
                       earlier form, --length, as the about file has them: the last 32 bytes are then the check, and \
                       nothing was held against it\n";
        let shares = of(&[1, 2, 3]);
        for options in ["--about shares/about ".to_string(), format!("--checked {told}")] {
            let said = folder.fails_with_command(&format!("reconstruct {options}opened{shares}"));
            assert!(said.ends_with(way_out), "{said}");
        }
        // Who splits can do something about it first.
        assert_eq!(folder.fails_with_command("split --checked message keys more").lines().count(), 1);
        let mut run = folder.command(&format!("reconstruct --scheme 5,2,2,5,4,3 {told}opened{shares}"));
        assert!(run.env("PATH", folder.0.join("bin")).output().expect("it runs").status.success());
        assert_eq!(folder.bytes("opened"), [MESSAGE, &sha256(&folder, "message")].concat());
    }
}

/// A command that closes its input, with more in it than a pipe holds: what was not read has no digest.
#[test]
fn a_command_that_does_not_read() {
    let folder = folder_with_letter("checked-unread", "");
    folder.put_command(&after_the_known_text(&format!("echo {}; exec <&-", "0123456789abcdef".repeat(4))));
    folder.write("message", 1 << 17);
    let said = folder.fails_with_command("split --checked message keys more");
    assert_eq!(said, "sharing: the check cannot be made: sha256sum did not read its input\n");
}

/// What a command does that answers the right digest when it is tried, which it is before each other run.
fn after_the_known_text(script: &str) -> String {
    let abc = "ba7816bf8f01cfea414140de5dae2223b00361a396177a9cb410ff61f20015ad";
    format!("read -r text; [ \"$text\" != abc ] || {{ echo {abc}; exit; }}; {script}")
}

/// A command that writes much before it reads more than a line, with a message that fills no pipe and one that does: nobody waits for ever.
#[test]
fn a_command_that_writes_first() {
    let folder = folder_with_letter("checked-writes", "");
    let digits = "0123456789abcdef".repeat(4);
    folder.put_command(&after_the_known_text(&format!(
        "echo '{digits}  -'; i=0; while [ $i -lt 3000 ]; do echo 'a line of more than 60 bytes, so that all of them fill a \
         pipe'; i=$((i + 1)); done; while read -r line; do :; done"
    )));
    for length in [33, LONGEST] {
        folder.write("message", length);
        folder.put("keys", &vec![7; ((length + CHECK) / 6 + 1) * 12]);
        let mut run = folder.command("split --checked message keys more");
        let output = run.env("PATH", folder.0.join("bin")).output().expect("it runs");
        assert!(output.status.success(), "{}", text(&output.stderr));
        folder.says("reconstruct whole 1=more/share-1 2=more/share-2 3=more/share-3");
        let check: Vec<u8> = [0x01, 0x23, 0x45, 0x67, 0x89, 0xab, 0xcd, 0xef].repeat(4);
        assert_eq!(folder.bytes("whole"), [folder.bytes("message"), check].concat());
        ["more", "whole"].into_iter().for_each(|name| folder.remove(name));
    }
}

/// The check of a message that comes and goes through pipes.
#[test]
fn through_pipes() {
    let folder = folder_with_letter("checked-pipes", "");
    let mut run = folder.command("split --checked - keys piped").stdin(Stdio::piped()).spawn().expect("it runs");
    run.stdin.take().expect("a pipe").write_all(MESSAGE).expect("written");
    assert!(run.wait_with_output().expect("it ends").status.success());
    assert_eq!(folder.bytes("piped/share-4"), folder.bytes("shares/share-4"));
    let output = folder.command(&format!("reconstruct --checked -{}", of(&[1, 2, 3]))).output().expect("it runs");
    assert_eq!((output.status.code(), &output.stdout[..]), (Some(0), MESSAGE));
    assert!(text(&output.stderr).ends_with(FITS));
}

#[test]
fn usage() {
    let folder = Folder::new("checked-usage");
    for (line, words) in [
        (
            "reconstruct --checked --first 3 out 1=a",
            "--checked is for a whole message: it cannot stand with --range or",
        ),
        (
            "reconstruct --range 0..3 --checked out 1=a",
            "--checked is for a whole message: it cannot stand with --range or",
        ),
        ("split --checked --checked message keys shares", "--checked stands twice"),
        ("split --checked=yes message keys shares", "--checked has no value, and \"yes\" was given"),
        ("prefix --checked --readers 3 share out", "there is no option \"--checked\" here"),
        ("rebuild --checked --party 2 out 1=a", "there is no option \"--checked\" here"),
        ("check --checked 1=a", "there is no option \"--checked\" here"),
    ] {
        let said = folder.fails(line, 2);
        assert!(said.contains(words) && said.contains("sharing --help"), "{line}: {said}");
    }
    for command in ["", "split ", "reconstruct "] {
        assert!(folder.says(&format!("{command}--help")).contains(" [--checked]"), "{command}");
    }
    assert!(folder.says("--help").contains("reconstruct [--about FILE | [--scheme S] [--length L]] [--checked] OUT "));
    let words = folder.says("reconstruct --help").replace('\n', " ");
    assert!(
        words.starts_with("sharing reconstruct [--about FILE | [--scheme N,R,Z,D1,D2..] [--length L]] [--checked] ")
    );
    assert!(words.contains("gives --checked beside --about"), "{words}");
    assert!(words.contains("head -c -32") && words.contains("The check is no signature"), "{words}");
    assert!(folder.says("split --help").contains("16352 bytes"));
    assert!(folder.says("scheme --help").contains("for a letter of 33 bytes 65."));
    assert!(folder.says("scheme --help").contains("[--length L [--unpadded] [--checked]]"));
}
