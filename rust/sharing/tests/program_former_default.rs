//! The program `sharing` on shares that were stored under the former default: with `--scheme`, and without it.

use comparison::cases::Form;
use comparison::stored::{Stored, STORED};
use folder::{Folder, FORMER_DEFAULT};
use std::fs;

// Of what a folder can do, not all is needed here.
#[allow(dead_code)]
mod folder;

const HINT: &str = "the scheme is the default, 5,2,2,5,4,3; shares of the former default need --scheme 5,2,1,5,4,3";

fn stored_files(test: &str) -> Folder {
    let folder = Folder::new(test);
    for Stored { name, shares, .. } in &STORED {
        fs::create_dir(folder.0.join(name)).expect("a new folder");
        for (share, party) in shares.chunks(shares.len() / 5).zip(1..) {
            fs::write(folder.0.join(format!("{name}/share-{party}")), share).expect("a written file");
        }
    }
    folder
}

fn length_option(stored: &Stored) -> String {
    match stored.form {
        Form::Padded => String::new(),
        Form::Earlier => format!("--length {} ", stored.message.len()),
    }
}

/// The program opens stored files when it is told the former default, and says which scheme it used.
#[test]
fn the_program_on_stored_files() {
    let folder = stored_files("stored");
    for stored in &STORED {
        let (name, options) = (stored.name, format!("{FORMER_DEFAULT}{}", length_option(stored)));
        let mut line = format!("reconstruct {options}{name}/opened");
        for party in [5, 1, 3, 4] {
            let said = folder.says(&format!("prefix {options}--readers 4 {name}/share-{party} {name}/sent-{party}"));
            assert!(said.ends_with("\nThe scheme is 5,2,1,5,4,3.\n"), "{said}");
            line += &format!(" {party}={name}/sent-{party}");
        }
        let said = folder.says(&line);
        assert!(said.contains("\nThe scheme is 5,2,1,5,4,3.\n"), "{said}");
        assert_eq!(folder.bytes(&format!("{name}/opened")), stored.message);
    }
}

/// Without it the program refuses them, if at all, with words on what to do; where it does not, its report has them.
#[test]
fn the_program_without_the_former_default() {
    let folder = stored_files("forgotten");
    let of_three = |options: &str, name: &str| {
        format!("reconstruct {options}out 1={name}/share-1 2={name}/share-2 3={name}/share-3")
    };
    for (line, number) in [
        (of_three("", "letter-padded"), 11),
        (of_three("--length 33 ", "letter-earlier"), 9),
        ("prefix --length 33 --readers 5 letter-earlier/share-1 out".to_string(), 9),
    ] {
        folder.refuses(&line, number, &format!("\n{HINT}\n"));
        let same = "\nthe scheme is 5,2,2,5,4,3: shares have to be split, and prefixes cut, in it too\n";
        folder.refuses(&line.replacen(' ', " --scheme 5,2,2,5,4,3 ", 1), number, same);
    }
    // Where the scheme is not in doubt, the former one is not pointed out.
    for (parties, number) in [(&[1, 2][..], 6), (&[1, 2, 6], 7)] {
        let words = folder.copies("letter-padded/share-1", parties);
        let line = format!("reconstruct out{words}");
        folder.refuses(&line, number, "and the scheme is N 5, ");
        assert!(!folder.fails(&line, 1).contains("former default"), "{line}");
    }
    let report = format!("\nT{}.\n", &HINT[1..]);
    for (name, options, bytes) in
        [("short-earlier", "--length 5 ", &[126, 0, 0, 0, 0][..]), ("short-padded", "", &[126, 0, 0])]
    {
        let said = folder.says(&of_three(options, name));
        assert!(said.contains(&report), "{said}");
        assert_eq!(folder.bytes("out"), bytes);
        fs::remove_file(folder.0.join("out")).expect("removed");
    }
    // A prefix for 5 readers has 3 bytes of each of 3 blocks, and 2 in the default scheme.
    let said = folder.says("prefix --readers 5 letter-padded/share-1 out");
    assert!(said.starts_with("The prefix, 6 bytes of 18, is in \"out\".\n") && said.contains(&report), "{said}");
    // Five of these, opened in the former default, look like two of the three blocks.
    let five = folder.copies("out", &[1, 2, 3, 4, 5]);
    folder.refuses(
        &format!("reconstruct {FORMER_DEFAULT}opened{five}"),
        11,
        "\nthe scheme is 5,2,1,5,4,3: shares have",
    );
    for command in ["", "prefix ", "reconstruct "] {
        assert!(folder.says(&format!("{command}--help")).contains("--scheme 5,2,1,5,4,3"), "{command}");
    }
    assert!(folder.says("scheme --help").contains("The former default was 5,2,1,5,4,3."));
}
