//! Splits a letter with the default scheme, opens it from the prefixes of several sets of parties, and
//! prints how few bytes had to be fetched each time.

use gilunavoi::{Form, Refusal, Scheme};
use std::error::Error;
use std::fs::File;
use std::io::{Read, Write};

const LETTER: &str = "\
Dear Mr Okonjo,

Thank you for the call this morning. I write down what we agreed, so that nobody in my family has to rely on
memory when the time comes.

The house at the harbour goes to my sister Ilse, with the furniture and the boat, on the one condition that
the workshop stays let to Mr Brandt at the present rent for as long as he wishes to use it. The account at the
savings bank is to be divided in equal parts among my three nieces. If one of them is not of age by then, her
part is held by your office, and you pay her school fees out of it as they fall due.

Nothing of this is to be told to my brother before the first of March. He will ask, and he will say that I
promised him the boat. I did not.

Should I fall ill, Ilse decides in my place, and if she cannot, Dr Varga. Both have a copy of the key to the
flat. The papers lie in the green box on the upper shelf; the box of the same colour in the cellar has only
photographs in it.

Please read this back to me on the telephone when it has arrived. I shall ask you for the name of the dog.

With kind regards,
Margarethe Lindqvist
";

const READINGS: [&[u8]; 5] = [&[1, 2, 3, 4, 5], &[1, 2, 4, 5], &[1, 2, 3], &[1, 3, 5], &[2, 4, 5]];

/// The office's part: keys that are drawn evenly, and used for this one letter.
fn drawn_keys(length: usize) -> std::io::Result<Vec<u8>> {
    let mut keys = vec![0; length];
    File::open("/dev/urandom")?.read_exact(&mut keys)?;
    Ok(keys)
}

/// The shares, that of party 1 first.
fn split(scheme: &Scheme, message: &[u8]) -> Result<Vec<Vec<u8>>, Box<dyn Error>> {
    let keys = drawn_keys(scheme.lengths(Form::Padded, message.len())?.keys)?;
    Ok(scheme.split_to_shares(Form::Padded, message, &keys)?)
}

/// Opens the message from what these parties send, knowing nothing of it but the shares; the bytes that each sends.
fn open(scheme: &Scheme, shares: &[Vec<u8>], parties: &[u8]) -> Result<(Vec<u8>, usize), Refusal> {
    let mut sent = Vec::new();
    for &party in parties {
        sent.push((party, scheme.prefix_padded(parties.len(), &shares[party as usize - 1])?));
    }
    Ok((scheme.open(&sent)?, sent[0].1.len()))
}

fn main() -> Result<(), Box<dyn Error>> {
    let scheme = Scheme::default();
    let lengths = scheme.lengths(Form::Padded, LETTER.len())?;
    let shares = split(&scheme, LETTER.as_bytes())?;
    let mut out = std::io::stdout().lock();
    let parties = format!("{} parties: {} may be absent, {} may spy", scheme.n(), scheme.r(), scheme.z());
    writeln!(out, "A letter of {} bytes is kept by {parties}.", LETTER.len())?;
    writeln!(out, "Each share has {} bytes, all of them together {}.\n", lengths.share, lengths.output)?;
    writeln!(out, "parties    fetched from each  in all")?;
    for parties in READINGS {
        let (message, each) = open(&scheme, &shares, parties)?;
        if message != LETTER.as_bytes() {
            return Err(format!("another letter came back from parties {parties:?}").into());
        }
        let names: Vec<String> = parties.iter().map(u8::to_string).collect();
        writeln!(out, "{:9}  {each:17}  {:6}", names.join(" "), each * parties.len())?;
    }
    writeln!(out, "\nEach time the letter came back, byte for byte. Its keys were drawn for this run;")?;
    writeln!(out, "nothing that is printed here depends on them.")?;
    Ok(())
}
