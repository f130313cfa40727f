//! The file `about`, which split writes beside the shares: what a reader has to be told of them, so that nobody has to
//! remember or type it. It is for every party, and holds nothing that depends on the bytes of the message or on the keys:
//! a digest of either, or of a share, would let few parties try out which message it is.

use crate::arguments::{number, usage, Arguments};
use crate::failure::Failure;
use crate::files::{read_up_to, Input};
use crate::form::Form;
use crate::scheme::Scheme;
use crate::standard::named;
use crate::{date, digest};
use gilunavoi::limits::MAX_MESSAGE;
use std::ffi::OsStr;
use std::fmt;
use std::path::Path;

/// The name of the file.
pub const NAME: &str = "about";

/// Its first line, without the number of the version, and the version that is written and understood.
const KIND: &str = "gilunavoi about ";
const VERSION: &str = "1";

/// No about file is nearly as long.
const LONGEST: usize = 1000;

pub const LONGEST_LABEL: usize = 200;

pub struct About {
    pub scheme: Scheme,
    /// With the length of what was split, its check included, where that is needed.
    pub form: Form,
    pub checked: bool,
    pub date: String,
    pub label: Option<String>,
}

/// The file: an item a line, always in this order.
impl fmt::Display for About {
    fn fmt(&self, f: &mut fmt::Formatter) -> fmt::Result {
        writeln!(f, "{KIND}{VERSION}\nscheme {}", self.scheme.in_a_row())?;
        match self.form {
            Form::Padded => writeln!(f, "form padded")?,
            Form::Told(length) => writeln!(f, "form unpadded\nlength {length}")?,
        }
        if self.checked {
            writeln!(f, "check {}", digest::NAME)?;
        }
        writeln!(f, "date {}", self.date)?;
        self.label.as_ref().map_or(Ok(()), |label| writeln!(f, "label {label}"))
    }
}

/// The label that is asked for, if one is.
pub fn label_of(arguments: &Arguments) -> Result<Option<String>, Failure> {
    match arguments.option("--label").map(|label| label.to_str().ok_or(LABEL).and_then(label_in)) {
        None => Ok(None),
        Some(Ok(label)) => Ok(Some(label)),
        Some(Err(needed)) => usage(format!("--label: needed is {needed}")),
    }
}

const LABEL: &str = "text of 1 to 200 bytes, without control characters and line ends";
const SEEN: &str = "text that is not blank, without invisible characters";

/// This text as a label, or what is needed in its place. A label stands in one line, and in a report beside other words, which
/// it must not hide or turn around.
fn label_in(text: &str) -> Result<String, &'static str> {
    let ends_line = |character: char| character.is_control() || "\u{2028}\u{2029}".contains(character);
    if !(1..=LONGEST_LABEL).contains(&text.len()) || text.contains(ends_line) {
        return Err(LABEL);
    }
    if text.trim().is_empty() || text.contains(is_invisible) {
        return Err(SEEN);
    }
    Ok(text.to_string())
}

/// Characters that show nothing themselves, and those that change the direction in which text is shown. U+200C and U+200D,
/// which join letters or keep them apart, are part of how some languages are written.
fn is_invisible(character: char) -> bool {
    matches!(
        character,
        '\u{61c}' | '\u{200b}' | '\u{200e}' | '\u{200f}' | '\u{202a}'..='\u{202e}' | '\u{2060}'..='\u{206f}' | '\u{feff}'
    )
}

/// A label for a report, as it is: nothing in it has to be made visible, and letters that are made of several characters
/// would else be taken apart.
pub fn quoted(label: &str) -> String {
    format!("\"{label}\"")
}

impl About {
    pub fn read(path: &Path) -> Result<About, Failure> {
        let file = read_up_to(LONGEST, path.to_path_buf())?;
        parse(&file).map_err(|why| Failure::File(format!("{} is no about file that can be used: {why}", named(path))))
    }
}

/// Only what split writes is an about file: one that was torn or changed is better refused than guessed at, since a wrong
/// scheme opens to a wrong message. Lines that end in CR and LF are taken all the same, as mail and editors make them: that
/// changes no value.
fn parse(file: &Input) -> Result<About, String> {
    check_version(&file.bytes)?;
    if file.is_too_long() {
        return Err(format!("it has more than {LONGEST} bytes"));
    }
    let text = std::str::from_utf8(&file.bytes).map_err(|_| "it is no text in UTF-8".to_string())?;
    let mut lines = Lines::after_first(text)?;
    let (scheme, form) = (lines.scheme()?, lines.form()?);
    let about = About { scheme, form, checked: lines.check(form)?, date: lines.date()?, label: lines.label()? };
    lines.end()?;
    Ok(about)
}

/// The first line comes first, so that of a later version nothing else is looked at.
fn check_version(bytes: &[u8]) -> Result<(), String> {
    let first = bytes.split(|&byte| byte == b'\n').next().unwrap_or_default();
    let version = first.strip_suffix(b"\r").unwrap_or(first).strip_prefix(KIND.as_bytes());
    match version {
        Some(version) if version == VERSION.as_bytes() => Ok(()),
        Some([b'1'..=b'9', rest @ ..]) if rest.iter().all(u8::is_ascii_digit) => {
            Err("it was written by a later version of this program".to_string())
        }
        _ => Err(format!("line 1 is not {:?}", format!("{KIND}{VERSION}"))),
    }
}

/// The lines, and how many of them are read.
struct Lines<'a> {
    lines: Vec<&'a str>,
    read: usize,
}

impl<'a> Lines<'a> {
    fn after_first(text: &'a str) -> Result<Lines<'a>, String> {
        let Some(text) = text.strip_suffix('\n') else {
            return Err("its last line has no end, as if the rest were lost".to_string());
        };
        Ok(Lines { lines: text.split('\n').map(|line| line.strip_suffix('\r').unwrap_or(line)).collect(), read: 1 })
    }

    /// What the next line says, if it has this name.
    fn value(&mut self, name: &str) -> Option<&'a str> {
        let value = self.lines.get(self.read)?.strip_prefix(name)?.strip_prefix(' ')?;
        self.read += 1;
        Some(value)
    }

    /// The same of a line that has to be there.
    fn needed(&mut self, name: &str) -> Result<&'a str, String> {
        self.value(name).ok_or_else(|| match self.lines.get(self.read) {
            Some(line) => format!("line {} has to say the {name}, and is {line:?}", self.read + 1),
            None => format!("the line that says the {name} is missing"),
        })
    }

    /// The refusal of the line that was read last.
    fn wrong(&self, needed: &str) -> String {
        format!("line {} is {:?}, and needed is {needed}", self.read, self.lines[self.read - 1])
    }

    /// Numbers are written as split writes them, here and below.
    fn scheme(&mut self) -> Result<Scheme, String> {
        let value = self.needed("scheme")?;
        let scheme = Scheme::from_words([OsStr::new(value)]).ok().filter(|scheme| scheme.in_a_row() == value);
        scheme.ok_or_else(|| self.wrong("N,R,Z and the counts"))
    }

    fn form(&mut self) -> Result<Form, String> {
        match self.needed("form")? {
            "padded" => Ok(Form::Padded),
            "unpadded" => {
                let value = self.needed("length")?;
                let length = number(value.as_ref(), MAX_MESSAGE).ok().filter(|length| length.to_string() == value);
                length.map(Form::Told).ok_or_else(|| self.wrong(&format!("a number up to {MAX_MESSAGE}")))
            }
            _ => Err(self.wrong("padded or unpadded")),
        }
    }

    /// A length that is told counts the check.
    fn check(&mut self, form: Form) -> Result<bool, String> {
        match (self.value("check"), form) {
            (None, _) => Ok(false),
            (Some(digest::NAME), Form::Told(length)) if length < digest::LENGTH => {
                let (line, check) = (self.read, digest::LENGTH);
                Err(format!(
                    "line {line} tells of a check, which has {check} bytes, and the length before it is {length}"
                ))
            }
            (Some(digest::NAME), _) => Ok(true),
            (Some(_), _) => Err(self.wrong(digest::NAME)),
        }
    }

    fn date(&mut self) -> Result<String, String> {
        let value = self.needed("date")?;
        date::is_day(value).then(|| value.to_string()).ok_or_else(|| self.wrong("a day, as in 2026-11-17"))
    }

    fn label(&mut self) -> Result<Option<String>, String> {
        let label = self.value("label").map(label_in).transpose();
        label.map_err(|needed| self.wrong(needed))
    }

    fn end(&self) -> Result<(), String> {
        match self.lines.get(self.read) {
            Some(line) => Err(format!("line {} does not belong there: {line:?}", self.read + 1)),
            None => Ok(()),
        }
    }
}
