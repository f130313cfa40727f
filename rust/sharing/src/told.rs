//! What a command that reads shares is told of them: by its options, or by the about file that split wrote beside them.

use crate::about::{quoted, About};
use crate::arguments::{usage, Arguments};
use crate::digest;
use crate::failure::Failure;
use crate::files::Input;
use crate::form::Form;
use crate::report::counted;
use crate::scheme::{Block, Scheme};
use crate::standard::named;
use std::path::Path;

pub struct Told {
    pub scheme: Scheme,
    pub form: Form,
    /// What was split ends in a check.
    pub checked: bool,
    about: Option<Origin>,
}

/// What only an about file tells, and its name.
struct Origin {
    name: String,
    date: String,
    label: Option<String>,
}

impl Told {
    pub fn of(arguments: &Arguments) -> Result<Told, Failure> {
        if let Some(path) = arguments.option("--about") {
            return Told::by(Path::new(path), arguments);
        }
        let (scheme, form) = (Scheme::of(arguments)?, Form::of(arguments)?);
        Ok(Told { scheme, form, checked: arguments.flag("--checked"), about: None })
    }

    /// By an about file, which no option may contradict.
    fn by(path: &Path, arguments: &Arguments) -> Result<Told, Failure> {
        if let Some(other) = ["--scheme", "--length"].into_iter().find(|name| arguments.option(name).is_some()) {
            return usage(format!("--about and {other} cannot stand together: the about file says it"));
        }
        let About { scheme, form, checked, date, label } = About::read(path)?;
        let name = named(path);
        // The command line is in order, and the file may be what somebody has changed.
        if arguments.flag("--checked") && !checked {
            let why = format!("--checked is given, and by {name} the message was split without a check");
            return Err(Failure::File(why));
        }
        Ok(Told { scheme: scheme.said_by(&name), form, checked, about: Some(Origin { name, date, label }) })
    }

    /// Is the form told for certain, and not only because no option asks for another?
    pub fn by_file(&self) -> bool {
        self.about.is_some()
    }

    /// Where the message ends in what was split, which has this length: before its check.
    pub fn end(&self, length: usize) -> usize {
        length.saturating_sub(if self.checked { digest::LENGTH } else { 0 })
    }

    /// For a report: whose message it is, and from when, as far as that is told.
    pub fn origin(&self, message: &str) -> String {
        match &self.about {
            None => String::new(),
            Some(Origin { date, label: None, .. }) => format!("{message} was split on {date}.\n"),
            Some(Origin { date, label: Some(label), .. }) => {
                format!("{message} is labelled {} and was split on {date}.\n", quoted(label))
            }
        }
    }

    /// For a refusal: how long the message of the earlier form is.
    pub fn length(&self, length: usize) -> String {
        match &self.about {
            None => format!("--length is {length}"),
            Some(about) => format!("the message has {}, as {} says", counted(self.end(length), "byte"), about.name),
        }
    }

    /// What helps who mixed up the two forms, or two messages.
    pub fn hint(&self) -> String {
        match (&self.about, self.form) {
            (Some(about), _) => format!("{} has to be the file that was written with these shares", about.name),
            (None, Form::Padded) => {
                "shares of the earlier form, which split --unpadded writes, need --length".to_string()
            }
            (None, Form::Told(_)) => {
                "--length is for shares of the earlier form, which split --unpadded writes".to_string()
            }
        }
    }

    /// May a file that has so many bytes of each block be so long?
    pub fn fits(&self, block: &Block, of_a_block: usize, bytes: usize) -> bool {
        match self.form {
            Form::Padded => {
                let blocks = bytes / of_a_block;
                bytes == blocks * of_a_block && (1..=block.most).contains(&blocks)
            }
            Form::Told(length) => bytes == self.scheme.blocks(length) * of_a_block,
        }
    }

    /// The refusal of a file that may not be so long.
    pub fn wrong_length(&self, block: &Block, of_a_block: usize, what: &str, file: &Input) -> Failure {
        let needed = match (self.form, &self.about) {
            (Form::Padded, _) => {
                format!("{what} has {} for each of 1 to {} blocks", counted(of_a_block, "byte"), block.most)
            }
            (Form::Told(length), about) => {
                let by_file = |about: &Origin| format!("the length in {}, {length},", about.name);
                let told = about.as_ref().map_or(format!("--length {length}"), by_file);
                format!("with {told} {what} has {}", counted(self.scheme.blocks(length) * of_a_block, "byte"))
            }
        };
        self.scheme.suspected(Failure::Refused(9, format!("{needed}, and {file}\n{}", self.hint())))
    }

    /// The refusal of a message whose check does not fit.
    pub fn does_not_fit(&self) -> Failure {
        let wrong = match &self.about {
            None => {
                "a share, party, prefix, scheme, form, length or number of readers is wrong, or it was split without \
                 --checked"
                    .to_string()
            }
            Some(about) => {
                format!("a share, party, prefix or number of readers is wrong, or {} is another message's", about.name)
            }
        };
        let (check, scheme) = (digest::LENGTH, self.scheme.used_by_readers());
        Failure::File(format!(
            "what was opened is not what was split: the check of {check} bytes at its end does not fit\n{wrong}\n\
             the scheme is {scheme}"
        ))
    }
}
