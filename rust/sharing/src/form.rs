//! The two forms of message, as `prefix` and `reconstruct` are told them. The lengths that files have in them are in `told`.

use crate::arguments::Arguments;
use crate::failure::Failure;

#[derive(Clone, Copy)]
pub enum Form {
    /// The message knows its own end.
    Padded,
    /// The earlier form: the message's length is told.
    Told(usize),
}

impl Form {
    pub fn of(arguments: &Arguments) -> Result<Form, Failure> {
        Ok(arguments.number_if_given("--length")?.map_or(Form::Padded, Form::Told))
    }

    /// What is not known of a message that was opened.
    pub fn caution(self) -> &'static str {
        match self {
            Form::Padded => {
                "Only its end could be checked: a wrong scheme, party, prefix, form or number of readers can go unnoticed."
            }
            Form::Told(_) => {
                "Nothing can tell whether the scheme, the length, the parties and the prefixes were the right ones."
            }
        }
    }
}
