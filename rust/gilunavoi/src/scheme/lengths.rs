//! The lengths that belong to a message.

use super::{Form, Scheme};
use crate::{raw, Refusal};

/// The lengths that belong to a message of so many bytes, in a scheme and a form.
#[derive(Clone, Copy, Debug, Default, PartialEq, Eq, Hash)]
pub struct Lengths {
    /// The blocks of the message, N.
    pub blocks: usize,
    /// The bytes of its keys.
    pub keys: usize,
    /// The bytes of one share.
    pub share: usize,
    /// The bytes of all shares together, which splitting writes.
    pub output: usize,
    /// The bytes that opening writes: of a padded message whole blocks, in the earlier form the message alone.
    pub opened: usize,
}

impl Scheme {
    /// What room the keys, the shares and the opened message need.
    ///
    /// ```
    /// use gilunavoi::{Form, Lengths, Scheme};
    ///
    /// let lengths = Scheme::default().lengths(Form::Padded, 33)?;
    /// assert_eq!(lengths, Lengths { blocks: 6, keys: 72, share: 36, output: 180, opened: 36 });
    /// # Ok::<(), gilunavoi::Refusal>(())
    /// ```
    ///
    /// # Errors
    ///
    /// [`MessageTooLong`](Refusal::MessageTooLong).
    pub fn lengths(&self, form: Form, message_length: usize) -> Result<Lengths, Refusal> {
        let (n, r, z, counts) = self.numbers();
        let lengths = match form {
            Form::Padded => raw::lengths_padded,
            Form::Earlier => raw::lengths,
        };
        lengths(n, r, z, counts, message_length).map_err(Refusal::given)
    }
}
