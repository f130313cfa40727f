//! The two forms of message.

/// How a message is made into whole blocks. Nothing in a share tells its form.
#[derive(Clone, Copy, Debug, PartialEq, Eq, Hash)]
pub enum Form {
    /// The message knows its own end: a byte 128 follows it, and then zeros. Take this one.
    Padded,
    /// The earlier form, for shares that were stored before there was the other: only zeros follow, and who opens the
    /// message must know its length.
    Earlier,
}
