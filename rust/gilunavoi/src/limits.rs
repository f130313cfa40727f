//! The proved libraries' limits and the default scheme, for who wants to know them before a call. Tests hold them to
//! what the libraries refuse and accept.

/// The most parties.
pub const MAX_PARTIES: u8 = 16;
/// The most counts.
pub const MAX_COUNTS: usize = 8;
/// The longest block, in bytes.
pub const MAX_BLOCK: usize = 840;
/// The longest message, in bytes.
pub const MAX_MESSAGE: usize = 16384;

/// The scheme of the calls without one: its parties,
pub const DEFAULT_N: u8 = 5;
/// how many of them may be absent,
pub const DEFAULT_R: u8 = 2;
/// how many may collude,
pub const DEFAULT_Z: u8 = 2;
/// and the numbers of parties that may be read from.
pub const DEFAULT_COUNTS: [u8; 3] = [5, 4, 3];

/// The former default, of which shares are stored: its parties. No call takes it by itself: who cuts a prefix of such a
/// share, or opens them, names it, since nothing in a share tells its scheme.
pub const FORMER_DEFAULT_N: u8 = 5;
/// How many parties of the former default may be absent.
pub const FORMER_DEFAULT_R: u8 = 2;
/// How many parties of the former default may collude.
pub const FORMER_DEFAULT_Z: u8 = 1;
/// The numbers of parties that may be read from in the former default.
pub const FORMER_DEFAULT_COUNTS: [u8; 3] = [5, 4, 3];

/// The most entries of an archive.
pub const MAX_ENTRIES: usize = 4096;
/// The greatest offset of an entry in its archive, and the greatest length, in bytes: both are kept in two bytes.
pub const MAX_OFFSET_OR_LENGTH: usize = 65535;
