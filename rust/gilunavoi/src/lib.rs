//! Secret sharing by staircase polynomials over bytes: a message becomes shares that are kept by separate parties, and is
//! opened again from the beginnings of a few of them. Of n parties r may be absent and z may put their shares together and
//! learn nothing, and the more parties answer, the fewer bytes each has to send.
//!
//! The work is done by a library in which every function is proved to meet its contract. This crate links it and has no
//! rules of its own: it hands on what it is given, and every length and number is checked there. All calls end, on whatever
//! input, and what does not fit is refused ([`Refusal`]) before anything is written.
//!
//! Everything starts with a [`Scheme`]. Here the default one is used, of five parties of which two may be absent and two may
//! spy; four of them send half of their shares:
//!
//! ```
//! use gilunavoi::{Form, Scheme};
//! use std::{fs::File, io::Read};
//!
//! fn main() -> Result<(), Box<dyn std::error::Error>> {
//!     let scheme = Scheme::default();
//!     let message = b"Call the client back before noon.";
//!
//!     // Keys are the caller's part: drawn evenly at random, and used for this message only.
//!     let mut keys = vec![0; scheme.lengths(Form::Padded, message.len())?.keys];
//!     File::open("/dev/urandom")?.read_exact(&mut keys)?;
//!     let shares = scheme.split_to_shares(Form::Padded, message, &keys)?;
//!
//!     // What each of four parties sends, when four are read from.
//!     let mut sent = Vec::new();
//!     for party in [1, 3, 4, 5] {
//!         sent.push((party, scheme.prefix_padded(4, &shares[party as usize - 1])?));
//!     }
//!     assert!(sent.iter().all(|(_, prefix)| prefix.len() == 18));
//!     assert_eq!(scheme.open(&sent)?, message);
//!     Ok(())
//! }
//! ```
//!
//! # What is where
//!
//! - [`Scheme`] has the calls: [`lengths`](Scheme::lengths) says what room they need, [`split`](Scheme::split) and
//!   [`split_from_pool`](Scheme::split_from_pool) make shares, [`prefix_padded`](Scheme::prefix_padded) cuts what a party
//!   sends, [`reconstruct_padded`](Scheme::reconstruct_padded) and [`open`](Scheme::open) open a message, and
//!   [`rebuild`](Scheme::rebuild) and [`rebuild_from`](Scheme::rebuild_from) make a lost share anew and find one that does
//!   not fit.
//! - [`Form`] says how a message ends. Padded messages know it; those of the earlier form are for shares that were stored
//!   before, and their calls are told the message's length.
//! - [`Pool`] holds keys for many messages and uses each byte once.
//! - [`archive`] keeps many shares in one file, [`gf256`] has the arithmetic of bytes, and [`limits`] the greatest numbers.
//! - [`raw`] has the same calls with numbers, as the C boundary has them, for programs that hand on any scheme.
//!
//! # What is yours
//!
//! - **Keys** are to be drawn evenly at random, kept as secret as the messages, and used for one message only. Nothing here
//!   draws them or can tell.
//! - **The scheme** is not told by a share: who opens it names the same one. Shares of another scheme, wrong bytes and wrong
//!   parties can open to other bytes, and no refusal. Where more than n - r whole shares are at hand,
//!   [`rebuild_from`](Scheme::rebuild_from) notices wrong ones.
//! - **Memory.** A [`Pool`] overwrites its keys. Keys, messages, shares and prefixes that are lent as slices stay where the
//!   caller has them, and what is handed back is the caller's to overwrite. The calls that make room of their own,
//!   [`split_to_shares`](Scheme::split_to_shares), [`open`](Scheme::open), [`rebuild_from`](Scheme::rebuild_from) and
//!   [`archive::write`], leave copies of shares and prefixes in memory that is freed.
//!
//! # Linking
//!
//! The crate has no dependencies but the proved static library, which is built for x86-64 Linux. Its build script finds it,
//! and says what to do where it does not; the project's README says how it is built. An installed library of another version
//! is not taken, but of a folder that is named to the build the version is not known. A library of another version may refuse
//! with a number that this crate does not know, and a call that is answered so panics. Nothing else does.

#![warn(missing_docs, clippy::missing_errors_doc)]

pub mod archive;
pub mod gf256;
pub mod limits;
mod pool;
pub mod raw;
mod refusal;
mod scheme;

pub use pool::Pool;
pub use refusal::Refusal;
pub use scheme::{Basis, Form, Lengths, NotRebuilt, Opened, ParseSchemeError, Rebuilt, Scheme};
