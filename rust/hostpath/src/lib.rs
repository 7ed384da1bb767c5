//! IBC host paths and identifiers, and books of records under such paths, by a proved library: for
//! whoever used path.rs, validate.rs and the identifiers of ibc-rs. docs/MIGRATING.md of the
//! repository says what takes the place of each of their items.
//!
//! An identifier keeps every zero that it was written with, and a height does not. So a text may be a
//! loose spelling of a path whose key in the store is another text:
//!
//! ```
//! use hostpath::{book_size, Book, Owner, Path, Refusal, BOOK_VALUE};
//!
//! let text = "clients/07-tendermint-4/consensusStates/007-2";
//! let reading = Path::read(text)?;
//! assert!(!reading.exact, "the store has no key that is spelt so");
//! assert_eq!(reading.path.to_string(), "clients/07-tendermint-4/consensusStates/7-2");
//!
//! let Path::ClientConsensusState { client_id, revision_number, revision_height } = reading.path
//! else {
//!     panic!("it is a consensus state")
//! };
//! assert_eq!(client_id.as_str(), "07-tendermint-4"); // borrowed from the text, zeros and all
//! assert_eq!((revision_number, revision_height), (7, 2));
//!
//! let (mut buffer, mut room) = ([0; book_size(200)], [0; BOOK_VALUE]);
//! let mut book = Book::new(&mut buffer, [150, 50])?; // slots for each of two owners
//! assert_eq!(book.write(Owner::One, text, "a digest"), Err(Refusal::Loose)); // it is not its own key
//! book.write(Owner::One, "clients/07-tendermint-4/consensusStates/7-2", "a digest")?;
//! let held = book.lookup_lenient(Owner::One, text, &mut room)?; // for importers that pad their heights
//! assert_eq!(held.key.as_str(), "clients/07-tendermint-4/consensusStates/7-2");
//! assert_eq!(held.value, b"a digest");
//! let other = book.lookup(Owner::One, "clients/007-tendermint-4/consensusStates/7-2", &mut room);
//! assert_eq!(other, Err(Refusal::Absent)); // another client
//! let other = book.lookup(Owner::Two, "clients/07-tendermint-4/consensusStates/7-2", &mut room);
//! assert_eq!(other, Err(Refusal::Absent)); // another owner
//! # Ok::<(), Refusal>(())
//! ```
//!
//! Every call takes any bytes and any numbers; a text may be given as bytes or as a `str`. A call that can be
//! refused answers a `Result`: what was asked for, or the [`Refusal`], which has its place in a [`Fault`] where a
//! text is read or an index is checked. Its refusals are listed in the order in which they are looked for. What has
//! been made, an identifier or a path, always renders. A refusal changes no byte of a lent buffer; a success writes
//! from its byte 0 and leaves the bytes after what was written.
//!
//! Nothing is allocated, so what is written is lent room, of a size that has a name. With the feature `alloc`
//! there are also identifiers and paths that own their text, such as `OwnedPath`.
//!
//! Texts are ASCII. The module [`wide`] has the checks, the identifiers and the paths under the same names
//! for letters of every script, as ibc-rs takes them.
//!
//! # Panics
//!
//! None, where the library is that of this crate: what a call relies on is proved. With the archive of another
//! version a call panics rather than answer.
#![no_std]
#![deny(missing_docs)]
#![deny(clippy::missing_errors_doc)]
#![deny(clippy::unwrap_used, clippy::expect_used, clippy::panic, clippy::unreachable)] // but in `sure`
#![allow(clippy::duplicate_mod)] // the files that `wide` has too are compiled over its calls

#[cfg(feature = "alloc")]
extern crate alloc;

/// Where examples have their items from, and what a text that is no text is refused with; a module that has the
/// same items says both anew.
macro_rules! here {
    () => {
        "hostpath"
    };
    (text) => {
        "NotAscii"
    };
}

/// Links to a refusal, or to those of an identifier, an index or a path.
macro_rules! refusals {
    (text) => {
        concat!("[`", here!(text), "`](crate::Refusal::", here!(text), ")")
    };
    (id) => {
        concat!(refusals!(text), ", ", refusals!(BadChar), ", ", refusals!(BadLength))
    };
    (number) => {
        concat!(refusals!(NoDigits), ", ", refusals!(NotADigit), " or ", refusals!(TooLarge))
    };
    (path) => {
        concat!(
            refusals!(TooLong),
            ", ",
            refusals!(text),
            ", ",
            refusals!(NotAPath),
            " (where a number alone is wrong ",
            refusals!(number),
            ")"
        )
    };
    ($name:ident) => {
        concat!("[`", stringify!($name), "`](crate::Refusal::", stringify!($name), ")")
    };
}

/// The section of a call's refusals, in the order in which they are looked for.
macro_rules! errors {
    ($first:ident $(, $next:ident)*) => {
        concat!("\n# Errors\n\n", refusals!($first), $(", ", refusals!($next),)* ".")
    };
}

mod book;
mod fault;
mod identifiers;
mod iteration;
#[cfg(feature = "alloc")]
mod owned;
mod packet;
mod parents;
mod path;
#[rustfmt::skip]
pub mod raw;
#[rustfmt::skip]
mod refusal;
mod sequence;
mod texts;
mod upgrade;
pub mod wide;

pub use book::*;
pub use fault::*;
pub use identifiers::*;
pub use iteration::*;
#[cfg(feature = "alloc")]
pub use owned::*;
pub use packet::*;
pub use parents::*;
pub use path::*;
pub use refusal::Refusal;
pub use sequence::*;
pub use texts::*;
pub use upgrade::*;

/// The bytes of the longest text of a path, and of the longest rendering.
pub const PATH_MOST: usize = 4096;

/// The bytes of the longest rendering of a path that is no upgraded state's.
pub const KEY_MOST: usize = 251;

/// The bytes of a reading by [`raw::read`].
pub const READING: usize = 26;

/// What the library always gives, as is proved. This is all that the crate does where it does not.
#[allow(clippy::expect_used)]
fn sure<T>(given: Option<T>) -> T {
    given.expect("libhostpath.a is of another version than the crate hostpath")
}

/// A call's number as a result.
fn done(number: u8) -> Result<(), Refusal> {
    match number {
        0 => Ok(()),
        number => Err(sure(Refusal::of(number))),
    }
}

/// A revision number and height.
fn pair(answer: raw::Pair) -> Result<(u64, u64), Refusal> {
    done(answer.refusal)?;
    Ok((answer.number, answer.height))
}

/// The bytes that a call wrote into a buffer.
fn bytes_of(answer: raw::Written, out: &[u8]) -> Result<&[u8], Refusal> {
    done(answer.refusal)?;
    Ok(sure(out.get(..answer.length as usize)))
}

/// The text that a call wrote into a buffer.
fn written(answer: raw::Written, out: &[u8]) -> Result<&str, Refusal> {
    bytes_of(answer, out).map(str_of)
}

/// A text that the library has found to be ASCII, or in the wide mode UTF-8.
fn str_of(text: &[u8]) -> &str {
    sure(core::str::from_utf8(text).ok())
}
