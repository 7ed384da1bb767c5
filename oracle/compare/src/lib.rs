//! Three voices on the same questions: the library over its C interface, the original as it runs,
//! and the model of document 01. The library equals the model always; the original equals it
//! wherever docs/DIFFERENCES.md lists no difference. Of books, of blocks of keys and of packet keys the
//! original knows nothing.
pub mod batch;
pub mod beside;
pub mod books;
pub mod call;
pub mod clearings;
pub mod conversions;
#[rustfmt::skip]
pub mod dispatch;
pub mod identifiers;
pub mod iteration;
pub mod library;
pub mod many;
pub mod no_books;
pub mod original;
pub mod owners;
pub mod packets;
pub mod page;
pub mod paths;
pub mod renderings;
pub mod retired;
pub mod set;
pub mod told;
pub mod typed;
pub mod wide;

/// How much of a set to run.
#[derive(Clone, Copy, Debug, PartialEq, Eq)]
pub enum Size {
    Quick,
    Full,
}

impl Size {
    pub fn pick<T>(self, quick: T, full: T) -> T {
        match self {
            Self::Quick => quick,
            Self::Full => full,
        }
    }
}

/// A set's name and what it asks.
pub type NamedSet = (&'static str, fn(&mut set::Set, Size));

pub type Sets = &'static [NamedSet];

/// The families of sets.
pub const FAMILIES: &[Sets] = &[
    page::SETS,
    identifiers::SETS,
    paths::SETS,
    typed::SETS,
    renderings::SETS,
    wide::SETS,
    iteration::SETS,
    packets::SETS,
    books::SETS,
    owners::SETS,
    no_books::SETS,
    clearings::SETS,
    conversions::SETS,
    many::SETS,
    retired::SETS,
];
