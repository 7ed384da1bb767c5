//! Document 01 as a program, with the requests that landed, written from the documents and from neither the original nor the port,
//! and pools of texts to try all three on. Plain and slow on purpose.
use std::fmt;
use std::ops::RangeInclusive;

pub mod book;
pub mod identifier;
pub mod iteration;
pub mod many;
pub mod packet;
pub mod path;
pub mod pool;
pub mod random;
pub mod spelling;
pub mod table;

/// A refusal's number in document 01.
pub type Refusal = u8;

pub const TOO_LONG: Refusal = 1;
pub const NOT_ASCII: Refusal = 2;
pub const NOT_A_PATH: Refusal = 3;
pub const NO_ROOM: Refusal = 4;
pub const BAD_CHAR: Refusal = 5;
pub const BAD_LENGTH: Refusal = 6;
pub const BAD_PREFIX: Refusal = 7;
pub const BAD_BOOK: Refusal = 9;
pub const KEY_TOO_LONG: Refusal = 10;
pub const FULL: Refusal = 11;
pub const ABSENT: Refusal = 12;
pub const BAD_SEGMENT: Refusal = 13;
pub const BAD_KIND: Refusal = 14;
pub const BAD_ITER_KEY: Refusal = 15;
pub const BAD_BLOCK: Refusal = 16;
pub const NO_DIGITS: Refusal = 17;
pub const NOT_A_DIGIT: Refusal = 18;
pub const TOO_LARGE: Refusal = 19;
pub const LOOSE: Refusal = 20;
pub const BAD_UTF8: Refusal = 21;
pub const BAD_TABLE: Refusal = 22;
pub const BAD_OWNER: Refusal = 23;
pub const BAD_V2_KEY: Refusal = 24;
pub const RETIRED: Refusal = 25;

/// What may be wrong with a number. The refusals that have a place.
pub const NUMBER_FAULTS: RangeInclusive<Refusal> = NO_DIGITS..=TOO_LARGE;

/// A refusal with the byte where a number's fault stands, counted from 0; of every other refusal 0.
#[derive(Clone, Copy, Debug, PartialEq, Eq)]
pub struct Fault {
    pub refusal: Refusal,
    pub place: usize,
}

impl Fault {
    /// The same fault of a text that has so many bytes more before this one.
    fn behind(self, bytes: usize) -> Self {
        Self { place: bytes + self.place, ..self }
    }
}

impl From<Refusal> for Fault {
    fn from(refusal: Refusal) -> Self {
        Self { refusal, place: 0 }
    }
}

impl From<Fault> for Refusal {
    fn from(fault: Fault) -> Self {
        fault.refusal
    }
}

/// The number, and the place where there is one: no call has a number at its first byte.
impl fmt::Display for Fault {
    fn fmt(&self, out: &mut fmt::Formatter<'_>) -> fmt::Result {
        match self.place {
            0 => write!(out, "{}", self.refusal),
            place => write!(out, "{} at {place}", self.refusal),
        }
    }
}

/// A number text: an optional `+`, then digits, at most 18446744073709551615. Of another text the
/// leftmost fault: 17 at its end, 18 at the byte, 19 at the digit that passes the limit.
pub fn number(text: &[u8]) -> Result<u64, Fault> {
    let signs = usize::from(text.starts_with(b"+"));
    let fault = |refusal, place| Fault { refusal, place };
    if text.len() == signs {
        return Err(fault(NO_DIGITS, text.len()));
    }
    let mut value = 0u64;
    for (place, byte) in text.iter().enumerate().skip(signs) {
        let digit = char::from(*byte).to_digit(10).ok_or(fault(NOT_A_DIGIT, place))?;
        let more = value.checked_mul(10).and_then(|tens| tens.checked_add(digit.into()));
        value = more.ok_or(fault(TOO_LARGE, place))?;
    }
    Ok(value)
}

/// What texts are made of: ASCII, or in request L8's wide calls the characters of every script.
#[derive(Clone, Copy, Debug, PartialEq, Eq)]
pub enum Mode {
    Plain,
    Wide,
}

impl Mode {
    /// The first check of every call on a text: 2, or 21.
    pub fn text(self, text: &[u8]) -> Result<&str, Refusal> {
        let refusal = match self {
            Self::Plain => NOT_ASCII,
            Self::Wide => BAD_UTF8,
        };
        hold(self == Self::Wide || text.is_ascii(), refusal)?;
        std::str::from_utf8(text).map_err(|_| refusal)
    }

    /// A letter or a digit.
    fn alphanumeric(self, character: char) -> bool {
        match self {
            Self::Plain => character.is_ascii_alphanumeric(),
            Self::Wide => letters::alphanumeric(character),
        }
    }

    /// White space: bytes 9 to 13 and 32, or that of every script.
    fn white(self, character: char) -> bool {
        match self {
            Self::Plain => matches!(character, '\t'..='\r' | ' '),
            Self::Wide => letters::white(character),
        }
    }
}

fn hold(test: bool, refusal: Refusal) -> Result<(), Refusal> {
    test.then_some(()).ok_or(refusal)
}
