//! What is wrong with a text, and where.
use core::fmt;

use crate::{done, raw, sure, Refusal};

/// A number of a path or of an identifier.
#[derive(Clone, Copy, Debug, PartialEq, Eq, PartialOrd, Ord, Hash)]
#[non_exhaustive]
pub enum Number {
    /// What stands behind the name and `-` in an identifier.
    Index,
    /// The R of `R-h`.
    RevisionNumber,
    /// The h of `R-h`.
    RevisionHeight,
    /// The S of a packet's path.
    Sequence,
    /// The n of an upgraded state's path.
    UpgradeHeight,
}

impl Number {
    /// The number of a path in which a byte lies: the slashes before it tell, and in `R-h` the dash.
    fn of_path(text: &[u8], byte: usize) -> Option<Self> {
        let before = text.get(..byte)?;
        let dash = before.rsplit(|byte| *byte == b'/').next()?.contains(&b'-');
        match before.iter().filter(|byte| **byte == b'/').count() {
            1 => Some(Self::UpgradeHeight),
            3 if dash => Some(Self::RevisionHeight),
            3 => Some(Self::RevisionNumber),
            6 => Some(Self::Sequence),
            _ => None,
        }
    }
}

impl fmt::Display for Number {
    fn fmt(&self, out: &mut fmt::Formatter<'_>) -> fmt::Result {
        out.pad(match self {
            Self::Index => "index",
            Self::RevisionNumber => "revision number",
            Self::RevisionHeight => "revision height",
            Self::Sequence => "sequence",
            Self::UpgradeHeight => "upgrade height",
        })
    }
}

/// Where a number is wrong.
#[derive(Clone, Copy, Debug, PartialEq, Eq, PartialOrd, Ord, Hash)]
pub struct Place {
    /// Which number it is.
    pub number: Number,
    /// The byte of the text, counted from 0, where its leftmost fault stands.
    pub byte: usize,
}

/// A refusal of a text, with the place where a number alone is wrong. It equals its [`Refusal`], and `?`
/// makes one of it. Its `Display` says which number, and at which byte:
///
/// ```
/// use hostpath::{Number, Path, Place, Refusal};
///
/// let fault = Path::read("clients/07-tendermint-4/consensusStates/7-x").unwrap_err();
/// assert_eq!(fault, Refusal::NotADigit);
/// assert_eq!(fault.place, Some(Place { number: Number::RevisionHeight, byte: 42 }));
/// assert_eq!(
///     fault.to_string(),
///     "refusal 18: the revision height has a byte that is no digit, at byte 42 of the text: \
///      write it in the digits 0 to 9 alone"
/// );
/// ```
#[derive(Clone, Copy, Debug, PartialEq, Eq, PartialOrd, Ord, Hash)]
pub struct Fault {
    /// Why.
    pub refusal: Refusal,
    /// Where: of [`NoDigits`](Refusal::NoDigits), [`NotADigit`](Refusal::NotADigit) and
    /// [`TooLarge`](Refusal::TooLarge).
    pub place: Option<Place>,
}

impl Fault {
    /// What the check of an index answers.
    pub(crate) fn of_index(answer: raw::Fault) -> Result<(), Self> {
        Self::of(answer, |_| Number::Index)
    }

    /// What the reading of a text answers.
    pub(crate) fn of_path(answer: raw::Fault, text: &[u8]) -> Result<(), Self> {
        Self::of(answer, |byte| sure(Number::of_path(text, byte)))
    }

    fn of(answer: raw::Fault, number: impl Fn(usize) -> Number) -> Result<(), Self> {
        done(answer.refusal).map_err(|refusal| {
            let byte = answer.place as usize;
            let place = what(refusal).map(|_| Place { number: number(byte), byte });
            Self { refusal, place }
        })
    }
}

/// What is said of a number where it is wrong.
fn what(refusal: Refusal) -> Option<&'static str> {
    match refusal {
        Refusal::NoDigits => Some("lacks a digit"),
        Refusal::NotADigit => Some("has a byte that is no digit"),
        Refusal::TooLarge => Some("passes 18446744073709551615"),
        _ => None,
    }
}

impl fmt::Display for Fault {
    fn fmt(&self, out: &mut fmt::Formatter<'_>) -> fmt::Result {
        let Self { refusal, place } = self;
        let (Some(Place { number, byte }), Some(what)) = (place, what(*refusal)) else {
            return refusal.fmt(out);
        };
        write!(
            out,
            "refusal {}: the {number} {what}, at byte {byte} of the text",
            refusal.number()
        )?;
        match refusal.sentence().split_once(": ") {
            Some((_, advice)) => write!(out, ": {advice}"),
            None => Ok(()),
        }
    }
}

impl core::error::Error for Fault {}

impl From<Refusal> for Fault {
    fn from(refusal: Refusal) -> Self {
        Self { refusal, place: None }
    }
}

impl From<Fault> for Refusal {
    fn from(fault: Fault) -> Self {
        fault.refusal
    }
}

impl PartialEq<Refusal> for Fault {
    fn eq(&self, other: &Refusal) -> bool {
        self.refusal == *other
    }
}
