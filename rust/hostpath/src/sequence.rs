//! A count that is no height.
use core::fmt;
use core::num::{IntErrorKind, ParseIntError};
use core::str::FromStr;

use crate::Refusal;

/// A packet's sequence, which is no height. It is read and shown as a `u64` is: digits, which a `+` and zeros may
/// stand before in what is read.
///
/// ```
/// use hostpath::{Refusal, Sequence};
///
/// let sequence: Sequence = "+007".parse()?;
/// assert_eq!((sequence, u64::from(sequence)), (7.into(), 7));
/// assert_eq!(sequence.to_string(), "7");
/// assert_eq!(Sequence::default().value(), 0);
/// assert_eq!("+".parse::<Sequence>(), Err(Refusal::NoDigits));
/// assert_eq!("-7".parse::<Sequence>(), Err(Refusal::NotADigit));
/// assert_eq!("18446744073709551616".parse::<Sequence>(), Err(Refusal::TooLarge));
/// # Ok::<(), Refusal>(())
/// ```
#[derive(Clone, Copy, Debug, Default, PartialEq, Eq, PartialOrd, Ord, Hash)]
pub struct Sequence(u64);

impl Sequence {
    /// Its number.
    pub const fn value(self) -> u64 {
        self.0
    }
}

impl From<u64> for Sequence {
    fn from(number: u64) -> Self {
        Self(number)
    }
}

impl From<Sequence> for u64 {
    fn from(sequence: Sequence) -> Self {
        sequence.0
    }
}

impl FromStr for Sequence {
    type Err = Refusal;

    fn from_str(text: &str) -> Result<Self, Refusal> {
        text.parse().map(Self).map_err(|error: ParseIntError| match error.kind() {
            IntErrorKind::PosOverflow => Refusal::TooLarge,
            IntErrorKind::InvalidDigit if text != "+" => Refusal::NotADigit,
            _ => Refusal::NoDigits,
        })
    }
}

impl fmt::Display for Sequence {
    fn fmt(&self, out: &mut fmt::Formatter<'_>) -> fmt::Result {
        self.0.fmt(out)
    }
}
