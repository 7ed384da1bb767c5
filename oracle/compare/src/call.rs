//! A call over the C interface as data.
use std::fmt::{self, Display, Formatter};

use model::Mode;

pub use crate::dispatch::Function;

impl Function {
    pub fn has_kind(self) -> bool {
        self.takes()[0]
    }

    /// Whether a reply shows the book.
    pub fn has_book(self) -> bool {
        self.takes()[1]
    }

    /// Whether a call that is not refused writes a text.
    pub fn writes(self) -> bool {
        self.takes()[2] && !self.has_book()
    }

    /// Whether it gives a reading, in either mode and by either reader.
    pub fn reads(self) -> bool {
        matches!(self.mode().1, Self::Read | Self::Walk)
    }
}

/// A call's arguments but for the lent buffer. What a call lacks is not looked at.
#[derive(Clone, Copy)]
pub struct Call<'a> {
    pub function: Function,
    pub kind: u8,
    pub texts: [&'a [u8]; 2],
    pub numbers: [u64; 2],
}

impl<'a> Call<'a> {
    pub fn new(function: Function, texts: [&'a [u8]; 2], numbers: [u64; 2]) -> Self {
        Self { function, kind: 0, texts, numbers }
    }

    fn is_ascii(&self) -> bool {
        self.texts.iter().all(|text| text.is_ascii())
    }

    /// The functions that are to answer alike: a plain one, and on ASCII texts its wide one too.
    pub fn alike(&self) -> impl Iterator<Item = Function> {
        let wide = self.function.wide().filter(|_| self.is_ascii());
        [self.function].into_iter().chain(wide)
    }

    /// The modes to ask in for answers of their own.
    pub fn modes(&self) -> impl Iterator<Item = Mode> {
        let wide = self.function.wide().filter(|_| !self.is_ascii());
        [Mode::Plain].into_iter().chain(wide.map(|_| Mode::Wide))
    }

    /// A plain call in a mode that it has.
    pub fn in_mode(self, mode: Mode) -> Self {
        match mode {
            Mode::Plain => self,
            Mode::Wide => Self { function: self.function.wide().expect("a wide call"), ..self },
        }
    }
}

impl Display for Call<'_> {
    fn fmt(&self, out: &mut Formatter<'_>) -> fmt::Result {
        let Self { function, kind, texts: [first, second], numbers: [a, b] } = self;
        let (first, second) = (first.escape_ascii(), second.escape_ascii());
        write!(out, "{function:?}(kind {kind}, \"{first}\", \"{second}\", {a}, {b})")
    }
}
