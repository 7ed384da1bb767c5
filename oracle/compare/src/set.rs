//! One set of checks: what was asked, how often the voices differed, and the first differences whole.
use std::fmt::{self, Debug, Display, Formatter};

use model::book::{Answer, Given};
use model::packet::Packet;
use model::{Fault, NO_ROOM, NUMBER_FAULTS};

use crate::batch::{Batch, Expected, Returned};
use crate::call::{Call, Function};
use crate::library::Library;
use crate::original;
use crate::page::Page;

/// Where the original may differ: a reason for each kind that docs/DIFFERENCES.md lists.
#[derive(Clone, Copy, Debug)]
pub enum Listed {
    NotAscii,
    Panic,
    Slash,
    TooLong,
    Number,
}

const REASONS: [&str; 5] =
    ["beyond ASCII", "panics of the Rust", "slash in U", "over 4,096 bytes", "faults of numbers"];

/// What the original says.
pub enum Theirs<T> {
    Says(T),
    /// On a question where the answer may differ.
    Listed(Listed, T),
    /// It takes no such question, for this reason.
    Silent(&'static str),
}

impl<T> Theirs<Result<T, Fault>> {
    /// What it says, against an answer to the same call: where that is one of the three faults of a number,
    /// it may differ, since it tells none of them from another, and those of a path from nothing else.
    pub fn against(self, function: Function, ours: &Result<T, Fault>) -> Self {
        match (self, ours) {
            (Self::Says(Err(said)), Err(fault))
                if original::untold(function) == said.refusal
                    && NUMBER_FAULTS.contains(&fault.refusal) =>
            {
                Self::Listed(Listed::Number, Err(said))
            }
            (theirs, _) => theirs,
        }
    }
}

/// Bytes that show as text.
#[derive(Clone, PartialEq)]
pub struct Bytes(pub Vec<u8>);

impl Debug for Bytes {
    fn fmt(&self, out: &mut Formatter<'_>) -> fmt::Result {
        write!(out, "{}", self.0.escape_ascii())
    }
}

/// A text that a call writes, or its refusal. The original tells no place.
pub type Text = Result<Bytes, Fault>;

pub struct Set<'a> {
    library: &'a mut Library,
    page: &'a Page,
    batch: Batch,
    checks: u64,
    differences: u64,
    last: u64,
    shown: Vec<String>,
    listed: [u64; REASONS.len()],
    /// How often each refusal, or 0, is the answer of a call that the original does not know.
    answers: [u64; 256],
}

impl<'a> Set<'a> {
    pub fn new(library: &'a mut Library, page: &'a Page) -> Self {
        Self {
            library,
            page,
            batch: Batch::default(),
            checks: 0,
            differences: 0,
            last: 0,
            shown: vec![],
            listed: Default::default(),
            answers: [0; 256],
        }
    }

    pub fn passed(&self) -> bool {
        self.differences == 0
    }

    pub fn checks(&self) -> u64 {
        self.checks
    }

    /// The first differences.
    pub fn shown(&self) -> &[String] {
        &self.shown
    }

    /// A check of a call whose answer is a refusal, or none.
    pub fn refusal(&mut self, call: Call, theirs: Theirs<Text>, model: Result<(), Fault>) {
        self.checks += 1;
        self.ask(call, 0, model.map_or_else(Returned::refused, |()| Returned::default()), b"");
        self.agree(theirs, &model.map(|()| Bytes(vec![])), call);
    }

    /// A check of a call whose answer is a yes or no.
    pub fn flag(&mut self, call: Call, theirs: Theirs<Text>, model: Result<bool, u8>) {
        let returned = match model {
            Ok(value) => Returned::new(0, value.into()),
            Err(refusal) => Returned::new(refusal, 0),
        };
        self.checks += 1;
        self.ask(call, 0, returned, b"");
        let model = model.map(|value| Bytes(vec![value.into()])).map_err(Fault::from);
        self.agree(theirs, &model, call);
    }

    /// A check of a call whose answer is a pair of numbers, of which the original knows nothing.
    pub fn pair(&mut self, call: Call, model: Result<(u64, u64), u8>) {
        let returned = match model {
            Ok((a, b)) => Returned { refusal: 0, numbers: [a, b, 0] },
            Err(refusal) => Returned::new(refusal, 0),
        };
        self.checks += 1;
        self.answers[usize::from(returned.refusal)] += 1;
        self.ask(call, 0, returned, b"");
    }

    /// A check of a call that reads a packet key, of which the original knows nothing.
    pub fn packet(&mut self, call: Call, model: Result<Packet, u8>) {
        let returned = match model {
            Ok((kind, length, sequence)) => {
                Returned { refusal: 0, numbers: [kind.into(), length as u64, sequence] }
            }
            Err(refusal) => Returned::new(refusal, 0),
        };
        self.checks += 1;
        self.answers[usize::from(returned.refusal)] += 1;
        self.ask(call, 0, returned, b"");
    }

    /// A check of a call that writes a text, with buffers of the sizes that tell.
    pub fn text(&mut self, call: Call, theirs: Theirs<Text>, model: &Text) {
        self.checks += 1;
        self.lend_around(call, model);
        self.agree(theirs, model, call);
    }

    /// Counts a check whose calls are lent buffers one by one.
    pub fn count(&mut self) {
        self.checks += 1;
    }

    /// Lends no buffer, and buffers around the need.
    pub fn lend_around(&mut self, call: Call, model: &Text) {
        match model.as_ref().map(|text| text.0.len()) {
            Ok(need) => self.lend(call, [0, need - 1, need, need + 1, need + 7], model),
            Err(_) => self.lend(call, [0, 64], model),
        }
    }

    /// Lends buffers of these sizes: the call writes the text and leaves the rest, or it refuses and
    /// leaves all.
    pub fn lend(&mut self, call: Call, rooms: impl IntoIterator<Item = usize>, model: &Text) {
        for room in rooms {
            let (returned, text) = match model {
                Ok(Bytes(text)) if text.len() <= room => {
                    (Returned::new(0, text.len() as u64), text.as_slice())
                }
                Ok(_) => {
                    for function in call.alike() {
                        if !self.page.lists_no_room(function) {
                            self.differ(|| format!("{function:?}: no row lists {NO_ROOM} of it"));
                        }
                    }
                    (NO_ROOM.into(), &[][..])
                }
                Err(fault) => (Returned::refused(*fault), &[][..]),
            };
            self.ask(call, room, returned, text);
        }
    }

    /// Lends these bytes as the book of the calls that follow.
    pub fn lend_book(&mut self, bytes: &[u8]) {
        let call = Call::new(Function::BookLend, [bytes, b""], [0, 0]);
        let returned = Returned::default();
        self.push(call, Expected { returned, room: 0, text: b"", book: Some(bytes) });
    }

    /// A call that is lent the book, which holds these bytes afterwards.
    pub fn on_book(&mut self, call: Call, room: usize, answer: &Answer, after: &[u8]) {
        let (returned, text) = match answer {
            Ok(Given::Nothing) => (Returned::default(), &[][..]),
            Ok(Given::Value(value)) => (Returned::new(0, value.len() as u64), &value[..]),
            Ok(Given::Table(table)) => (Returned::default(), &table[..]),
            Ok(Given::Heights([a, b])) => (Returned { refusal: 0, numbers: [*a, *b, 0] }, &[][..]),
            Ok(Given::Count(count)) => (Returned::new(0, *count), &[][..]),
            Err(refusal) => (Returned::new(*refusal, 0), &[][..]),
        };
        self.answers[usize::from(returned.refusal)] += 1;
        self.push(call, Expected { returned, room, text, book: Some(after) });
    }

    /// The original and the model say the same, or the difference is a listed one.
    pub fn agree<T: PartialEq + Debug>(
        &mut self,
        theirs: Theirs<Result<T, Fault>>,
        model: &Result<T, Fault>,
        call: Call,
    ) {
        let theirs = theirs.against(call.function, model);
        let said = match &theirs {
            Theirs::Says(said) | Theirs::Listed(_, said) if said != model => said,
            _ => return,
        };
        if let Theirs::Listed(reason, _) = theirs {
            self.listed[reason as usize] += 1;
        }
        for function in call.alike() {
            if self.page.covering(function, &theirs, model).is_empty() {
                let call = Call { function, ..call };
                let differing =
                    || format!("{call}: Rust {said:?}, here {model:?}, and no row lists it");
                self.differ(differing);
            }
        }
    }

    fn ask(&mut self, call: Call, room: usize, returned: Returned, text: &[u8]) {
        for function in call.alike() {
            let call = Call { function, ..call };
            self.push(call, Expected { returned, room, text, book: None });
        }
    }

    fn push(&mut self, call: Call, expected: Expected) {
        self.batch.push(self.checks, call, expected);
        if self.batch.is_full() {
            self.finish();
        }
    }

    /// Judges all that was asked, a check once.
    pub fn finish(&mut self) {
        let batch = std::mem::take(&mut self.batch);
        let replies = self.library.replies(&batch);
        for difference in batch.differences(&replies) {
            if difference.check != self.last {
                self.differ(|| difference.to_string());
            }
            self.last = difference.check;
        }
    }

    pub fn differ(&mut self, difference: impl FnOnce() -> String) {
        self.differences += 1;
        if self.shown.len() < 10 {
            self.shown.push(difference());
        }
    }
}

impl Display for Set<'_> {
    fn fmt(&self, out: &mut Formatter<'_>) -> fmt::Result {
        write!(out, "{} checks, {} differences", self.checks, self.differences)?;
        for (reason, count) in REASONS.iter().zip(self.listed).filter(|(_, count)| *count > 0) {
            write!(out, ", {count} listed ({reason})")?;
        }
        let answers = self.answers.iter().enumerate().filter(|(_, count)| **count > 0);
        for (turn, (answer, count)) in answers.enumerate() {
            write!(out, "{} {count} of {answer}", if turn == 0 { "; answers:" } else { "," })?;
        }
        Ok(())
    }
}
