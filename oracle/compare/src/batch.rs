//! Calls that wait to be answered together, and what document 01 expects of each.
use std::fmt::{self, Display, Formatter};

use hostpath::raw::{self, Count, Flag, Packet, Pair, Written};
use model::Fault;

use crate::call::{Call, Function};

/// Stands in lent buffers, and around them, before a call.
pub const WATCH: u8 = 0xa5;
pub const GUARD: usize = 8;

/// What stands in a reply before the lent buffers: the refusal and three numbers.
pub const HEAD: usize = 25;

/// What a call returns: refusal, and a length, value or count, or a pair of numbers, or the kind, length and
/// sequence of a packet key; the place of a fault is the second.
#[derive(Clone, Copy, Default)]
pub struct Returned {
    pub refusal: u8,
    pub numbers: [u64; 3],
}

impl Returned {
    pub fn new(refusal: u8, number: u64) -> Self {
        Self { refusal, numbers: [number, 0, 0] }
    }

    pub fn refused(Fault { refusal, place }: Fault) -> Self {
        Self { refusal, numbers: [0, place as u64, 0] }
    }

    pub fn bytes(self) -> impl Iterator<Item = u8> {
        [self.refusal].into_iter().chain(self.numbers.into_iter().flat_map(u64::to_le_bytes))
    }
}

impl From<u8> for Returned {
    fn from(refusal: u8) -> Self {
        Self::new(refusal, 0)
    }
}

impl From<raw::Fault> for Returned {
    fn from(answer: raw::Fault) -> Self {
        Self { refusal: answer.refusal, numbers: [0, answer.place, 0] }
    }
}

impl From<Written> for Returned {
    fn from(answer: Written) -> Self {
        Self::new(answer.refusal, answer.length)
    }
}

impl From<Flag> for Returned {
    fn from(answer: Flag) -> Self {
        Self::new(answer.refusal, answer.value.into())
    }
}

impl From<Pair> for Returned {
    fn from(answer: Pair) -> Self {
        Self { refusal: answer.refusal, numbers: [answer.number, answer.height, 0] }
    }
}

impl From<Count> for Returned {
    fn from(answer: Count) -> Self {
        Self::new(answer.refusal, answer.count)
    }
}

impl From<Packet> for Returned {
    fn from(answer: Packet) -> Self {
        let Packet { refusal, kind, length, sequence } = answer;
        Self { refusal, numbers: [kind.into(), length, sequence] }
    }
}

/// What a call is to return, and to leave in what is lent to it.
#[derive(Clone, Copy)]
pub struct Expected<'a> {
    pub returned: Returned,
    /// The size of the buffer for what it writes.
    pub room: usize,
    /// Written from byte 0 of that buffer; the rest is left.
    pub text: &'a [u8],
    /// All of the book, for a call that is lent one.
    pub book: Option<&'a [u8]>,
}

/// The size of a reply to a call with so large a buffer, and so large a book if any.
fn size(room: usize, book: Option<usize>) -> usize {
    let guarded = |size| GUARD + size + GUARD;
    HEAD + guarded(room) + book.map_or(0, guarded)
}

/// Puts a reply whose lent buffer is as it was, and gives the place of that buffer.
pub fn put_reply(replies: &mut Vec<u8>, returned: Returned, room: usize) -> usize {
    replies.extend(returned.bytes());
    let lent = replies.len() + GUARD;
    replies.resize(lent + room + GUARD, WATCH);
    lent
}

/// A book with the guards around it.
pub fn guarded(book: &[u8]) -> Vec<u8> {
    [&[WATCH; GUARD], book, &[WATCH; GUARD]].concat()
}

/// A reply as a difference shows it: of watched bytes at the ends of a buffer only how many there are,
/// and of a book nothing.
pub struct Reply<'a> {
    head: &'a [u8],
    lent: &'a [u8],
}

impl<'a> Reply<'a> {
    fn new(bytes: &'a [u8], room: usize) -> Self {
        let (head, rest) = bytes.split_at(HEAD);
        Self { head, lent: &rest[..GUARD + room + GUARD] }
    }
}

impl Display for Reply<'_> {
    fn fmt(&self, out: &mut Formatter<'_>) -> fmt::Result {
        let Self { head, lent } = self;
        let number =
            |bytes: &[u8]| bytes.iter().rfold(0, |value, byte| value << 8 | u64::from(*byte));
        let [a, b, c] = [1, 9, 17].map(|at| number(&head[at..at + 8]));
        let watched = |byte: &&u8| **byte == WATCH;
        let before = lent.iter().take_while(watched).count();
        let after = lent[before..].iter().rev().take_while(watched).count();
        let text = lent[before..lent.len() - after].escape_ascii();
        write!(out, "{}, numbers {a}, {b} and {c}, buffer {before} \"{text}\" {after}", head[0])
    }
}

/// A call whose reply is not the expected one.
pub struct Difference<'a> {
    pub check: u64,
    pub call: Call<'a>,
    pub room: usize,
    pub ours: Reply<'a>,
    pub expected: Reply<'a>,
    /// The first byte that differs in the book and its guards, counted from the book's start.
    pub in_book: Option<isize>,
}

impl Display for Difference<'_> {
    fn fmt(&self, out: &mut Formatter<'_>) -> fmt::Result {
        let Self { call, room, ours, expected, .. } = self;
        write!(out, "{call} with room {room}: library {ours}; document 01 {expected}")?;
        self.in_book.map_or(Ok(()), |at| write!(out, "; books differ first at byte {at}"))
    }
}

struct Waiting {
    check: u64,
    function: Function,
    kind: u8,
    numbers: [u64; 2],
    lengths: [usize; 2],
    room: usize,
    book: Option<usize>,
}

#[derive(Default)]
pub struct Batch {
    waiting: Vec<Waiting>,
    texts: Vec<u8>,
    expected: Vec<u8>,
}

impl Batch {
    /// Large enough to be judged.
    pub fn is_full(&self) -> bool {
        self.texts.len().max(self.expected.len()) >= 1 << 20
    }

    pub fn expected(&self) -> &[u8] {
        &self.expected
    }

    /// Adds a call of a check.
    pub fn push(&mut self, check: u64, call: Call, expected: Expected) {
        let Expected { returned, room, text, book } = expected;
        let Call { function, kind, texts, numbers } = call;
        let lengths = texts.map(<[u8]>::len);
        texts.iter().for_each(|text| self.texts.extend_from_slice(text));
        let size = book.map(<[u8]>::len);
        self.waiting.push(Waiting { check, function, kind, numbers, lengths, room, book: size });
        let lent = put_reply(&mut self.expected, returned, room);
        self.expected[lent..lent + text.len()].copy_from_slice(text);
        self.expected.extend(book.into_iter().flat_map(guarded));
    }

    /// Each call with the size of its buffer.
    pub fn calls(&self) -> impl Iterator<Item = (Call<'_>, usize)> {
        let mut rest = self.texts.as_slice();
        self.waiting.iter().map(move |waiting| {
            let texts = waiting.lengths.map(|length| {
                let (text, after) = rest.split_at(length);
                rest = after;
                text
            });
            let Waiting { function, kind, numbers, room, .. } = *waiting;
            (Call { function, kind, texts, numbers }, room)
        })
    }

    pub fn differences<'a>(&'a self, replies: &'a [u8]) -> Vec<Difference<'a>> {
        if replies == self.expected {
            return vec![];
        }
        let mut at = 0;
        let beside = |(waiting, (call, room)): (&Waiting, (Call<'a>, usize))| {
            let place = at..at + size(room, waiting.book);
            at = place.end;
            let (ours, expected) = (&replies[place.clone()], &self.expected[place]);
            let apart = ours.iter().zip(expected).position(|(ours, expected)| ours != expected)?;
            let in_book =
                apart.checked_sub(size(room, None)).map(|at| at as isize - GUARD as isize);
            let (check, ours, expected) =
                (waiting.check, Reply::new(ours, room), Reply::new(expected, room));
            Some(Difference { check, call, room, ours, expected, in_book })
        };
        self.waiting.iter().zip(self.calls()).filter_map(beside).collect()
    }
}
