//! Calls on a full book, each beside one reading of every key that the book holds.
use std::cell::RefCell;
use std::hint::black_box;

use hostpath::{book_size, raw, Book, Owner, Refusal, BOOK_VALUE, READING};
use model::path::{render, KINDS};
use model::Mode;

use crate::family::{keep, Family};

/// How many records the books have; all their slots are used.
const RECORDS: [usize; 4] = [1, 10, 50, 200];

/// The i-th key: the kinds in turn from 5 on, and for each turn another client, connection, port and
/// channel. Kinds 1 to 3 have one key each, in whose place later turns take 5 to 7. In the place of 8, which the node derives and
/// writes no more, stands one more of 18.
fn key(i: usize) -> Vec<u8> {
    let turn = i / KINDS.len();
    let kind = match (i + 4) % KINDS.len() + 1 {
        kind @ 1..=3 if turn > 0 => kind + 4,
        8 => 18,
        kind => kind,
    };
    let number = 4_200_000 + 37 * i as u64;
    let (first, numbers) = match kind {
        4..=8 => (format!("07-tendermint-{turn}"), [1, number]),
        9 => (format!("connection-{turn}"), [0, 0]),
        18 | 19 => ("upgradedIBCState".into(), [number, 0]),
        _ => (format!("transfer.{turn}"), [number, 0]),
    };
    let channel = format!("channel-{turn}");
    render(Mode::Plain, kind as u8, first.as_bytes(), channel.as_bytes(), numbers).expect("a path")
}

#[derive(Clone, Copy, Debug)]
enum Operation {
    /// What the others are measured by.
    Readings,
    /// The book alone: `oldest` of a client that its first check refuses.
    Check,
    Lookup,
    /// A write in place of what a key holds.
    Replace,
    /// The buffer copied, which a removal alone needs, since it changes the book.
    Fresh,
    /// The buffer copied, and a record removed.
    Removal,
    /// A record removed, and written anew.
    Renewal,
    Oldest,
}

use Operation::{Check, Fresh, Lookup, Oldest, Readings, Removal, Renewal, Replace};

const OPERATIONS: [(&str, Operation); 8] = [
    ("readings", Readings),
    ("check", Check),
    ("lookup", Lookup),
    ("replace", Replace),
    ("copy", Fresh),
    ("removal", Removal),
    ("renewal", Renewal),
    ("oldest", Oldest),
];

const VALUE: [u8; 32] = [7; 32];

/// Whose the records are.
pub const OWNER: Owner = Owner::One;

/// So many keys, and a book that is full of them, all of them one owner's.
pub fn full(records: usize) -> (Vec<Vec<u8>>, Vec<u8>) {
    let keys: Vec<Vec<u8>> = (0..records).map(key).collect();
    let mut full = vec![0; book_size(records)];
    let mut book = Book::new(&mut full, [records as u16, 0]).expect("a book's size");
    for key in &keys {
        book.write(OWNER, key, VALUE).expect("it has room");
    }
    assert_eq!(full[6], records as u8, "the keys differ");
    (keys, full)
}

/// A full book, its keys, and whose turn it is.
struct Desk {
    keys: Vec<Vec<u8>>,
    full: Vec<u8>,
    book: Vec<u8>,
    turn: usize,
}

impl Desk {
    fn new(records: usize) -> Self {
        let (keys, full) = full(records);
        Self { keys, book: full.clone(), full, turn: 0 }
    }

    /// Does it once, with the next key where it takes one.
    fn run(&mut self, operation: Operation) {
        self.turn += 1;
        let key = black_box(self.keys[self.turn % self.keys.len()].as_slice());
        let (book, owner) = (self.book.as_mut_slice(), OWNER.number());
        let refusal = match operation {
            Readings => read_all(&self.keys),
            Check => {
                let answer = raw::book_oldest(book, owner, b"");
                u8::from(answer.refusal != Refusal::BadLength.number())
            }
            Lookup => raw::book_lookup(book, owner, key, &mut black_box([0; BOOK_VALUE])).refusal,
            Replace => raw::book_write(book, owner, key, &VALUE),
            Fresh => {
                book.copy_from_slice(black_box(&self.full));
                0
            }
            Removal => {
                book.copy_from_slice(black_box(&self.full));
                raw::book_remove(book, owner, key)
            }
            Renewal => {
                raw::book_remove(book, owner, key) | raw::book_write(book, owner, key, &VALUE)
            }
            Oldest => black_box(raw::book_oldest(book, owner, b"07-tendermint-0")).refusal,
        };
        assert_eq!(refusal, 0, "{operation:?}");
        keep(&self.book);
    }
}

/// Reads every key, up to the first that is refused.
fn read_all(keys: &[Vec<u8>]) -> u8 {
    let mut out = [0; READING];
    let read = |key: &Vec<u8>| {
        let answer = raw::read(black_box(key), &mut out);
        keep((answer, &out));
        answer.refusal
    };
    keys.iter().map(read).find(|refusal| *refusal != 0).unwrap_or(0)
}

/// One operation so many times, for a count of its instructions.
pub fn count(operation: &str, records: usize, times: usize) {
    let known = OPERATIONS.iter().find(|(name, _)| *name == operation);
    let operation = known.unwrap_or_else(|| panic!("{OPERATIONS:?}")).1;
    let mut desk = Desk::new(records);
    (0..times).for_each(|_| desk.run(operation));
}

pub fn families() -> Vec<Family> {
    let mut all = vec![];
    for records in RECORDS {
        let side = |operation| {
            let desk = RefCell::new(Desk::new(records));
            move || desk.borrow_mut().run(operation)
        };
        for (name, operation) in &OPERATIONS[1..] {
            let name = format!("book of {records}, {name} / readings");
            all.push(Family::new(name, side(*operation), side(Readings)));
        }
    }
    all
}
