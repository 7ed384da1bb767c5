//! Lookups of many texts in the largest book, full, by one call, and beside it by a call each.
use std::cell::RefCell;
use std::hint::black_box;

use hostpath::{raw, BOOK_ANSWER, BOOK_MOST, BOOK_TABLE, BOOK_VALUE};

use crate::books::{full, OWNER};
use crate::family::{keep, Family};

/// How many texts are looked up.
const TEXTS: [usize; 5] = [1, 10, 100, 200, 1000];

#[derive(Clone, Copy, Debug)]
enum Operation {
    /// The table alone.
    Fill,
    /// All texts by one call.
    Once,
    /// A plain lookup for each.
    Alone,
}

use Operation::{Alone, Fill, Once};

/// A full book with its table, and its keys in turn: so many at a time, round the book.
struct Desk {
    book: Vec<u8>,
    table: [u8; BOOK_TABLE],
    lines: Vec<u8>,
    /// Where each line starts, and where the last ends.
    starts: Vec<usize>,
    texts: usize,
    out: Vec<u8>,
    turn: usize,
}

impl Desk {
    fn new(texts: usize) -> Self {
        let (keys, book) = full(BOOK_MOST);
        let mut table = [0; BOOK_TABLE];
        assert_eq!(raw::book_fill(&book, &mut table), 0);
        let (mut lines, mut starts) = (vec![], vec![0]);
        for key in keys.iter().cycle().take(BOOK_MOST + texts) {
            lines.extend_from_slice(key);
            lines.push(b'\n');
            starts.push(lines.len());
        }
        Self { book, table, lines, starts, texts, out: vec![0; BOOK_ANSWER * texts], turn: 0 }
    }

    /// Does it once, with the next key and those behind it.
    fn run(&mut self, operation: Operation) {
        self.turn = (self.turn + 1) % BOOK_MOST;
        let starts = &self.starts[self.turn..=self.turn + self.texts];
        let owner = OWNER.number();
        match operation {
            Fill => assert_eq!(raw::book_fill(&self.book, &mut self.table), 0),
            Once => {
                let lines = black_box(&self.lines[starts[0]..starts[self.texts]]);
                let answer =
                    raw::book_lookup_many(&self.book, owner, &self.table, lines, &mut self.out);
                assert_eq!(answer.length, self.out.len() as u64);
            }
            Alone => {
                for place in starts.windows(2) {
                    let text = black_box(&self.lines[place[0]..place[1] - 1]);
                    let mut room = black_box([0; BOOK_VALUE]);
                    assert_eq!(raw::book_lookup(&self.book, owner, text, &mut room).refusal, 0);
                    keep(&room);
                }
            }
        }
        keep((&self.table, &self.out));
    }
}

/// One operation on so many texts, so many times, for a count of its instructions.
pub fn count(operation: &str, texts: usize, times: usize) {
    let operation = match operation {
        "fill" => Fill,
        "once" => Once,
        "alone" => Alone,
        _ => panic!("fill|once|alone"),
    };
    let mut desk = Desk::new(texts);
    (0..times).for_each(|_| desk.run(operation));
}

pub fn families() -> Vec<Family> {
    let family = |texts| {
        let side = |operation| {
            let desk = RefCell::new(Desk::new(texts));
            move || desk.borrow_mut().run(operation)
        };
        let name = format!("book of {BOOK_MOST}, {texts} texts at once / alone");
        Family::new(name, side(Once), side(Alone))
    };
    TEXTS.map(family).into()
}
