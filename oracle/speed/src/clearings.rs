//! A client's old states cleared out of the largest book, full of the client's records, and beside it the check of that book.
use hostpath::{book_size, raw, Book, Refusal, BOOK_MOST};
use model::path::render;
use model::Mode;

use crate::books::OWNER;
use crate::family::keep;
use std::hint::black_box;

const CLIENT: &[u8] = b"07-tendermint-4";

/// What the book is full of.
#[derive(Clone, Copy, Debug)]
enum Records {
    /// States in the order of their heights.
    States,
    /// The same, each with its processed time and height.
    Families,
    /// States whose order as texts is the reverse of that of their pairs.
    Reversed,
}

use Records::{Families, Reversed, States};

const RECORDS: [(&str, Records); 3] =
    [("states", States), ("families", Families), ("reversed", Reversed)];

impl Records {
    /// The i-th key.
    fn key(self, i: usize) -> Vec<u8> {
        let (kind, pair) = match self {
            States => (5, [1, height(i)]),
            Families => (5 + (i % 3) as u8, [1, height(i / 3)]),
            Reversed => (5, [falling(i / 19), falling(i % 19)]),
        };
        render(Mode::Plain, kind, CLIENT, b"", pair).expect("a path")
    }

    /// The largest book, full of them.
    fn full(self) -> Vec<u8> {
        let mut full = vec![0; book_size(BOOK_MOST)];
        let mut book = Book::new(&mut full, [BOOK_MOST as u16, 0]).expect("a book's size");
        for i in 0..BOOK_MOST {
            book.write(OWNER, self.key(i), [7; 32]).expect("it has room");
        }
        assert_eq!(usize::from(full[6]), BOOK_MOST, "the keys differ");
        full
    }
}

fn height(i: usize) -> u64 {
    4_200_000 + 37 * i as u64
}

/// Numbers that fall while their texts rise: 20 digits from 10 on, then 19 from 11 on, and so forth to 28.
fn falling(i: usize) -> u64 {
    (10 + i as u64) * 10u64.pow(18 - i as u32)
}

/// So many times a clearing of a copy of the book, or only the copy, or the check of the book: `oldest` of a client that its
/// first check refuses.
pub fn count(records: &str, what: &str, times: usize) {
    let known = RECORDS.iter().find(|(name, _)| *name == records);
    let full = known.unwrap_or_else(|| panic!("{RECORDS:?}")).1.full();
    let (mut book, owner) = (full.clone(), OWNER.number());
    for _ in 0..times {
        let refusal = if what == "check" {
            let answer = raw::book_oldest(black_box(&book), owner, b"");
            u8::from(answer.refusal != Refusal::BadLength.number())
        } else {
            book.copy_from_slice(black_box(&full));
            match what {
                "copy" => 0,
                most => clear(&mut book, owner, most.parse().expect("check|copy|a number")),
            }
        };
        assert_eq!(refusal, 0, "{what}");
        keep(&book);
    }
}

fn clear(book: &mut [u8], owner: u8, most: u64) -> u8 {
    black_box(raw::book_clear(book, owner, CLIENT, most)).refusal
}
