//! Books of version 1 turned into version 2, and those of version 2 into version 3: empty, full and damaged ones, into buffers
//! of the right size and of others, filled by chance.
use model::book::{Book, Call, Manner, Quotas, Version, MOST, OWNERS};
use model::random::Random;
use model::spelling::Spelt;

use crate::books::{quotas, slots, Lent, PADDED, SIZES};
use crate::set::Set;
use crate::{Sets, Size};

pub const SETS: Sets = &[
    ("conversions, books by chance", chance),
    ("conversions, each byte changed", changed),
    ("conversions, lengths of the first", lengths),
];

/// The older versions, each with the one that it is turned into.
const STEPS: [(Version, Version); 2] =
    [(Version::One, Version::Two), (Version::Two, Version::Three)];

/// A book with so many of its slots used, whose values are as long as those of that version.
fn old(random: &mut Random, version: Version, used: usize, slots: usize) -> Book {
    let mut book = Book::ones(slots);
    while slots - book.free()[0] < used {
        let length = if version == Version::One { 32 } else { random.of(&SIZES) };
        let value: Vec<u8> = (0..length).map(|_| random.word() as u8).collect();
        book.enter(1, &Spelt::chance(random).exact(), &value).expect("it has room");
    }
    book
}

fn filled(random: &mut Random, size: usize) -> Vec<u8> {
    (0..size).map(|_| random.word() as u8).collect()
}

/// A conversion from a version, and what the calls then find: of a book of version 2 that is what the next conversion makes
/// of it.
fn convert(set: &mut Set, from: Version, old: &[u8], new: &[u8], quotas: Quotas) {
    let mut lent = Lent::new(set, new);
    if from == Version::One {
        lent.check(set, &Call::Convert(old.to_vec()));
        let made = lent.bytes();
        let slots = Version::Two.slots(made.len()).unwrap_or(1);
        lent = Lent::new(set, &vec![0; Version::Three.size(slots)]);
        lent.check(set, &Call::ConvertOwners(made, quotas));
    } else {
        lent.check(set, &Call::ConvertOwners(old.to_vec(), quotas));
    }
    for owner in OWNERS {
        lent.check(set, &Call::Oldest(owner, b"07-tendermint-4".to_vec()));
        for manner in Manner::BOTH {
            lent.check(set, &Call::Lookup(owner, manner, PADDED.to_vec(), 64));
            lent.check(set, &Call::Write(owner, manner, b"ports/transfer".to_vec(), vec![3; 64]));
        }
    }
}

/// Mostly quotas of a book with so many records of owner 1's, else any.
fn fitting(random: &mut Random, used: usize, slots: usize) -> Quotas {
    if random.one_in(3) {
        return quotas(random, slots);
    }
    let ones = used + random.below(slots - used + 1);
    [ones, random.below(slots - ones + 1)].map(|quota| quota as u16)
}

/// Empty, full and other books, each into buffers of its size, of one byte less and more, and of another
/// number of slots; a buffer of the version that is made is no book of the one before.
fn chance(set: &mut Set, size: Size) {
    let mut random = Random(13);
    for _ in 0..size.pick(1_000, 15_000) {
        let slots = slots(&mut random);
        let some = random.below(slots + 1);
        let used = random.of(&[0, some, slots]);
        for (from, to) in STEPS {
            let book = old(&mut random, from, used, slots);
            let bytes = book.bytes_of(from);
            let right = to.size(slots);
            let other = to.size(1 + random.below(MOST));
            for length in [right, right - 1, right + 1, other, bytes.len(), 0] {
                let new = filled(&mut random, length);
                convert(set, from, &bytes, &new, fitting(&mut random, used, slots));
            }
            let blank = vec![0; right];
            convert(set, from, &bytes, &blank, fitting(&mut random, used, slots));
            convert(set, from, &book.bytes_of(to), &blank, [slots as u16, 0]);
        }
    }
}

/// Each byte of older books to other values.
fn changed(set: &mut Set, size: Size) {
    let mut random = Random(14);
    for (from, to) in STEPS {
        for (used, slots) in [(0, 1), (1, 1), (1, 2), (3, 3)] {
            let book = old(&mut random, from, used, slots).bytes_of(from);
            let new = filled(&mut random, to.size(slots));
            for at in 0..book.len() {
                for value in size.pick(vec![0, 1, 2, b'/', b'0', 255], (0..=255).collect()) {
                    let mut bytes = book.clone();
                    bytes[at] = value;
                    convert(set, from, &bytes, &new, [slots as u16, 0]);
                }
            }
        }
    }
}

/// First buffers of every length up to that of two slots, zeros behind a header.
fn lengths(set: &mut Set, _: Size) {
    let mut random = Random(15);
    for (from, to) in STEPS {
        let around = |slots| from.size(slots) - 2..=from.size(slots) + 2;
        for length in (0..=from.size(2) + 2).chain((199..=201).flat_map(around)) {
            let mut bytes = vec![0; length];
            let head = length.min(from.head());
            bytes[..head].copy_from_slice(&[b'H', b'P', b'B', 0, from.number(), 0, 0, 0][..head]);
            let slots = from.slots(length).unwrap_or(1);
            let new = filled(&mut random, to.size(slots));
            convert(set, from, &bytes, &new, [0, slots as u16]);
        }
    }
}
