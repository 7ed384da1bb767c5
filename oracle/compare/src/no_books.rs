//! Buffers that are no books, and some that just are: of every length near a book's, with bytes changed,
//! with slots out of order, with slots by chance.
use model::book::Manner::{Lenient, Plain};
use model::book::{Book, Call, Version, HEAD, KEY, MOST, OWNERS, SLOT, VALUE};
use model::many::BUCKETS;
use model::pool::Pools;
use model::random::Random;
use model::spelling::Spelt;

use crate::books::{quotas, slots, Chance, Lent, PADDED, SIZES, STATE};
use crate::set::Set;
use crate::{Sets, Size};

pub const SETS: Sets = &[
    ("books, lengths of buffers", lengths),
    ("books, each byte changed", changed),
    ("books, spoilt", spoilt),
    ("books, slots by chance", slots_by_chance),
    ("books, older ones", older),
];

/// Every call on a buffer: where it is no book each gives 9 and leaves it, until a new one is made of it.
fn probe(set: &mut Set, bytes: &[u8]) {
    let mut lent = Lent::new(set, bytes);
    let calls = [
        Call::Lookup(1, Plain, STATE.to_vec(), VALUE),
        Call::Lookup(2, Lenient, PADDED.to_vec(), VALUE),
        Call::Lookup(1, Plain, PADDED.to_vec(), VALUE),
        Call::Lookup(3, Plain, STATE.to_vec(), VALUE),
        Call::Oldest(1, b"07-tendermint-4".to_vec()),
        Call::Oldest(2, b"07-tendermint-4".to_vec()),
        Call::Write(1, Plain, PADDED.to_vec(), vec![2; VALUE]),
        Call::Write(2, Lenient, PADDED.to_vec(), vec![3; VALUE]),
        Call::Remove(1, Plain, PADDED.to_vec()),
        Call::Remove(1, Lenient, PADDED.to_vec()),
        Call::Write(2, Plain, b"ports/transfer".to_vec(), vec![4; VALUE]),
        Call::Clear(2, b"07-tendermint-4".to_vec(), 1),
        Call::Clear(1, b"07-tendermint-4".to_vec(), 0),
        Call::Fill(BUCKETS),
        Call::New([1, 0]),
        Call::Write(1, Plain, b"ports/transfer".to_vec(), vec![5; VALUE]),
    ];
    for call in calls {
        lent.check(set, &call);
    }
}

/// Buffers of every length up to that of two slots, and around those of the largest books.
fn lengths(set: &mut Set, _: Size) {
    let around = |slots| HEAD + SLOT * slots - 2..=HEAD + SLOT * slots + 2;
    for length in (0..=HEAD + 2 * SLOT + 2).chain((199..=201).flat_map(around)) {
        for byte in [0, 1, 0xff] {
            let mut bytes = vec![byte; length];
            probe(set, &bytes);
            let head = length.min(HEAD);
            bytes[..head].copy_from_slice(&b"HPB\0\x03\0\0\0\0\x01\0\0"[..head]);
            probe(set, &bytes);
        }
        let mut bytes = one_record(1);
        bytes.resize(length, 0);
        probe(set, &bytes);
    }
}

/// The state that `probe` asks for, of owner 1's, in a book of so many slots.
fn one_record(slots: usize) -> Vec<u8> {
    let mut book = Book::empty(slots, [1, slots as u16 - 1]);
    book.write(1, Plain, STATE, &[1; 32]).expect("it has room");
    book.bytes()
}

/// A full book of both owners: the state, the longest keys and others by chance.
fn full(slots: usize, random: &mut Random) -> Vec<u8> {
    let ones = 1 + random.below(slots);
    let mut book = Book::empty(slots, [ones, slots - ones].map(|quota| quota as u16));
    book.write(1, Plain, STATE, &[1; 32]).expect("it has room");
    let mut path = Spelt::longest();
    while book.free() != [0, 0] {
        let value = vec![9; random.of(&SIZES)];
        for owner in OWNERS {
            let _ = book.enter(owner, &path.exact(), &value);
        }
        path = Spelt::chance(random);
    }
    book.bytes()
}

/// A book of version 2 is none that `probe` finds to be one.
fn older(set: &mut Set, _: Size) {
    for slots in [1, 2, 3, MOST] {
        let mut book = Book::ones(slots);
        probe(set, &book.bytes_of(Version::Two));
        book.write(1, Plain, STATE, &[1; 32]).expect("it has room");
        probe(set, &book.bytes_of(Version::One));
        probe(set, &book.bytes_of(Version::Two));
    }
}

/// Each byte of some books, header and slots, used and unused, to other values.
fn changed(set: &mut Set, size: Size) {
    let mut random = Random(10);
    let few: Vec<u8> = vec![0, 1, 2, b'+', b'-', b'/', b'0', b'9', b'a', 127, 128, 255];
    let values = size.pick(few, (0..=255).collect());
    for book in [one_record(1), one_record(2), full(3, &mut random)] {
        for at in 0..book.len() {
            for value in &values {
                let mut bytes = book.clone();
                bytes[at] = *value;
                probe(set, &bytes);
            }
            let mut bytes = book.clone();
            bytes[at] = bytes[at].wrapping_add(random.of(&[1, 255]));
            probe(set, &bytes);
        }
    }
    let book = full(MOST, &mut random);
    for at in (0..HEAD).chain((HEAD..book.len()).step_by(size.pick(487, 11))) {
        let mut bytes = book.clone();
        bytes[at] = bytes[at].wrapping_add(random.of(&[1, 128, 255]));
        probe(set, &bytes);
    }
}

/// The place of a chance slot.
fn slot(bytes: &[u8], random: &mut Random) -> usize {
    HEAD + SLOT * random.below((bytes.len() - HEAD) / SLOT)
}

type Spoil = fn(&mut Vec<u8>, &mut Random);

const SPOILS: [Spoil; 18] = [
    |bytes, random| {
        let at = random.of(&[9, 11]);
        bytes[at] = bytes[at].wrapping_add(random.of(&[1, 2, 254, 255]));
    },
    |bytes, random| bytes[8..12].copy_from_slice(&random.word().to_be_bytes()[..4]),
    |bytes, _| bytes[8..12].rotate_left(2),
    |bytes, random| {
        let at = slot(bytes, random);
        bytes[at] = random.of(&[0, 1, 2, 3, 255]);
    },
    |bytes, random| bytes[6] = bytes[6].wrapping_add(random.of(&[1, 2, 254, 255])),
    |bytes, random| bytes[5..7].copy_from_slice(&random.word().to_be_bytes()[..2]),
    |bytes, random| exchange(bytes, random),
    |bytes, random| {
        let (from, to) = (slot(bytes, random), slot(bytes, random));
        bytes.copy_within(from..from + SLOT, to);
    },
    |bytes, random| {
        let at = slot(bytes, random);
        bytes[at..at + SLOT].fill(0);
    },
    |bytes, random| widen(bytes, random),
    |bytes, random| {
        let at = slot(bytes, random) + 1;
        bytes[at] = bytes[at].wrapping_add(random.of(&[1, 255]));
    },
    |bytes, random| {
        let at = slot(bytes, random) + 1 + KEY;
        bytes[at] = bytes[at].wrapping_add(1);
    },
    |bytes, random| {
        let at = slot(bytes, random) + 2 + KEY;
        bytes[at] = random.of(&[0, 1, 32, 64, 65, 255]);
    },
    |bytes, random| {
        let at = slot(bytes, random) + SLOT - 1;
        bytes[at] = bytes[at].wrapping_add(1);
    },
    |bytes, random| {
        let at = slot(bytes, random) + random.below(SLOT);
        bytes[at] = random.word() as u8;
    },
    |bytes, random| bytes.truncate(bytes.len() - random.of(&[1, SLOT, HEAD])),
    |bytes, random| bytes.resize(bytes.len() + random.of(&[1, SLOT, HEAD]), 0),
    |bytes, random| {
        let at = slot(bytes, random);
        bytes[at..].rotate_left(SLOT);
    },
];

/// Two slots in each other's place.
fn exchange(bytes: &mut [u8], random: &mut Random) {
    let (one, other) = (slot(bytes, random), slot(bytes, random));
    (0..SLOT).for_each(|at| bytes.swap(one + at, other + at));
}

/// A byte put into a key, so that a number may be loose.
fn widen(bytes: &mut [u8], random: &mut Random) {
    let at = slot(bytes, random) + 1;
    let inside = at + 1 + random.below(usize::from(bytes[at]) + 1).min(KEY - 1);
    bytes.copy_within(inside..at + KEY, inside + 1);
    bytes[inside] = random.of(b"0+19");
    bytes[at] = bytes[at].wrapping_add(1);
}

/// Books with a wrong count, other quotas, another owner of a slot, slots exchanged, doubled, emptied or moved, keys made
/// loose, and the rest of what makes a buffer no book; now and then two of them at once.
fn spoilt(set: &mut Set, size: Size) {
    let (mut random, pools) = (Random(11), Pools::default());
    for turn in 0..size.pick(6_000, 120_000) {
        let slots = slots(&mut random);
        let mut bytes = if turn % 2 == 0 {
            full(slots, &mut random)
        } else {
            Chance::new(&mut random, &pools, slots).book(slots, slots).bytes()
        };
        for _ in 0..1 + usize::from(random.one_in(4)) {
            if bytes.len() >= HEAD + SLOT {
                random.of(&SPOILS)(&mut bytes, &mut random);
            }
        }
        probe(set, &bytes);
    }
}

/// A header that is right, over slots of chance bytes, of short keys, or of keys in any order.
fn slots_by_chance(set: &mut Set, size: Size) {
    let mut random = Random(12);
    for turn in 0..size.pick(6_000, 120_000) {
        let slots = slots(&mut random);
        let count = 1 + random.below(slots.min(8));
        let mut bytes = Book::empty(slots, quotas(&mut random, slots)).bytes();
        bytes[6] = count as u8;
        for used in bytes[HEAD..].chunks_mut(SLOT).take(count) {
            match turn % 3 {
                0 => used.fill_with(|| random.word() as u8),
                1 => put_key(used, &[random.of(b"/09ab"), random.of(b"/09ab")]),
                _ => put_key(used, &Spelt::chance(&mut random).spelling(&mut random)),
            }
            used[0] = random.of(&OWNERS);
        }
        probe(set, &bytes);
    }
}

/// As much of a key as a slot can hold, and a value of one byte.
fn put_key(slot: &mut [u8], key: &[u8]) {
    let length = key.len().min(KEY);
    slot[1] = length as u8;
    slot[2..2 + length].copy_from_slice(&key[..length]);
    slot[2 + KEY..4 + KEY].copy_from_slice(&[1, 9]);
}
