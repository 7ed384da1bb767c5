//! Tables of buckets beside books, and many lookups at once: books by chance with calls in between, tables that are
//! not what filling gives, keys that share a bucket, and the texts and rooms that tell.
use std::ops::RangeInclusive;

use model::book::Manner::Plain;
use model::book::{Book, Call, MOST, OWNERS, VALUE};
use model::many::{home, texts, ANSWER, BUCKETS};
use model::pool::{self, Pools};
use model::random::Random;
use model::spelling::Spelt;

use crate::books::{slots, Chance, Lent, PADDED, STRANGERS};
use crate::set::Set;
use crate::{Sets, Size};

pub const SETS: Sets = &[
    ("many lookups, books by chance", chance),
    ("many lookups, tables changed", tables),
    ("many lookups, keys of few buckets", shared),
    ("many lookups, texts and rooms", edges),
];

/// An owner's lookups of all texts by a table, with room for none, one byte less than is needed, as much, and more.
fn look(set: &mut Set, lent: &mut Lent, owner: u8, table: &[u8], lines: &[u8]) {
    let need = ANSWER * texts(lines).len();
    for room in [0, need.saturating_sub(1), need, need + 1] {
        lent.check(set, &Call::LookupMany(owner, table.to_vec(), lines.to_vec(), room));
    }
}

/// Some texts, with a line end behind the last or without.
fn lines(chance: &mut Chance, random: &mut Random) -> Vec<u8> {
    let texts: Vec<Vec<u8>> = (0..random.below(12)).map(|_| chance.text()).collect();
    [texts.join(&10), vec![10; random.below(2)]].concat()
}

/// Lookups by a table that is filled now and then, with a call of any sort before each: either owner's write or removal makes
/// it stale, and a refused or replacing one does not.
fn chance(set: &mut Set, size: Size) {
    let (mut random, mut turns, pools) = (Random(17), Random(18), Pools::default());
    for _ in 0..size.pick(500, 20_000) {
        let slots = slots(&mut random);
        let mut chance = Chance::new(&mut random, &pools, slots);
        let mut lent = Lent::new(set, &chance.book(slots, slots).bytes());
        let mut table = lent.table();
        for _ in 0..8 {
            let (owner, lines) = (chance.owner(), lines(&mut chance, &mut turns));
            look(set, &mut lent, owner, &table, &lines);
            lent.check(set, &chance.call());
            if turns.one_in(2) {
                lent.check(set, &Call::Fill(turns.of(&[BUCKETS, BUCKETS + 7])));
                table = lent.table();
            }
        }
    }
}

/// An owner and a key.
type Place = (u8, Vec<u8>);

/// So many ports of these owners whose walk through the buckets starts at one of these.
fn ports(owners: &[u8], homes: RangeInclusive<usize>, count: usize) -> Vec<Place> {
    let port =
        |number: usize| (owners[number % owners.len()], format!("ports/p{number}").into_bytes());
    let near = |place: &Place| homes.contains(&home(place.0, &place.1));
    (0..).map(port).filter(near).take(count).collect()
}

/// A book of these records alone, with quotas for them and no more.
fn book_of(slots: usize, places: &[Place]) -> Book {
    let quota = |owner| places.iter().filter(|place| place.0 == owner).count() as u16;
    let mut book = Book::empty(slots, OWNERS.map(quota));
    for (owner, key) in places {
        let home = home(*owner, key);
        let value = vec![home as u8; 1 + home % VALUE];
        book.write(*owner, Plain, key, &value).expect("it has room");
    }
    book
}

/// The keys as texts of one call.
fn joined(places: &[Place]) -> Vec<u8> {
    let keys: Vec<&[u8]> = places.iter().map(|(_, key)| &key[..]).collect();
    keys.join(&10)
}

/// Tables that are not what filling gives, by a byte, by two that change places and by their length: of no book too.
fn tables(set: &mut Set, size: Size) {
    let places = ports(&OWNERS, 0..=BUCKETS - 1, MOST);
    let values = size.pick(vec![0, 1, 200, 255], (0..=255).collect::<Vec<u8>>());
    for used in [0, 1, 3, MOST] {
        let mut lent = Lent::new(set, &book_of(used.max(2), &places[..used]).bytes());
        let right = lent.table();
        let (owner, key) = &places[0];
        let mut ask = |table: &[u8]| {
            let lines = [&key[..], b"\n", PADDED].concat();
            lent.check(set, &Call::LookupMany(*owner, table.to_vec(), lines, 2 * ANSWER));
        };
        for at in 0..BUCKETS {
            for value in &values {
                let mut table = right.clone();
                table[at] = *value;
                ask(&table);
            }
            let mut table = right.clone();
            table.swap(at, (at + 1) % BUCKETS);
            ask(&table);
        }
        for length in [0, 1, 64, 511, 513, 1024] {
            let mut table = right.clone();
            table.resize(length, 0);
            ask(&table);
        }
    }
    orders(set);
}

/// 9 ahead of 23, that ahead of 22, and 22 ahead of 4; and filling with every room near a table's.
fn orders(set: &mut Set) {
    let book = book_of(1, &ports(&[1], 0..=0, 1)).bytes();
    for bytes in [&book[..], &book[1..], b""] {
        let mut lent = Lent::new(set, bytes);
        for table in [lent.table(), vec![7; BUCKETS], vec![]] {
            for owner in OWNERS.into_iter().chain(STRANGERS) {
                look(set, &mut lent, owner, &table, b"ports/p1\n\n");
                look(set, &mut lent, owner, &table, b"");
            }
        }
        for room in (0..4).chain(BUCKETS - 3..BUCKETS + 4) {
            lent.check(set, &Call::Fill(room));
        }
    }
}

/// Books whose keys start their walks at few buckets, at the end of the table and elsewhere, so that they go round
/// it, of one owner or of both; some of their records removed, and others looked for by each owner.
fn shared(set: &mut Set, size: Size) {
    let mut random = Random(19);
    for homes in [511..=511, 0..=0, 510..=511, 500..=511, 255..=256, 312..=511] {
        for (used, owners) in [1, 2, 3, 40, MOST - 1, MOST].into_iter().zip([1, 2, 2, 2, 1, 2]) {
            let mut places = ports(&OWNERS[..owners], homes.clone(), used + 40);
            for _ in 0..size.pick(1, 40) {
                random.shuffle(&mut places);
                let mut lent = Lent::new(set, &book_of(used, &places[..used]).bytes());
                for (owner, removed) in places.iter().take(used.min(4)) {
                    let table = lent.table();
                    look(set, &mut lent, *owner, &table, &joined(&places));
                    lent.check(set, &Call::Remove(*owner, Plain, removed.clone()));
                    look(set, &mut lent, 3 - owner, &table, &places[0].1);
                }
                let table = lent.table();
                for owner in OWNERS {
                    look(set, &mut lent, owner, &table, &joined(&places));
                }
                lent.check(set, &Call::Fill(BUCKETS));
            }
        }
    }
}

/// No text, line ends alone, every byte in a text and after it, values of each length, the longest keys and texts, and
/// every room for three texts.
fn edges(set: &mut Set, _: Size) {
    let mut random = Random(20);
    let mut book = Book::empty(MOST, [0, MOST as u16]);
    for length in 1..=VALUE {
        let port = format!("ports/value.{length}");
        book.write(2, Plain, port.as_bytes(), &vec![255; length]).expect("it has room");
    }
    let values: Vec<Vec<u8>> = book.keys().map(|(_, key)| key.clone()).collect();
    let long: Vec<Vec<u8>> =
        (250..=260).map(|size| Spelt::long(size, &mut random).exact()).collect();
    for key in &long {
        let _ = book.write(2, Plain, key, &[3; VALUE]);
    }
    let mut lent = Lent::new(set, &book.bytes());
    let table = lent.table();
    let mut blocks = vec![values.join(&10), long.join(&10), PADDED.to_vec()];
    blocks.extend([0, 1, 2, 3, 1000].map(|count| vec![10; count]));
    for length in [4095, 4096, 4097, 4098] {
        let grown: Vec<Vec<u8>> = pool::grown(length).into_iter().map(String::into_bytes).collect();
        blocks.push(grown.join(&10));
        blocks.push([&grown.join(&10)[..], b"\nports/value.7\n"].concat());
    }
    for byte in 0..=255 {
        blocks.push([b"ports/value.7", &[byte][..]].concat());
        blocks.push([&[byte][..], b"ports/value.7\n", &[byte], b"\n"].concat());
    }
    for block in blocks {
        look(set, &mut lent, 2, &table, &block);
    }
    for room in 0..=3 * ANSWER + 2 {
        let lines = b"ports/value.7\nports/value.64\nports/value.65".to_vec();
        lent.check(set, &Call::LookupMany(2, table.clone(), lines, room));
    }
}
