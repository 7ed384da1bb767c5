//! Kind 8, which books hold and no call writes any more: in books made as bytes, in those that conversions make of both older
//! versions, and in lists of calls.
use model::book::{kind_of, Book, Call, Manner, Version, CONNECTIONS, OWNERS, VALUE};
use model::many::{ANSWER, BUCKETS};
use model::random::Random;
use model::spelling::Spelt;

use crate::books::{quotas, Lent};
use crate::set::Set;
use crate::{Sets, Size};

pub const SETS: Sets = &[
    ("retired, books as bytes", as_bytes),
    ("retired, books converted", converted),
    ("retired, lists of calls", lists),
];

/// A client's connections, which the books below hold.
const HELD: &[u8] = b"clients/07-tendermint-4/connections";

/// Texts that are written no more, held and not; then such as are near them: of other kinds, and of none.
fn texts() -> Vec<Vec<u8>> {
    let long = [b"clients/", &[b'c'; 64][..], b"/connections"].concat();
    let near: [&[u8]; 11] = [
        HELD,
        b"clients/07-tendermint-40/connections",
        b"clients/clientidx/connections",
        b"clients/clientid/connections",
        b"clients/07-tendermint-4/connection",
        b"clients/07-tendermint-4/connections/",
        b"clients/07-tendermint-4/connections\xff",
        b"clients/07-tendermint-4/clientState",
        b"connections/connection-0",
        b"connections/5/upgradedClient",
        b"connections/05/upgradedClient",
    ];
    near.map(<[u8]>::to_vec).into_iter().chain([long]).collect()
}

/// A book in which an owner has a client's connections, or both have, and nothing else or some of what is near them; the
/// quotas are full, or they are not.
fn books() -> Vec<Book> {
    let mut all = vec![];
    for owners in [&[1][..], &[2], &[1, 2]] {
        for more in
            [&[][..], &[&b"connections/connection-0"[..], b"clients/07-tendermint-4/clientState"]]
        {
            for free in [0, 1] {
                let quota = 1 + more.len() as u16 + free;
                let mut book = Book::empty(2 * usize::from(quota), [quota, quota]);
                for owner in owners {
                    for (key, length) in [HELD].iter().chain(more).zip([32, 1, VALUE]) {
                        book.enter(*owner, key, &vec![*owner; length]).expect("it has room");
                    }
                }
                all.push(book);
            }
        }
    }
    all
}

/// Every call on each text, by both owners and by one that is none, with values and rooms on both sides of their limits; what
/// was changed is put back before the next.
fn ask(set: &mut Set, bytes: &[u8]) {
    let mut lent = Lent::new(set, bytes);
    for owner in [1, 2, 3] {
        for text in texts() {
            for manner in Manner::BOTH {
                for room in [VALUE - 1, VALUE] {
                    lent.check(set, &Call::Lookup(owner, manner, text.clone(), room));
                }
                for length in [0, 1, VALUE, VALUE + 1] {
                    lent.check(set, &Call::Write(owner, manner, text.clone(), vec![9; length]));
                }
                for _ in 0..2 {
                    lent.check(set, &Call::Remove(owner, manner, text.clone()));
                    lent.check(set, &Call::Write(owner, manner, text.clone(), vec![9]));
                }
                lent = Lent::new(set, bytes);
            }
        }
        let table = lent.table();
        let (lines, room) = (texts().join(&10), texts().len() * ANSWER);
        lent.check(set, &Call::Fill(BUCKETS));
        lent.check(set, &Call::LookupMany(owner, table, lines, room));
        lent.check(set, &Call::Clear(owner, b"07-tendermint-4".to_vec(), 0));
    }
}

fn as_bytes(set: &mut Set, _: Size) {
    for book in books() {
        ask(set, &book.bytes());
    }
}

/// Books of version 1 by way of version 2, and of version 2, with quotas that are full and that are not.
fn converted(set: &mut Set, _: Size) {
    for (held, slots) in [(1, 1), (1, 2), (3, 3), (3, 5)] {
        for from in [Version::One, Version::Two] {
            let mut old = Book::ones(slots);
            let keys: [&[u8]; 3] = [
                HELD,
                b"clients/07-tendermint-4/clientState",
                b"clients/07-tendermint-40/connections",
            ];
            for key in &keys[..held] {
                old.enter(1, key, &[7; 32]).expect("it has room");
            }
            let mut second = old.bytes_of(Version::Two);
            if from == Version::One {
                let mut lent = Lent::new(set, &vec![0; second.len()]);
                lent.check(set, &Call::Convert(old.bytes_of(from)));
                second = lent.bytes();
            }
            for ones in held..=slots {
                let quotas = [ones as u16, (slots - ones) as u16];
                let mut lent = Lent::new(set, &vec![0; Version::Three.size(slots)]);
                lent.check(set, &Call::ConvertOwners(second.clone(), quotas));
                ask(set, &lent.bytes());
            }
        }
    }
}

/// Lists of 32 calls on few paths, half of them such: each of their records that is left was there before, with the same value.
fn lists(set: &mut Set, size: Size) {
    let mut random = Random(27);
    for _ in 0..size.pick(1_500, 40_000) {
        let slots = 1 + random.below(12);
        let kinds = |random: &mut Random| {
            if random.one_in(2) {
                Spelt::of(CONNECTIONS, random)
            } else {
                Spelt::chance(random)
            }
        };
        let paths: Vec<Spelt> = (0..=slots).map(|_| kinds(&mut random)).collect();
        let mut book = Book::empty(slots, quotas(&mut random, slots));
        for path in &paths[random.below(paths.len())..] {
            let _ =
                book.enter(random.of(&OWNERS), &path.exact(), &vec![1; 1 + random.below(VALUE)]);
        }
        let mut lent = Lent::new(set, &book.bytes());
        for _ in 0..32 {
            let (owner, manner) = (random.of(&OWNERS), random.of(&Manner::BOTH));
            let text = paths[random.below(paths.len())].spelling(&mut random);
            let call = match random.below(8) {
                0 => Call::Remove(owner, manner, text),
                1 => Call::Lookup(owner, manner, text, VALUE),
                _ => Call::Write(owner, manner, text, vec![2; random.below(VALUE + 2)]),
            };
            lent.check(set, &call);
        }
        let left = lent.book().expect("it stays a book");
        for owner in OWNERS {
            let retired = left.records_of(owner).filter(|(key, _)| kind_of(key) == CONNECTIONS);
            let before: Vec<_> = book.records_of(owner).collect();
            retired.for_each(|record| assert!(before.contains(&record), "{record:?}"));
        }
    }
}
