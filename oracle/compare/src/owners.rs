//! Two owners in one book: each one's list alone and among the other's, quotas that tell, and owners that are none.
use model::book::{Answer, Book, Call, Manner, Quotas, Version, MOST, OWNERS, VALUE};
use model::many::{ANSWER, BUCKETS};
use model::pool::Pools;
use model::random::Random;
use model::spelling::Spelt;

use crate::books::{slots, Chance, Lent, PADDED, STATE, STRANGERS};
use crate::set::Set;
use crate::{Sets, Size};

pub const SETS: Sets = &[
    ("owners, alone and among the other's", isolated),
    ("owners, quotas of new books", made),
    ("owners, quotas in headers", headers),
    ("owners, quotas of conversions", converted),
    ("owners, numbers that are none", strangers),
];

/// A list of both owners' calls of every sort, with room or without it, then the same without one owner's: to the other every
/// answer is the same, and so are its records. A check is a list.
fn isolated(set: &mut Set, size: Size) {
    let (mut random, pools) = (Random(21), Pools::default());
    for _ in 0..size.pick(3_000, 80_000) {
        let slots = slots(&mut random);
        let mut chance = Chance::new(&mut random, &pools, slots);
        let book = chance.book(slots, slots);
        let list: Vec<Call> = (0..24).map(|_| chance.owned()).collect();
        set.count();
        let mut among = Lent::new(set, &book.bytes());
        let answers: Vec<Answer> = list.iter().map(|call| among.call(set, call)).collect();
        for owner in OWNERS {
            set.count();
            let mut alone = Lent::new(set, &book.bytes());
            for (call, answer) in list.iter().zip(&answers) {
                if call.owner() != Some(3 - owner) {
                    assert_eq!(alone.call(set, call), *answer, "{list:?}");
                }
            }
            let [alone, among] = [&alone, &among].map(|lent| lent.book().expect("it stays a book"));
            assert!(alone.records_of(owner).eq(among.records_of(owner)), "{list:?}");
            assert_eq!([alone.quotas(), among.quotas()], [book.quotas(); 2], "{list:?}");
        }
    }
}

/// Pairs of quotas around what a book of so many slots takes, and around what 16 bits hold.
fn pairs(slots: usize) -> Vec<Quotas> {
    let most = slots as u16;
    let near = [0, 1, 2, most / 2, most - 1, most, most + 1, 255, 256, 257, 512, 32_767, 32_768];
    let far = [65_535 - most, (65_536 - slots) as u16, 65_534, 65_535];
    let mut all: Vec<u16> = near.into_iter().chain(far).collect();
    all.sort();
    all.dedup();
    all.iter().flat_map(|first| all.iter().map(|second| [*first, *second])).collect()
}

/// Sizes of books that tell.
const SLOTS: [usize; 6] = [1, 2, 3, 100, MOST - 1, MOST];

/// What each owner can do in a buffer.
fn ask(set: &mut Set, lent: &mut Lent) {
    for owner in OWNERS {
        for text in [STATE, b"ports/transfer"] {
            lent.check(set, &Call::Write(owner, Manner::Plain, text.to_vec(), vec![owner; 3]));
        }
        lent.check(set, &Call::Lookup(owner, Manner::Plain, STATE.to_vec(), VALUE));
        lent.check(set, &Call::Oldest(owner, b"07-tendermint-4".to_vec()));
        lent.check(set, &Call::Remove(owner, Manner::Plain, b"ports/transfer".to_vec()));
    }
}

/// New books with each pair of quotas, of buffers of a book's size and of none.
fn made(set: &mut Set, _: Size) {
    for slots in SLOTS {
        for quotas in pairs(slots) {
            for length in [0, 1, 2].map(|more| Version::Three.size(slots) - 1 + more) {
                let mut lent = Lent::new(set, &vec![7; length]);
                lent.check(set, &Call::New(quotas));
                if slots <= 3 {
                    ask(set, &mut lent);
                }
            }
        }
    }
}

/// Each pair of quotas in the header of books that have none, one or two records of each owner's.
fn headers(set: &mut Set, _: Size) {
    for slots in [1, 2, 3, 5, MOST] {
        for (ones, twos) in [(0, 0), (1, 0), (0, 1), (1, 1), (2, 1), (2, 2)] {
            if ones + twos > slots {
                continue;
            }
            let book = book(slots, [ones, twos].map(|count| count as u16));
            for quotas in pairs(slots) {
                let mut bytes = book.bytes();
                let places = bytes[8..12].chunks_mut(2).zip(quotas);
                places.for_each(|(place, quota)| place.copy_from_slice(&quota.to_be_bytes()));
                let mut lent = Lent::new(set, &bytes);
                lent.check(set, &Call::Lookup(1, Manner::Plain, b"ports/p0".to_vec(), VALUE));
                if slots < MOST {
                    ask(set, &mut lent);
                }
            }
        }
    }
}

/// A book whose quotas are used up, by few ports; the first is the same of both owners.
fn book(slots: usize, quotas: Quotas) -> Book {
    let mut book = Book::empty(slots, quotas);
    for (owner, quota) in OWNERS.into_iter().zip(quotas) {
        for port in 0..quota {
            let key = format!("ports/p{}", u16::from(owner) * port);
            let value = vec![owner; 1 + usize::from(port) % VALUE];
            book.write(owner, Manner::Plain, key.as_bytes(), &value).expect("it has room");
        }
    }
    book
}

/// Books of version 2 with none, some or all slots used, by each pair of quotas and by those around their count.
fn converted(set: &mut Set, _: Size) {
    for slots in [1, 2, 3, MOST] {
        for used in [0, 1, slots / 2, slots - 1, slots] {
            let old = book(slots, [used as u16, 0]).bytes_of(Version::Two);
            let near = [used.saturating_sub(1), used, used + 1].map(|quota| quota as u16);
            let rest = (slots - used) as u16;
            let near = near.into_iter().flat_map(|first| [0, rest, rest + 1].map(|r| [first, r]));
            for quotas in pairs(slots).into_iter().chain(near) {
                let mut lent = Lent::new(set, &vec![7; Version::Three.size(slots)]);
                lent.check(set, &Call::ConvertOwners(old.clone(), quotas));
                if slots <= 3 {
                    ask(set, &mut lent);
                }
            }
        }
    }
}

/// What may be wrong with a text: its length, a byte, its shape, each fault of a number, its spelling, its key's length; then
/// one of a record, and one of none.
fn texts() -> Vec<Vec<u8>> {
    let long = |length: usize| Spelt::long(length, &mut Random(22));
    vec![
        vec![0xff; 4097],
        b"\xff".to_vec(),
        vec![],
        b"//upgradedClient".to_vec(),
        b"clients/07-tendermint-4/consensusStates/7-x".to_vec(),
        b"/18446744073709551616/upgradedClient".to_vec(),
        PADDED.to_vec(),
        long(256).exact(),
        long(256).loose(),
        long(255).exact(),
        STATE.to_vec(),
        b"ports/transfer".to_vec(),
    ]
}

/// Every call with an owner that is none, and beside it with those that there are, where each other refusal could be given
/// too: 9 alone comes ahead of 23.
fn strangers(set: &mut Set, size: Size) {
    let few: Vec<u8> = OWNERS.into_iter().chain(STRANGERS).collect();
    let mut held = Book::empty(3, [1, 1]);
    for owner in OWNERS {
        held.write(owner, Manner::Plain, STATE, &[owner; 33]).expect("it has room");
    }
    let mut spoilt = held.bytes();
    spoilt[4] = 2;
    let buffers = [held.bytes(), Book::empty(1, [0, 0]).bytes(), spoilt, vec![]];
    for owner in size.pick(few, (0..=255).collect()) {
        for buffer in &buffers {
            let mut lent = Lent::new(set, buffer);
            for text in texts() {
                for manner in Manner::BOTH {
                    each_refusal(set, &mut lent, owner, manner, &text);
                }
            }
            for client in [&b""[..], b"\xff", b"07 tendermint", b"07-tendermint-4", &[b'c'; 65]] {
                lent.check(set, &Call::Oldest(owner, client.to_vec()));
                lent.check(set, &Call::Clear(owner, client.to_vec(), 1));
            }
            for table in [lent.table(), vec![7; BUCKETS], vec![]] {
                for room in [0, 2 * ANSWER] {
                    let lines = [STATE, b"\nports"].concat();
                    lent.check(set, &Call::LookupMany(owner, table.clone(), lines, room));
                }
            }
        }
    }
}

/// Values and rooms that are refused, and some that are not; what a call changed is put back.
fn each_refusal(set: &mut Set, lent: &mut Lent, owner: u8, manner: Manner, text: &[u8]) {
    let before = lent.bytes();
    for room in [0, VALUE - 1, VALUE] {
        lent.check(set, &Call::Lookup(owner, manner, text.to_vec(), room));
    }
    for length in [0, 1, VALUE, VALUE + 1] {
        lent.check(set, &Call::Write(owner, manner, text.to_vec(), vec![9; length]));
    }
    lent.check(set, &Call::Remove(owner, manner, text.to_vec()));
    if lent.bytes() != before {
        *lent = Lent::new(set, &before);
    }
}
