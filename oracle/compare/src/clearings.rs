//! Old states cleared out: pairs whose order is not that of their texts, times and heights without a state, clients and owners
//! that are near each other, full books, lists with clearings among other calls, and what is refused.
use std::collections::BTreeSet;

use model::book::{
    kind_of, Book, Call, Given, Manner, Version, MOST, OWNERS, STATE, STATES, VALUE,
};
use model::path::{read, render};
use model::pool::filled;
use model::random::Random;
use model::{Mode, FULL};

use crate::books::{Lent, STRANGERS};
use crate::set::Set;
use crate::{Sets, Size};

pub const SETS: Sets = &[
    ("clearings, pairs and their neighbours", pairs),
    ("clearings, full books", full),
    ("clearings, clients and owners", clients),
    ("clearings, lists of calls", lists),
    ("clearings, places changed", moved),
    ("clearings, refusals", refusals),
];

/// A revision number and height.
type Pair = [u64; 2];

/// Pairs whose order is not that of their texts, and the first and the last that there are.
const TELLING: [Pair; 8] = [
    [10, 2],
    [7, 2],
    [9, 100],
    [0, 0],
    [u64::MAX, u64::MAX],
    [9, 99],
    [0, u64::MAX],
    [u64::MAX, 0],
];

const CLIENT: &str = "07-tendermint-4";

/// A key of a client's: of kinds 5, 6 and 7 with a pair, and of others without.
fn key(kind: u8, client: &str, pair: Pair) -> Vec<u8> {
    render(Mode::Plain, kind, client.as_bytes(), b"", pair).expect("a path")
}

/// A book of these keys of an owner's, each with a value of its own, and of some of the other's, in as many slots as quotas
/// leave.
fn book_of(keys: &BTreeSet<(u8, Vec<u8>)>, more: usize) -> Book {
    let quotas = OWNERS.map(|owner| keys.iter().filter(|(of, _)| *of == owner).count() as u16);
    let slots = (keys.len() + more).clamp(1, MOST);
    let mut book = Book::empty(slots, quotas);
    for (at, (owner, key)) in keys.iter().enumerate() {
        let value = vec![at as u8; 1 + at % VALUE];
        book.enter(*owner, key, &value).expect("it has room");
    }
    book
}

/// The pair right below another, and the one right above it.
fn neighbours([number, height]: Pair) -> [Option<Pair>; 2] {
    let below = height.checked_sub(1).map(|height| [number, height]);
    let above = height.checked_add(1).map(|height| [number, height]);
    [
        below.or(number.checked_sub(1).map(|number| [number, u64::MAX])),
        above.or(number.checked_add(1).map(|number| [number, 0])),
    ]
}

/// How many to keep of so many states.
fn keeps(states: usize) -> BTreeSet<u64> {
    let near = [0, 1, 2, states / 2, states.saturating_sub(1), states, states + 1];
    near.into_iter().map(|keep| keep as u64).chain([1 << 32, u64::MAX - 1, u64::MAX]).collect()
}

/// A clearing, and what it leaves: nothing for the same clearing, and for writes as many slots as records went. Of these a few
/// are used, where there are no more of them up to a write that is refused.
fn clear(set: &mut Set, lent: &mut Lent, owner: u8, client: &str, keep: u64) {
    let call = Call::Clear(owner, client.into(), keep);
    set.count();
    let answer = lent.call(set, &call);
    let Ok(Given::Count(gone)) = answer else { panic!("{answer:?}") };
    assert_eq!(lent.call(set, &call), Ok(Given::Count(0)), "it was cleared");
    lent.check(set, &Call::Oldest(owner, client.into()));
    for port in 0..=gone.min(3) {
        let port = format!("ports/freed.{port}").into_bytes();
        lent.check(set, &Call::Write(owner, Manner::Plain, port, vec![9; 3]));
    }
}

/// Every few of the telling pairs as states, with times and heights beside them and beside their neighbours, which have no
/// state; and every number to keep.
fn pairs(set: &mut Set, size: Size) {
    let telling = &TELLING[..size.pick(5, TELLING.len())];
    for chosen in 0..1u32 << telling.len() {
        let of = |at: &usize| chosen >> at & 1 == 1;
        let states: BTreeSet<Pair> = (0..telling.len()).filter(of).map(|at| telling[at]).collect();
        let near = telling
            .iter()
            .copied()
            .chain(telling.iter().flat_map(|pair| neighbours(*pair)).flatten());
        let orphans: BTreeSet<Pair> = near.filter(|pair| !states.contains(pair)).collect();
        for beside in 0..16 {
            let mut keys: BTreeSet<Vec<u8>> =
                states.iter().map(|pair| key(STATE, CLIENT, *pair)).collect();
            for (pairs, first) in [(&states, 0), (&orphans, 2)] {
                let kinds = (0..2).filter(|bit| beside >> (first + bit) & 1 == 1);
                let of = |kind: u8| pairs.iter().map(move |pair| key(kind, CLIENT, *pair));
                keys.extend(kinds.flat_map(|bit| of(STATE + 1 + bit)));
            }
            let keys = keys.into_iter().map(|key| (1, key)).collect();
            for keep in keeps(states.len()) {
                let mut lent = Lent::new(set, &book_of(&keys, 1).bytes());
                clear(set, &mut lent, 1, CLIENT, keep);
            }
        }
    }
}

/// A number of any size.
fn number(random: &mut Random) -> u64 {
    match random.below(4) {
        0 => random.word() >> random.below(64),
        1 => random.of(&[0, 9, 10, 99, 100, u64::MAX - 1, u64::MAX]),
        _ => random.below(12) as u64,
    }
}

fn pair(random: &mut Random) -> Pair {
    [number(random), number(random)]
}

/// The largest book, full of one client's records: states alone, states with time and height, and all three by chance.
fn full(set: &mut Set, size: Size) {
    let mut random = Random(23);
    for turn in 0..size.pick(24, 1_500) {
        let owner = OWNERS[turn % 2];
        let mut keys = BTreeSet::new();
        while keys.len() < MOST {
            let (pair, any) = (pair(&mut random), STATE + random.below(3) as u8);
            let kinds = match turn % 3 {
                0 => STATE..=STATE,
                1 => STATES,
                _ => any..=any,
            };
            keys.extend(kinds.map(|kind| (owner, key(kind, CLIENT, pair))));
        }
        while keys.len() > MOST {
            keys.pop_last();
        }
        let states = keys.iter().filter(|(_, key)| kind_of(key) == STATE).count();
        for keep in keeps(states) {
            let mut lent = Lent::new(set, &book_of(&keys, 0).bytes());
            clear(set, &mut lent, owner, CLIENT, keep);
        }
    }
}

/// A client that may be a height.
const DIGITS: &str = "700000000";

/// Clients of which one begins another, whose records stand beside each other's, with the shortest and the longest.
fn near() -> Vec<String> {
    let names = [
        CLIENT, "07-tendermint-", "07-tendermint-40", "07-tendermint-4+", "07-tendermint-4-",
        "07-tendermint-4]", DIGITS,
    ];
    let ends = [9, 64].map(|length| filled(CLIENT, '4', length));
    names.map(String::from).into_iter().chain(ends).collect()
}

/// Keys of every sort that stand around a client's states: its own other records, those of upgrade paths by its words.
fn around(client: &str) -> [Vec<u8>; 6] {
    [
        key(4, client, [0, 0]),
        key(8, client, [0, 0]),
        ["clients/", DIGITS, "/upgradedClient"].concat().into_bytes(),
        b"consensusStates/7/upgradedConsState".to_vec(),
        [client, "/7/upgradedClient"].concat().into_bytes(),
        b"connections/connection-7".to_vec(),
    ]
}

/// Both owners with the same clients, whose names begin one another, and other records around them.
fn clients(set: &mut Set, size: Size) {
    let (mut random, near) = (Random(24), near());
    for _ in 0..size.pick(12, 1_200) {
        let mut keys = BTreeSet::new();
        let most = 1 + random.below(MOST);
        while keys.len() < most {
            let (owner, at) = (random.of(&OWNERS), random.below(near.len()));
            let (kind, pair) = (
                STATE + random.below(3) as u8,
                [0, 0].map(|_| random.of(&[0, 2, 7, 10, u64::MAX])),
            );
            keys.insert((owner, key(kind, &near[at], pair)));
            if random.one_in(4) {
                keys.insert((owner, around(&near[at])[random.below(6)].clone()));
            }
            keys.insert((owner, key(STATE, &near[at], self::pair(&mut random))));
        }
        while keys.len() > MOST {
            keys.pop_last();
        }
        let book = book_of(&keys, 0).bytes();
        for client in &near {
            for owner in OWNERS {
                for keep in [0, 1, 2, random.below(20) as u64, u64::MAX] {
                    let mut lent = Lent::new(set, &book);
                    clear(set, &mut lent, owner, client, keep);
                }
            }
        }
        let mut lent = Lent::new(set, &book);
        for client in &near {
            for owner in OWNERS {
                clear(set, &mut lent, owner, client, random.below(5) as u64);
            }
        }
    }
}

/// Calls on the states of a few clients.
struct Chance<'a>(&'a mut Random);

impl Chance<'_> {
    fn client(&mut self) -> String {
        self.0.of(&[CLIENT, CLIENT, "07-tendermint-40", "07-tendermint-"]).into()
    }

    /// Mostly of a client's states.
    fn key(&mut self) -> Vec<u8> {
        let (client, pair) =
            (self.client(), [0, 0].map(|_| self.0.of(&[0, 1, 2, 7, 9, 10, 100, u64::MAX])));
        match self.0.below(16) {
            0 => around(&client)[self.0.below(6)].clone(),
            1..=9 => key(STATE, &client, pair),
            _ => key(STATE + 1 + self.0.below(2) as u8, &client, pair),
        }
    }

    /// By that owner.
    fn call(&mut self, owner: u8) -> Call {
        let manner = self.0.of(&Manner::BOTH);
        match self.0.below(16) {
            0..=9 => {
                let value = vec![self.0.word() as u8; 1 + self.0.below(VALUE)];
                Call::Write(owner, manner, self.key(), value)
            }
            10 | 11 => Call::Remove(owner, manner, self.key()),
            12 => Call::Lookup(owner, manner, self.key(), VALUE),
            13 => Call::Oldest(owner, self.client().into()),
            _ => self.clear(owner),
        }
    }

    fn clear(&mut self, owner: u8) -> Call {
        let few = self.0.below(6) as u64;
        Call::Clear(owner, self.client().into(), self.0.of(&[few, few, 2 * few, u64::MAX]))
    }

    /// A book of so many slots, with some records.
    fn book(&mut self, slots: usize) -> Book {
        let quotas = crate::books::quotas(self.0, slots);
        let mut book = Book::empty(slots, quotas);
        for _ in 0..self.0.below(2 * slots) {
            let value = vec![self.0.word() as u8; 1 + self.0.below(VALUE)];
            let _ = book.enter(self.0.of(&OWNERS), &self.key(), &value);
        }
        book
    }
}

/// Lists of 48 calls of both owners, clearings among them.
fn lists(set: &mut Set, size: Size) {
    let mut random = Random(25);
    for _ in 0..size.pick(1_000, 25_000) {
        let slots = if random.one_in(16) { MOST } else { 1 + random.below(40) };
        let mut chance = Chance(&mut random);
        let mut lent = Lent::new(set, &chance.book(slots).bytes());
        for _ in 0..48 {
            let owner = chance.0.of(&OWNERS);
            lent.check(set, &chance.call(owner));
        }
    }
}

/// Whether a call may change places with a clearing: it is of the other owner, or on no state of the client.
fn apart(clearing: &Call, other: &Call) -> bool {
    let Call::Clear(owner, client, _) = clearing else { return false };
    if other.owner() != Some(*owner) {
        return true;
    }
    match other {
        Call::Oldest(_, of) | Call::Clear(_, of, _) => of != client,
        _ => other.path().is_none_or(|(_, key)| {
            let reading = read(Mode::Plain, &key).expect("a key is a path");
            !STATES.contains(&reading.kind) || reading.first.of(&key) != &client[..]
        }),
    }
}

/// A clearing and a call that has nothing of its states, in both orders, where a write has room: the same answers and the same
/// bytes. A check is a pair of calls.
fn moved(set: &mut Set, size: Size) {
    let mut random = Random(26);
    for _ in 0..size.pick(6_000, 150_000) {
        let slots = 1 + random.below(24);
        let mut chance = Chance(&mut random);
        let (book, owner) = (chance.book(slots), chance.0.of(&OWNERS));
        let (clearing, by) = (chance.clear(owner), chance.0.of(&OWNERS));
        let other = chance.call(by);
        if !apart(&clearing, &other) {
            continue;
        }
        set.count();
        let mut run = |calls: [&Call; 2]| {
            let mut lent = Lent::new(set, &book.bytes());
            (calls.map(|call| lent.call(set, call)), lent.bytes())
        };
        let ([cleared, after], bytes) = run([&clearing, &other]);
        let ([before, cleared_after], others) = run([&other, &clearing]);
        if before != Err(FULL) {
            assert_eq!((cleared, after), (cleared_after, before), "{clearing:?} {other:?}");
            assert_eq!(bytes, others, "{clearing:?} {other:?}");
        }
    }
}

/// 9, 23, then the client's 2, 5 and 6, where each that follows could be given too.
fn refusals(set: &mut Set, size: Size) {
    let keys: BTreeSet<(u8, Vec<u8>)> = OWNERS
        .iter()
        .flat_map(|owner| TELLING.map(|pair| (*owner, key(STATE, CLIENT, pair))))
        .collect();
    let book = book_of(&keys, 2);
    let mut spoilt = book.bytes();
    *spoilt.last_mut().expect("it has bytes") = 1;
    let mut older = Book::ones(2);
    older.write(1, Manner::Plain, &key(STATE, CLIENT, [7, 2]), &[1; 32]).expect("it has room");
    let buffers = [
        book.bytes(),
        Book::empty(1, [0, 0]).bytes(),
        spoilt,
        older.bytes_of(Version::One),
        older.bytes_of(Version::Two),
        vec![],
    ];
    let long = filled("", 'c', 65);
    let texts: [&[u8]; 14] = [
        b"",
        b"\xff",
        b"/\xff",
        b"/",
        b"07-tendermint/4",
        b"07-tendermint-4/",
        b"07-tendermint-4/consensusStates",
        b" 07-tendermint-4",
        b"07-tendermint-4\0",
        b"clientid",
        b"clientidx",
        long.as_bytes(),
        &long.as_bytes()[1..],
        CLIENT.as_bytes(),
    ];
    let few: Vec<u8> = OWNERS.into_iter().chain(STRANGERS).collect();
    for owner in size.pick(few, (0..=255).collect()) {
        for buffer in &buffers {
            for text in texts {
                for keep in [0, 1, u64::MAX] {
                    let mut lent = Lent::new(set, buffer);
                    lent.check(set, &Call::Clear(owner, text.to_vec(), keep));
                }
            }
        }
    }
}
