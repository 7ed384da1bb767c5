//! The record book: lists of calls by chance, lists rearranged, and the lengths that tell.
use std::collections::BTreeMap;

use model::book::{Answer, Book, Buffer, Call, Manner, Quotas, MOST, OWNERS, VALUE};
use model::many::{filled, BUCKETS};
use model::path::KINDS;
use model::pool::Pools;
use model::random::Random;
use model::spelling::{self, Spelt};
use model::FULL;

use crate::call::{self, Function};
use crate::set::Set;
use crate::{Sets, Size};

pub const SETS: Sets = &[
    ("books, calls by chance", chance),
    ("books, lists rearranged", rearranged),
    ("books, lengths of keys, values and rooms", edges),
    ("books, loose texts of every kind", loose),
];

/// Owners that are none.
pub const STRANGERS: [u8; 3] = [0, 3, 255];

/// Lengths of values that tell.
pub const SIZES: [usize; 6] = [1, 31, 32, 33, 63, VALUE];

/// A state's key.
pub const STATE: &[u8] = b"clients/07-tendermint-4/consensusStates/7-2";

/// A loose spelling of it.
pub const PADDED: &[u8] = b"clients/07-tendermint-4/consensusStates/007-2";

/// A buffer lent to the library and to the model.
pub struct Lent(Buffer);

impl Lent {
    pub fn new(set: &mut Set, bytes: &[u8]) -> Self {
        set.lend_book(bytes);
        Self(Buffer::of(bytes))
    }

    /// The table that filling gives; of a buffer that is no book, one without buckets.
    pub fn table(&self) -> Vec<u8> {
        match &self.0 {
            Buffer::Book(book) => filled(book),
            Buffer::Other(_) => vec![0; BUCKETS],
        }
    }

    pub fn bytes(&self) -> Vec<u8> {
        self.0.bytes()
    }

    /// The book that it is, where it is one.
    pub fn book(&self) -> Option<&Book> {
        match &self.0 {
            Buffer::Book(book) => Some(book),
            Buffer::Other(_) => None,
        }
    }

    /// A check of a call: its answer, and all bytes of the book after it.
    pub fn check(&mut self, set: &mut Set, call: &Call) {
        set.count();
        let _ = self.call(set, call);
    }

    pub fn call(&mut self, set: &mut Set, call: &Call) -> Answer {
        let answer = self.0.act(call);
        let (asked, room) = asked(call);
        set.on_book(asked, room, &answer, &self.0.bytes());
        answer
    }
}

/// A call over the C interface, and the room for what it gives.
fn asked(call: &Call) -> (call::Call<'_>, usize) {
    let (function, texts, room): (_, [&[u8]; 2], _) = match call {
        Call::New(_) => (Function::BookNew, [b"", b""], 0),
        Call::Write(_, manner, text, value) => {
            (by(*manner, Function::BookWrite, Function::BookWriteLenient), [text, value], 0)
        }
        Call::Remove(_, manner, text) => {
            (by(*manner, Function::BookRemove, Function::BookRemoveLenient), [text, b""], 0)
        }
        Call::Lookup(_, manner, text, room) => {
            (by(*manner, Function::BookLookup, Function::BookLookupLenient), [text, b""], *room)
        }
        Call::Oldest(_, client) => (Function::BookOldest, [client, b""], 0),
        Call::Clear(_, client, _) => (Function::BookClear, [client, b""], 0),
        Call::Convert(old) => (Function::BookConvert, [old, b""], 0),
        Call::ConvertOwners(old, _) => (Function::BookConvertOwners, [old, b""], 0),
        Call::Fill(room) => (Function::BookFill, [b"", b""], *room),
        Call::LookupMany(_, table, texts, room) => {
            (Function::BookLookupMany, [table, texts], *room)
        }
    };
    let numbers = match call {
        Call::New(quotas) | Call::ConvertOwners(_, quotas) => quotas.map(u64::from),
        Call::Clear(_, _, keep) => [*keep, 0],
        _ => [0, 0],
    };
    let kind = call.owner().unwrap_or_default();
    (call::Call { function, kind, texts, numbers }, room)
}

/// The function of a call in its manner.
fn by(manner: Manner, plain: Function, lenient: Function) -> Function {
    match manner {
        Manner::Plain => plain,
        Manner::Lenient => lenient,
    }
}

/// Calls by chance on a few paths, and now and then on other texts.
pub struct Chance<'a> {
    random: &'a mut Random,
    pools: &'a Pools,
    slots: usize,
    paths: Vec<Spelt>,
}

impl<'a> Chance<'a> {
    /// For a book of so many slots: some paths more than it can hold, or less.
    pub fn new(random: &'a mut Random, pools: &'a Pools, slots: usize) -> Self {
        let count = 1 + random.below(slots + 6).max(slots * random.below(2));
        let paths = (0..count).map(|_| Spelt::chance(random)).collect();
        Self { random, pools, slots, paths }
    }

    /// A book with none, some or as many as this of its slots used, as far as quotas go.
    pub fn book(&mut self, most: usize, slots: usize) -> Book {
        let some = self.random.below(most + 1);
        let used = self.random.of(&[0, some, most]);
        let mut book = Book::empty(slots, quotas(self.random, slots));
        for path in &self.paths[..used.min(self.paths.len())] {
            let value = vec![self.random.word() as u8; self.random.of(&SIZES)];
            let owner = self.random.of(&OWNERS);
            let mut enter = |owner| book.enter(owner, &path.exact(), &value);
            let _ = enter(owner).or_else(|_| enter(3 - owner));
        }
        book
    }

    fn manner(&mut self) -> Manner {
        self.random.of(&Manner::BOTH)
    }

    /// Mostly one that there is.
    pub fn owner(&mut self) -> u8 {
        if self.random.one_in(24) {
            return self.random.of(&STRANGERS);
        }
        self.random.of(&OWNERS)
    }

    pub fn text(&mut self) -> Vec<u8> {
        if self.random.one_in(12) {
            return spelling::odd(self.pools, self.random);
        }
        let at = self.random.below(self.paths.len());
        self.paths[at].spelling(self.random)
    }

    fn write(&mut self, owner: u8) -> Call {
        let length = match self.random.below(24) {
            0 => self.random.of(&[0, 65]),
            1..=12 => self.random.of(&SIZES),
            _ => 1 + self.random.below(VALUE),
        };
        let value = (0..length).map(|_| self.random.word() as u8).collect();
        Call::Write(owner, self.manner(), self.text(), value)
    }

    fn remove_or_lookup(&mut self, owner: u8) -> Call {
        let (manner, text) = (self.manner(), self.text());
        match self.random.below(16) {
            0..=7 => Call::Remove(owner, manner, text),
            8 => Call::Lookup(owner, manner, text, self.random.of(&[0, 32, 63, 65])),
            _ => Call::Lookup(owner, manner, text, VALUE),
        }
    }

    /// Mostly a client of these paths.
    fn client(&mut self) -> Vec<u8> {
        let mut client = spelling::client(self.random).into_bytes();
        let times = usize::from(self.random.one_in(8));
        self.random.damage(&mut client, times);
        client
    }

    fn oldest(&mut self, owner: u8) -> Call {
        Call::Oldest(owner, self.client())
    }

    fn clear(&mut self, owner: u8) -> Call {
        let few = self.random.below(4) as u64;
        Call::Clear(owner, self.client(), self.random.of(&[few, few, few, u64::MAX]))
    }

    /// A new book, now and then with quotas that are none of it.
    fn renewal(&mut self) -> Call {
        let mut quotas = quotas(self.random, self.slots);
        if self.random.one_in(3) {
            let most = self.slots as u16;
            quotas[self.random.below(2)] = self.random.of(&[most, most + 1, 32_768, 65_535]);
        }
        Call::New(quotas)
    }

    /// A call of an owner's.
    pub fn owned(&mut self) -> Call {
        let owner = self.owner();
        match self.random.below(66) {
            0..=7 => self.oldest(owner),
            8..=35 => self.write(owner),
            36..=38 => self.clear(owner),
            _ => self.remove_or_lookup(owner),
        }
    }

    pub fn call(&mut self) -> Call {
        if self.random.one_in(64) {
            return self.renewal();
        }
        self.owned()
    }

    /// A list with no more writes of each owner's than this; one with an owner that is none charges nobody.
    fn list(&mut self, mut left: [usize; 2]) -> Vec<Call> {
        let length = 1 + self.random.below(24);
        let mut one = || {
            let owner = self.owner();
            let left = OWNERS.iter().position(|one| *one == owner).map(|at| &mut left[at]);
            if left == Some(&mut 0) || self.random.one_in(2) {
                return self.remove_or_lookup(owner);
            }
            left.into_iter().for_each(|left| *left -= 1);
            self.write(owner)
        };
        (0..length).map(|_| one()).collect()
    }
}

/// Quotas of a book: all slots for one owner, all shared out, or some for neither.
pub fn quotas(random: &mut Random, slots: usize) -> Quotas {
    let first = random.below(slots + 1);
    let second = random.below(slots - first + 1);
    let shared = [first, slots - first];
    let all = [[slots, 0], [0, slots], shared, shared, shared, [first, second]];
    random.of(&all).map(|quota| quota as u16)
}

/// Mostly few slots; now and then any number, or the most.
pub fn slots(random: &mut Random) -> usize {
    match random.below(32) {
        0 => MOST,
        1 | 2 => 1 + random.below(MOST),
        3..=6 => 1 + random.below(40),
        7..=10 => 1,
        _ => 1 + random.below(6),
    }
}

/// Lists of 32 calls of every sort on one book.
fn chance(set: &mut Set, size: Size) {
    let (mut random, pools) = (Random(7), Pools::default());
    for _ in 0..size.pick(3_000, 40_000) {
        let slots = slots(&mut random);
        let mut chance = Chance::new(&mut random, &pools, slots);
        let mut lent = Lent::new(set, &chance.book(slots, slots).bytes());
        for _ in 0..32 {
            lent.check(set, &chance.call());
        }
    }
}

/// Demand 3: a list of both owners with no more writes of each than it has slots free, and a rearrangement that keeps
/// calls on one path in their order, where a path is an owner and a rendering. A check is a list, and of the second run the
/// answers of the first are expected.
fn rearranged(set: &mut Set, size: Size) {
    let (mut random, pools) = (Random(8), Pools::default());
    for _ in 0..size.pick(4_000, 120_000) {
        let (held, more) = (slots(&mut random), random.below(13));
        let mut chance = Chance::new(&mut random, &pools, held);
        let book = chance.book(held, (held + more).min(MOST));
        let list = chance.list(book.free());
        set.count();
        let mut first = Lent::new(set, &book.bytes());
        let answers: Vec<Answer> = list.iter().map(|call| first.call(set, call)).collect();
        assert!(!answers.contains(&Err(FULL)), "{list:?}");
        let mut second = Lent::new(set, &book.bytes());
        for at in rearrangement(&list, &mut random) {
            assert_eq!(second.call(set, &list[at]), answers[at], "{list:?}");
        }
        assert_eq!(first.0, second.0, "{list:?}");
    }
}

/// The places of a list's calls in a chance order that keeps calls on one path in theirs.
fn rearrangement(list: &[Call], random: &mut Random) -> Vec<usize> {
    let mut order: Vec<usize> = (0..list.len()).collect();
    random.shuffle(&mut order);
    let mut paths: BTreeMap<(u8, Vec<u8>), Vec<usize>> = BTreeMap::new();
    for (place, at) in order.iter().enumerate() {
        if let Some(path) = list[*at].path() {
            paths.entry(path).or_default().push(place);
        }
    }
    for places in paths.values() {
        let mut calls: Vec<usize> = places.iter().map(|place| order[*place]).collect();
        calls.sort();
        places.iter().zip(calls).for_each(|(place, call)| order[*place] = call);
    }
    order
}

/// Keys of each length around the longest, each length of value and each room: in a book where the owner has the key, in one
/// where the other has it, and in one where the owner's quota is full without it.
fn edges(set: &mut Set, _: Size) {
    let mut random = Random(9);
    let mut paths: Vec<Spelt> =
        (248..=260).chain([300]).map(|length| Spelt::long(length, &mut random)).collect();
    paths.push(Spelt::longest());
    for path in &paths {
        let texts = [path.exact(), path.spelling(&mut random), path.spelling(&mut random)];
        let [mut ones, mut twos, mut full] = [(); 3].map(|()| Book::empty(2, [1, 1]));
        let _ = ones.write(1, Manner::Plain, &path.exact(), &[1; 33]);
        let _ = twos.write(2, Manner::Plain, &path.exact(), &[2; 33]);
        full.write(1, Manner::Plain, b"ports/transfer", &[3; VALUE]).expect("it has room");
        for book in [ones, twos, full] {
            for text in &texts {
                for owner in OWNERS {
                    for manner in Manner::BOTH {
                        each_length(set, &book.bytes(), owner, manner, text);
                    }
                }
            }
        }
    }
}

fn each_length(set: &mut Set, book: &[u8], owner: u8, manner: Manner, text: &[u8]) {
    let mut lent = Lent::new(set, book);
    for room in 0..=70 {
        lent.check(set, &Call::Lookup(owner, manner, text.to_vec(), room));
    }
    for length in (0..=70).chain([32, 255, 256, 257, 288, 320, 321, 322, 4096]) {
        lent.check(set, &Call::Write(owner, manner, text.to_vec(), vec![length as u8; length]));
    }
    lent.check(set, &Call::Remove(owner, manner, text.to_vec()));
    lent.check(set, &Call::Remove(owner, manner, text.to_vec()));
}

/// Of every kind a path with an exact text, a loose one where it has a number, and others by chance: each call in
/// both manners, in a book where an owner has the path and in one where nobody does.
fn loose(set: &mut Set, size: Size) {
    let mut random = Random(16);
    for kind in 1..=KINDS.len() as u8 {
        for _ in 0..size.pick(20, 2_000) {
            let (path, owner) = (Spelt::of(kind, &mut random), random.of(&OWNERS));
            let without = Book::empty(2, [1, 1]);
            let mut with = without.clone();
            let _ = with.enter(random.of(&OWNERS), &path.exact(), &[1; 33]);
            for text in [path.exact(), path.loose(), path.spelling(&mut random)] {
                for manner in Manner::BOTH {
                    each_call(set, &with.bytes(), owner, manner, &text);
                    each_call(set, &without.bytes(), owner, manner, &text);
                }
            }
        }
    }
}

fn each_call(set: &mut Set, book: &[u8], owner: u8, manner: Manner, text: &[u8]) {
    let mut lent = Lent::new(set, book);
    lent.check(set, &Call::Lookup(owner, manner, text.to_vec(), VALUE));
    lent.check(set, &Call::Write(owner, manner, text.to_vec(), vec![2; VALUE]));
    lent.check(set, &Call::Remove(owner, manner, text.to_vec()));
}
