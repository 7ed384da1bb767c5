//! The section 'The book' of document 01, with requests L4, L6, L10, L13 and L14: a map from owners and renderings to values,
//! and its bytes.
use std::collections::BTreeMap;
use std::ops::RangeInclusive;

use crate::identifier::Identifier;
use crate::many;
use crate::path::{self, read_with_key};
use crate::{
    hold, Mode, Refusal, ABSENT, BAD_BOOK, BAD_LENGTH, BAD_OWNER, FULL, KEY_TOO_LONG, LOOSE,
    NO_ROOM, RETIRED,
};

pub const KEY: usize = 255;

/// The bytes of the longest value; the shortest has one.
pub const VALUE: usize = 64;

/// The slots of the largest book.
pub const MOST: usize = 200;

/// The owners of records.
pub const OWNERS: [u8; 2] = [1, 2];

/// How many slots each owner may use.
pub type Quotas = [u16; 2];

pub type Value = Vec<u8>;

/// How a book stands in bytes. Calls take and make version 3; an older book is only converted.
#[derive(Clone, Copy, Debug, PartialEq, Eq)]
pub enum Version {
    One,
    Two,
    Three,
}

impl Version {
    pub fn number(self) -> u8 {
        match self {
            Self::One => 1,
            Self::Two => 2,
            Self::Three => 3,
        }
    }

    /// The bytes of the header.
    pub const fn head(self) -> usize {
        match self {
            Self::One | Self::Two => 8,
            Self::Three => 12,
        }
    }

    /// The bytes of a slot.
    pub const fn slot(self) -> usize {
        match self {
            Self::One => 288,
            Self::Two => 321,
            Self::Three => 322,
        }
    }

    /// The bytes of a book.
    pub const fn size(self, slots: usize) -> usize {
        self.head() + self.slot() * slots
    }

    /// The slots of a buffer of this length, where a book has such a length.
    pub fn slots(self, length: usize) -> Option<usize> {
        (1..=MOST).find(|slots| self.size(*slots) == length)
    }

    /// A slot's owner, and its bytes from the key's length on. In an older book every record is owner 1's.
    fn owner(self, slot: &[u8]) -> (u8, &[u8]) {
        match self {
            Self::One | Self::Two => (1, slot),
            Self::Three => (slot[0], &slot[1..]),
        }
    }

    /// The value in its field: 32 bytes; or 1 to 64 behind their number, and zeros.
    fn value(self, field: &[u8]) -> Option<&[u8]> {
        if self == Self::One {
            return Some(field);
        }
        let length = usize::from(field[0]);
        let value = field[1..].get(..length).filter(|value| !value.is_empty())?;
        field[1 + length..].iter().all(|byte| *byte == 0).then_some(value)
    }
}

/// The bytes of a header, and of a slot, of version 3.
pub const HEAD: usize = Version::Three.head();
pub const SLOT: usize = Version::Three.slot();

/// The kind of a consensus state.
pub const STATE: u8 = 5;

/// The kinds of a consensus state, its processed time and its processed height.
pub const STATES: RangeInclusive<u8> = STATE..=STATE + 2;

/// The kind of a client's connections, which is written no more.
pub const CONNECTIONS: u8 = 8;

/// How a call takes its text: a plain one only where it is its own key, a lenient one in every spelling.
#[derive(Clone, Copy, Debug, PartialEq, Eq)]
pub enum Manner {
    Plain,
    Lenient,
}

impl Manner {
    pub const BOTH: [Self; 2] = [Self::Plain, Self::Lenient];
}

/// The key of a text: its rendering. 1, 2, 3 (or 17, 18, 19, without the place), in a plain call 20, 10.
pub fn key(manner: Manner, text: &[u8]) -> Result<Vec<u8>, Refusal> {
    let (_, key) = read_with_key(Mode::Plain, text)?;
    hold(manner == Manner::Lenient || key == text, LOOSE)?;
    hold(key.len() <= KEY, KEY_TOO_LONG)?;
    Ok(key)
}

/// 23.
pub fn known(owner: u8) -> Result<(), Refusal> {
    hold(OWNERS.contains(&owner), BAD_OWNER)
}

/// 23, then those of the text.
fn place(owner: u8, manner: Manner, text: &[u8]) -> Result<(u8, Vec<u8>), Refusal> {
    known(owner)?;
    Ok((owner, key(manner, text)?))
}

/// Both quotas together, which may be more than 16 bits hold.
fn sum(quotas: Quotas) -> usize {
    quotas.map(usize::from).iter().sum()
}

/// A proper book.
#[derive(Clone, Debug, PartialEq, Eq)]
pub struct Book {
    slots: usize,
    quotas: Quotas,
    records: BTreeMap<(u8, Vec<u8>), Value>,
}

impl Book {
    pub fn empty(slots: usize, quotas: Quotas) -> Self {
        assert!((1..=MOST).contains(&slots), "{slots} slots");
        assert!(sum(quotas) <= slots, "{quotas:?} of {slots} slots");
        Self { slots, quotas, records: BTreeMap::new() }
    }

    /// Without records, and all slots for owner 1.
    pub fn ones(slots: usize) -> Self {
        Self::empty(slots, [slots as u16, 0])
    }

    pub fn quotas(&self) -> Quotas {
        self.quotas
    }

    /// An owner's records in the order of their keys.
    pub fn records_of(&self, owner: u8) -> impl Iterator<Item = (&Vec<u8>, &Value)> {
        let own = self.records.iter().filter(move |((of, _), _)| *of == owner);
        own.map(|((_, key), value)| (key, value))
    }

    /// How many slots of its quota each owner has free.
    pub fn free(&self) -> [usize; 2] {
        let free = |at: usize| usize::from(self.quotas[at]) - self.records_of(OWNERS[at]).count();
        [free(0), free(1)]
    }

    /// Owners and keys in their order.
    pub fn keys(&self) -> impl Iterator<Item = &(u8, Vec<u8>)> {
        self.records.keys()
    }

    /// 23, 1, 2, 3, in a plain call 20, 10, 25, 6, 11.
    pub fn write(
        &mut self,
        owner: u8,
        manner: Manner,
        text: &[u8],
        value: &[u8],
    ) -> Result<(), Refusal> {
        let (owner, key) = place(owner, manner, text)?;
        hold(kind_of(&key) != CONNECTIONS, RETIRED)?;
        hold((1..=VALUE).contains(&value.len()), BAD_LENGTH)?;
        self.enter(owner, &key, value)
    }

    /// A record of any kind, as an earlier release of the library wrote it too. 11.
    pub fn enter(&mut self, owner: u8, key: &[u8], value: &[u8]) -> Result<(), Refusal> {
        let place = (owner, key.to_vec());
        let full = self.free()[usize::from(owner) - 1] == 0;
        hold(!full || self.records.contains_key(&place), FULL)?;
        self.records.insert(place, value.to_vec());
        Ok(())
    }

    /// 23, 1, 2, 3, in a plain call 20, 10, 12.
    pub fn remove(&mut self, owner: u8, manner: Manner, text: &[u8]) -> Result<(), Refusal> {
        self.records.remove(&place(owner, manner, text)?).map(|_| ()).ok_or(ABSENT)
    }

    /// 23, 1, 2, 3, in a plain call 20, 10, 4, 12.
    pub fn lookup(
        &self,
        owner: u8,
        manner: Manner,
        text: &[u8],
        room: usize,
    ) -> Result<Value, Refusal> {
        let place = place(owner, manner, text)?;
        hold(room >= VALUE, NO_ROOM)?;
        self.records.get(&place).cloned().ok_or(ABSENT)
    }

    /// 23, client checks, 12.
    pub fn oldest(&self, owner: u8, client: &[u8]) -> Result<[u64; 2], Refusal> {
        known(owner)?;
        Identifier::Client.check(Mode::Plain, client)?;
        self.states(owner, client).into_iter().min().ok_or(ABSENT)
    }

    /// 23, client checks. The states that are to be kept are the last in rising order of their pairs, and the rest go, each with
    /// its time and height. A time or height without a state goes where it is below every kept one. Where there is no
    /// state, nothing does. How many records went.
    pub fn clear(&mut self, owner: u8, client: &[u8], keep: u64) -> Result<u64, Refusal> {
        known(owner)?;
        Identifier::Client.check(Mode::Plain, client)?;
        let mut states = self.states(owner, client);
        states.sort();
        let kept = usize::try_from(keep).map_or(states.len(), |keep| keep.min(states.len()));
        let (rest, kept) = states.split_at(states.len() - kept);
        let goes = |pair| rest.contains(&pair) || kept.iter().all(|one| pair < *one);
        let before = self.records.len();
        self.records.retain(|(of, key), _| {
            let pair = pair_of(key, client, STATES).filter(|_| *of == owner && !states.is_empty());
            !pair.is_some_and(goes)
        });
        Ok((before - self.records.len()) as u64)
    }

    /// The pairs of an owner's states of a client.
    fn states(&self, owner: u8, client: &[u8]) -> Vec<[u64; 2]> {
        let state = |(key, _): (&Vec<u8>, _)| pair_of(key, client, STATE..=STATE);
        self.records_of(owner).filter_map(state).collect()
    }

    /// Header, a slot for each record in order of owner and key, and zeros.
    pub fn bytes(&self) -> Vec<u8> {
        self.bytes_of(Version::Three)
    }

    /// The same in a version: in version 1 each value has 32 bytes, and in versions 1 and 2 each record is owner 1's.
    pub fn bytes_of(&self, version: Version) -> Vec<u8> {
        let count = self.records.len() as u16;
        let mut bytes = [&b"HPB\0"[..], &[version.number()], &count.to_be_bytes(), &[0]].concat();
        if version == Version::Three {
            bytes.extend(self.quotas.iter().flat_map(|quota| quota.to_be_bytes()));
        }
        for (at, ((owner, key), value)) in self.records.iter().enumerate() {
            match version {
                Version::Three => bytes.push(*owner),
                Version::One | Version::Two => assert_eq!(*owner, 1, "no other owner"),
            }
            let field = bytes.len();
            bytes.push(key.len() as u8);
            bytes.extend(key);
            bytes.resize(field + 1 + KEY, 0);
            if version != Version::One {
                bytes.push(value.len() as u8);
            }
            bytes.extend(value);
            bytes.resize(version.size(at + 1), 0);
        }
        bytes.resize(version.size(self.slots), 0);
        bytes
    }

    /// The book that a buffer is, if it is one.
    pub fn of(bytes: &[u8]) -> Option<Self> {
        Self::of_version(Version::Three, bytes)
    }

    /// The same of a version; an older book is all owner 1's.
    pub fn of_version(version: Version, bytes: &[u8]) -> Option<Self> {
        let (quotas, records) = parts(version, bytes)?;
        let record = |(owner, key, value): Record| ((owner, key.to_vec()), value.to_vec());
        let slots = version.slots(bytes.len())?;
        Some(Self { slots, quotas, records: records.into_iter().map(record).collect() })
    }
}

/// The revision number and height of a key, where it is the client's and of these kinds.
fn pair_of(key: &[u8], client: &[u8], kinds: RangeInclusive<u8>) -> Option<[u64; 2]> {
    let reading = path::read(Mode::Plain, key).expect("a key is a path");
    let of = kinds.contains(&reading.kind) && reading.first.of(key) == client;
    of.then_some(reading.numbers)
}

/// The kind of a key.
pub fn kind_of(key: &[u8]) -> u8 {
    path::read(Mode::Plain, key).expect("a key is a path").kind
}

/// Whether a buffer is a book.
pub fn is_book(bytes: &[u8]) -> bool {
    parts(Version::Three, bytes).is_some()
}

/// An owner, a key and a value.
type Record<'a> = (u8, &'a [u8], &'a [u8]);

/// The quotas and the records of a book: the documents' sentences on a buffer's bytes, without the map and the layout
/// above.
fn parts(version: Version, bytes: &[u8]) -> Option<(Quotas, Vec<Record<'_>>)> {
    let slots = version.slots(bytes.len())?;
    let (head, rest) = bytes.split_at(version.head());
    let number = |at: usize| u16::from(head[at]) * 256 + u16::from(head[at + 1]);
    let count = usize::from(number(5));
    let framed = head[..5] == [b'H', b'P', b'B', 0, version.number()] && head[7] == 0;
    if !framed || count > slots {
        return None;
    }
    let quotas =
        if version == Version::Three { [number(8), number(10)] } else { [slots as u16, 0] };
    let (used, unused) = rest.split_at(version.slot() * count);
    let slots_used = used.chunks(version.slot());
    let records: Vec<Record> =
        slots_used.map(|slot| record(version, slot)).collect::<Option<_>>()?;
    let rising = records.windows(2).all(|two| (two[0].0, two[0].1) < (two[1].0, two[1].1));
    let within = OWNERS.into_iter().zip(quotas).all(|(owner, quota)| {
        records.iter().filter(|record| record.0 == owner).count() <= usize::from(quota)
    });
    let proper = rising && within && sum(quotas) <= slots;
    (proper && unused.iter().all(|byte| *byte == 0)).then_some((quotas, records))
}

/// What a used slot has: an owner that there is, a key that reads back exact, and zeros to fill its field, and a value.
fn record(version: Version, slot: &[u8]) -> Option<Record<'_>> {
    let (owner, rest) = version.owner(slot);
    let (key, fill) = rest[1..1 + KEY].split_at(rest[0].into());
    let exact = path::read(Mode::Plain, key).is_ok_and(|reading| reading.exact);
    let kept = OWNERS.contains(&owner) && exact && fill.iter().all(|byte| *byte == 0);
    kept.then_some((owner, key, version.value(&rest[1 + KEY..])?))
}

/// A call that is lent a book. An owner is any number of one byte.
#[derive(Clone, Debug, PartialEq, Eq)]
pub enum Call {
    New(Quotas),
    Write(u8, Manner, Vec<u8>, Vec<u8>),
    Remove(u8, Manner, Vec<u8>),
    /// An owner, a text, and the room for what it holds.
    Lookup(u8, Manner, Vec<u8>, usize),
    Oldest(u8, Vec<u8>),
    /// An owner, a client, and how many of its states are to be kept.
    Clear(u8, Vec<u8>, u64),
    /// A book of version 1, to be turned into one of version 2 in the buffer that is lent.
    Convert(Vec<u8>),
    /// A book of version 2, to be turned into one of version 3.
    ConvertOwners(Vec<u8>, Quotas),
    /// The size of a buffer, of which a table is made.
    Fill(usize),
    /// An owner, a table, texts that byte 10 ends, and the room for what they hold.
    LookupMany(u8, Vec<u8>, Vec<u8>, usize),
}

impl Call {
    /// Whose call it is.
    pub fn owner(&self) -> Option<u8> {
        match self {
            Self::Write(owner, ..)
            | Self::Remove(owner, ..)
            | Self::Lookup(owner, ..)
            | Self::Oldest(owner, _)
            | Self::Clear(owner, ..)
            | Self::LookupMany(owner, ..) => Some(*owner),
            Self::New(_) | Self::Convert(_) | Self::ConvertOwners(..) | Self::Fill(_) => None,
        }
    }

    /// The path that a call is on: an owner, and the rendering of a text, of any length.
    pub fn path(&self) -> Option<(u8, Vec<u8>)> {
        match self {
            Self::Write(owner, _, text, _)
            | Self::Remove(owner, _, text)
            | Self::Lookup(owner, _, text, _) => {
                known(*owner).ok()?;
                read_with_key(Mode::Plain, text).ok().map(|(_, key)| (*owner, key))
            }
            _ => None,
        }
    }
}

/// What a call gives besides a changed book.
#[derive(Clone, Debug, PartialEq, Eq)]
pub enum Given {
    Nothing,
    Value(Value),
    Heights([u64; 2]),
    /// How many records went.
    Count(u64),
    /// A table, of whose length nothing is said.
    Table(Vec<u8>),
}

pub type Answer = Result<Given, Refusal>;

/// A buffer lent as a book, which may be none.
#[derive(Clone, Debug, PartialEq, Eq)]
pub enum Buffer {
    Book(Book),
    Other(Vec<u8>),
}

impl Buffer {
    pub fn of(bytes: &[u8]) -> Self {
        Book::of(bytes).map_or_else(|| Self::Other(bytes.to_vec()), Self::Book)
    }

    pub fn bytes(&self) -> Vec<u8> {
        match self {
            Self::Book(book) => book.bytes(),
            Self::Other(bytes) => bytes.clone(),
        }
    }

    /// Making a new book and converting one look at the length alone; every other call gives 9 first.
    pub fn act(&mut self, call: &Call) -> Answer {
        let done = |()| Given::Nothing;
        match (call, &mut *self) {
            (Call::New(quotas), _) => self.renew(*quotas).map(done),
            (Call::Convert(old), _) => self.convert(old).map(done),
            (Call::ConvertOwners(old, quotas), _) => self.convert_owners(old, *quotas).map(done),
            (_, Self::Other(_)) => Err(BAD_BOOK),
            (Call::Write(owner, manner, text, value), Self::Book(book)) => {
                book.write(*owner, *manner, text, value).map(done)
            }
            (Call::Remove(owner, manner, text), Self::Book(book)) => {
                book.remove(*owner, *manner, text).map(done)
            }
            (Call::Lookup(owner, manner, text, room), Self::Book(book)) => {
                book.lookup(*owner, *manner, text, *room).map(Given::Value)
            }
            (Call::Oldest(owner, client), Self::Book(book)) => {
                book.oldest(*owner, client).map(Given::Heights)
            }
            (Call::Clear(owner, client, keep), Self::Book(book)) => {
                book.clear(*owner, client, *keep).map(Given::Count)
            }
            (Call::Fill(room), Self::Book(book)) => many::fill(book, *room).map(Given::Table),
            (Call::LookupMany(owner, table, texts, room), Self::Book(book)) => {
                many::lookups(book, *owner, table, texts, *room).map(Given::Value)
            }
        }
    }

    /// 9, 11.
    fn renew(&mut self, quotas: Quotas) -> Result<(), Refusal> {
        let slots = Version::Three.slots(self.bytes().len()).ok_or(BAD_BOOK)?;
        hold(sum(quotas) <= slots, FULL)?;
        *self = Self::Book(Book::empty(slots, quotas));
        Ok(())
    }

    /// 9, 4.
    fn convert(&mut self, old: &[u8]) -> Result<(), Refusal> {
        let book = Book::of_version(Version::One, old).ok_or(BAD_BOOK)?;
        hold(self.bytes().len() == Version::Two.size(book.slots), NO_ROOM)?;
        *self = Self::Other(book.bytes_of(Version::Two));
        Ok(())
    }

    /// 9, 4, 11.
    fn convert_owners(&mut self, old: &[u8], quotas: Quotas) -> Result<(), Refusal> {
        let book = Book::of_version(Version::Two, old).ok_or(BAD_BOOK)?;
        hold(self.bytes().len() == Version::Three.size(book.slots), NO_ROOM)?;
        let enough = book.records.len() <= usize::from(quotas[0]);
        hold(enough && sum(quotas) <= book.slots, FULL)?;
        *self = Self::Book(Book { quotas, ..book });
        Ok(())
    }
}
