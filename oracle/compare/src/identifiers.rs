//! The nine checks of validate.rs, `ClientId::new` and `ChannelId::new`.
use model::identifier::{self, Identifier};
use model::path::KINDS;
use model::pool::{self, filled};
use model::random::Random;
use model::{table, Fault, Mode};

use crate::call::{Call, Function};
use crate::original::says;
use crate::set::{Bytes, Set, Text, Theirs};
use crate::{Sets, Size};

pub const SETS: Sets = &[
    ("identifiers of document 01", table),
    ("lengths", lengths),
    ("bytes at each place", bytes),
    ("scalar values", scalars),
    ("short texts", short),
    ("identifiers of up to three bytes", three),
    ("indexes and names", indexes),
    ("indexes at the limit", limit),
    ("faults of indexes", faults),
    ("long texts", long),
    ("damaged identifiers", damaged),
    ("trimming", trimming),
    ("counters", counters),
];

#[derive(Clone, Copy, Debug)]
pub enum Check<'a> {
    Chars,
    Length(u64, u64),
    Prefix(u64, u64),
    Named(&'a [u8]),
    Whole(Identifier),
}

impl<'a> Check<'a> {
    fn call(self, id: &'a [u8]) -> Call<'a> {
        let of = |function| Call::new(function, [id, b""], [0, 0]);
        let within = |function, least, most| Call::new(function, [id, b""], [least, most]);
        match self {
            Self::Chars => of(Function::ValidateIdentifierChars),
            Self::Length(least, most) => within(Function::ValidateIdentifierLength, least, most),
            Self::Prefix(least, most) => within(Function::ValidatePrefixLength, least, most),
            Self::Named(name) => Call::new(Function::ValidateNamedU64Index, [id, name], [0, 0]),
            Self::Whole(Identifier::Client) => of(Function::ValidateClientIdentifier),
            Self::Whole(Identifier::ClientType) => of(Function::ValidateClientType),
            Self::Whole(Identifier::Connection) => of(Function::ValidateConnectionIdentifier),
            Self::Whole(Identifier::Port) => of(Function::ValidatePortIdentifier),
            Self::Whole(Identifier::Channel) => of(Function::ValidateChannelIdentifier),
        }
    }

    fn model(self, mode: Mode, id: &[u8]) -> Result<(), Fault> {
        match self {
            Self::Chars => Ok(identifier::chars(mode, id)?),
            Self::Length(least, most) => Ok(identifier::length(mode, id, least, most)?),
            Self::Prefix(least, most) => Ok(identifier::prefix_length(mode, id, least, most)?),
            Self::Named(name) => identifier::named_index(mode, id, name),
            Self::Whole(identifier) => identifier.check(mode, id),
        }
    }

    pub fn ask(self, set: &mut Set, id: &'a [u8]) {
        for mode in self.call(id).modes() {
            let call = self.call(id).in_mode(mode);
            set.refusal(call, says(&call), self.model(mode, id));
        }
    }
}

const WHOLE: [Check; 5] = [
    Check::Whole(Identifier::Client),
    Check::Whole(Identifier::ClientType),
    Check::Whole(Identifier::Connection),
    Check::Whole(Identifier::Port),
    Check::Whole(Identifier::Channel),
];

/// Names that begin one another or the pool's texts, and names that are no ASCII or no UTF-8.
const NAMES: [&[u8]; 14] = [
    b"",
    b"-",
    b"--",
    b"a",
    b"c",
    b"channel",
    b"channel-",
    b"channel-1",
    b"channels",
    b"connection",
    b"connections",
    b"+",
    "caf\u{e9}".as_bytes(),
    b"\xff",
];

const LIMITS: [(u64, u64); 17] = [
    (0, 0),
    (0, 1),
    (1, 0),
    (1, 1),
    (2, 21),
    (2, 22),
    (3, 23),
    (2, 128),
    (8, 64),
    (9, 64),
    (10, 64),
    (64, 9),
    (0, u64::MAX),
    (1, u64::MAX),
    (u64::MAX, 0),
    (u64::MAX, u64::MAX),
    (u64::MAX - 1, u64::MAX - 1),
];

/// Limits that a text of this length just meets or just misses.
fn near(length: u64) -> [(u64, u64); 6] {
    [
        (length, length),
        (length + 1, length + 1),
        (0, length.saturating_sub(1)),
        (length + 2, length + 21),
        (length + 3, length + 21),
        (0, length + 20),
    ]
}

/// Every call on one text.
pub fn every(set: &mut Set, id: &[u8]) {
    Check::Chars.ask(set, id);
    for check in WHOLE {
        check.ask(set, id);
    }
    for (least, most) in LIMITS.into_iter().chain(near(id.len() as u64)) {
        Check::Length(least, most).ask(set, id);
        Check::Prefix(least, most).ask(set, id);
    }
    for name in NAMES {
        Check::Named(name).ask(set, id);
    }
    client_id_new(set, id, 4);
}

/// The checks that look for an index.
fn index(set: &mut Set, id: &[u8]) {
    Check::Whole(Identifier::Connection).ask(set, id);
    Check::Whole(Identifier::Channel).ask(set, id);
    Check::Named(b"channel").ask(set, id);
    Check::Named(b"connection").ask(set, id);
}

fn client_id_call(client_type: &[u8], counter: u64) -> Call<'_> {
    Call::new(Function::ClientIdNew, [client_type, b""], [counter, 0])
}

pub fn client_id_new(set: &mut Set, client_type: &[u8], counter: u64) {
    for mode in client_id_call(client_type, counter).modes() {
        let call = client_id_call(client_type, counter).in_mode(mode);
        set.text(call, says(&call), &client_id(mode, client_type, counter));
    }
}

fn client_id(mode: Mode, client_type: &[u8], counter: u64) -> Text {
    identifier::client_id_new(mode, client_type, counter).map(Bytes).map_err(Fault::from)
}

fn channel_id_call(counter: u64) -> Call<'static> {
    Call::new(Function::ChannelIdNew, [b"", b""], [counter, 0])
}

fn channel_id_new(set: &mut Set, counter: u64) {
    let call = channel_id_call(counter);
    set.text(call, says(&call), &Ok(Bytes(identifier::channel_id_new(counter))));
}

/// Document 01's rows, held to the outcomes that it writes.
fn table(set: &mut Set, _: Size) {
    for (identifier, id, outcome) in table::identifiers() {
        let check = Check::Whole(identifier);
        check.ask(set, id.as_bytes());
        set.refusal(check.call(id.as_bytes()), Theirs::Silent("written"), outcome);
    }
}

fn lengths(set: &mut Set, _: Size) {
    let heads =
        ["", "channel-", "channel-+", "channel-+0", "connection-", "connection-+", "connection-1"];
    for length in (0..=70).chain(126..=130) {
        for (head, fill) in
            heads.iter().flat_map(|head| ['a', '0', '1', '.', ' '].map(|b| (head, b)))
        {
            every(set, filled(head, fill, length).as_bytes());
        }
    }
}

/// Good texts of every kind of identifier.
fn good() -> Vec<&'static str> {
    let mut all: Vec<&str> =
        KINDS.iter().copied().flatten().flat_map(pool::good).copied().collect();
    all.sort();
    all.dedup();
    all
}

/// Every byte value: at the first, a middle and the last place, or at all places.
fn bytes(set: &mut Set, size: Size) {
    for good in good().into_iter().filter(|good| !good.is_empty()) {
        let ends = vec![0, good.len() / 2, good.len() - 1];
        for place in size.pick(ends, (0..good.len()).collect()) {
            let mut text = good.as_bytes().to_vec();
            for byte in 0..=255 {
                text[place] = byte;
                every(set, &text);
            }
        }
    }
}

/// Every character alone, in the middle and at both ends.
fn scalars(set: &mut Set, _: Size) {
    for scalar in '\0'..=char::MAX {
        Check::Chars.ask(set, scalar.to_string().as_bytes());
        let inside = format!("trans{scalar}fer");
        let around = format!("{scalar}07-tendermint{scalar}");
        Check::Chars.ask(set, inside.as_bytes());
        Check::Whole(Identifier::Port).ask(set, inside.as_bytes());
        Check::Named(inside.as_bytes()).ask(set, b"trans-1");
        index(set, format!("channel-{scalar}").as_bytes());
        client_id_new(set, around.as_bytes(), 0);
    }
}

/// Every ASCII text of so many bytes.
fn three(set: &mut Set, size: Size) {
    pool::texts(&pool::ascii(), "", size.pick(1, 3), |text| every(set, text));
}

/// Every text of up to two bytes, and every short index.
fn short(set: &mut Set, size: Size) {
    let top = size.pick(127, 255);
    every(set, b"");
    for first in 0..=255 {
        every(set, &[first]);
    }
    for first in 0..=top {
        for second in 0..=top {
            every(set, &[first, second]);
        }
    }
    for head in ["channel-", "connection-", "connection"] {
        pool::texts(&pool::LETTERS, "", size.pick(4, 7), |tail| {
            index(set, &[head.as_bytes(), tail].concat());
        });
    }
}

fn indexes(set: &mut Set, _: Size) {
    let numbers = pool::numbers();
    for stem in pool::STEMS {
        for joint in ["", "-", "--", "+", "-+", "_"] {
            for number in &numbers {
                every(set, format!("{stem}{joint}{number}").as_bytes());
            }
        }
    }
}

/// Numbers on both sides of 2^64, and of other powers.
fn limit(set: &mut Set, size: Size) {
    for value in pool::around_powers(size.pick(500, 100_000)) {
        for sign in ["", "+", "0", "+0", "+0000"] {
            index(set, format!("channel-{sign}{value}").as_bytes());
            index(set, format!("connection-{sign}{value}").as_bytes());
        }
    }
}

/// Every fault of a number behind every name, with the rest right and with something wrong around it.
fn faults(set: &mut Set, _: Size) {
    let long = "0".repeat(64);
    let around = [("", ""), ("x", ""), ("", " "), ("", "\u{e9}"), ("", "-"), ("", &long)];
    for (name, number) in NAMES.iter().flat_map(|name| pool::FAULTS.map(|number| (*name, number))) {
        for (before, behind) in around {
            let [before, number, behind] = [before, number, behind].map(str::as_bytes);
            let id = [before, name, b"-", number, behind].concat();
            Check::Named(name).ask(set, &id);
            index(set, &id);
        }
    }
}

/// No identifier check gives 1.
fn long(set: &mut Set, _: Size) {
    for length in [4095, 4096, 4097, 65_535, 65_536, 70_000] {
        for head in ["", "channel-", "channel-+", "connection-", " ", "/"] {
            let mut text = filled(head, '0', length).into_bytes();
            every(set, &text);
            for last in [b' ', b'/', b'a', 0x7f, 0x80] {
                text[length - 1] = last;
                every(set, &text);
            }
        }
        let name = vec![b'n'; length];
        let id = [&name[..], b"-1"].concat();
        Check::Named(&name).ask(set, &id);
        Check::Named(&id).ask(set, &name);
    }
}

fn damaged(set: &mut Set, size: Size) {
    let mut random = Random(2);
    let whole = pool::identifiers();
    let good = good();
    for _ in 0..size.pick(40_000, 6_000_000) {
        let chosen = if random.one_in(2) { random.text(&whole) } else { random.of(&good) };
        let mut text = chosen.as_bytes().to_vec();
        let times = random.below(4);
        random.damage(&mut text, times);
        every(set, &text);
    }
}

const TRIMMED: [&str; 6] = ["\t", "\n", "\x0b", "\x0c", "\r", " "];

/// Neighbours of the bytes that are trimmed, and white space beyond ASCII.
const KEPT: [&str; 14] = [
    "\0", "\x08", "\x0e", "\x1b", "\x1c", "\x1d", "\x1e", "\x1f", "!", "\x7f", "\u{85}", "\u{a0}",
    "\u{2003}", "\u{3000}",
];

fn blanks(random: &mut Random, most: usize) -> String {
    let length = random.below(most);
    let mut one = || if random.one_in(8) { random.of(&KEPT) } else { random.of(&TRIMMED) };
    (0..length).map(|_| one()).collect()
}

fn trimming(set: &mut Set, size: Size) {
    for first in 0..=255 {
        for last in 0..=255 {
            client_id_new(set, &[&[first], &b"07-tendermint"[..], &[last]].concat(), 4);
            client_id_new(set, &[first, last], 4);
        }
    }
    let mut random = Random(3);
    for _ in 0..size.pick(50_000, 4_000_000) {
        let length = random.below(48);
        let mut text = filled("07-tend", 'x', length);
        text.insert_str(length / 2, &blanks(&mut random, 2));
        text.insert_str(0, &blanks(&mut random, 4));
        text.push_str(&blanks(&mut random, 4));
        client_id_new(set, text.as_bytes(), random.word());
    }
}

/// Identifiers made for counters of every width, into buffers of every size.
fn counters(set: &mut Set, size: Size) {
    let mut random = Random(4);
    let corners = pool::around_powers(2).into_iter().filter_map(|value| u64::try_from(value).ok());
    let mut all: Vec<u64> = corners.collect();
    all.extend((0..size.pick(2_000, 1_000_000)).map(|_| random.word() >> random.below(64)));
    for counter in &all {
        channel_id_new(set, *counter);
        client_id_new(set, b"\x0b07-tendermint\t", *counter);
    }
    for length in 0..=70 {
        for counter in [0, 9, 10, 99, 100, u64::MAX] {
            client_id_new(set, filled("", 'a', length).as_bytes(), counter);
            client_id_new(set, filled(" ", 'a', length).as_bytes(), counter);
        }
    }
    every_room(set);
}

fn every_room(set: &mut Set) {
    for (mode, name) in [(Mode::Plain, "07-tendermint"), (Mode::Wide, "\u{2003}07-τέντερμιντ")]
    {
        let call = client_id_call(name.as_bytes(), u64::MAX).in_mode(mode);
        set.lend(call, 0..80, &client_id(mode, name.as_bytes(), u64::MAX));
    }
    let channel = Ok(Bytes(identifier::channel_id_new(u64::MAX)));
    set.lend(channel_id_call(u64::MAX), 0..80, &channel);
}
