//! Rendering by kind and parts, what is provable, iteration keys, and the texts above and below a path.
use model::path::{self, Part, KINDS, MOST};
use model::pool::{self, filled, Pools};
use model::random::Random;
use model::{Fault, Mode};

use crate::call::{Call, Function};
use crate::original::says;
use crate::set::{Bytes, Set};
use crate::{Sets, Size};

pub const SETS: Sets = &[
    ("renderings", products),
    ("renderings by chance", chance),
    ("renderings around 4,096 bytes", lengths),
    ("provable kinds", provable),
    ("iteration keys", iteration),
    ("words", words),
    ("leaves", leaves),
    ("parents", parents),
];

const NUMBERS: [[u64; 2]; 6] =
    [[0, 0], [7, 2], [9, 10], [1, u64::MAX], [u64::MAX, 0], [u64::MAX, u64::MAX]];

/// Parts that no kind takes at their place, and some that a few kinds take.
const PARTS: [&[u8]; 18] = [
    b"",
    b"a",
    b"a/b",
    b"/",
    b"a b",
    b"channel-01",
    b"channel-",
    b"channel-18446744073709551616",
    b"channel-x",
    b"connection-01",
    b"connection-",
    b"connection--1",
    b"connection",
    "caf\u{e9}/x".as_bytes(),
    b"\xff",
    b"\x7f",
    b"channel-\x80",
    &[b'p'; 129],
];

pub fn ask(set: &mut Set, kind: u8, first: &[u8], second: &[u8], numbers: [u64; 2]) {
    let call = Call { function: Function::Render, kind, texts: [first, second], numbers };
    text(set, call, |mode| path::render(mode, kind, first, second, numbers));
}

/// All that any kind takes as first or second identifier.
fn good() -> Vec<&'static [u8]> {
    let texts = |part: &'static Part| match part {
        Part::First(_) | Part::Second(_) | Part::Upgrade => pool::good(part),
        Part::Word(_) | Part::Number | Part::Heights => &[],
    };
    let mut all: Vec<&[u8]> =
        KINDS.iter().copied().flatten().flat_map(texts).map(|text| text.as_bytes()).collect();
    all.sort();
    all.dedup();
    all
}

/// Every kind with every two parts and some numbers, kinds that are none among them.
fn products(set: &mut Set, _: Size) {
    let parts: Vec<&[u8]> = good().into_iter().chain(PARTS).collect();
    for kind in (0..=20).chain([127, 128, 255]) {
        for first in &parts {
            for second in &parts {
                for numbers in NUMBERS {
                    ask(set, kind, first, second, numbers);
                }
            }
        }
    }
}

/// Parts from the pools, damaged now and then.
fn chance(set: &mut Set, size: Size) {
    let mut random = Random(5);
    let (pools, good) = (Pools::default(), good());
    let part = |random: &mut Random| {
        let chosen = if random.one_in(2) {
            random.of(&good)
        } else {
            random.text(&pools.identifiers).as_bytes()
        };
        let mut text = chosen.to_vec();
        let times = usize::from(random.one_in(4));
        random.damage(&mut text, times);
        text
    };
    for _ in 0..size.pick(200_000, 15_000_000) {
        let (first, second) = (part(&mut random), part(&mut random));
        let numbers = [0, 0].map(|_| random.word() >> random.below(64));
        ask(set, 1 + random.below(19) as u8, &first, &second, numbers);
    }
}

/// Upgrade paths that make a rendering just fit or just too long; parts that a kind lacks may be long.
fn lengths(set: &mut Set, _: Size) {
    for (kind, tail) in [(18, "/upgradedClient"), (19, "/upgradedConsState")] {
        for height in [0, 9, 10, u64::MAX] {
            let rest = format!("/{height}{tail}").len();
            for length in (MOST - 2..=MOST + 2).chain([8192, 65_536, 70_000]) {
                let mut upgrade = filled("", 'u', length - rest).into_bytes();
                ask(set, kind, &upgrade, b"", [height, 0]);
                for last in [b'/', 0x7f, 0x80] {
                    *upgrade.last_mut().unwrap() = last;
                    ask(set, kind, &upgrade, b"", [height, 0]);
                }
            }
        }
    }
    let long = vec![0xff; 70_000];
    for kind in 0..=20 {
        for first in good() {
            ask(set, kind, first, &long, [1, 2]);
            ask(set, kind, &long, first, [1, 2]);
        }
    }
}

fn provable(set: &mut Set, _: Size) {
    for kind in 0..=255 {
        let call = Call { kind, ..Call::new(Function::IsProvable, [b"", b""], [0, 0]) };
        set.flag(call, says(&call), path::is_provable(kind));
    }
}

/// Pairs of corners, and pairs by chance.
fn pairs(chances: usize) -> Vec<(u64, u64)> {
    let mut random = Random(6);
    let corners =
        [0, 1, 9, 10, 255, 256, 65_535, 65_536, 1 << 32, 1 << 56, 1 << 63, u64::MAX - 1, u64::MAX];
    let mut all: Vec<(u64, u64)> = corners.iter().flat_map(|a| corners.map(|b| (*a, b))).collect();
    all.extend((0..chances).map(|_| (random.word(), random.word() >> random.below(64))));
    all
}

/// The keys; that they compare as their pairs do is a test of the model.
fn iteration(set: &mut Set, size: Size) {
    for (number, height) in pairs(size.pick(1_000, 1_000_000)) {
        let call = Call::new(Function::IterationKey, [b"", b""], [number, height]);
        text(set, call, |_| Ok(path::iteration_key(number, height)));
    }
}

/// The texts without a part.
fn words(set: &mut Set, _: Size) {
    let rows = [
        (Function::ClientStatePrefix, "clients"),
        (Function::ClientStateLeaf, "clientState"),
        (Function::ConnectionPrefix, "connections"),
        (Function::ChannelEndPrefix, "channelEnds"),
        (Function::CommitmentPrefix, "commitments"),
        (Function::AckPrefix, "acks"),
        (Function::ReceiptPrefix, "receipts"),
    ];
    for (function, word) in rows {
        text(set, Call::new(function, [b"", b""], [0, 0]), |_| Ok(word.into()));
    }
}

/// The texts of a revision number and height.
fn leaves(set: &mut Set, size: Size) {
    let rows = [
        (Function::ConsensusStateLeaf, ""),
        (Function::UpdateTimeLeaf, "/processedTime"),
        (Function::UpdateHeightLeaf, "/processedHeight"),
    ];
    for (function, after) in rows {
        for (a, b) in pairs(size.pick(1_000, 1_000_000)) {
            let call = Call::new(function, [b"", b""], [a, b]);
            text(set, call, |_| Ok(path::consensus_state_leaf(a, b, after)));
        }
    }
}

/// The texts above all records of a client or a channel.
fn parents(set: &mut Set, size: Size) {
    let pools = Pools::default();
    let bad = PARTS.into_iter().chain(pools.identifiers.iter().map(|id| id.as_bytes()));
    let parts: Vec<&[u8]> = good().into_iter().chain(bad).collect();
    for client in &parts {
        consensus_state_parent(set, client);
    }
    let step = size.pick(97, 1);
    for (turn, port) in parts.iter().enumerate() {
        for channel in
            good().into_iter().chain(parts.iter().skip(turn % step).step_by(step).copied())
        {
            sequences_paths(set, port, channel);
        }
    }
}

pub fn consensus_state_parent(set: &mut Set, client: &[u8]) {
    let call = Call::new(Function::ConsensusStateParent, [client, b""], [0, 0]);
    text(set, call, |mode| path::consensus_state_parent(mode, client));
}

/// The calls for the texts above all packets of a channel, and the words that these begin with.
pub const SEQUENCES: [(Function, &str); 3] = [
    (Function::CommitmentsPath, "commitments"),
    (Function::AcksPath, "acks"),
    (Function::ReceiptsPath, "receipts"),
];

pub fn sequences_paths(set: &mut Set, port: &[u8], channel: &[u8]) {
    for (function, word) in SEQUENCES {
        let call = Call::new(function, [port, channel], [0, 0]);
        text(set, call, |mode| path::sequences_path(mode, word, port, channel));
    }
}

fn text(set: &mut Set, call: Call, model: impl Fn(Mode) -> Result<Vec<u8>, u8>) {
    for mode in call.modes() {
        let call = call.in_mode(mode);
        set.text(call, says(&call), &model(mode).map(Bytes).map_err(Fault::from));
    }
}
