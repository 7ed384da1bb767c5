//! Texts beyond ASCII, by plain and by wide calls: bytes that are characters and bytes that are none, many scripts at
//! each place, and characters of each size at each limit of length. What other sets ask about such texts they ask in
//! both modes too, and of ASCII texts every wide call is held to the answer of the plain one (`Call::alike`).
use model::identifier::Identifier;
use model::path::{self, Reading, KINDS, MOST};
use model::pool::{self, Pools, SCRIPTS};
use model::random::Random;
use model::Mode;

use crate::call::{Call, Function};
use crate::identifiers::{every, Check};
use crate::renderings::SEQUENCES;
use crate::set::{Bytes, Set};
use crate::told::read_call;
use crate::{paths, renderings, Sets, Size};

pub const SETS: Sets = &[
    ("sequences of bytes", sequences),
    ("damaged characters", damaged),
    ("scripts in identifiers", identifiers),
    ("scripts at each place of a path", places),
    ("characters at limits of length", limits),
    ("characters around 4,096 bytes", longest),
    ("paths of many scripts", chance),
    ("renderings of many scripts", rendered),
    ("rooms for texts of many scripts", rooms),
];

/// Bytes on both sides of each line that UTF-8 draws, and some of ASCII.
const EDGES: [u8; 32] = *b"\x00 /5Z\x7f\x80\x82\x8f\x90\x9f\xa0\xaa\xbf\xc0\xc1\xc2\xdf\
    \xe0\xe1\xec\xed\xee\xef\xf0\xf1\xf3\xf4\xf5\xf7\xf8\xff";

/// Whether it is UTF-8, and whether all of its characters are allowed.
fn decode(set: &mut Set, text: &[u8]) {
    Check::Length(0, u64::MAX).ask(set, text);
    Check::Chars.ask(set, text);
}

/// Every sequence of two bytes, and in the full set of three; and longer ones of bytes that tell.
fn sequences(set: &mut Set, size: Size) {
    let all: Vec<[u8; 1]> = (0..=255).map(|byte| [byte]).collect();
    pool::texts(&all, "", size.pick(2, 3), |text| decode(set, text));
    pool::texts(&EDGES.map(|byte| [byte]), "", size.pick(4, 5), |text| decode(set, text));
}

/// A character of any size, often of one of the scripts.
fn character(random: &mut Random) -> String {
    let most = random.of(&[0x7f, 0x7ff, 0xffff, 0x10_ffff]);
    match char::from_u32(random.below(most + 1) as u32) {
        Some(chosen) if random.one_in(2) => chosen.into(),
        _ => random.of(&SCRIPTS).into(),
    }
}

/// Changes, puts in or takes out a byte, or cuts the text off.
fn spoil(random: &mut Random, text: &mut Vec<u8>) {
    let (at, byte) = (random.below(text.len() + 1), random.of(&EDGES));
    match random.below(4) {
        0 => text.insert(at, byte),
        1 if at < text.len() => drop(text.remove(at)),
        2 if at < text.len() => text[at] = byte,
        _ => text.truncate(at),
    }
}

/// Texts of some characters, whole and spoilt, with a stretch of ASCII before them or none.
fn damaged(set: &mut Set, size: Size) {
    let mut random = Random(16);
    for _ in 0..size.pick(200_000, 20_000_000) {
        let mut text = vec![b'a'; random.of(&[0, 0, 1, 7, 8, 9, 16, 40])];
        for _ in 0..random.below(8) {
            text.extend(character(&mut random).bytes());
        }
        for _ in 0..random.below(3) {
            spoil(&mut random, &mut text);
        }
        decode(set, &text);
        Check::Whole(Identifier::Port).ask(set, &text);
        Check::Whole(Identifier::Client).ask(set, &text);
    }
}

/// Every call on each script, alone and beside what an identifier has; and names of the same length, of which no two
/// are the same.
fn identifiers(set: &mut Set, _: Size) {
    for script in SCRIPTS {
        for text in [
            script.into(),
            script.repeat(5),
            format!("channel-{script}"),
            format!("channel-1{script}"),
            format!("{script}channel-1"),
            format!("connection-{script}0"),
            format!("{script}07-tendermint{script}"),
            format!(" {script}\t07-tendermint {script}"),
        ] {
            every(set, text.as_bytes());
        }
        for other in SCRIPTS {
            Check::Named(script.as_bytes()).ask(set, format!("{other}-1").as_bytes());
            Check::Named(script.as_bytes()).ask(set, format!("{script}-{other}").as_bytes());
        }
    }
}

/// A part with a script in its place, before it, behind it and in its middle.
fn with(part: &str, script: &str) -> [String; 4] {
    let (before, behind) = part.split_at(part.len() / 2);
    [
        script.into(),
        format!("{script}{part}"),
        format!("{part}{script}"),
        format!("{before}{script}{behind}"),
    ]
}

/// Each script at each place of each kind, and of the texts above a path.
fn places(set: &mut Set, _: Size) {
    for shape in KINDS {
        let plain: Vec<&str> = shape.iter().map(|part| pool::good(part)[0]).collect();
        for (place, script) in (0..plain.len()).flat_map(|place| SCRIPTS.map(|s| (place, s))) {
            for text in with(plain[place], script) {
                let mut parts = plain.clone();
                parts[place] = &text;
                let text = parts.join("/");
                paths::ask(set, text.as_bytes());
                paths::ask(set, format!("{text}/{script}").as_bytes());
                paths::ask(set, format!("{script}/{text}").as_bytes());
            }
        }
    }
    for script in SCRIPTS {
        for [port, channel] in [["transfer", "channel-7"], ["πύλη", "channel-0"]] {
            for (port, channel) in with(port, script).iter().zip(with(channel, script)) {
                above(set, port.as_bytes(), b"channel-0");
                above(set, port.as_bytes(), channel.as_bytes());
                above(set, b"transfer", channel.as_bytes());
            }
        }
    }
}

/// The texts above all records of a client, and of a channel.
fn above(set: &mut Set, first: &[u8], second: &[u8]) {
    renderings::consensus_state_parent(set, first);
    renderings::sequences_paths(set, first, second);
}

/// Letters of one to four bytes, and other characters of two to four.
const FILLS: [char; 7] = ['a', 'é', '港', '𠀀', '×', '€', '🦀'];

/// A text of this many bytes of one character, with ASCII before or behind it where it does not come out even; and
/// one that ends within a character.
fn filled(fill: char, length: usize) -> [Vec<u8>; 3] {
    let size = fill.len_utf8();
    let (many, rest) = (fill.to_string().repeat(length / size), "x".repeat(length % size));
    let cut = fill.to_string().repeat(length / size + 1);
    [
        format!("{rest}{many}").into(),
        format!("{many}{rest}").into(),
        cut.as_bytes()[..length].into(),
    ]
}

/// Identifiers on both sides of each limit, counted in bytes, alone, in paths and rendered.
fn limits(set: &mut Set, _: Size) {
    let lengths =
        [2, 7, 8, 9, 10, 43, 64, 128].into_iter().flat_map(|limit: usize| limit - 2..limit + 5);
    for (length, fill) in lengths.flat_map(|length| FILLS.map(|fill| (length, fill))) {
        for text in filled(fill, length) {
            every(set, &text);
            for text in [
                [b"ports/", &text[..]].concat(),
                [b"clients/", &text[..], b"/clientState"].concat(),
                [b"clients/", &text[..], b"/consensusStates/007-2"].concat(),
                [b"acks/ports/", &text[..], b"/channels/channel-0/sequences/5"].concat(),
            ] {
                paths::ask(set, &text);
            }
            for kind in [4, 5, 9, 10, 15] {
                renderings::ask(set, kind, &text, b"channel-+01", [7, 2]);
                renderings::ask(set, kind, "πύλη".as_bytes(), &text, [7, 2]);
            }
            above(set, &text, b"channel-0");
        }
    }
}

/// Upgrade paths that make a text, or a rendering, just fit or just too long.
fn longest(set: &mut Set, _: Size) {
    const BEHIND: &[u8] = b"/5/upgradedClient";
    for (length, fill) in (MOST - 5..MOST + 6).flat_map(|length| FILLS.map(|fill| (length, fill))) {
        for upgrade in filled(fill, length - BEHIND.len()) {
            paths::ask(set, &[&upgrade[..], BEHIND].concat());
            renderings::ask(set, 18, &upgrade, b"", [5, 0]);
            renderings::ask(set, 19, &upgrade, b"", [5, 0]);
        }
        filled(fill, length).iter().for_each(|text| paths::ask(set, text));
    }
}

fn chance(set: &mut Set, size: Size) {
    let (mut random, pools) = (Random(17), Pools::default());
    for _ in 0..size.pick(200_000, 20_000_000) {
        let mut text = pools.wide_path(&mut random);
        if random.one_in(4) {
            spoil(&mut random, &mut text);
        }
        paths::ask(set, &text);
    }
}

/// Parts of many scripts at the places of any kind.
fn rendered(set: &mut Set, size: Size) {
    let mut random = Random(18);
    let parts: Vec<&str> = KINDS.iter().copied().flatten().flat_map(pool::wide).copied().collect();
    let part = |random: &mut Random| {
        let mut text: Vec<u8> = random.of(&parts).into();
        match random.below(8) {
            0 => text.extend(random.of(&SCRIPTS).bytes()),
            1 => spoil(random, &mut text),
            _ => {}
        }
        text
    };
    for _ in 0..size.pick(100_000, 10_000_000) {
        let (first, second) = (part(&mut random), part(&mut random));
        let numbers = [0, 0].map(|_| random.word() >> random.below(64));
        renderings::ask(set, random.below(21) as u8, &first, &second, numbers);
        above(set, &first, &second);
    }
}

/// Every size of buffer up to beyond the need, for what each wide call writes.
fn rooms(set: &mut Set, _: Size) {
    let (client, port, channel) = ("πελάτης-1".as_bytes(), "πύλη".as_bytes(), b"channel-0");
    let mut lend = |call: Call, text: Vec<u8>| {
        set.count();
        set.lend(call.in_mode(Mode::Wide), 0..text.len() + 9, &Ok(Bytes(text)));
    };
    for (function, word) in SEQUENCES {
        let text = path::sequences_path(Mode::Wide, word, port, channel).expect("a channel");
        lend(Call::new(function, [port, channel], [0, 0]), text);
    }
    let parent = path::consensus_state_parent(Mode::Wide, client).expect("a client");
    lend(Call::new(Function::ConsensusStateParent, [client, b""], [0, 0]), parent);
    for shape in KINDS {
        let text = shape.iter().map(|part| pool::wide(part)[0]).collect::<Vec<_>>().join("/");
        let text = text.as_bytes();
        let (reading, key) = path::read_with_key(Mode::Wide, text).expect("a path");
        let Reading { kind, first, second, numbers, .. } = reading;
        let texts = [first.of(text), second.of(text)];
        lend(read_call(text), reading.bytes().into());
        lend(Call { function: Function::Key, ..read_call(text) }, key.clone());
        lend(Call { function: Function::Render, kind, texts, numbers }, key);
    }
}
