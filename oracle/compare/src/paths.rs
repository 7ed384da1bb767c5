//! Reading: `hp_read`, `hp_walk` and `hp_key` against `Path::from_str` and `Path`'s `Display`.
use model::path::{self, Part, KINDS};
use model::pool::{self, Pools};
use model::random::Random;
use model::{table, Mode};

use crate::call::{Call, Function};
use crate::set::{Bytes, Set, Theirs};
use crate::told::{self, read_call, walk_call};
use crate::{Sets, Size};

pub const SETS: Sets = &[
    ("paths of document 01", table),
    ("texts of up to three bytes", short),
    ("lists of components", lists),
    ("longer lists of components", longer),
    ("lists of packet components", packets),
    ("texts at each place", places),
    ("numbers in paths", numbers),
    ("numbers at the limit", limit),
    ("faults of numbers in paths", faults),
    ("damaged paths", damaged),
    ("paths around 4,096 bytes", lengths),
    ("bytes of 128 and more", high),
    ("rooms for a reading", rooms),
];

fn key_call(text: &[u8]) -> Call<'_> {
    Call::new(Function::Key, [text, b""], [0, 0])
}

/// One text, read and rendered.
pub fn ask(set: &mut Set, text: &[u8]) {
    for mode in read_call(text).modes() {
        let (read, key) = (read_call(text).in_mode(mode), key_call(text).in_mode(mode));
        let model = path::read_with_key(mode, text);
        let bytes = model.as_ref().map(|(reading, _)| Bytes(reading.bytes().into()));
        set.count();
        let bytes = bytes.map_err(|e| *e);
        set.lend_around(read, &bytes);
        if mode == Mode::Plain {
            set.lend_around(walk_call(text), &bytes);
        }
        // whoever asks for the key is not told the place
        let made = model.as_ref().map(|(_, key)| Bytes(key.clone()));
        set.lend_around(key, &made.map_err(|e| e.refusal.into()));
        let told = model.map(|(reading, key)| told::by_reading(&reading, &key, text));
        set.agree(told::by_original(mode, text), &told, read);
    }
}

/// Document 01's rows, held to the outcomes that it writes.
fn table(set: &mut Set, _: Size) {
    for (text, outcome) in table::paths() {
        ask(set, text.as_bytes());
        let written = outcome.map(|reading| Bytes(reading.bytes().to_vec()));
        set.text(read_call(text.as_bytes()), Theirs::Silent("written"), &written);
    }
}

fn short(set: &mut Set, _: Size) {
    pool::texts(&pool::ascii(), "", 3, |text| ask(set, text));
}

/// What may stand between slashes; those that read on come first.
const COMPONENTS: [&str; 27] = [
    "clients", "07-tendermint-4", "clientState", "consensusStates", "007-+2", "ports", "channels",
    "channel-+01", "channelEnds", "+5", "upgradedClient", "", "0000000005", "processedTime",
    "connections", "connection-+0", "processedHeight", "nextSequenceSend", "commitments",
    "sequences", "upgradedConsState", "nextClientSequence", "7--2", "channel-01",
    "18446744073709551616", "a", "clientid",
];

fn lists(set: &mut Set, size: Size) {
    pool::texts(&COMPONENTS[..size.pick(12, 27)], "/", 5, |text| ask(set, text));
}

fn longer(set: &mut Set, size: Size) {
    pool::texts(&COMPONENTS[..size.pick(6, 22)], "/", 6, |text| ask(set, text));
}

/// Lists as long as the longest kinds, and in the full set one longer.
fn packets(set: &mut Set, size: Size) {
    let pieces =
        ["commitments", "ports", "channels", "channel-7", "sequences", "+5", "transfer", "acks"];
    pool::texts(&pieces[..size.pick(6, 8)], "/", size.pick(7, 8), |text| ask(set, text));
}

/// Every pool text at every place of every kind, and once more with a slash too many.
fn places(set: &mut Set, size: Size) {
    let pools = Pools::default();
    for shape in KINDS {
        let mut parts: Vec<&str> = shape.iter().map(|part| pool::good(part)[0]).collect();
        for place in 0..parts.len() {
            let plain = parts[place];
            for text in pools.components(size.pick(29, 1)) {
                parts[place] = text;
                let text = parts.join("/");
                ask(set, text.as_bytes());
                ask(set, format!("{text}/").as_bytes());
                ask(set, format!("/{text}").as_bytes());
                ask(set, format!("{text}/x").as_bytes());
            }
            parts[place] = plain;
        }
    }
}

/// A number text at each kind of place that holds one.
fn at_each_number(set: &mut Set, number: &str) {
    for text in [
        format!("x/{number}/upgradedClient"),
        format!("x/{number}/upgradedConsState"),
        format!("clients/07-tendermint-4/consensusStates/{number}"),
        format!("clients/07-tendermint-4/consensusStates/{number}-1"),
        format!("clients/07-tendermint-4/consensusStates/1-{number}/processedTime"),
        format!("connections/connection-{number}"),
        format!("channelEnds/ports/ab/channels/channel-{number}"),
        format!("acks/ports/ab/channels/channel-0/sequences/{number}"),
    ] {
        ask(set, text.as_bytes());
    }
}

fn numbers(set: &mut Set, size: Size) {
    pool::texts(&pool::LETTERS, "", size.pick(5, 8), |number| {
        at_each_number(set, std::str::from_utf8(number).unwrap());
    });
}

fn limit(set: &mut Set, size: Size) {
    for value in pool::around_powers(size.pick(50, 10_000)) {
        for sign in ["", "+", "0", "+0000"] {
            at_each_number(set, &format!("{sign}{value}"));
        }
    }
}

/// Every fault at each number of each kind, in one and in both of two, with the other parts right and
/// with each of them wrong in turn.
fn faults(set: &mut Set, size: Size) {
    let numbers = size.pick(pool::FAULTS.map(String::from).into(), pool::numbers());
    let pairs = numbers.iter().flat_map(|a| numbers.iter().map(move |b| format!("{a}-{b}")));
    let heights: Vec<String> = pairs.collect();
    for shape in KINDS {
        let mut parts: Vec<&str> = shape.iter().map(|part| pool::good(part)[0]).collect();
        for (place, part) in shape.iter().enumerate() {
            let texts = match part {
                Part::Number => &numbers,
                Part::Heights => &heights,
                _ => continue,
            };
            for text in texts {
                parts[place] = text;
                ask(set, parts.join("/").as_bytes());
                others(set, shape, &mut parts, place);
            }
        }
    }
}

/// The text with each part but one changed: to what it may be as well, and to what it may not be.
fn others(set: &mut Set, shape: &[Part], parts: &mut [&str], place: usize) {
    const WRONG: [&str; 6] = ["", "clientid", "client", "channel-x", "channel-01", "a b"];
    for other in (0..parts.len()).filter(|other| *other != place) {
        let kept = parts[other];
        for text in pool::good(&shape[other]).iter().copied().chain(WRONG) {
            parts[other] = text;
            ask(set, parts.join("/").as_bytes());
        }
        parts[other] = kept;
    }
}

fn damaged(set: &mut Set, size: Size) {
    let mut random = Random(1);
    let pools = Pools::default();
    for _ in 0..size.pick(300_000, 30_000_000) {
        ask(set, &pools.path(&mut random));
    }
}

/// Texts and renderings just below, at and above the most.
fn lengths(set: &mut Set, _: Size) {
    for length in [255, 256, 4094, 4095, 4096, 4097, 4098, 65_535, 65_536, 65_563, 70_000] {
        for text in pool::grown(length) {
            let mut text = text.into_bytes();
            ask(set, &text);
            *text.last_mut().unwrap() = 0x80;
            ask(set, &text);
        }
    }
}

/// Every byte beyond ASCII, and some characters, at every place of every kind's plain text.
fn high(set: &mut Set, _: Size) {
    for shape in KINDS {
        let plain = pool::plain(shape);
        for place in 0..plain.len() {
            let mut text = plain.as_bytes().to_vec();
            for byte in 128..=255 {
                text[place] = byte;
                ask(set, &text);
            }
            for scalar in ["\u{80}", "\u{e9}", "\u{3b1}", "\u{4e2d}", "\u{1f600}", "\u{ff11}"] {
                let mut text = plain.clone();
                text.insert_str(place, scalar);
                ask(set, text.as_bytes());
            }
        }
    }
}

/// Every size of buffer up to well beyond the need.
fn rooms(set: &mut Set, _: Size) {
    for shape in KINDS {
        let text = pool::plain(shape).into_bytes();
        ask(set, &text);
        let (reading, key) =
            path::read_with_key(Mode::Plain, &text).expect("a plain text is a path");
        set.lend(read_call(&text), 0..66, &Ok(Bytes(reading.bytes().to_vec())));
        set.lend(key_call(&text), 0..key.len() + 40, &Ok(Bytes(key)));
    }
}
