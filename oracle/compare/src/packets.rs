//! Packet keys of IBC version 2, read and written, beside a plain model: the original has none.
use model::packet::{self, MARKERS};
use model::path;
use model::random::Random;
use model::{Fault, Mode, NOT_ASCII, NOT_A_PATH};

use crate::call::{Call, Function};
use crate::original::NO_PACKET_KEY;
use crate::paths;
use crate::set::{Bytes, Set, Theirs};
use crate::{Sets, Size};

pub const SETS: Sets = &[
    ("packet keys, every length and marker", lengths),
    ("packet keys, clients", clients),
    ("packet keys, damaged", damaged),
    ("packet keys, as paths", as_paths),
];

/// The bytes of the longest key that is tried.
const MOST: usize = 90;

/// Sequences where something changes, and ones that have markers and slashes in them.
const SEQUENCES: [u64; 8] = [
    0,
    1,
    1 << 32,
    u64::MAX,
    0x0102_0301_0203_0102,
    0x0300_0000_0000_0002,
    u64::from_be_bytes(*b"//5/upgr"),
    u64::from_be_bytes(*b"/7/7-2/x"),
];

fn read(set: &mut Set, key: &[u8]) {
    let call = Call::new(Function::V2Read, [key, b""], [0, 0]);
    set.packet(call, packet::read(key));
}

fn write(set: &mut Set, kind: u8, client: &[u8], sequence: u64) {
    let call = Call { kind, ..Call::new(Function::V2Write, [client, b""], [sequence, 0]) };
    let model = packet::write(kind, client, sequence).map(Bytes).map_err(Fault::from);
    set.text(call, Theirs::Silent(NO_PACKET_KEY), &model);
}

/// Both ways, whether it is a key or not.
fn both(set: &mut Set, kind: u8, client: &[u8], sequence: u64) {
    read(set, &[client, &[kind], &sequence.to_be_bytes()].concat());
    write(set, kind, client, sequence);
}

/// Every length with every marker byte; and what is too short, all of one byte.
fn lengths(set: &mut Set, size: Size) {
    for byte in [b'a', 0, 1, 2, 3, b'/', 127, 128, 255] {
        (0..=MOST).for_each(|length| read(set, &vec![byte; length]));
    }
    for length in 9..=MOST {
        let client = vec![b'a'; length - 9];
        for kind in 0..=255 {
            for sequence in &SEQUENCES[..size.pick(4, 8)] {
                both(set, kind, &client, *sequence);
            }
        }
    }
}

/// Every byte at the ends and inside of clients of every length, under the three markers and two others.
fn clients(set: &mut Set, size: Size) {
    for length in 1..=MOST - 9 {
        let places = [0, length / 2, length - 1];
        for at in &places[size.pick(2, 0)..] {
            for byte in 0..=255 {
                let mut client = vec![b'Z'; length];
                client[*at] = byte;
                for kind in [0, 1, 2, 3, 4] {
                    both(set, kind, &client, SEQUENCES[usize::from(byte) % SEQUENCES.len()]);
                }
            }
        }
    }
}

/// A client of identifier bytes, of a length that is accepted.
fn client(random: &mut Random) -> Vec<u8> {
    let bytes = b"0123456789ABXYZabxyz._+-#[]<>";
    (0..9 + random.below(56)).map(|_| random.of(bytes)).collect()
}

/// Keys by chance, and the same with one fault.
fn damaged(set: &mut Set, size: Size) {
    let mut random = Random(21);
    for _ in 0..size.pick(20_000, 1_000_000) {
        let (kind, client) = (random.of(&MARKERS), client(&mut random));
        let sequence = if random.one_in(2) { random.of(&SEQUENCES) } else { random.word() };
        both(set, kind, &client, sequence);
        let mut key = packet::write(kind, &client, sequence).expect("a key");
        random.damage(&mut key, 1);
        read(set, &key);
        let mut client = client;
        random.damage(&mut client, 1);
        write(set, kind, &client, sequence);
    }
}

/// No key is a path: it is read as one, and the model says 2 or 3.
fn as_paths(set: &mut Set, size: Size) {
    let mut random = Random(22);
    for _ in 0..size.pick(2_000, 100_000) {
        let client = client(&mut random);
        for kind in MARKERS {
            for sequence in [random.of(&SEQUENCES), random.word()] {
                let key = packet::write(kind, &client, sequence).expect("a key");
                paths::ask(set, &key);
                let refusal = if key.is_ascii() { NOT_A_PATH } else { NOT_ASCII };
                if path::read_with_key(Mode::Plain, &key).map(|_| ()) != Err(refusal.into()) {
                    set.differ(|| format!("{}: a path", key.escape_ascii()));
                }
            }
        }
    }
}
