//! What a text is, as each voice can tell it.
use hostpath::{raw, READING};
use ibc_core_host_types::terms::{self, Parts};
use model::path::{Place, Reading, MOST};
use model::{Fault, Mode};

use crate::call::{Call, Function};
use crate::original::reads;
use crate::set::{Bytes, Theirs};

/// A reading with its identifiers as texts, and the key.
#[derive(Debug, PartialEq)]
pub struct Told {
    pub kind: u8,
    pub exact: bool,
    pub first: Bytes,
    pub second: Bytes,
    pub numbers: [u64; 2],
    pub key: Bytes,
}

/// What is told, or a refusal.
pub type Answer = Result<Told, Fault>;

pub fn read_call(text: &[u8]) -> Call<'_> {
    Call::new(Function::Read, [text, b""], [0, 0])
}

/// The same by the second reader.
pub fn walk_call(text: &[u8]) -> Call<'_> {
    Call::new(Function::Walk, [text, b""], [0, 0])
}

/// The original has no mark: it is taken to say whether its rendering is the text.
pub fn by_original(mode: Mode, text: &[u8]) -> Theirs<Answer> {
    reads(mode, text, |path, key| {
        let Parts { kind, first, second, numbers } = terms::parts(path);
        let [first, second, key] = [first, second, key].map(|text| Bytes(text.into()));
        Told { kind, exact: key.0 == text, first, second, numbers, key }
    })
}

pub fn by_reading(reading: &Reading, key: &[u8], text: &[u8]) -> Told {
    let Reading { kind, exact, numbers, .. } = *reading;
    let [first, second] = [reading.first, reading.second].map(|place| Bytes(place.of(text).into()));
    Told { kind, exact, first, second, numbers, key: Bytes(key.into()) }
}

/// By `hp_read` and `hp_key`, or the wide two; where the two refuse for different reasons 0, which no
/// refusal has.
pub fn by_library(mode: Mode, text: &[u8]) -> Answer {
    let (mut bytes, mut key) = ([0; READING], [0; MOST]);
    let (fault, written) = match mode {
        Mode::Plain => (raw::read(text, &mut bytes), raw::key(text, &mut key)),
        Mode::Wide => (raw::wide_read(text, &mut bytes), raw::wide_key(text, &mut key)),
    };
    let raw::Fault { refusal, place } = fault;
    match refusal {
        0 => Ok(by_reading(&reading(&bytes), &key[..written.length as usize], text)),
        refusal if refusal == written.refusal => Err(Fault { refusal, place: place as usize }),
        _ => Err(0.into()),
    }
}

/// The reading that stands in the node's 26 bytes.
fn reading(bytes: &[u8; READING]) -> Reading {
    let number = |at: usize, size: usize| {
        bytes[at..at + size].iter().fold(0, |number, byte| number << 8 | u64::from(*byte))
    };
    let place = |at| Place { start: number(at, 2) as usize, length: number(at + 2, 2) as usize };
    Reading {
        kind: bytes[0],
        exact: bytes[1] == 1,
        first: place(2),
        second: place(6),
        numbers: [number(10, 8), number(18, 8)],
    }
}
