//! Request L9, with owners as request L10 has them: a table of buckets beside a book, and many lookups at once.
use crate::book::{known, Book, Manner, VALUE};
use crate::{hold, Refusal, BAD_TABLE, NO_ROOM};

/// The bytes of a table: a bucket each.
pub const BUCKETS: usize = 512;

/// The bytes of a text's answer: refusal number, value length, and the value filled with zeros.
pub const ANSWER: usize = 2 + VALUE;

/// The 64-bit FNV-1a value, from the published offset and prime: xor with the byte, then a multiplication that wraps.
pub fn fnv1a(bytes: &[u8]) -> u64 {
    let joined = |hash: u64, byte: &u8| (hash ^ u64::from(*byte)).wrapping_mul(0x100_0000_01b3);
    bytes.iter().fold(0xcbf2_9ce4_8422_2325, joined)
}

/// The bucket at which an owner's key is entered where that is free: the owner is hashed ahead of the key.
pub fn home(owner: u8, key: &[u8]) -> usize {
    (fnv1a(&[&[owner], key].concat()) % BUCKETS as u64) as usize
}

/// The table of a book: the records of both owners in their order, each at its home or the next free bucket after it, going round at
/// the end. A bucket holds the slot's number counted from 1, or 0.
pub fn filled(book: &Book) -> Vec<u8> {
    let mut table = vec![0; BUCKETS];
    for (number, (owner, key)) in (1..).zip(book.keys()) {
        let home = home(*owner, key);
        let free = (home..BUCKETS).chain(0..home).find(|bucket| table[*bucket] == 0);
        table[free.expect("a book has fewer records")] = number;
    }
    table
}

/// The texts, each ended by byte 10; bytes after the last 10 are one if there are any.
pub fn texts(bytes: &[u8]) -> Vec<&[u8]> {
    let mut all: Vec<&[u8]> = bytes.split(|byte| *byte == 10).collect();
    if all.last().is_some_and(|text| text.is_empty()) {
        all.pop();
    }
    all
}

/// What the owner's plain lookup of a text alone gives with 64 bytes of room.
fn answer(book: &Book, owner: u8, text: &[u8]) -> Vec<u8> {
    let mut bytes = match book.lookup(owner, Manner::Plain, text, VALUE) {
        Ok(value) => [&[0, value.len() as u8], &value[..]].concat(),
        Err(refusal) => vec![refusal],
    };
    bytes.resize(ANSWER, 0);
    bytes
}

/// 4; it writes the first 512 bytes.
pub fn fill(book: &Book, room: usize) -> Result<Vec<u8>, Refusal> {
    hold(room >= BUCKETS, NO_ROOM)?;
    Ok(filled(book))
}

/// 23, 22, 4.
pub fn lookups(
    book: &Book,
    owner: u8,
    table: &[u8],
    lines: &[u8],
    room: usize,
) -> Result<Vec<u8>, Refusal> {
    known(owner)?;
    hold(table == filled(book), BAD_TABLE)?;
    let texts = texts(lines);
    hold(room >= ANSWER * texts.len(), NO_ROOM)?;
    Ok(texts.iter().flat_map(|text| answer(book, owner, text)).collect())
}
