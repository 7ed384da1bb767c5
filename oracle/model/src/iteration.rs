//! Iteration keys, and request L1's blocks of them: lists of pairs, looked through from one end.
use crate::{hold, Refusal, ABSENT, BAD_BLOCK, BAD_ITER_KEY};

pub const KEY: usize = 38;

pub const WORD: &[u8] = b"iterateConsensusStates";

/// Revision number and height.
pub type Pair = (u64, u64);

pub fn write((number, height): Pair) -> Vec<u8> {
    [WORD, &number.to_be_bytes(), &height.to_be_bytes()].concat()
}

/// 15.
pub fn read(key: &[u8]) -> Result<Pair, Refusal> {
    hold(key.len() == KEY && key.starts_with(WORD), BAD_ITER_KEY)?;
    let number = |bytes: &[u8]| bytes.iter().fold(0, |value, byte| value << 8 | u64::from(*byte));
    Ok((number(&key[WORD.len()..WORD.len() + 8]), number(&key[WORD.len() + 8..])))
}

/// The pairs of a block. 16.
fn pairs(block: &[u8]) -> Result<Vec<Pair>, Refusal> {
    let keys: Result<Vec<Pair>, Refusal> = block.chunks(KEY).map(read).collect();
    let keys = keys.map_err(|_| BAD_BLOCK)?;
    hold(keys.windows(2).all(|two| two[0] < two[1]), BAD_BLOCK)?;
    Ok(keys)
}

/// 16, 12.
pub fn first_above(block: &[u8], pair: Pair) -> Result<Pair, Refusal> {
    pairs(block)?.into_iter().find(|key| *key > pair).ok_or(ABSENT)
}

/// 16, 12.
pub fn last_below(block: &[u8], pair: Pair) -> Result<Pair, Refusal> {
    pairs(block)?.into_iter().rfind(|key| *key < pair).ok_or(ABSENT)
}
