//! Iteration keys read back, and the two scans over blocks of them, beside a plain model: the original
//! has neither.
use std::collections::BTreeSet;

use model::iteration::{self, Pair, KEY, WORD};
use model::random::Random;

use crate::call::{Call, Function};
use crate::set::Set;
use crate::{Sets, Size};

pub const SETS: Sets = &[
    ("iteration keys, read back", keys),
    ("iteration keys, blocks in order", ordered),
    ("iteration keys, blocks with one fault", faulty),
];

/// The keys of the largest block that is tried.
const MOST: usize = 200;

/// Counts where something changes.
const COUNTS: [u64; 9] = [0, 1, 7, 10, 255, 256, 1 << 32, u64::MAX - 1, u64::MAX];

/// A pair as one number, and back.
fn joined((number, height): Pair) -> u128 {
    u128::from(number) << 64 | u128::from(height)
}

fn parted(joined: u128) -> Pair {
    ((joined >> 64) as u64, joined as u64)
}

fn read(set: &mut Set, text: &[u8]) {
    let call = Call::new(Function::ReadIterationKey, [text, b""], [0, 0]);
    set.pair(call, iteration::read(text));
}

/// Both scans.
fn scan(set: &mut Set, block: &[u8], pair: Pair) {
    let call = |function| Call::new(function, [block, b""], [pair.0, pair.1]);
    set.pair(call(Function::FirstAbove), iteration::first_above(block, pair));
    set.pair(call(Function::LastBelow), iteration::last_below(block, pair));
}

/// Keys of many pairs; of some, each byte another, each shorter text, and longer ones.
fn keys(set: &mut Set, size: Size) {
    let mut random = Random(12);
    for number in COUNTS {
        for height in COUNTS {
            let key = iteration::write((number, height));
            read(set, &key);
            damaged(set, &key);
        }
    }
    for _ in 0..size.pick(20_000, 1_000_000) {
        let mut key = iteration::write((random.word(), random.word()));
        read(set, &key);
        random.damage(&mut key, 1);
        read(set, &key);
    }
}

fn damaged(set: &mut Set, key: &[u8]) {
    for at in 0..KEY {
        read(set, &key[..at]);
        read(set, &key[KEY - at..]);
        for other in [key[at] ^ 1, key[at] ^ 32, key[at] ^ 128] {
            read(set, &[&key[..at], &[other], &key[at + 1..]].concat());
        }
    }
    read(set, &[key, b"\0"].concat());
    read(set, &[key, key].concat());
}

/// So many pairs in order: small steps and large ones.
fn pairs(random: &mut Random, count: usize) -> Vec<Pair> {
    let mut all = BTreeSet::new();
    let near = random.one_in(2);
    while all.len() < count {
        let number = if near { random.of(&COUNTS) } else { random.word() };
        let height = random.of(&COUNTS).wrapping_add(random.below(4) as u64);
        all.insert((number, if random.one_in(3) { random.word() } else { height }));
    }
    all.into_iter().collect()
}

fn block(pairs: &[Pair]) -> Vec<u8> {
    pairs.iter().copied().flat_map(iteration::write).collect()
}

/// The sizes of the blocks to try: each, some times.
fn counts(size: Size) -> impl Iterator<Item = usize> {
    (0..size.pick(1, 20)).flat_map(|_| 0..=MOST)
}

/// Pairs at, between and beyond the keys.
fn ordered(set: &mut Set, size: Size) {
    let mut random = Random(13);
    for count in counts(size) {
        let pairs = pairs(&mut random, count);
        let block = block(&pairs);
        for pair in [(0, 0), (0, u64::MAX), (u64::MAX, 0), (u64::MAX, u64::MAX)] {
            scan(set, &block, pair);
        }
        for key in pairs.iter().copied().map(joined) {
            for asked in [key.saturating_sub(1), key, key.saturating_add(1)] {
                scan(set, &block, parted(asked));
            }
        }
        // lengths off by one, and a part of a key behind the block
        for end in [1, KEY - 1].into_iter().filter(|end| *end <= block.len()) {
            scan(set, &block[..block.len() - end], (7, 2));
        }
        for more in [&WORD[..1], WORD, &WORD[..0]] {
            scan(set, &[&block[..], more].concat(), (7, 2));
        }
    }
}

/// One fault of each sort at each place.
fn faulty(set: &mut Set, size: Size) {
    let mut random = Random(14);
    for count in counts(size) {
        let pairs = pairs(&mut random, count);
        let good = block(&pairs);
        for at in 0..count {
            let start = at * KEY;
            let asked = random.of(&pairs);
            let mut word = good.clone();
            word[start + random.below(WORD.len())] ^= 32;
            let mut less = good.clone();
            less.remove(start + random.below(KEY));
            let mut more = good.clone();
            more.insert(start + random.below(KEY), b'i');
            [word, less, more].iter().for_each(|bytes| scan(set, bytes, asked));
            // twice the same key, beside each other and in place of the next; two exchanged; one moved to the end
            let mut twice = pairs.clone();
            twice.insert(at, pairs[at]);
            scan(set, &block(&twice), asked);
            if at + 1 < count {
                let mut again = pairs.clone();
                again[at + 1] = again[at];
                let mut exchanged = pairs.clone();
                exchanged.swap(at, at + 1);
                let mut moved = pairs.clone();
                let key = moved.remove(at);
                moved.push(key);
                [again, exchanged, moved].iter().for_each(|pairs| scan(set, &block(pairs), asked));
            }
        }
    }
}
