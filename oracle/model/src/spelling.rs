//! Paths with all their spellings, for calls that work on the rendering of a text.
use crate::book::STATE;
use crate::identifier::Identifier;
use crate::path::{joined, Part, KINDS};
use crate::pool::{self, filled, Pools};
use crate::random::Random;

/// A path by its kind and parts.
#[derive(Clone, Debug)]
pub struct Spelt {
    kind: u8,
    first: String,
    second: String,
    numbers: [u64; 2],
}

impl Spelt {
    /// A path of any kind, mostly of few parts, so that a list of calls meets its paths again.
    pub fn chance(random: &mut Random) -> Self {
        let kind = if random.one_in(4) { STATE } else { 1 + random.below(KINDS.len()) as u8 };
        Self::of(kind, random)
    }

    /// A path of that kind.
    pub fn of(kind: u8, random: &mut Random) -> Self {
        let (mut first, mut second) = (String::new(), String::new());
        for part in KINDS[usize::from(kind) - 1] {
            match part {
                Part::First(Identifier::Client) => first = client(random),
                Part::First(_) | Part::Upgrade => first = random.of(pool::good(part)).into(),
                Part::Second(_) => second = random.of(pool::good(part)).into(),
                Part::Word(_) | Part::Number | Part::Heights => {}
            }
        }
        Self { kind, first, second, numbers: [number(random), number(random)] }
    }

    /// A path whose rendering has this length, from 200 to 300 bytes: an upgrade path.
    pub fn long(length: usize, random: &mut Random) -> Self {
        let kind = 18 + random.below(2) as u8;
        let mut path = Self {
            kind,
            first: String::new(),
            second: String::new(),
            numbers: [number(random), 0],
        };
        path.first = filled("", random.of(&['u', 'v', '\x7f']), length - path.exact().len());
        path
    }

    /// The longest path of kinds 1 to 17.
    pub fn longest() -> Self {
        let (first, second) = (filled("", 'p', 128), filled("channel-+", '0', 64));
        Self { kind: 15, first, second, numbers: [u64::MAX; 2] }
    }

    pub fn exact(&self) -> Vec<u8> {
        self.with(|number| number.to_string())
    }

    /// With a zero before each number: loose, where the kind has one.
    pub fn loose(&self) -> Vec<u8> {
        self.with(|number| format!("0{number}"))
    }

    /// Exact half the time, else with `+` or zeros before the numbers.
    pub fn spelling(&self, random: &mut Random) -> Vec<u8> {
        if random.one_in(2) {
            return self.exact();
        }
        self.with(|number| {
            let zeros = if random.one_in(32) { 300 } else { random.below(4) };
            format!("{}{}{number}", random.of(&["", "+"]), "0".repeat(zeros))
        })
    }

    fn with(&self, spell: impl FnMut(u64) -> String) -> Vec<u8> {
        let shape = KINDS[usize::from(self.kind) - 1];
        joined(shape, self.first.as_bytes(), self.second.as_bytes(), self.numbers.map(spell))
    }
}

/// Clients whose names begin one another, and the pool's.
pub fn client(random: &mut Random) -> String {
    const NEAR: [&str; 4] =
        ["07-tendermint-4", "07-tendermint-40", "07-tendermint-", "07-tendermint-4+"];
    let plain = random.one_in(3);
    random.of(if plain { pool::good(&Part::First(Identifier::Client)) } else { &NEAR }).into()
}

/// Mostly a number with few neighbours, of one digit or two.
fn number(random: &mut Random) -> u64 {
    match random.below(8) {
        0 => random.word() >> random.below(64),
        1 => random.of(&[0, 9, 10, 99, 100, u64::MAX - 1, u64::MAX]),
        _ => random.below(12) as u64,
    }
}

/// A text that a book refuses, or just takes: damaged, long, not ASCII, with a long rendering, or with
/// numbers that are none.
pub fn odd(pools: &Pools, random: &mut Random) -> Vec<u8> {
    match random.below(10) {
        0 => vec![],
        1 | 2 => {
            let length = random.of(&[4095, 4096, 4097, 4098]);
            random.text(&pool::grown(length)).into()
        }
        3 => {
            let mut text = Spelt::chance(random).spelling(random);
            let at = random.below(text.len());
            text[at] |= 0x80;
            text
        }
        4 => Spelt::long(random.of(&[250, 251, 254, 255, 256, 257, 300]), random).spelling(random),
        5 => Spelt::longest().spelling(random),
        6 | 7 => Spelt::chance(random).with(|_| random.of(&pool::FAULTS).into()),
        _ => pools.path(random),
    }
}
