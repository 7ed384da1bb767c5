//! The typed paths of rust/hostpath beside the original's: the same case, the same fields, the same text.
use std::fmt::{Debug, Display};

use model::path::{self, Part, KINDS};
use model::pool::{self, Pools};
use model::random::Random;
use model::{Fault, Mode};

use crate::original;
use crate::set::{Set, Theirs};
use crate::{Sets, Size};

pub const SETS: Sets = &[("typed paths of the Rust crate", typed)];

/// A path as `Debug` and `Display` show it: its case, the names of its fields, their values, its text.
#[derive(Debug, PartialEq)]
struct Shown {
    case: String,
    names: Vec<String>,
    values: Vec<String>,
    text: String,
}

impl Shown {
    fn of(path: &(impl Debug + Display)) -> Self {
        let debug = format!("{path:?}");
        let words: Vec<String> =
            debug.split(['(', ')', '{', '}', ',', ' ']).map(Into::into).collect();
        let chosen = |choose: fn(&&String) -> bool| words.iter().filter(choose).cloned().collect();
        Self {
            case: words[0].clone(),
            names: chosen(|word| word.ends_with(':')),
            values: chosen(|word| word.starts_with(|c: char| c == '"' || c.is_ascii_digit())),
            text: path.to_string(),
        }
    }
}

fn fault(hostpath::Fault { refusal, place }: hostpath::Fault) -> Fault {
    Fault { refusal: refusal.number(), place: place.map_or(0, |place| place.byte) }
}

/// A text in both modes.
fn ask(set: &mut Set, text: &[u8]) {
    let plain = hostpath::Path::read(text).map(|reading| (reading.exact, Shown::of(&reading.path)));
    check(set, Mode::Plain, text, plain.map_err(fault));
    let wide = hostpath::wide::Path::read(text);
    let wide = wide.map(|reading| (reading.exact, Shown::of(&reading.path)));
    check(set, Mode::Wide, text, wide.map_err(fault));
}

/// Names of fields are compared where the original has them.
fn check(set: &mut Set, mode: Mode, text: &[u8], mut ours: Result<(bool, Shown), Fault>) {
    set.count();
    let said = original::reads(mode, text, |path, _| Shown::of(path));
    let Theirs::Says(theirs) = said else { return };
    // that a text is refused is the original's word; why and where, the model's
    let theirs = theirs.map_err(|said| path::read(mode, text).err().unwrap_or(said));
    let theirs = theirs.map(|shown| (shown.text.as_bytes() == text, shown));
    if let (Ok((_, ours)), Ok((_, theirs))) = (&mut ours, &theirs) {
        if theirs.names.is_empty() {
            ours.names.clear();
        }
    }
    if ours != theirs {
        let text = text.escape_ascii();
        set.differ(|| format!("\"{text}\", {mode:?}: expected {theirs:?}, here {ours:?}"));
    }
}

/// Texts that fit a part.
type Good = fn(&Part) -> &[&'static str];

/// In the plain mode, and in the wide mode.
const GOOD: [Good; 2] = [pool::good, pool::wide];

/// Good parts of a kind in changing company.
fn company(set: &mut Set, shape: &[Part], good: Good) {
    for turn in 0..20 {
        let part = |(place, part)| {
            let good = good(part);
            good[(turn + place * (turn / 4)) % good.len()]
        };
        let text = shape.iter().enumerate().map(part).collect::<Vec<_>>().join("/");
        ask(set, text.as_bytes());
    }
}

/// Good parts of each kind, and paths by chance.
fn typed(set: &mut Set, size: Size) {
    for good in GOOD {
        for shape in KINDS {
            company(set, shape, good);
        }
    }
    let (mut random, pools) = (Random(11), Pools::default());
    for _ in 0..size.pick(100_000, 9_000_000) {
        ask(set, &pools.path(&mut random));
        ask(set, &pools.wide_path(&mut random));
    }
}
