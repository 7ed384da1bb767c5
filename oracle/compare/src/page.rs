//! The tables of docs/DIFFERENCES.md: every call that a row names is asked of the original and of the
//! library, and each has to answer what the row says. The page says how calls and answers are written.
use std::collections::BTreeMap;

use model::{Fault, NO_ROOM};

use crate::call::{Call, Function};
use crate::library;
use crate::original::{self, NO_PACKET_KEY, PANICKED};
use crate::set::{Bytes, Set, Text, Theirs};
use crate::{Sets, Size};

pub const SETS: Sets = &[("rows of docs/DIFFERENCES.md", ask)];

const PAGE: &str = include_str!("../../../docs/DIFFERENCES.md");

/// What is lent where a row names no room.
const ROOM: usize = 8192;

/// A call that a row names, and what stands there of it.
#[derive(Debug)]
pub struct Row {
    pub asked: &'static str,
    pub rust: &'static str,
    pub here: &'static str,
    /// None in a table that lists no differences between the Rust and the library.
    pub why: Option<&'static str>,
}

impl Row {
    /// The kind that the Rust's answer has, or 0.
    pub fn kind(&self) -> u8 {
        self.rust.strip_prefix("kind ").and_then(|kind| kind.parse().ok()).unwrap_or(0)
    }
}

/// Every call of every row. A table has the columns `asked`, `the Rust` and `here`, and where it lists
/// differences `why`.
fn rows() -> Vec<Row> {
    let (mut rows, mut columns) = (vec![], None::<([usize; 3], Option<usize>)>);
    for line in PAGE.lines() {
        let cells: Vec<&str> = line.split('|').map(str::trim).collect();
        let column = |name: &str| cells.iter().position(|cell| *cell == name);
        if !line.starts_with('|') {
            columns = None;
        } else if let Some((columns, why)) = columns {
            rows.extend(calls(columns.map(|at| quoted(cells[at])), why.map(|at| cells[at])));
        } else {
            let names = ["asked", "the Rust", "here"];
            let places = names.map(|name| column(name).unwrap_or_else(|| panic!("{line}")));
            columns = Some((places, column("why")));
        }
    }
    rows
}

/// What stands between backquotes; all of a cell that has none and no rule below a table's head.
fn quoted(cell: &str) -> Vec<&str> {
    match cell.split('`').collect::<Vec<_>>()[..] {
        [whole] if whole.starts_with("---") => vec![],
        [whole] => vec![whole],
        ref parts => parts.iter().copied().skip(1).step_by(2).collect(),
    }
}

/// The calls of a row: each has an answer of its own in a cell, or all have the one that is there.
fn calls(
    [asked, rust, here]: [Vec<&'static str>; 3],
    why: Option<&'static str>,
) -> impl Iterator<Item = Row> {
    let many = asked.len();
    let of = move |answers: &[&'static str], at: usize| match answers {
        [one] => one,
        answers if answers.len() == many => answers[at],
        _ => "as many answers as calls",
    };
    let row = move |(at, asked)| Row { asked, rust: of(&rust, at), here: of(&here, at), why };
    asked.into_iter().enumerate().map(row)
}

/// A row's call.
struct Asked {
    function: Function,
    kind: u8,
    texts: [Vec<u8>; 2],
    numbers: [u64; 2],
    book: Vec<u8>,
    room: usize,
}

impl Asked {
    /// The call that is written so; a call on a book has the book first, one with a kind the kind.
    fn of(asked: &str) -> Option<Self> {
        let mut words = asked.split(' ');
        let function = Function::named(words.next()?)?;
        let (mut texts, mut numbers, mut room) = (vec![], vec![], ROOM);
        while let Some(word) = words.next() {
            match word {
                "room" => room = words.next()?.parse().ok()?,
                word if word.starts_with('"') => texts.push(text(word)?),
                word => numbers.push(word.parse::<u64>().ok()?),
            }
        }
        let kind = if function.has_kind() { taken(&mut numbers)?.try_into().ok()? } else { 0 };
        let book = if function.has_book() { taken(&mut texts)? } else { vec![] };
        let (texts, numbers) = (two(texts)?, two(numbers)?);
        Some(Self { function, kind, texts, numbers, book, room })
    }

    fn call(&self) -> Call<'_> {
        let texts = [&self.texts[0][..], &self.texts[1][..]];
        Call { function: self.function, kind: self.kind, texts, numbers: self.numbers }
    }

    fn here(&self) -> String {
        let (mut book, mut out) = (vec![], vec![0; self.room]);
        let lend = Call::new(Function::BookLend, [&self.book, b""], [0, 0]);
        library::answer(&lend, &mut book, &mut []);
        let returned = library::answer(&self.call(), &mut book, &mut out);
        let length = if self.function.writes() { returned.numbers[0] as usize } else { 0 };
        let text = Bytes(out[..length].into());
        let (refusal, place) = (returned.refusal, returned.numbers[1] as usize);
        self.shown(if refusal == 0 { Ok(text) } else { Err(Fault { refusal, place }) })
    }

    fn rust(&self) -> String {
        match original::says(&self.call()) {
            Theirs::Says(said) | Theirs::Listed(_, said) => self.shown(said),
            Theirs::Silent(reason) => reason.into(),
        }
    }

    fn shown(&self, answer: Text) -> String {
        let text = match answer {
            Ok(Bytes(text)) => text,
            Err(Fault { refusal: PANICKED, .. }) => return "panics".into(),
            Err(fault) => return fault.to_string(),
        };
        match &text[..] {
            [kind] if self.function.reads() => format!("kind {kind}"),
            [kind, mark, ..] if self.function.reads() => {
                format!("kind {kind}, {}", ["loose", "exact"][usize::from(*mark)])
            }
            _ if !self.function.writes() => "0".into(),
            long if long.len() > 64 => format!("{} bytes", long.len()),
            text => format!("\"{}\"", String::from_utf8_lossy(text)),
        }
    }
}

fn taken<T>(from: &mut Vec<T>) -> Option<T> {
    (!from.is_empty()).then(|| from.remove(0))
}

/// What a call has of its arguments of a sort, which are two at most, and nothing for the rest.
fn two<T: Clone + Default>(mut given: Vec<T>) -> Option<[T; 2]> {
    given.resize(given.len().max(2), T::default());
    given.try_into().ok()
}

/// A text: quoted pieces side by side, each with `*` and a count after it where it is repeated.
fn text(mut word: &str) -> Option<Vec<u8>> {
    let mut all = vec![];
    while !word.is_empty() {
        let (piece, rest) = word.strip_prefix('"')?.split_once('"')?;
        let (times, after) = rest.split_at(rest.find('"').unwrap_or(rest.len()));
        let count = if times.is_empty() { 1 } else { times.strip_prefix('*')?.parse().ok()? };
        all.extend(bytes(piece)?.repeat(count));
        word = after;
    }
    Some(all)
}

/// A piece's bytes, of which some stand as `\x` and two digits.
fn bytes(piece: &str) -> Option<Vec<u8>> {
    let mut parts = piece.split("\\x");
    let mut all = parts.next()?.as_bytes().to_vec();
    for part in parts {
        all.push(u8::from_str_radix(part.get(..2)?, 16).ok()?);
        all.extend_from_slice(&part.as_bytes()[2..]);
    }
    Some(all)
}

/// An answer as rows list it: a refusal, 0 for any that is none, or why the Rust cannot be asked.
pub type Said = Result<u8, &'static str>;

/// The rows that list differences, by their call and pair of answers.
#[derive(Debug)]
pub struct Page(BTreeMap<(Function, Said, u8), Vec<Row>>);

impl Default for Page {
    fn default() -> Self {
        let said = |cell: &'static str| match cell {
            "panics" => Ok(PANICKED),
            "no str" | "no kind" | "no book" | "no reader" | NO_PACKET_KEY => Err(cell),
            cell => Ok(cell.split(" at ").next().and_then(|word| word.parse().ok()).unwrap_or(0)),
        };
        let mut page = Self(BTreeMap::new());
        for row in rows().into_iter().filter(|row| row.why.is_some()) {
            if let (Some(asked), Ok(here)) = (Asked::of(row.asked), said(row.here)) {
                page.0.entry((asked.function, said(row.rust), here)).or_default().push(row);
            }
        }
        page
    }
}

impl Page {
    /// The rows of a call with this pair of answers; none where no row lists the difference.
    pub fn rows(&self, function: Function, rust: Said, here: u8) -> &[Row] {
        self.0.get(&(function, rust, here)).map_or(&[], Vec::as_slice)
    }

    /// Whether a row lists 4 of a call: one that the original answers, or does not have.
    pub fn lists_no_room(&self, function: Function) -> bool {
        let listed = |rust| !self.rows(function, rust, NO_ROOM).is_empty();
        listed(Ok(0)) || listed(Err(NO_PACKET_KEY))
    }

    /// The rows that list the difference between what the original says and another answer: none where
    /// it was asked what it may not differ on.
    pub fn covering<T>(
        &self,
        function: Function,
        theirs: &Theirs<Result<T, Fault>>,
        ours: &Result<T, Fault>,
    ) -> &[Row] {
        let number = |answer: &Result<T, Fault>| answer.as_ref().err().map_or(0, |e| e.refusal);
        match theirs {
            Theirs::Says(_) => &[],
            Theirs::Listed(_, said) => self.rows(function, Ok(number(said)), number(ours)),
            Theirs::Silent(reason) => self.rows(function, Err(reason), number(ours)),
        }
    }
}

/// The calls of `hp_read` that rows list with a text alone, and their texts.
#[cfg(test)]
pub fn texts_read() -> Vec<(&'static str, Vec<u8>)> {
    let listed = rows().into_iter().filter(|row| row.why.is_some());
    let calls = listed.filter_map(|row| Some((row.asked, Asked::of(row.asked)?)));
    let alone = calls.filter(|(_, call)| call.function == Function::Read && call.room == ROOM);
    alone.map(|(asked, call)| (asked, call.texts[0].clone())).collect()
}

fn ask(set: &mut Set, _: Size) {
    for Row { asked, rust, here, .. } in rows() {
        set.count();
        let Some(call) = Asked::of(asked) else {
            set.differ(|| format!("{asked}: no call"));
            continue;
        };
        let (said, answered) = (call.rust(), call.here());
        if said != rust || answered != here {
            set.differ(|| {
                format!("{asked}: Rust {said}, here {answered}; the row has {rust} and {here}")
            });
        }
    }
}
