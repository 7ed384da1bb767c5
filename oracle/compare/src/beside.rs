//! Texts through the original and through the library: each difference with both answers and the row of
//! docs/DIFFERENCES.md that lists it, and counts of all.
use std::collections::BTreeMap;
use std::fmt::{self, Display, Formatter};
use std::io::{self, BufRead, Read, Write};

use hostpath::Refusal;
use model::identifier::Identifier;
use model::path::{shape, Part};
use model::{Fault, Mode, TOO_LONG};

use crate::call::Function;
use crate::original::PANICKED;
use crate::page::{Page, Row};
use crate::set::Theirs;
use crate::told::{self, Answer, Told};

/// The longest text that is held whole. Of a longer one a byte more than this is: the library's answer
/// goes by the length alone, and the original is not asked.
pub const HELD: usize = 1 << 20;

const NOT_ASKED: &str = "not asked, as the text is too long to be held";

/// Takes the next text, without the byte that ends it, and gives how many bytes were read: 0 at the end.
pub fn next(input: &mut impl BufRead, end: u8, text: &mut Vec<u8>) -> io::Result<usize> {
    text.clear();
    let mut read = input.take(HELD as u64 + 1).read_until(end, text)?;
    if text.last() == Some(&end) {
        text.pop();
    } else if text.len() > HELD {
        read += input.skip_until(end)?;
    }
    Ok(read)
}

/// A refusal that was the answer: how often, and where it was so first.
#[derive(Default)]
struct Refused {
    count: u64,
    first: Vec<String>,
}

/// Of how many texts with the same refusal the first are shown.
const FIRST: usize = 3;

/// What was asked and how often.
#[derive(Default)]
pub struct Counts {
    pub texts: u64,
    /// Exact and loose readings of each kind.
    kinds: BTreeMap<u8, [u64; 2]>,
    refusals: BTreeMap<u8, Refused>,
    /// The differences of each row, by its call and its reason.
    pub listed: BTreeMap<(&'static str, &'static str), u64>,
    pub unlisted: u64,
}

impl Counts {
    fn add(&mut self, ours: &Answer, told: impl Fn() -> String) {
        self.texts += 1;
        match ours {
            Ok(told) => self.kinds.entry(told.kind).or_default()[usize::from(!told.exact)] += 1,
            Err(fault) => {
                let refused = self.refusals.entry(fault.refusal).or_default();
                refused.count += 1;
                if refused.first.len() < FIRST {
                    refused.first.push(told());
                }
            }
        }
    }

    fn differ(&self) -> u64 {
        self.listed.values().sum()
    }

    /// The headline.
    pub fn whole(&self) -> String {
        let (differ, unlisted) = (self.differ(), self.unlisted);
        let same = grouped(self.texts - differ - unlisted);
        let [texts, differ, unlisted] = [self.texts, differ, unlisted].map(grouped);
        format!(
            "{texts} texts: {same} read the same by both, {differ} differ as listed, {unlisted} unlisted"
        )
    }
}

impl Display for Counts {
    fn fmt(&self, out: &mut Formatter<'_>) -> fmt::Result {
        for (kind, [exact, loose]) in &self.kinds {
            let (all, path) = (exact + loose, of_kind(*kind));
            writeln!(out, "{all:>12} of kind {kind}, {path}: {exact} exact, {loose} loose")?;
        }
        for (number, Refused { count, first }) in &self.refusals {
            let sentence = Refusal::of(*number).map_or("for two reasons", Refusal::sentence);
            writeln!(out, "{count:>12} refused with {number}, {sentence}")?;
            first.iter().try_for_each(|told| writeln!(out, "{:>12} {told}", ""))?;
        }
        for ((asked, why), count) in &self.listed {
            writeln!(out, "{count:>12} listed, as {asked}: {why}")?;
        }
        writeln!(out, "{}", self.whole())
    }
}

/// A number in groups of three digits.
fn grouped(number: u64) -> String {
    let digits = number.to_string();
    let groups: Vec<&str> = digits.as_bytes().rchunks(3).rev().map(utf8).collect();
    groups.join(",")
}

fn utf8(bytes: &[u8]) -> &str {
    std::str::from_utf8(bytes).expect("digits")
}

/// The path of a kind, with its identifiers and numbers by the letters of document 01.
fn of_kind(kind: u8) -> String {
    let parts = shape(kind).unwrap_or_default().iter().map(|part| match part {
        Part::Word(word) => word,
        Part::First(Identifier::Client) => "C",
        Part::First(Identifier::Connection) => "K",
        Part::First(_) => "P",
        Part::Second(_) => "H",
        Part::Upgrade => "U",
        Part::Number => "N",
        Part::Heights => "R-h",
    });
    parts.collect::<Vec<&str>>().join("/")
}

/// How the answers to a text stand to each other.
enum Standing<'p> {
    Same,
    Listed(&'p Row),
    Unlisted,
}

/// The two voices, and what is printed of them.
pub struct Beside<'p, W> {
    pub page: &'p Page,
    pub mode: Mode,
    /// Whether the counts alone are printed, and no text.
    pub quiet: bool,
    pub library: fn(Mode, &[u8]) -> Answer,
    pub out: W,
    pub counts: Counts,
}

impl<W: Write> Beside<'_, W> {
    /// Asks both about a text, the so-manieth of a file, and prints where they differ.
    pub fn ask(&mut self, file: &str, number: u64, text: &[u8]) -> io::Result<()> {
        let ours = (self.library)(self.mode, text);
        let held = text.len() <= HELD;
        let theirs =
            if held { told::by_original(self.mode, text) } else { Theirs::Silent(NOT_ASKED) };
        let theirs = theirs.against(function(self.mode), &ours);
        let place = || format!("{file}:{number}: {}", quoted(text));
        self.counts.add(&ours, place);
        let verdict = match standing(self.page, self.mode, &theirs, &ours) {
            Standing::Same => return Ok(()),
            Standing::Listed(row) => {
                let why = row.why.unwrap_or_default();
                *self.counts.listed.entry((row.asked, why)).or_default() += 1;
                format!("listed    {}: {why}", row.asked)
            }
            Standing::Unlisted => {
                self.counts.unlisted += 1;
                "NOT LISTED in docs/DIFFERENCES.md".into()
            }
        };
        if self.quiet {
            return Ok(());
        }
        let said = match &theirs {
            Theirs::Says(said) | Theirs::Listed(_, said) => shown(said, false),
            Theirs::Silent(reason) => (*reason).into(),
        };
        let (place, here) = (place(), shown(&ours, true));
        writeln!(self.out, "{place}\n  the Rust  {said}\n  here      {here}\n  {verdict}")
    }
}

fn function(mode: Mode) -> Function {
    match mode {
        Mode::Plain => Function::Read,
        Mode::Wide => Function::WideRead,
    }
}

/// A loose reading is a difference: the original does not say that the text is not its own key.
fn standing<'p>(
    page: &'p Page,
    mode: Mode,
    theirs: &Theirs<Answer>,
    ours: &Answer,
) -> Standing<'p> {
    let (mut kind, function) = (0, function(mode));
    if let Theirs::Says(Ok(told)) | Theirs::Listed(_, Ok(told)) = theirs {
        kind = told.kind;
    }
    let rows = match (theirs, ours) {
        (Theirs::Says(said) | Theirs::Listed(_, said), ours) if said == ours => match ours {
            Ok(Told { exact: false, .. }) => page.rows(function, Ok(0), 0),
            _ => return Standing::Same,
        },
        // whatever the original would say, the size limit comes first here
        (Theirs::Silent(NOT_ASKED), Err(Fault { refusal: TOO_LONG, .. })) => {
            page.rows(function, Ok(0), TOO_LONG)
        }
        _ => page.covering(function, theirs, ours),
    };
    nearest(rows, kind).map_or(Standing::Unlisted, Standing::Listed)
}

/// Of several rows, one about a path of the same sort as this kind: with an upgrade path, or without.
fn nearest(rows: &[Row], kind: u8) -> Option<&Row> {
    let upgrade = |kind| shape(kind).is_ok_and(|shape| shape.contains(&Part::Upgrade));
    rows.iter().find(|row| upgrade(row.kind()) == upgrade(kind)).or(rows.first())
}

/// An answer in a line, the library's with its mark.
fn shown(answer: &Answer, marked: bool) -> String {
    let Told { kind, exact, first, second, numbers: [a, b], key } = match answer {
        Ok(told) => told,
        Err(Fault { refusal: PANICKED, .. }) => return "panics".into(),
        Err(fault) => return fault.to_string(),
    };
    let mark = ["", ", loose", ", exact"][usize::from(marked) * (1 + usize::from(*exact))];
    let [first, second, key] = [first, second, key].map(|text| quoted(&text.0));
    format!("kind {kind}{mark}: {first} {second} {a} {b}, key {key}")
}

/// A text in quotes, of a long one the beginning and the length: as text where it is UTF-8.
fn quoted(text: &[u8]) -> String {
    const SHOWN: usize = 128;
    match text.len() {
        0..=SHOWN => format!("\"{}\"", escaped(text)),
        length => {
            let more = if length > HELD { " or more" } else { "" };
            format!("\"{}\".. of {length} bytes{more}", escaped(&text[..SHOWN]))
        }
    }
}

fn escaped(text: &[u8]) -> String {
    match std::str::from_utf8(text) {
        Ok(text) => text.escape_debug().to_string(),
        Err(_) => text.escape_ascii().to_string(),
    }
}

#[cfg(test)]
mod tests {
    use super::*;
    use crate::page;

    /// What is printed of an input, and the counts.
    fn run(input: &[u8], end: u8, library: fn(Mode, &[u8]) -> Answer) -> (String, Counts) {
        run_in(Mode::Plain, false, input, end, library)
    }

    fn run_in(
        mode: Mode,
        quiet: bool,
        input: &[u8],
        end: u8,
        library: fn(Mode, &[u8]) -> Answer,
    ) -> (String, Counts) {
        let page = Page::default();
        let (out, counts) = (vec![], Counts::default());
        let mut beside = Beside { page: &page, mode, quiet, library, out, counts };
        let (mut input, mut text) = (input, vec![]);
        while next(&mut input, end, &mut text).unwrap() > 0 {
            beside.ask("texts", beside.counts.texts + 1, &text).unwrap();
        }
        (String::from_utf8(beside.out).unwrap(), beside.counts)
    }

    #[test]
    fn every_listed_difference_of_a_text_is_told_by_its_row() {
        let texts = page::texts_read();
        assert!(texts.len() >= 8, "{texts:?}");
        for (asked, text) in &texts {
            let (printed, counts) = run(text, b'\n', told::by_library);
            assert!(printed.contains(&format!("  listed    {asked}: ")), "{printed}");
            assert_eq!((counts.texts, counts.unlisted), (1, 0), "{printed}");
        }
        let all: Vec<Vec<u8>> = texts.iter().map(|(_, text)| text.clone()).collect();
        let (_, counts) = run(&all.join(&b'\n'), b'\n', told::by_library);
        assert_eq!(counts.listed.len(), texts.len(), "a row each");
        assert!(counts.listed.values().all(|count| *count == 1));
    }

    #[test]
    fn a_difference_that_no_row_lists_is_told_and_counted() {
        let lies = |mode: Mode, text: &[u8]| match told::by_library(mode, text) {
            Ok(told) if told.kind == 10 => Ok(Told { numbers: [1, 0], ..told }),
            Ok(told) if told.kind == 1 => Err(2.into()),
            answer => answer,
        };
        let (printed, counts) = run(b"ports/ab\nports/a\nnextClientSequence\n", b'\n', lies);
        assert_eq!((counts.texts, counts.unlisted, counts.listed.len()), (3, 2, 0), "{printed}");
        let told =
            "texts:1: \"ports/ab\"\n  the Rust  kind 10: \"ab\" \"\" 0 0, key \"ports/ab\"\n";
        assert!(printed.starts_with(told), "{printed}");
        assert!(printed.contains("texts:3: \"nextClientSequence\""), "{printed}");
    }

    #[test]
    fn texts_end_at_their_byte_or_with_the_input() {
        let (printed, counts) =
            run(b"ports/ab\0\0clients/07-tendermint-4/x\nports/ab", 0, |mode, text| {
                assert_ne!(text, b"\0");
                told::by_library(mode, text)
            });
        assert_eq!((counts.texts, counts.unlisted), (3, 0), "{printed}");
        assert_eq!(run(b"", b'\n', told::by_library).1.texts, 0);
    }

    #[test]
    fn a_text_that_is_too_long_to_be_held_is_one_text() {
        let mut input = vec![b'u'; 3 * HELD];
        input.extend(b"/5/upgradedClient\nports/ab\n");
        let (printed, counts) = run(&input, b'\n', told::by_library);
        assert_eq!((counts.texts, counts.unlisted, counts.listed.len()), (2, 0, 1), "{printed}");
        assert!(printed.contains(NOT_ASKED), "{printed}");
        let (printed, counts) =
            run(&[vec![b'u'; HELD], vec![b'\n']].concat(), b'\n', told::by_library);
        assert_eq!((counts.texts, counts.listed.len()), (1, 1), "{printed}");
        assert!(!printed.contains(NOT_ASKED), "{printed}");
    }

    #[test]
    fn the_counts_name_kinds_and_refusals_and_end_with_the_headline() {
        let (printed, counts) = run_in(
            Mode::Plain,
            true,
            "ports/ab\nclients\nports/é\n".as_bytes(),
            b'\n',
            told::by_library,
        );
        assert_eq!(printed, "");
        let told = counts.to_string();
        assert!(told.contains("1 of kind 10, ports/P: 1 exact, 0 loose\n"), "{told}");
        assert!(told.contains("1 refused with 2, a byte of the text is 128 or more"), "{told}");
        assert!(told.contains(" texts:3: \"ports/é\"\n"), "{told}");
        let headline = "3 texts: 1 read the same by both, 2 differ as listed, 0 unlisted\n";
        assert!(told.ends_with(headline), "{told}");
        assert_eq!(grouped(1_234_567), "1,234,567");
        assert_eq!(of_kind(5), "clients/C/consensusStates/R-h");
    }

    #[test]
    fn letters_beyond_ascii_are_no_difference_in_the_wide_mode() {
        let (printed, counts) =
            run_in(Mode::Wide, false, "ports/é\nclients\n".as_bytes(), b'\n', told::by_library);
        assert_eq!((counts.texts, counts.unlisted, counts.listed.len()), (2, 0, 1), "{printed}");
        assert!(printed.contains("  listed    hp_wide_read \"clients\": "), "{printed}");
    }
}
