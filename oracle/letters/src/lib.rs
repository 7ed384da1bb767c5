//! Which characters beyond ASCII a Rust release takes for letters and numbers, and which for white space: by the
//! answers of the release that compiles this, and by the table of crates/letters, which is of the release that it
//! names. The two are of one release, or a run says on which characters they differ and goes by the table.
use std::fmt::{self, Display, Formatter};
use std::sync::LazyLock;

mod layout;

/// The release that compiles this, as `rustc 1.95.0`.
pub const RELEASE: &str = env!("RELEASE");

/// First and last of each range, rising.
pub type Ranges = Vec<(u32, u32)>;

/// What a release says of characters beyond ASCII.
#[derive(Clone, Debug, PartialEq, Eq)]
pub struct Table {
    pub release: String,
    /// `char::is_alphanumeric`
    pub letters: Ranges,
    /// `char::is_whitespace`
    pub blanks: Ranges,
}

impl Table {
    /// What this release says, asked about every scalar value.
    pub fn of_this_release() -> Self {
        Self {
            release: RELEASE.into(),
            letters: ranges(char::is_alphanumeric),
            blanks: ranges(char::is_whitespace),
        }
    }

    /// The characters of which two tables say different things.
    fn apart(&self, other: &Self) -> Vec<char> {
        let says = |table: &Self, c| [has(&table.letters, c), has(&table.blanks, c)];
        beyond_ascii().filter(|c| says(self, *c) != says(other, *c)).collect()
    }
}

fn beyond_ascii() -> impl Iterator<Item = char> {
    '\u{80}'..=char::MAX
}

fn ranges(test: fn(char) -> bool) -> Ranges {
    joined(beyond_ascii().filter(|c| test(*c)))
}

/// Rising characters as ranges.
fn joined(characters: impl Iterator<Item = char>) -> Ranges {
    let mut all: Ranges = vec![];
    for value in characters.map(u32::from) {
        match all.last_mut() {
            Some((_, last)) if *last + 1 == value => *last = value,
            _ => all.push((value, value)),
        }
    }
    all
}

fn has(ranges: &Ranges, character: char) -> bool {
    let value = u32::from(character);
    let at = ranges.partition_point(|(_, last)| *last < value);
    ranges.get(at).is_some_and(|(first, _)| *first <= value)
}

/// A table beside what this release says.
#[derive(Clone, Debug)]
pub struct Beside {
    table: Table,
    apart: Vec<char>,
}

impl Beside {
    pub fn new(table: Table) -> Self {
        let apart = table.apart(&Table::of_this_release());
        Self { table, apart }
    }

    /// Whether the table is of another release, which may say other things.
    pub fn other(&self) -> bool {
        self.table.release != RELEASE
    }

    pub fn agrees(&self) -> bool {
        self.apart.is_empty()
    }
}

/// Both releases, and the characters that differ.
impl Display for Beside {
    fn fmt(&self, out: &mut Formatter<'_>) -> fmt::Result {
        let Self { table, apart } = self;
        write!(out, "the table of letters is of {}, and this is {RELEASE}: ", table.release)?;
        write!(out, "{} characters differ", apart.len())?;
        for (turn, (first, last)) in joined(apart.iter().copied()).into_iter().enumerate() {
            write!(out, "{} U+{first:04X}", if turn == 0 { ":" } else { "," })?;
            if first < last {
                write!(out, " to U+{last:04X}")?;
            }
        }
        Ok(())
    }
}

/// The library's table beside this release.
static LIBRARY: LazyLock<Beside> = LazyLock::new(|| {
    let source = include_str!("../../../crates/letters/src/table.rt");
    Beside::new(Table::of_source(source).expect("a table"))
});

/// What is to be said where the library's table is of another release.
pub fn notice() -> Option<String> {
    LIBRARY.other().then(|| LIBRARY.to_string())
}

/// Whether a text has a character of which this release may say other things than the one that the library's
/// table names.
pub fn in_doubt(text: &str) -> bool {
    LIBRARY.other() && text.chars().any(|c| LIBRARY.apart.contains(&c))
}

/// A letter or a number: by this release, or by the table of another.
pub fn alphanumeric(character: char) -> bool {
    says(character, char::is_alphanumeric, |table| &table.letters)
}

/// White space, in the same way.
pub fn white(character: char) -> bool {
    says(character, char::is_whitespace, |table| &table.blanks)
}

fn says(character: char, test: fn(char) -> bool, ranges: fn(&Table) -> &Ranges) -> bool {
    if character.is_ascii() || !LIBRARY.other() {
        test(character)
    } else {
        has(ranges(&LIBRARY.table), character)
    }
}

#[cfg(test)]
mod tests {
    use super::*;

    #[test]
    fn a_table_says_what_its_release_says() {
        let table = Table::of_this_release();
        assert!(beyond_ascii().all(|c| has(&table.letters, c) == c.is_alphanumeric()));
        assert!(beyond_ascii().all(|c| has(&table.blanks, c) == c.is_whitespace()));
        assert!(Beside::new(table).agrees());
    }

    #[test]
    fn what_differs_is_told_by_both_releases_and_the_characters() {
        let mut table = Table::of_this_release();
        table.release = "rustc 1.0.0".into();
        assert_eq!(table.letters[0], (0xaa, 0xaa));
        table.letters[0] = (0xa1, 0xa3);
        table.blanks.pop();
        let beside = Beside::new(table);
        assert!(beside.other() && !beside.agrees());
        assert_eq!(
            beside.to_string(),
            format!(
                "the table of letters is of rustc 1.0.0, and this is {RELEASE}: 5 characters differ: \
                 U+00A1 to U+00A3, U+00AA, U+3000"
            )
        );
    }
}
