//! How a table stands in the two files of crates/letters: its source, and the definitions that the proofs cite.
use std::fmt::Display;

use crate::{Ranges, Table};

/// Where letters are cut into parts, of each the first that it does not have. No range crosses a limit.
const LIMITS: [u32; 4] = [2048, 8192, 65_536, 1_114_112];

/// A part: from where to where it goes, and the bounds of its ranges.
struct Part {
    first: u32,
    last: u32,
    bounds: Vec<u32>,
}

fn parts(letters: &Ranges) -> Vec<Part> {
    let (mut first, mut rest) = (128, letters.as_slice());
    let mut part = |limit| {
        let (ranges, behind) = rest.split_at(rest.partition_point(|(start, _)| *start < limit));
        let bounds = bounds(ranges);
        assert!(bounds.last().is_none_or(|last| *last < limit), "a range crosses {limit}");
        let part = Part { first, last: limit - 1, bounds };
        (first, rest) = (limit, behind);
        part
    };
    LIMITS.map(&mut part).into()
}

fn bounds(ranges: &[(u32, u32)]) -> Vec<u32> {
    ranges.iter().flat_map(|(first, last)| [*first, *last]).collect()
}

/// Each in its turn, with this behind it.
fn each<T: Display>(all: impl IntoIterator<Item = T>, behind: &str) -> String {
    all.into_iter().map(|one| format!("{one}{behind}")).collect()
}

/// Numbers in lines of a source, of at most 99 characters each, as the toolchain lays them out.
fn filled(numbers: &[u32]) -> String {
    let mut lines = String::new();
    let mut line = String::from("   ");
    for number in numbers {
        let next = format!(" {number},");
        if line.len() + next.len() > 99 {
            lines += &(line + "\n");
            line = "   ".into();
        }
        line += &next;
    }
    lines + &line + "\n"
}

impl Table {
    fn head(&self) -> String {
        format!(
            "The ranges of letters and numbers, and of white space, beyond ASCII, as {} has them: the first and \
             the last of each.",
            self.release
        )
    }

    /// crates/letters/src/table.rt
    pub fn source(&self) -> String {
        let array = |said: String, name: String, bounds: &[u32]| {
            let (count, numbers) = (bounds.len(), filled(bounds));
            format!("\n// {said}\npub const {name}: [u32; {count}] = [\n{numbers}];\n")
        };
        let mut all = format!("// {}\n", self.head());
        for (number, Part { first, last, bounds }) in (1..).zip(parts(&self.letters)) {
            let said = format!("Letters and numbers from {first} to {last}.");
            all += &array(said, format!("PART_{number}"), &bounds);
        }
        all + &array("White space.".into(), "BLANKS".into(), &bounds(&self.blanks))
    }

    /// crates/letters/specs/Table.antt
    pub fn definitions(&self) -> String {
        let list = |said: String, name: &str, list: String| {
            format!("\n-- {said}\nunfoldable pub {name} : List ℕ\n{name} = {list}\n")
        };
        let of = |bounds: &[u32]| each(bounds, " ∷ ") + "[]";
        let mut all = format!(
            "-- {}\n-- Assumes nothing.\nuse Rattle.std.specs.Prelude.{{ℕ, List, [], ◌∷◌, ◌++◌}}\n",
            self.head()
        );
        for (number, Part { first, last, bounds }) in (1..).zip(parts(&self.letters)) {
            let said = format!("letters and numbers from {first} to {last}");
            all += &list(said, &format!("part{number}"), of(&bounds));
        }
        let many = LIMITS.len();
        let before = each((1..many - 1).map(|number| format!("part{number}")), " ++ (");
        let joined = format!("{before}part{} ++ part{many}{}", many - 1, ")".repeat(many - 2));
        all += &list("letters and numbers: `char::is_alphanumeric`".into(), "letters", joined);
        all + &list(
            "white space: `char::is_whitespace`".into(),
            "blanks",
            of(&bounds(&self.blanks)),
        )
    }

    /// The table that a source has; none where it has no such form.
    pub fn of_source(source: &str) -> Option<Self> {
        let mut arrays = source.split("pub const ");
        let (_, release) = arrays.next()?.split_once("beyond ASCII, as ")?;
        let (release, _) = release.split_once(" has them")?;
        let mut table = Self { release: release.into(), letters: vec![], blanks: vec![] };
        for array in arrays {
            let (name, numbers) = array.split_once(':')?;
            let (_, numbers) = numbers.split_once("= [")?;
            let (numbers, _) = numbers.split_once(']')?;
            let numbers = numbers.split(',').map(str::trim).filter(|number| !number.is_empty());
            let bounds: Vec<u32> =
                numbers.map(|number| number.parse().ok()).collect::<Option<_>>()?;
            let ranges = bounds.chunks_exact(2).map(|pair| (pair[0], pair[1]));
            if name == "BLANKS" { &mut table.blanks } else { &mut table.letters }.extend(ranges);
        }
        Some(table)
    }
}

#[cfg(test)]
mod tests {
    use super::*;

    #[test]
    fn a_source_is_read_back() {
        let table = Table::of_this_release();
        assert_eq!(Table::of_source(&table.source()), Some(table));
        assert_eq!(Table::of_source("pub const BLANKS: [u32; 0] = [];"), None);
    }
}
