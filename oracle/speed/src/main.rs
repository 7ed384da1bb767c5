//! `speed figures PICTURE [ASKPATH RUSTASK LINES]`, for oracle/bench: time of the original over time of
//! the library, for each family of calls; above 1 the library is faster. Numbers stand beside Rust's own
//! formatting and beside a copy of their texts. Both sides get the same texts from one driver, turn by
//! turn; a side's time is the least of its rounds. So it is with the programs askpath and rustask on a
//! file of lines. Then calls on books, which the original lacks: time of a call over time of one reading
//! of every key of its book, and of many lookups by one call over as many calls. PICTURE is written with
//! some of them as bars.
//!
//! For oracle/count: `speed count OPERATION RECORDS TIMES` runs one operation on a book so many times,
//! `speed many fill|once|alone TEXTS TIMES` looks many texts up in a book of 200 records,
//! `speed clear states|families|reversed check|copy|KEEP TIMES` clears a book of 200 records of one client's,
//! `speed names` prints the families, `speed pass NAME upper|lower TIMES` runs one side of one, and
//! `speed text CALL KIND TIMES` has one text of a kind read, rendered or keyed by both sides.
mod books;
mod clearings;
mod family;
mod identifiers;
mod many;
mod numbers;
mod paths;
mod picture;
mod programs;
mod texts;

use family::Family;

fn main() {
    let words: Vec<String> = std::env::args().skip(1).collect();
    let number = |word: &str| word.parse().expect("a number");
    match words.iter().map(String::as_str).collect::<Vec<_>>()[..] {
        ["figures", picture] => figures(picture, None),
        ["figures", picture, askpath, rustask, lines] => {
            figures(picture, Some(programs::family(askpath, rustask, lines)));
        }
        ["count", operation, records, times] => {
            books::count(operation, number(records), number(times));
        }
        ["clear", records, what, times] => clearings::count(records, what, number(times)),
        ["many", operation, texts, times] => many::count(operation, number(texts), number(times)),
        ["names"] => families().for_each(|family| println!("{}", family.name)),
        ["pass", name, side, times] => {
            let family = families().find(|family| family.name == name).expect("a family's name");
            family.run(side == "upper", number(times) as u32);
        }
        ["text", call, kind, times] => texts::run(call, number(kind), number(times)),
        _ => panic!("speed figures|count|many|clear|names|pass|text .."),
    }
}

/// Those that have a side in Rust: the original's, or for numbers Rust's own.
fn families() -> impl Iterator<Item = Family> {
    let original = identifiers::families().into_iter().chain(paths::families());
    original.chain(numbers::families())
}

fn figures(picture: &str, programs: Option<Family>) {
    let mut figures = vec![];
    println!("{:44}  ratio", "family");
    for family in families().chain(programs).chain(books::families()).chain(many::families()) {
        let ratio = family.ratio();
        println!("{:44} {ratio:6.2}", family.name);
        figures.push((family.name, ratio));
    }
    std::fs::write(picture, picture::svg(&figures)).expect("the picture can be written");
}
