//! Texts on both sides of each line that document 01 draws.
use crate::identifier::Identifier;
use crate::path::{Part, KINDS};
use crate::random::Random;

/// Spellings that a number reader may get wrong, right ones among them.
pub fn numbers() -> Vec<String> {
    let short = [
        "", "+", "-", "0", "00", "+0", "+00", "0+", "1", "+1", "01", "+01", "++1", "-1", "+-1",
        "-+1", "1+", "1-", "5", "7", "007", "+2", "9", "10", "1a", "a", "x1", " 1", "1 ", "1.0",
        "1_0", "0x1", "000000005",
    ];
    let largest = [
        "18446744073709551614", "18446744073709551615", "18446744073709551616",
        "18446744073709551619", "18446744073709551620", "18446744073709551700",
        "28446744073709551615", "99999999999999999999", "184467440737095516150",
        "9223372036854775807", "9223372036854775808", "10000000000000000000",
    ];
    let signed = largest.iter().flat_map(|n| ["", "+", "0", "+0"].map(|sign| format!("{sign}{n}")));
    let long = ["0".repeat(39) + "1", "1".repeat(40), "0".repeat(300) + "1", "1".repeat(300)];
    short.map(String::from).into_iter().chain(signed).chain(long).collect()
}

/// Number texts of every fault at each end and inside, of two faults, and of none.
pub const FAULTS: [&str; 16] = [
    "7", "+00", "", "+", "x", "x1", "1x", "+x", "++1", "-1", "1 ", "18446744073709551616",
    "+0018446744073709551620", "184467440737095516150x", "1844674407370955161x6",
    "x18446744073709551616",
];

/// Spellings of R-h: every two numbers, and texts without exactly one `-`.
pub fn heights() -> Vec<String> {
    let numbers = numbers();
    let pairs = numbers.iter().flat_map(|a| numbers.iter().map(move |b| format!("{a}-{b}")));
    ["", "5", "--", "1-2-3", "-1-2", "1-2-"].map(String::from).into_iter().chain(pairs).collect()
}

/// Names before an index, names that are near them, and none.
pub const STEMS: [&str; 9] =
    ["channel", "connection", "Channel", "channels", "channe", "connections", "client", "-", ""];

/// The lengths that a row of the table of identifiers has, and their neighbours.
const LENGTHS: [usize; 18] = [0, 1, 2, 6, 7, 8, 9, 10, 11, 42, 43, 44, 63, 64, 65, 127, 128, 129];

/// Every stem with every number, and stems and single bytes filled up to every length.
pub fn identifiers() -> Vec<String> {
    let numbers = numbers();
    let mut all = vec![];
    for stem in STEMS {
        all.extend(numbers.iter().flat_map(|n| [format!("{stem}-{n}"), format!("{stem}{n}")]));
        let heads = ["-", "-+0", "-0", "-1"].map(|rest| format!("{stem}{rest}"));
        all.extend(heads.iter().flat_map(|head| LENGTHS.map(|n| filled(head, '1', n))));
        all.extend(heads.iter().flat_map(|head| LENGTHS.map(|n| filled(head, '0', n))));
    }
    all.extend(
        ['a', 'Z', '0', '.', '+', '/', ' '].iter().flat_map(|b| LENGTHS.map(|n| filled("", *b, n))),
    );
    all.sort();
    all.dedup();
    all
}

/// The head, filled up to this length.
pub fn filled(head: &str, fill: char, length: usize) -> String {
    head.chars().chain(std::iter::repeat(fill)).take(length).collect()
}

/// The words of the table of kinds, and the upgrade path that the original takes by default.
pub fn words() -> Vec<&'static str> {
    let word = |part: &Part| match part {
        Part::Word(word) => Some(*word),
        _ => None,
    };
    let mut all: Vec<&str> = KINDS.iter().flat_map(|shape| shape.iter().filter_map(word)).collect();
    all.push("upgradedIBCState");
    all.sort();
    all.dedup();
    all
}

/// Texts that fit a part, a plain one first.
pub fn good(part: &Part) -> &[&'static str] {
    match part {
        Part::Word(word) => std::slice::from_ref(word),
        Part::First(Identifier::Connection) => {
            &["connection-3", "connection-+0", "connection-+03", "connection-18446744073709551615"]
        }
        Part::First(Identifier::Port) => &["transfer", "ab", "icahost", "wasm.x_+-#[]<>", "55"],
        Part::First(_) => {
            &["07-tendermint-4", "08-wasm-123", "clientidx", "[<.#>]_+-", "000000005"]
        }
        Part::Second(_) => {
            &["channel-7", "channel-0", "channel-+01", "channel-18446744073709551615"]
        }
        Part::Upgrade => &["upgradedIBCState", "", "clients", "ports", "a b", "\x7f"],
        Part::Number => &["9", "0", "+5", "007", "+000", "18446744073709551615"],
        Part::Heights => {
            &["7-2", "0-0", "007-+2", "+0-00", "18446744073709551615-18446744073709551615"]
        }
    }
}

/// Texts that fit a part in the wide mode, beyond ASCII where there are such.
pub fn wide(part: &Part) -> &[&'static str] {
    match part {
        Part::First(Identifier::Client) => {
            &["07-τέντερμιντ-4", "клиент-7", "客戶端+[1]", "٠١٢٣٤", "𐐀𐐁𐐂", "a\u{345}éÿΩ<>"]
        }
        Part::First(Identifier::Port) => &["πύλη", "порт", "港口", "é", "１２", "\u{e31}", "𠀀"],
        Part::Upgrade => &["αναβάθμιση", "×", "e\u{301}", "🦀", "\u{3000}", "\u{feff}a b"],
        part => good(part),
    }
}

/// Texts of many scripts, by bytes of a character: letters and digits, which a wide identifier takes; marks of
/// which it takes some; white space and other characters, which it refuses.
pub const SCRIPTS: [&str; 42] = [
    "πύλη", "Порт", "港口", "ポート", "한글", "\u{5e9}\u{5e2}\u{5e8}", "\u{645}\u{631}", "ไทย",
    "é", "ß", "ﬁ", "𐐀", "𠀀", "𝔘", "٣", "१", "１２", "²", "Ⅷ", "½", "①", "𝟘", "\u{345}", "\u{e31}",
    "e\u{301}", "\u{20dd}", "\u{fe0f}", "×", "€", "—", "🦀", "\u{85}", "\u{a0}", "\u{2003}",
    "\u{3000}", "\u{200b}", "\u{feff}", "\u{80}", "\u{7ff}", "\u{d7ff}", "\u{e000}", "\u{10ffff}",
];

/// The plain text of a kind's shape.
pub fn plain(shape: &[Part]) -> String {
    shape.iter().map(|part| good(part)[0]).collect::<Vec<_>>().join("/")
}

/// The pools, made once for a run of chance texts.
pub struct Pools {
    pub numbers: Vec<String>,
    pub heights: Vec<String>,
    pub identifiers: Vec<String>,
    pub words: Vec<&'static str>,
}

impl Default for Pools {
    fn default() -> Self {
        Self { numbers: numbers(), heights: heights(), identifiers: identifiers(), words: words() }
    }
}

impl Pools {
    /// The texts that may stand at a place of a path; of R-h every so many.
    pub fn components(&self, step: usize) -> impl Iterator<Item = &str> {
        let heights = self.heights.iter().step_by(step);
        let made = self.numbers.iter().chain(&self.identifiers).chain(heights);
        self.words.iter().copied().chain(made.map(String::as_str))
    }

    /// A text for a part: seven times in eight a good one, else one that is near.
    fn draw<'a>(&'a self, part: &'a Part, random: &mut Random) -> &'a str {
        if !random.one_in(8) {
            return random.of(good(part));
        }
        let pool = match part {
            Part::Word(_) => return random.of(&self.words),
            Part::Number => &self.numbers,
            Part::Heights => &self.heights,
            Part::First(_) | Part::Second(_) | Part::Upgrade => &self.identifiers,
        };
        random.text(pool)
    }

    /// A chance text after a kind's shape.
    pub fn path(&self, random: &mut Random) -> Vec<u8> {
        joined(random, |part, random| self.draw(part, random))
    }

    /// The same with parts beyond ASCII.
    pub fn wide_path(&self, random: &mut Random) -> Vec<u8> {
        joined(random, |part, random| match random.below(8) {
            0 => random.of(&SCRIPTS),
            1..=4 => random.of(wide(part)),
            _ => self.draw(part, random),
        })
    }
}

/// A text after a kind's shape, half the time damaged.
fn joined<'a>(random: &mut Random, draw: impl Fn(&'a Part, &mut Random) -> &'a str) -> Vec<u8> {
    let shape = random.of(&KINDS);
    let parts: Vec<&str> = shape.iter().map(|part| draw(part, random)).collect();
    let mut text = parts.join("/").into_bytes();
    if random.one_in(2) {
        let times = 1 + random.below(3);
        random.damage(&mut text, times);
    }
    text
}

/// Every byte of ASCII, as a piece.
pub fn ascii() -> Vec<[u8; 1]> {
    (0..128).map(|byte| [byte]).collect()
}

/// Hands over every text of up to `most` pieces, with the joint between them.
pub fn texts<T: AsRef<[u8]>>(pieces: &[T], joint: &str, most: usize, mut each: impl FnMut(&[u8])) {
    each(b"");
    for piece in pieces {
        extended(pieces, joint, most, &mut piece.as_ref().to_vec(), &mut each);
    }
}

/// The text of one piece or more, and all that it begins.
fn extended<T: AsRef<[u8]>>(
    pieces: &[T],
    joint: &str,
    most: usize,
    text: &mut Vec<u8>,
    each: &mut impl FnMut(&[u8]),
) {
    each(text);
    if most == 1 {
        return;
    }
    let length = text.len();
    for piece in pieces {
        text.extend_from_slice(joint.as_bytes());
        text.extend_from_slice(piece.as_ref());
        extended(pieces, joint, most - 1, text, each);
        text.truncate(length);
    }
}

/// Texts of this length, each grown at one place.
pub fn grown(length: usize) -> Vec<String> {
    let growing = [
        ("", 'u', "/5/upgradedClient"),
        ("", '\x7f', "/5/upgradedClient"),
        ("", 'u', "/+05/upgradedConsState"),
        ("x/", '0', "5/upgradedClient"),
        ("clients/07-tendermint-4/consensusStates/", '0', "7-2"),
        ("clients/07-tendermint-4/consensusStates/7-+", '0', "2/processedHeight"),
        ("acks/ports/transfer/channels/channel-7/sequences/", '0', "9"),
        ("ports/", 'p', ""),
        ("channelEnds/ports/transfer/channels/channel-+", '0', "1"),
        ("connections/connection-+", '0', "1"),
        ("", 'u', "/5/upgradedClien"),
        ("", '/', ""),
    ];
    growing.map(|(head, fill, tail)| filled(head, fill, length - tail.len()) + tail).into()
}

/// Letters that tell in a number, as pieces.
pub const LETTERS: [&str; 7] = ["+", "-", "0", "1", "8", "9", "a"];

/// The numbers so near to 0, to a power of ten, to 2^63 or to 2^64, without repeats.
pub fn around_powers(distance: u128) -> Vec<u128> {
    let powers = (0..=20).map(|n| 10u128.pow(n)).chain([0, 1 << 63, 1 << 64]);
    let mut all: Vec<u128> =
        powers.flat_map(|power| power.saturating_sub(distance)..=power + distance).collect();
    all.sort();
    all.dedup();
    all
}
