//! Lines for `askpath`.
use model::path::{Part, KINDS, MOST};
use model::pool::{self, Pools};
use model::random::Random;
use model::table;

/// How many lines the sample of the repository has.
pub const COUNT: usize = 4000;

/// Document 01's rows, the ends of the lengths, every plain and every good text, then chance ones.
pub fn texts(count: usize) -> Vec<Vec<u8>> {
    let rows = table::paths().into_iter().map(|(text, _)| text.into_bytes());
    let grown = [MOST, MOST + 1].into_iter().flat_map(pool::grown).map(String::into_bytes);
    let beyond =
        ["ports/caf\u{e9}", "\u{e9}/5/upgradedClient"].map(|text| text.as_bytes().to_vec());
    let mut all: Vec<Vec<u8>> = rows.chain(grown).chain(beyond).collect();
    KINDS.iter().for_each(|shape| all.extend(varied(shape)));
    let (pools, mut random) = (Pools::default(), Random(7));
    while all.len() + 1 < count {
        let text = pools.path(&mut random);
        if !text.contains(&b'\n') {
            all.push(text);
        }
    }
    all.push(b"a last line without its end".to_vec());
    all
}

/// A kind's texts with every good text at each of its places.
fn varied(shape: &[Part]) -> Vec<Vec<u8>> {
    let plain: Vec<&str> = shape.iter().map(|part| pool::good(part)[0]).collect();
    let put = |(place, text): (usize, &&'static str)| {
        let mut parts = plain.clone();
        parts[place] = text;
        parts.join("/").into_bytes()
    };
    shape
        .iter()
        .enumerate()
        .flat_map(|(place, part)| pool::good(part).iter().map(move |text| (place, text)))
        .map(put)
        .collect()
}
