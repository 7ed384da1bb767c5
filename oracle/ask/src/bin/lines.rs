//! `lines COUNT` prints so many lines, drawn by chance from those of `sample`: the same for the same COUNT.
use std::env;
use std::io::{self, stdout, BufWriter, Write};

use ask::sample::{texts, COUNT};
use model::random::Random;

fn main() -> io::Result<()> {
    let count = env::args().nth(1).and_then(|count| count.parse().ok()).expect("lines COUNT");
    let (texts, mut random) = (texts(COUNT), Random(13));
    let mut out = BufWriter::new(stdout().lock());
    for _ in 0..count {
        out.write_all(&texts[random.below(texts.len())])?;
        out.write_all(b"\n")?;
    }
    out.flush()
}
