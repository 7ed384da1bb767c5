//! What `askpath` does, by the original, for the comparison of their speed: lines in, answers out,
//! large reads and writes, no room made anew for a line.
use std::fs::File;
use std::io::{self, stdin, stdout, BufRead, BufReader, Write};
use std::os::fd::AsFd;

use ask::Asker;

const LARGE: usize = 1 << 16;

fn main() -> io::Result<()> {
    let mut input =
        BufReader::with_capacity(LARGE, File::from(stdin().as_fd().try_clone_to_owned()?));
    let mut output = File::from(stdout().as_fd().try_clone_to_owned()?);
    let (mut asker, mut line, mut out) = (Asker::default(), vec![], Vec::with_capacity(2 * LARGE));
    while input.read_until(b'\n', &mut line)? > 0 {
        asker.answer(line.strip_suffix(b"\n").unwrap_or(&line), &mut out);
        line.clear();
        if out.len() >= LARGE {
            output.write_all(&out)?;
            out.clear();
        }
    }
    output.write_all(&out)
}
