//! `beside [-0] [-c] [-w] [FILE ..]`: the texts of files, or of standard input, through the original and
//! through the library. A text ends at the end of a line, with -0 at a byte 0; -c prints the counts alone,
//! and -w asks the calls for letters beyond ASCII. The status is 1 where there is a difference that
//! docs/DIFFERENCES.md does not list, and 2 where a file cannot be read.
use std::fs::File;
use std::io::{self, stderr, stdin, stdout, BufRead, BufReader, BufWriter, IsTerminal, Write};
use std::process::ExitCode;
use std::time::{Duration, Instant};

use compare::beside::{next, Beside, Counts};
use compare::page::Page;
use compare::told;
use model::Mode;

const LARGE: usize = 1 << 16;

fn main() -> ExitCode {
    let words: Vec<String> = std::env::args().skip(1).collect();
    let switches = words.iter().take_while(|word| SWITCHES.contains(&word.as_str())).count();
    let (switches, files) = words.split_at(switches);
    let on = |switch: &str| switches.iter().any(|word| word == switch);
    match run(files, on) {
        Ok(counts) => ExitCode::from(u8::from(counts.unlisted > 0)),
        Err(error) => {
            eprintln!("beside: {error}");
            ExitCode::from(2)
        }
    }
}

const SWITCHES: [&str; 3] = ["-0", "-c", "-w"];

fn run(files: &[String], on: impl Fn(&str) -> bool) -> io::Result<Counts> {
    let page = Page::default();
    let end = if on("-0") { 0 } else { b'\n' };
    let mode = if on("-w") { Mode::Wide } else { Mode::Plain };
    let out = BufWriter::with_capacity(LARGE, stdout().lock());
    let (library, counts, quiet) = (told::by_library, Counts::default(), on("-c"));
    let mut beside = Beside { page: &page, mode, quiet, library, out, counts };
    let mut progress = Progress::new();
    if files.is_empty() {
        take("stdin", &mut stdin().lock(), end, &mut beside, &mut progress)?;
    }
    for file in files {
        let named = |error: io::Error| io::Error::new(error.kind(), format!("{file}: {error}"));
        let mut input = BufReader::with_capacity(LARGE, File::open(file).map_err(named)?);
        take(file, &mut input, end, &mut beside, &mut progress).map_err(named)?;
    }
    progress.clear();
    write!(beside.out, "{}", beside.counts)?;
    beside.out.flush()?;
    Ok(beside.counts)
}

/// All texts of one input.
fn take(
    name: &str,
    input: &mut impl BufRead,
    end: u8,
    beside: &mut Beside<impl Write>,
    progress: &mut Progress,
) -> io::Result<()> {
    let mut text = vec![];
    for number in 1.. {
        let read = next(input, end, &mut text)?;
        if read == 0 {
            break;
        }
        beside.ask(name, number, &text)?;
        progress.tell(read, &mut beside.out, &beside.counts)?;
    }
    Ok(())
}

/// How far the run has come, told once a second where standard error is a terminal.
struct Progress {
    shown: bool,
    bytes: usize,
    last: Instant,
}

impl Progress {
    fn new() -> Self {
        Self { shown: stderr().is_terminal(), bytes: 0, last: Instant::now() }
    }

    /// The clock is looked at now and then; what was found so far is written out first.
    fn tell(&mut self, read: usize, out: &mut impl Write, counts: &Counts) -> io::Result<()> {
        let before = self.bytes;
        self.bytes += read;
        let due = before / LARGE != self.bytes / LARGE;
        if !self.shown || !due || self.last.elapsed() < Duration::from_secs(1) {
            return Ok(());
        }
        self.clear();
        out.flush()?;
        let (megabytes, listed) = (self.bytes / 1_000_000, counts.listed.values().sum::<u64>());
        let Counts { texts, unlisted, .. } = counts;
        eprint!("{megabytes} MB, {texts} texts, {listed} listed, {unlisted} not listed");
        self.last = Instant::now();
        Ok(())
    }

    fn clear(&self) {
        if self.shown {
            eprint!("\r\x1b[K");
        }
    }
}
