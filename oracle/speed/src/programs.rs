//! The programs askpath and rustask on a file of lines.
use std::fs::File;
use std::process::{Command, Stdio};

use crate::family::Family;

pub const NAME: &str = "askpath";

fn command(program: &str, lines: &str) -> Command {
    let mut command = Command::new(program);
    command.stdin(File::open(lines).expect("a file of lines"));
    command
}

/// Runs a program, its answers thrown away.
fn run(program: &str, lines: &str) {
    let status = command(program, lines).stdout(Stdio::null()).status().expect("a program");
    assert!(status.success(), "{program}: {status}");
}

fn lines(answers: &[u8]) -> impl Iterator<Item = &[u8]> {
    answers.split(|byte| *byte == b'\n')
}

/// An answer as the original gives it, which does not tell what is wrong with a number.
fn untold(answer: &[u8]) -> &[u8] {
    match answer {
        b"17" | b"18" | b"19" => b"3",
        answer => answer,
    }
}

pub fn family(askpath: &str, rustask: &str, asked: &str) -> Family {
    let answers = |program| command(program, asked).output().expect("a program").stdout;
    let (ours, theirs) = (answers(askpath), answers(rustask));
    assert!(lines(&ours).map(untold).eq(lines(&theirs)), "the answers differ");
    let [askpath, rustask, asked] = [askpath, rustask, asked].map(String::from);
    let same = asked.clone();
    Family::new(NAME.into(), move || run(&rustask, &asked), move || run(&askpath, &same))
}
