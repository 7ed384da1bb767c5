//! `sample FOLDER [COUNT]` writes COUNT lines for `askpath` and the original's answers to them, as the
//! files stdin and stdout of FOLDER. Where the original refuses a line as no path, the model says whether
//! a number alone is wrong. The last line has no end. The same COUNT gives the same files.
use std::collections::BTreeSet;
use std::io::Write;
use std::path::PathBuf;
use std::{env, fs, io};

use ask::sample::{texts, COUNT};
use ask::Asker;
use model::path::{self, Part, KINDS};
use model::Mode;

fn main() -> io::Result<()> {
    let mut arguments = env::args().skip(1);
    let folder = PathBuf::from(arguments.next().expect("sample FOLDER [COUNT]"));
    let count = arguments.next().map_or(COUNT, |count| count.parse().expect("COUNT is a number"));
    let texts = texts(count);
    let (mut asker, mut answers) = (Asker::default(), vec![]);
    texts.iter().for_each(|text| answer(&mut asker, text, &mut answers));
    tells(&answers);
    fs::write(folder.join("stdin"), texts.join(&b'\n'))?;
    fs::write(folder.join("stdout"), answers)
}

/// The original's answer to a line, with the model's number in place of 3.
fn answer(asker: &mut Asker, text: &[u8], answers: &mut Vec<u8>) {
    let start = answers.len();
    asker.answer(text, answers);
    if answers[start..] == *b"3\n" {
        let fault = path::read(Mode::Plain, text).expect_err("the original refuses it");
        answers.truncate(start);
        writeln!(answers, "{}", fault.refusal).expect("a Vec takes all");
    }
}

/// Stops where the answers lack a kind, a mark that a kind can have, or a refusal.
fn tells(answers: &[u8]) {
    let heads: BTreeSet<String> = String::from_utf8_lossy(answers)
        .lines()
        .map(|line| line.split(' ').take(3).collect::<Vec<_>>().join(" "))
        .collect();
    let mut wanted: Vec<String> = ["1", "2", "3", "17", "18", "19"].map(String::from).into();
    for (kind, shape) in (1..).zip(KINDS) {
        wanted.push(format!("0 {kind} E"));
        if shape.contains(&Part::Number) || shape.contains(&Part::Heights) {
            wanted.push(format!("0 {kind} L"));
        }
    }
    let missing: Vec<_> = wanted.iter().filter(|head| !heads.contains(*head)).collect();
    assert!(missing.is_empty(), "no answer begins with {missing:?}");
}
