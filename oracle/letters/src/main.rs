//! The tables of letters and of white space, from what the release says that compiles this.
//!   letters [FOLDER]           writes them to crates/letters, or to a folder that is laid out like it
//!   letters --check [FOLDER]   holds those that are there to each other and to this release; the status is 1 where
//!                              one is another. Tables of another release are only held to each other: a line names
//!                              both releases and lists the characters that differ
use std::path::{Path, PathBuf};
use std::process::ExitCode;
use std::{env, fs, io};

use letters::{Beside, Table};

fn main() -> ExitCode {
    let mut words: Vec<String> = env::args().skip(1).collect();
    let check = words.first().is_some_and(|word| word == "--check");
    words.drain(..usize::from(check));
    let folder = match &words[..] {
        [] => Path::new(env!("CARGO_MANIFEST_DIR")).join("../../crates/letters"),
        [folder] if !folder.starts_with('-') => PathBuf::from(folder),
        _ => return said("letters [--check] [FOLDER]", 2),
    };
    let done = if check { judge(&folder) } else { write(&folder) };
    done.unwrap_or_else(|error| said(&format!("{}: {error}", folder.display()), 2))
}

fn said(sentence: &str, status: u8) -> ExitCode {
    println!("letters: {sentence}");
    ExitCode::from(status)
}

/// The two files, and what a table makes of each.
fn files(folder: &Path, table: &Table) -> [(PathBuf, String); 2] {
    [
        (folder.join("src/table.rt"), table.source()),
        (folder.join("specs/Table.antt"), table.definitions()),
    ]
}

fn write(folder: &Path) -> io::Result<ExitCode> {
    for (file, made) in files(folder, &Table::of_this_release()) {
        fs::write(file, made)?;
    }
    Ok(ExitCode::SUCCESS)
}

fn judge(folder: &Path) -> io::Result<ExitCode> {
    let Some(table) = Table::of_source(&fs::read_to_string(folder.join("src/table.rt"))?) else {
        return Ok(said("src/table.rt has no table", 1));
    };
    for (file, made) in files(folder, &table) {
        if fs::read_to_string(&file)? != made {
            return Ok(said(
                &format!("{} is not what src/table.rt makes of it", file.display()),
                1,
            ));
        }
    }
    let beside = Beside::new(table);
    match (beside.other(), beside.agrees()) {
        (false, true) => Ok(ExitCode::SUCCESS),
        (other, _) => Ok(said(&beside.to_string(), u8::from(!other))),
    }
}
