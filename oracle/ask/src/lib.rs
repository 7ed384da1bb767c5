//! What `askpath` prints for a line, by the original. Refusals 1 and 2 are the port's own, given by
//! document 01; all else is the original's answer, so 17, 18 and 19, which it does not know, are 3.
pub mod sample;

use std::fmt::Write;

use ibc_core_host_types::path::Path;
use ibc_core_host_types::terms;
use model::path::MOST;
use model::{Refusal, NOT_ASCII, NOT_A_PATH, TOO_LONG};

/// Keeps one rendering's room for all lines.
#[derive(Default)]
pub struct Asker {
    rendering: String,
}

impl Asker {
    /// Puts the answer to a line, with its end, after what is there.
    pub fn answer(&mut self, text: &[u8], out: &mut Vec<u8>) {
        match read(text) {
            Ok(path) => self.shown(&path, text, out),
            Err(refusal) => out.push(b'0' + refusal),
        }
        out.push(b'\n');
    }

    fn shown(&mut self, path: &Path, text: &[u8], out: &mut Vec<u8>) {
        self.rendering.clear();
        write!(self.rendering, "{path}").expect("a String takes all");
        let kind = terms::parts(path).kind;
        out.extend_from_slice(b"0 ");
        if kind >= 10 {
            out.push(b'1');
        }
        out.push(b'0' + kind % 10);
        let exact = self.rendering.as_bytes() == text;
        out.extend_from_slice(if exact { b" E " } else { b" L " });
        out.extend_from_slice(self.rendering.as_bytes());
    }
}

fn read(text: &[u8]) -> Result<Path, Refusal> {
    if text.len() > MOST {
        return Err(TOO_LONG);
    }
    let heard = std::str::from_utf8(text).map_err(|_| NOT_ASCII)?;
    if !heard.is_ascii() {
        return Err(NOT_ASCII);
    }
    if heard == "clients" {
        return Err(NOT_A_PATH); // the one text on which the original panics
    }
    heard.parse().map_err(|_| NOT_A_PATH)
}
