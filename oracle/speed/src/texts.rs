//! One text of a kind, read, rendered or keyed by both sides, so many times. A count of instructions
//! looks at one function alone: `hp_read` and the others, or those of the original below.
use std::hint::black_box;

use hostpath::{raw, READING};
use ibc_core_host_types::path::Path;
use ibc_core_host_types::terms::{self, Parts};
use model::path::{KINDS, MOST};
use model::pool;

use crate::family::keep;

#[inline(never)]
fn original_read(text: &str) {
    keep(text.parse::<Path>());
}

#[inline(never)]
fn original_render(path: &Path) {
    keep(path.to_string());
}

#[inline(never)]
fn original_key(text: &str) {
    keep(text.parse::<Path>().map(|path| path.to_string()));
}

pub fn run(call: &str, kind: usize, times: usize) {
    let text = pool::plain(KINDS[kind - 1]);
    let path: Path = text.parse().expect("a plain text is a path");
    let Parts { kind, first, second, numbers: [a, b] } = terms::parts(&path);
    let (mut reading, mut out) = ([0; READING], [0; MOST]);
    for _ in 0..times {
        let (text, bytes) = (black_box(text.as_str()), black_box(text.as_bytes()));
        let (first, second) = black_box((first.as_bytes(), second.as_bytes()));
        match call {
            "read" => {
                original_read(text);
                keep(raw::read(bytes, &mut reading));
            }
            "walk" => {
                original_read(text);
                keep(raw::walk(bytes, &mut reading));
            }
            "render" => {
                original_render(black_box(&path));
                keep(raw::render(kind, first, second, a, b, &mut out));
            }
            "key" => {
                original_key(text);
                keep(raw::key(bytes, &mut out));
            }
            _ => panic!("read, walk, render or key"),
        }
    }
}
