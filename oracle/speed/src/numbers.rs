//! Numbers by how many digits they have, each written as `channel-N` into a buffer that is lent: by the
//! library, by Rust's own formatting of a u64, and as a plain copy of the ready text.
use std::fmt::{Error, Result, Write};
use std::hint::black_box;

use hostpath::raw;

use crate::family::{keep, Family};

const WIDTHS: [u32; 5] = [1, 2, 5, 10, 20];

/// Room for `channel-` and the greatest number.
const ROOM: usize = 28;

/// The least number of a width, the greatest, and two between them.
fn counters(width: u32) -> [u64; 4] {
    let least = 10u64.pow(width - 1);
    let greatest = least.checked_mul(10).map_or(u64::MAX, |above| above - 1);
    let third = (greatest - least) / 3;
    [least, least + third, greatest - third, greatest]
}

/// What formatting writes to, so that it makes no `String`.
struct Lent<'a> {
    out: &'a mut [u8],
    used: usize,
}

impl Write for Lent<'_> {
    fn write_str(&mut self, text: &str) -> Result {
        let end = self.used + text.len();
        self.out.get_mut(self.used..end).ok_or(Error)?.copy_from_slice(text.as_bytes());
        self.used = end;
        Ok(())
    }
}

/// All numbers of a family, each by this call.
fn each<T>(all: [T; 4], call: impl Fn(&T, &mut [u8])) -> impl Fn() {
    move || {
        let mut out = [0; ROOM];
        for one in &all {
            call(black_box(one), &mut out);
            keep(&out);
        }
    }
}

fn library(counter: &u64, out: &mut [u8]) {
    keep(raw::channel_id_new(*counter, out));
}

fn formatted(counter: &u64, out: &mut [u8]) {
    keep(write!(Lent { out, used: 0 }, "channel-{counter}"));
}

fn copied(text: &str, out: &mut [u8]) {
    out[..text.len()].copy_from_slice(text.as_bytes());
}

/// The text, as both sides leave it.
fn ready(counter: u64) -> String {
    let text = format!("channel-{counter}");
    for side in [library, formatted] {
        let mut out = [0; ROOM];
        side(&counter, &mut out);
        assert_eq!(&out[..text.len()], text.as_bytes());
    }
    text
}

pub fn families() -> Vec<Family> {
    let mut all = vec![];
    for width in WIDTHS {
        let counters = counters(width);
        let name = |side| format!("number of width {width}, {side}");
        all.push(Family::new(
            name("formatted"),
            each(counters, formatted),
            each(counters, library),
        ));
        let texts = counters.map(ready);
        all.push(Family::new(
            name("copied"),
            each(texts, |text, out| copied(text, out)),
            each(counters, library),
        ));
    }
    all
}
