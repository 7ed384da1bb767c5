//! Reading for each kind and for all, rendering, and both in one.
use std::cell::RefCell;
use std::hint::black_box;

use hostpath::{raw, READING};
use ibc_core_host_types::path::Path;
use ibc_core_host_types::terms;
use model::identifier::Identifier;
use model::path::{self, Part, KINDS, MOST};
use model::{pool, Mode};

use crate::family::{keep, Family};

/// Texts of a kind: its plain one, and others of the good parts, loose numbers among them.
fn texts_of(shape: &[Part], good: fn(&Part) -> &[&'static str]) -> Vec<String> {
    let text = |turn: usize| {
        let part = |part: &Part| good(part)[turn % good(part).len()];
        shape.iter().map(part).collect::<Vec<_>>().join("/")
    };
    let mut all: Vec<String> = (0..5).map(text).collect();
    all.dedup();
    all
}

fn texts(shape: &[Part]) -> Vec<String> {
    texts_of(shape, pool::good)
}

fn all_texts() -> Vec<String> {
    KINDS.iter().flat_map(|shape| texts(shape)).collect()
}

fn greek(part: &Part) -> &[&'static str] {
    match part {
        Part::First(Identifier::Client) => &["07-τέντερμιντ-4", "πελάτης-12", "μοναχικός-0"],
        Part::First(Identifier::Port) => &["μεταφορά", "πύλη", "θύρα.1"],
        Part::Upgrade => &["αναβάθμιση"],
        part => pool::good(part),
    }
}

/// Texts in Greek, of each kind that may have such.
fn greek_texts() -> Vec<String> {
    let all = KINDS.iter().flat_map(|shape| texts_of(shape, greek));
    all.filter(|text| !text.is_ascii()).collect()
}

fn refused() -> Vec<String> {
    let cut = all_texts().into_iter().map(|text| text[..text.len() - 1].to_string());
    cut.filter(|text| path::read(Mode::Plain, text.as_bytes()).is_err()).collect()
}

type Read = fn(&[u8], &mut [u8]) -> raw::Fault;
type Key = fn(&[u8], &mut [u8]) -> raw::Written;
type Render = fn(u8, &[u8], &[u8], u64, u64, &mut [u8]) -> raw::Written;

fn reading(name: String, texts: Vec<String>, read: Read) -> Family {
    let same = texts.clone();
    Family::new(
        name,
        move || texts.iter().for_each(|text| keep(black_box(text.as_str()).parse::<Path>())),
        move || {
            let mut out = [0; READING];
            for text in &same {
                let answer = read(black_box(text.as_bytes()), &mut out);
                keep((answer, &out));
            }
        },
    )
}

/// A buffer with room for every rendering, lent to call after call: to clear it is no part of a call.
fn lent() -> RefCell<[u8; MOST]> {
    RefCell::new([0; MOST])
}

fn key(name: &str, texts: Vec<String>, key: Key) -> Family {
    let same = texts.clone();
    let out = lent();
    Family::new(
        name.into(),
        move || {
            for text in &texts {
                let path: Path = black_box(text.as_str()).parse().expect("a path");
                keep(path.to_string());
            }
        },
        move || {
            let mut out = out.borrow_mut();
            for text in &same {
                let written = key(black_box(text.as_bytes()), &mut out[..]);
                keep((written, &out));
            }
        },
    )
}

fn rendering(name: String, texts: &[String], render: Render) -> Family {
    let paths: Vec<Path> = texts.iter().map(|text| text.parse().expect("a path")).collect();
    let parts: Vec<(u8, String, String, [u64; 2])> = paths
        .iter()
        .map(terms::parts)
        .map(|parts| (parts.kind, parts.first.into(), parts.second.into(), parts.numbers))
        .collect();
    let out = lent();
    Family::new(
        name,
        move || paths.iter().for_each(|path| keep(black_box(path).to_string())),
        move || {
            let mut out = out.borrow_mut();
            for (kind, first, second, [a, b]) in &parts {
                let (first, second) = black_box((first.as_bytes(), second.as_bytes()));
                let written = render(*kind, first, second, *a, *b, &mut out[..]);
                keep((written, &out));
            }
        },
    )
}

pub fn families() -> Vec<Family> {
    let mut all = vec![];
    for (kind, shape) in (1..).zip(KINDS) {
        all.push(reading(format!("reading, kind {kind}"), texts(shape), raw::read));
    }
    all.push(reading("reading, all kinds together".into(), all_texts(), raw::read));
    all.push(reading("reading, refused".into(), refused(), raw::read));
    for (kind, shape) in (1..).zip(KINDS) {
        all.push(reading(format!("walk, kind {kind}"), texts(shape), raw::walk));
    }
    all.push(reading("walk, all kinds together".into(), all_texts(), raw::walk));
    all.push(reading("walk, refused".into(), refused(), raw::walk));
    for (kind, shape) in (1..).zip(KINDS) {
        all.push(rendering(format!("rendering, kind {kind}"), &texts(shape), raw::render));
    }
    all.push(rendering("rendering, all kinds together".into(), &all_texts(), raw::render));
    all.push(key("key, all kinds together", all_texts(), raw::key));
    for (script, texts) in [("ASCII", all_texts()), ("Greek", greek_texts())] {
        let name = |call| format!("wide, {script}: {call}, all kinds together");
        all.push(reading(name("reading"), texts.clone(), raw::wide_read));
        all.push(rendering(name("rendering"), &texts, raw::wide_render));
        all.push(key(&name("key"), texts, raw::wide_key));
    }
    all
}
