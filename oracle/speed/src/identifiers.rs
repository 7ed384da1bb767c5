//! The identifier checks, on accepted and on refused texts, and the identifiers made from a counter.
use std::hint::black_box;

use hostpath::raw;
use ibc_core_host_types::error::IdentifierError;
use ibc_core_host_types::identifiers::{ChannelId, ClientId};
use ibc_core_host_types::validate;
use model::pool::filled;

use crate::family::{keep, Family};

type Original = fn(&str) -> Result<(), IdentifierError>;
type Library = fn(&[u8]) -> u8;

/// A check: the original's, the library's, and the library's in the wide mode.
struct Row {
    name: &'static str,
    original: Original,
    plain: Library,
    wide: Library,
    accepted: Vec<String>,
    refused: Vec<String>,
    /// Texts beyond ASCII that are accepted; none where there are no such.
    greek: Vec<String>,
}

/// Texts in Greek, and one of so many letters behind a head.
fn greek(texts: &[&str], head: &str, letters: usize) -> Vec<String> {
    let long = head.to_string() + &"ω".repeat(letters);
    texts.iter().map(|text| text.to_string()).chain([long]).collect()
}

/// The four general checks, then the five of whole identifiers.
fn rows() -> Vec<Row> {
    let texts = |texts: &[&str]| texts.iter().map(|text| text.to_string()).collect::<Vec<_>>();
    let with = |all: &[&str], long: String| [texts(all), vec![long]].concat();
    let clients =
        with(&["07-tendermint-4", "08-wasm-123", "06-solomachine-0"], filled("client-", '0', 64));
    let types = with(&["07-tendermint", "08-wasm", "06-solomachine"], filled("type-", 'x', 43));
    let connections = with(&["connection-0", "connection-123"], format!("connection-{}", u64::MAX));
    let ports = with(&["transfer", "icahost", "oracle.v1"], filled("wasm.", 'x', 128));
    let channels = with(&["channel-0", "channel-141"], format!("channel-{}", u64::MAX));
    let greek_clients = greek(&["07-τέντερμιντ-4", "πελάτης-123", "μοναχικός-0"], "πελάτης--", 24);
    let greek_types = greek(&["07-τέντερμιντ", "πελάτης", "μοναχικός"], "τύπος-", 16);
    let greek_ports = greek(&["μεταφορά", "θύρα.1", "πύλη"], "θύρα..", 59);
    let bad = texts(&["07 tendermint", "clients/07-tendermint-4", "a", ""]);
    let bad_index =
        texts(&["connection-01", "connection-x", "channel-01", "channel-x", "channel 1"]);
    vec![
        Row {
            name: "validate_identifier_chars",
            original: validate::validate_identifier_chars,
            plain: raw::validate_identifier_chars,
            wide: raw::wide_validate_identifier_chars,
            accepted: [clients.as_slice(), &connections, &ports].concat(),
            refused: texts(&["07 tendermint", "clients/07-tendermint-4", "transfer/"]),
            greek: [greek_clients.as_slice(), &greek_ports].concat(),
        },
        Row {
            name: "validate_identifier_length",
            original: |id| validate::validate_identifier_length(id, 9, 64),
            plain: |id| raw::validate_identifier_length(id, 9, 64),
            wide: |id| raw::wide_validate_identifier_length(id, 9, 64),
            accepted: clients.clone(),
            refused: ["".into(), "transfer".into(), filled("wasm.", 'x', 128)].into(),
            greek: greek_clients.clone(),
        },
        Row {
            name: "validate_prefix_length",
            original: |id| validate::validate_prefix_length(id, 9, 64),
            plain: |id| raw::validate_prefix_length(id, 9, 64),
            wide: |id| raw::wide_validate_prefix_length(id, 9, 64),
            accepted: types.clone(),
            refused: ["".into(), "short".into(), filled("wasm.", 'x', 128)].into(),
            greek: greek_types.clone(),
        },
        Row {
            name: "validate_named_u64_index",
            original: |id| validate::validate_named_u64_index(id, "connection"),
            plain: |id| raw::validate_named_u64_index(id, b"connection").refusal,
            wide: |id| raw::wide_validate_named_u64_index(id, b"connection").refusal,
            accepted: connections.clone(),
            refused: bad_index.clone(),
            greek: vec![],
        },
        Row {
            name: "validate_client_type",
            original: validate::validate_client_type,
            plain: raw::validate_client_type,
            wide: raw::wide_validate_client_type,
            accepted: types,
            refused: bad.clone(),
            greek: greek_types,
        },
        Row {
            name: "validate_client_identifier",
            original: validate::validate_client_identifier,
            plain: raw::validate_client_identifier,
            wide: raw::wide_validate_client_identifier,
            accepted: clients,
            refused: bad.clone(),
            greek: greek_clients,
        },
        Row {
            name: "validate_connection_identifier",
            original: validate::validate_connection_identifier,
            plain: |id| raw::validate_connection_identifier(id).refusal,
            wide: |id| raw::wide_validate_connection_identifier(id).refusal,
            accepted: connections,
            refused: bad_index.clone(),
            greek: vec![],
        },
        Row {
            name: "validate_port_identifier",
            original: validate::validate_port_identifier,
            plain: raw::validate_port_identifier,
            wide: raw::wide_validate_port_identifier,
            accepted: ports,
            refused: bad,
            greek: greek_ports,
        },
        Row {
            name: "validate_channel_identifier",
            original: validate::validate_channel_identifier,
            plain: |id| raw::validate_channel_identifier(id).refusal,
            wide: |id| raw::wide_validate_channel_identifier(id).refusal,
            accepted: channels,
            refused: bad_index,
            greek: vec![],
        },
    ]
}

/// One family of a check, its texts all accepted or all refused.
fn check(
    name: String,
    original: Original,
    library: Library,
    texts: Vec<String>,
    accepted: bool,
) -> Family {
    for text in &texts {
        assert_eq!(original(text).is_ok(), accepted, "{name}: {text}");
        assert_eq!(library(text.as_bytes()) == 0, accepted, "{name}: {text}");
    }
    let same = texts.clone();
    Family::new(
        name,
        move || texts.iter().for_each(|text| keep(original(black_box(text)))),
        move || same.iter().for_each(|text| keep(library(black_box(text.as_bytes())))),
    )
}

type Types = [(&'static str, u64); 4];

const TYPES: Types =
    [("07-tendermint", 4), ("08-wasm", 123), (" 06-solomachine\n", 0), ("07-tendermint", u64::MAX)];

const GREEK_TYPES: Types = [
    ("07-τέντερμιντ", 4),
    ("πελάτης", 123),
    ("\u{3000}μοναχικός\n", 0),
    ("07-τέντερμιντ", u64::MAX),
];

fn client_id_new(
    name: &str,
    types: Types,
    library: fn(&[u8], u64, &mut [u8]) -> raw::Written,
) -> Family {
    Family::new(
        name.into(),
        move || types.iter().for_each(|(name, count)| keep(ClientId::new(black_box(name), *count))),
        move || {
            let mut out = [0; 64];
            for (name, counter) in &types {
                let written = library(black_box(name).as_bytes(), *counter, &mut out);
                keep((written, &out));
            }
        },
    )
}

fn channel_id_new() -> Family {
    const COUNTERS: [u64; 4] = [0, 7, 141, u64::MAX];
    Family::new(
        "channel_id_new".into(),
        || COUNTERS.iter().for_each(|counter| keep(ChannelId::new(black_box(*counter)))),
        || {
            let mut out = [0; 64];
            for counter in COUNTERS {
                let written = raw::channel_id_new(black_box(counter), &mut out);
                keep((written, &out));
            }
        },
    )
}

pub fn families() -> Vec<Family> {
    let (mut taken, mut denied, mut ascii, mut greek) = (vec![], vec![], vec![], vec![]);
    for row in rows() {
        let Row { name, original, plain, wide, .. } = row;
        let accepted = row.accepted.clone();
        ascii.push(check(format!("wide, ASCII: {name}"), original, wide, accepted, true));
        if !row.greek.is_empty() {
            greek.push(check(format!("wide, Greek: {name}"), original, wide, row.greek, true));
        }
        taken.push(check(format!("{name}, accepted"), original, plain, row.accepted, true));
        denied.push(check(format!("{name}, refused"), original, plain, row.refused, false));
    }
    let made = [client_id_new("client_id_new", TYPES, raw::client_id_new), channel_id_new()];
    let (general, whole) = taken.split_at(4);
    let sums = [
        Family::together("identifier checks, accepted, together", whole),
        Family::together("general checks, accepted, together", general),
        Family::together("checks, refused, together", &denied),
        Family::together("identifiers from a counter, together", &made),
        Family::together("wide, ASCII: identifier checks, together", &ascii[4..]),
        Family::together("wide, Greek: identifier checks, together", &greek[3..]),
    ];
    let wide = [
        client_id_new("wide, ASCII: client_id_new", TYPES, raw::wide_client_id_new),
        client_id_new("wide, Greek: client_id_new", GREEK_TYPES, raw::wide_client_id_new),
    ];
    let checks = taken.into_iter().chain(denied).chain(made).chain(ascii).chain(greek);
    checks.chain(wide).chain(sums).collect()
}
