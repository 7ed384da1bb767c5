//! Document 01's rows and request L3's, asked of the model and of the original as it runs.
use std::str::FromStr;

use ibc_core_host_types::error::IdentifierError;
use ibc_core_host_types::identifiers::{ChannelId, ClientId, ConnectionId, PortId};
use ibc_core_host_types::terms::{self, Answer};
use ibc_core_host_types::validate::validate_client_type;
use model::identifier::Identifier;
use model::{number, path, pool, table, Fault, Mode, NO_DIGITS, NUMBER_FAULTS};

#[test]
fn paths() {
    for (text, outcome) in table::paths() {
        assert_eq!(path::read(Mode::Plain, text.as_bytes()), outcome, "{text}");
        match (terms::read(&text), outcome) {
            (Answer::Path(path), Ok(reading)) => {
                let parts = terms::parts(&path);
                assert_eq!((parts.kind, parts.numbers), (reading.kind, reading.numbers), "{text}");
                assert_eq!(parts.first.as_bytes(), reading.first.of(text.as_bytes()), "{text}");
                assert_eq!(path.to_string() == text, reading.exact, "{text}");
            }
            (Answer::Refused, Err(_)) => {}
            (Answer::Panic, Err(_)) if text == "clients" => {}
            (answer, _) => panic!("{text}: {answer:?}"),
        }
    }
}

#[test]
fn identifiers() {
    fn said<T>(read: Result<T, IdentifierError>) -> Result<(), u8> {
        read.map(|_| ()).map_err(|e| e.number())
    }
    for (identifier, id, outcome) in table::identifiers() {
        assert_eq!(identifier.check(Mode::Plain, id.as_bytes()), outcome, "{id}");
        let theirs = match identifier {
            Identifier::Client => said(ClientId::from_str(&id)),
            Identifier::ClientType => said(validate_client_type(&id)),
            Identifier::Connection => said(ConnectionId::from_str(&id)),
            Identifier::Port => said(PortId::from_str(&id)),
            Identifier::Channel => said(ChannelId::from_str(&id)),
        };
        // the original has one number, document 01's 8, for all faults of an index
        let numbered = |fault: Fault| match fault.refusal {
            refusal if NUMBER_FAULTS.contains(&refusal) => 8,
            refusal => refusal,
        };
        assert_eq!(theirs, outcome.map_err(numbered), "{id}");
    }
}

/// 1 and 2 come before the fault of a number.
#[test]
fn length_and_ascii_come_first() {
    let text = |length: usize| pool::filled("", 'u', length) + "/x/upgradedClient";
    let read =
        |text: String| path::read(Mode::Plain, text.as_bytes()).map_err(|fault| fault.to_string());
    assert_eq!(read(text(4096 - 17)), Err("18 at 4080".into()));
    assert_eq!(read(text(4096 - 16)), Err("1".into()));
    assert_eq!(read("\u{e9}/x/upgradedClient".into()), Err("2".into()));
}

/// What stands before a fault begins some number text. Without digits it is the whole text; else no
/// number text goes on with the byte at the fault.
#[test]
fn faults_are_leftmost() {
    let begins = |text: &[u8]| number(text).is_ok() || number(&[text, b"0"].concat()).is_ok();
    let check = |text: &[u8]| {
        let Err(Fault { refusal, place }) = number(text) else { return };
        assert!(begins(&text[..place]), "{}", text.escape_ascii());
        match refusal {
            NO_DIGITS => assert_eq!(place, text.len()),
            _ => assert!(!begins(&text[..=place]), "{}", text.escape_ascii()),
        }
    };
    pool::texts(&pool::LETTERS, "", 6, check);
    pool::numbers().iter().for_each(|text| check(text.as_bytes()));
}

/// The longest rendering outside 18 and 19 is 251 bytes.
#[test]
fn longest() {
    let port = [b'p'; 128];
    let channel = [&b"channel-+"[..], &[b'0'; 55]].concat();
    let longest = (1..=17)
        .filter_map(|kind| path::render(Mode::Plain, kind, &port, &channel, [u64::MAX; 2]).ok())
        .map(|text| text.len())
        .max();
    assert_eq!(longest, Some(251));
}

#[test]
fn iteration_keys_compare_as_pairs() {
    let corners = [0, 1, 9, 10, 255, 256, 65_535, 1 << 32, 1 << 63, u64::MAX - 1, u64::MAX];
    let pairs: Vec<_> = corners.iter().flat_map(|a| corners.map(|b| (*a, b))).collect();
    let key = |(number, height)| path::iteration_key(number, height);
    for left in &pairs {
        for right in &pairs {
            assert_eq!(key(*left).cmp(&key(*right)), left.cmp(right), "{left:?} {right:?}");
        }
    }
}
