//! The section 'Texts on both sides of the line' of document 01 with the outcomes that it writes, and
//! request L3's, which are some of them anew.
use crate::identifier::Identifier;
use crate::path::{Place, Reading};
use crate::pool::filled;
use crate::{Fault, BAD_LENGTH, BAD_PREFIX, NOT_A_DIGIT, NOT_A_PATH, NO_DIGITS, TOO_LARGE};

/// The texts to be read as a path.
pub fn paths() -> Vec<(String, Result<Reading, Fault>)> {
    let read = |kind, exact, (start, length), numbers| {
        let second = Place::default();
        Ok(Reading { kind, exact, first: Place { start, length }, second, numbers })
    };
    let no = Err(NOT_A_PATH.into());
    let largest = u64::MAX;
    let port = |length: usize| filled("ports/", 'p', 6 + length);
    let mut rows = vec![
        ("".into(), no),
        ("clients".into(), no),
        ("clients/".into(), no),
        ("clients/clientid/clientState".into(), no),
        ("clients/clientidx/clientState".into(), read(4, true, (8, 9), [0, 0])),
        ("clients/07-tendermint-4/consensusStates/007-+2".into(), read(5, false, (8, 15), [7, 2])),
        ("clients/07-tendermint-4/consensusStates/7--2".into(), no),
        ("ports/a".into(), no),
        ("ports/ab".into(), read(10, true, (6, 2), [0, 0])),
        (port(128), read(10, true, (6, 128), [0, 0])),
        (port(129), no),
        ("ports/transfer/".into(), no),
        ("/5/upgradedClient".into(), read(18, true, (0, 0), [5, 0])),
        ("clients/000000005/upgradedClient".into(), read(18, false, (0, 7), [5, 0])),
        ("x/18446744073709551615/upgradedClient".into(), read(18, true, (0, 1), [largest, 0])),
    ];
    rows.extend(bad_numbers().into_iter().map(|(text, fault)| (text, Err(fault))));
    rows
}

/// Path texts with a number that is none, and what else may be wrong with them.
fn bad_numbers() -> Vec<(String, Fault)> {
    let at = |refusal, place| Fault { refusal, place };
    let state = |heights: &str| format!("clients/07-tendermint-4/consensusStates/{heights}");
    vec![
        ("x/18446744073709551616/upgradedClient".into(), at(TOO_LARGE, 21)),
        ("/+/upgradedClient".into(), at(NO_DIGITS, 2)),
        ("clients//upgradedConsState".into(), at(NO_DIGITS, 8)),
        (state("x-y"), at(NOT_A_DIGIT, 40)), // of two the first
        (state("7-x"), at(NOT_A_DIGIT, 42)),
        (state("7-"), at(NO_DIGITS, 42)),
        (state("-5"), at(NO_DIGITS, 40)),
        (state("-"), at(NO_DIGITS, 40)),
        (state("+18446744073709551616-x"), at(TOO_LARGE, 60)),
        (state("7-18446744073709551615x"), at(NOT_A_DIGIT, 62)),
        (state("7-184467440737095516150x"), at(TOO_LARGE, 62)), // the leftmost fault
        (state("7"), NOT_A_PATH.into()),                        // without exactly one dash
        (state("7-x-"), NOT_A_PATH.into()),
        ("clients/clientidx/consensusStates/7-x/processedTime".into(), at(NOT_A_DIGIT, 36)),
        ("clients/clientidx/consensusStates/7-x/processedHeight".into(), at(NOT_A_DIGIT, 36)),
        ("clients/clientidx/consensusStates/7-x/processed".into(), NOT_A_PATH.into()),
        ("clients/clientid/consensusStates/7-x".into(), NOT_A_PATH.into()),
        ("commitments/ports/ab/channels/channel-1/sequences/-1".into(), at(NOT_A_DIGIT, 50)),
        ("acks/ports/ab/channels/channel-1/sequences/".into(), at(NO_DIGITS, 43)),
        ("receipts/ports/ab/channels/channel-x/sequences/1x".into(), NOT_A_PATH.into()),
        ("receipts/ports/a/channels/channel-1/sequences/1x".into(), NOT_A_PATH.into()),
        ("connections/connection-x".into(), NOT_A_PATH.into()), // an index
        ("channelEnds/ports/ab/channels/channel-".into(), NOT_A_PATH.into()),
    ]
}

/// The identifiers, and both ends of each row of the table of lengths.
pub fn identifiers() -> Vec<(Identifier, String, Result<(), Fault>)> {
    use Identifier::{Channel, Client, ClientType, Connection, Port};
    let at = |refusal, place| Err(Fault { refusal, place });
    let mut rows = vec![
        (Channel, "channel-01".into(), Err(BAD_PREFIX.into())),
        (Channel, "channel-+01".into(), Ok(())),
        (Channel, "channel-".into(), at(NO_DIGITS, 8)),
        (Channel, "channel-+".into(), at(NO_DIGITS, 9)),
        (Channel, "channel-18446744073709551616".into(), at(TOO_LARGE, 27)),
        (Channel, "channel-1844674407370955161x".into(), at(NOT_A_DIGIT, 27)),
        (Connection, "connection--1".into(), at(NOT_A_DIGIT, 11)),
        (Connection, "connection-++1".into(), at(NOT_A_DIGIT, 12)),
    ];
    for (identifier, least, most) in [
        (Client, 9, 64),
        (ClientType, 7, 43),
        (Connection, 10, 64),
        (Port, 2, 128),
        (Channel, 8, 64),
    ] {
        let head = match identifier {
            Connection => "connection-+",
            Channel => "channel-+",
            Client | ClientType | Port => "",
        };
        let short = filled(head, '0', least - 1);
        rows.push((identifier, short, Err(BAD_LENGTH.into())));
        rows.push((identifier, filled(head, '0', least.max(head.len() + 1)), Ok(())));
        rows.push((identifier, filled(head, '0', most), Ok(())));
        rows.push((identifier, filled(head, '0', most + 1), Err(BAD_LENGTH.into())));
    }
    rows
}
