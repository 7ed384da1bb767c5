//! Paths, identifiers and refusals through their types. What every call answers is the comparison's
//! business, in oracle/compare.
use hostpath::{
    book_size, key, validate_connection_identifier, validate_identifier_length,
    validate_named_u64_index, Book, ChannelId, ClientId, ConnectionId, Fault, IterationKey, Number,
    Owner, Path, Place, PortId, Reading, Refusal, Sequence, CHANNEL_ID_MOST, CLIENT_ID_MOST,
};

#[test]
fn parts() {
    let text = b"receipts/ports/transfer/channels/channel-+01/sequences/005";
    let reading = Path::read(text).unwrap();
    let Path::Receipt { port_id, channel_id, sequence } = reading.path else {
        panic!("{:?}", reading.path)
    };
    assert_eq!((port_id.as_str(), channel_id.as_str()), ("transfer", "channel-+01"));
    assert_eq!((sequence.value(), sequence.to_string().as_str()), (5, "5"));
    assert_eq!(port_id.as_bytes().as_ptr(), text[15..].as_ptr(), "it is borrowed");
    assert!(!reading.exact);
}

/// A text is what people have: bytes or a `str`, borrowed from what owns it.
#[test]
fn texts() {
    let text = String::from("ports/transfer");
    let reading: Reading = Path::read(&text).unwrap();
    let same = [
        Path::read("ports/transfer"),
        Path::read(b"ports/transfer"),
        Path::read(text.as_str()),
        Path::read(text.as_bytes()),
    ];
    assert_eq!(same, [Ok(reading); 4]);
    let bytes = text.clone().into_bytes();
    assert_eq!(Path::read(&bytes), Ok(reading));
    let path: Path = "ports/transfer".try_into().unwrap();
    assert_eq!((path, Path::try_from(&bytes[..])), (reading.path, Ok(path)));
}

/// A path by `try_from` is that of the reading, whether the text is its key or not.
#[test]
fn tried() {
    let loose = "clients/07-tendermint-4/consensusStates/007-2";
    assert_eq!(Path::try_from(loose), Path::read(loose).map(|reading| reading.path));
    assert_eq!(Path::try_from("clients"), Err(Refusal::NotAPath.into()));
    let fault = Path::try_from("x/5x/upgradedClient").unwrap_err();
    assert_eq!(fault.place, Some(Place { number: Number::UpgradeHeight, byte: 3 }));
}

/// A sequence is read as document 01 has number texts, and shown as a number.
#[test]
fn sequences() {
    let most = u64::MAX.to_string();
    let long = "0".repeat(5000) + "7";
    for (text, number) in
        [("0", 0), ("7", 7), ("+7", 7), ("+007", 7), (&long, 7), (&most, u64::MAX)]
    {
        let sequence: Sequence = text.parse().unwrap();
        assert_eq!((u64::from(sequence), sequence.to_string()), (number, number.to_string()));
    }
    for (text, refusal) in [
        ("", Refusal::NoDigits),
        ("+", Refusal::NoDigits),
        ("++7", Refusal::NotADigit),
        ("-7", Refusal::NotADigit),
        (" 7", Refusal::NotADigit),
        ("7x", Refusal::NotADigit),
        ("٣", Refusal::NotADigit),
        ("18446744073709551616", Refusal::TooLarge),
        ("99999999999999999999x", Refusal::TooLarge),
    ] {
        assert_eq!(text.parse::<Sequence>(), Err(refusal), "{text}");
        let within = format!("acks/ports/ab/channels/channel-1/sequences/{text}");
        let as_path = if text.is_ascii() { refusal } else { Refusal::NotAscii };
        assert_eq!(Path::read(&within).unwrap_err(), as_path, "{text}");
    }
    assert_eq!(Sequence::default(), 0.into());
}

#[test]
fn rooms() {
    let path = Path::read(b"ports/transfer").unwrap().path;
    let mut out = [b'.'; 16];
    assert_eq!(path.render(&mut out[..13]), Err(Refusal::NoRoom));
    assert_eq!(&out, b"................");
    assert_eq!(path.render(&mut out), Ok("ports/transfer"));
    assert_eq!(&out, b"ports/transfer..");
    assert_eq!(format!("{path:>16}|"), "  ports/transfer|");
}

#[test]
fn identifiers() {
    let mut out = [b'.'; CHANNEL_ID_MOST];
    assert_eq!(ChannelId::new(7, &mut out).as_str(), "channel-7");
    assert_eq!(&out, b"channel-7...................");
    let mut out = [b'.'; CLIENT_ID_MOST];
    assert_eq!(ClientId::new("07 tendermint", 4, &mut out), Err(Refusal::BadChar));
    assert_eq!(out, [b'.'; CLIENT_ID_MOST]);
    assert_eq!(PortId::try_from(&b"\xff"[..]), Err(Refusal::NotAscii));
    let port = PortId::try_from("transfer").unwrap();
    assert_eq!((&port, port.to_string().as_str()), (&port, "transfer"));
    assert!(port == *"transfer" && port.as_ref() == "transfer");
    assert_eq!(validate_identifier_length(b"ab", 3, 9), Err(Refusal::BadLength));
    assert_eq!(validate_named_u64_index(b"a/x", b"a"), Err(Refusal::BadPrefix.into()));
}

/// The place, and the beginning of the sentence that tells of it.
fn told(answer: Result<(), Fault>) -> (Option<usize>, String) {
    let fault = answer.unwrap_err();
    let sentence = fault.to_string();
    let number = fault.refusal.number();
    assert!(sentence.starts_with(&format!("refusal {number}: ")), "{sentence}");
    let said = sentence.split(": ").nth(1).unwrap_or_default();
    (fault.place.map(|place| place.byte), said.into())
}

/// Of each number of a path each fault is told by which number it is, and at which byte.
#[test]
fn faults_of_paths() {
    for (text, byte, said) in [
        (
            "clients/07-tendermint-4/consensusStates/x-y",
            40,
            "revision number has a byte that is no digit",
        ),
        ("clients/07-tendermint-4/consensusStates/-5", 40, "revision number lacks a digit"),
        (
            "clients/07-tendermint-4/consensusStates/7-x",
            42,
            "revision height has a byte that is no digit",
        ),
        ("clients/07-tendermint-4/consensusStates/7-", 42, "revision height lacks a digit"),
        (
            "clients/clientidx/consensusStates/7-+/processedTime",
            37,
            "revision height lacks a digit",
        ),
        (
            "clients/clientidx/consensusStates/+-2/processedHeight",
            35,
            "revision number lacks a digit",
        ),
        (
            "acks/ports/ab/channels/channel-1/sequences/-1",
            43,
            "sequence has a byte that is no digit",
        ),
        ("acks/ports/a-/channels/channel-1/sequences/+", 44, "sequence lacks a digit"),
        ("x/18446744073709551616/upgradedClient", 21, "upgrade height passes 18446744073709551615"),
        ("/+/upgradedConsState", 2, "upgrade height lacks a digit"),
    ] {
        let said = format!("the {said}, at byte {byte} of the text");
        assert_eq!(told(Path::read(text.as_bytes()).map(|_| ())), (Some(byte), said), "{text}");
    }
}

/// An index's fault is counted from the identifier's start.
#[test]
fn faults_of_indexes() {
    for (id, byte, said) in [
        ("connection-", 11, "lacks a digit"),
        ("connection-+", 12, "lacks a digit"),
        ("connection--1", 11, "has a byte that is no digit"),
        ("connection-++1", 12, "has a byte that is no digit"),
        ("connection-18446744073709551616", 30, "passes 18446744073709551615"),
    ] {
        let told_so = (Some(byte), format!("the index {said}, at byte {byte} of the text"));
        assert_eq!(told(validate_connection_identifier(id.as_bytes())), told_so, "{id}");
        assert_eq!(told(validate_named_u64_index(id.as_bytes(), b"connection")), told_so, "{id}");
        assert_eq!(told(ConnectionId::try_from(id).map(|_| ())), told_so, "{id}");
    }
    let place = Some(Place { number: Number::Index, byte: 8 });
    let fault = Fault { refusal: Refusal::NoDigits, place };
    assert_eq!(ChannelId::try_from("channel-"), Err(fault));
}

/// Every other refusal has no place, and says what it says without one; a book and a key tell the
/// number alone.
#[test]
fn refusals_without_a_place() {
    for text in ["connections/connection-x", "clients/07-tendermint-4/consensusStates/7--2", "x"] {
        let fault = Path::read(text.as_bytes()).unwrap_err();
        assert_eq!(fault, Fault::from(Refusal::NotAPath), "{text}");
        assert_eq!(fault.to_string(), Refusal::NotAPath.to_string());
    }
    assert_eq!(ChannelId::try_from("channel-01"), Err(Refusal::BadPrefix.into()));
    let text = b"clients/07-tendermint-4/consensusStates/7-x";
    assert_eq!(key(text, &mut []), Err(Refusal::NotADigit));
    let mut buffer = [0; book_size(1)];
    let book = Book::new(&mut buffer, [1, 0]).unwrap();
    assert_eq!(book.lookup(Owner::One, text, &mut [0; 64]), Err(Refusal::NotADigit));
}

#[test]
fn iteration_keys() {
    let mut key = b"iterateConsensusStates".to_vec();
    key.extend([0, 0, 0, 0, 0, 0, 0, 7, 0, 0, 0, 0, 0, 0, 1, 2]);
    assert_eq!(IterationKey::new(7, 258).as_ref(), key);
}

#[test]
fn refusals() {
    let all: Vec<Refusal> = (1..=255).filter_map(Refusal::of).collect();
    assert!(all.iter().all(|refusal| Refusal::of(refusal.number()) == Some(*refusal)));
    assert_eq!((all[0], Refusal::of(0)), (Refusal::TooLong, None));
    assert_eq!(
        Refusal::Absent.to_string(),
        "refusal 12: the book holds no such record, or the block no such key: ask for the key of the \
         text to see which record was looked for"
    );
}
