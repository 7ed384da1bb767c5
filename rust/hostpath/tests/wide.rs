//! The module `wide` through its types: letters of every script, and ASCII as outside it. What every call answers
//! is the comparison's business, in oracle/compare.
use hostpath::wide::{
    acks_path, commitments_path, consensus_state_parent, key, receipts_path,
    validate_identifier_chars, validate_identifier_length, validate_named_u64_index,
    validate_prefix_length, ChannelId, ClientId, ConnectionId, Path, PortId, Reading,
    UpgradeConsensusStatePath,
};
use hostpath::{book_size, Book, Fault, Number, Owner, Place, Refusal};
use hostpath::{CHANNEL_ID_MOST, CLIENT_ID_MOST, PACKETS_PATH_MOST, PARENT_MOST, PATH_MOST};

/// Identifiers are borrowed from the text as they were written, and the rendering is the key.
#[test]
fn paths() {
    let text = "acks/ports/πύλη/channels/channel-+01/sequences/005";
    let reading = Path::read(text.as_bytes()).unwrap();
    let Path::Ack { port_id, channel_id, sequence } = reading.path else {
        panic!("{:?}", reading.path)
    };
    assert_eq!((port_id.as_str(), channel_id.as_str()), ("πύλη", "channel-+01"));
    assert_eq!((sequence.value(), reading.exact), (5, false));
    assert_eq!(port_id.as_bytes().as_ptr(), text["acks/ports/".len()..].as_ptr());
    let made = "acks/ports/πύλη/channels/channel-+01/sequences/5";
    assert_eq!(reading.path.to_string(), made);
    let mut room = [0; 64];
    assert_eq!(key(text.as_bytes(), &mut room), Ok(made));
    assert_eq!(reading.path.render(&mut room[..made.len() - 1]), Err(Refusal::NoRoom));
    assert!(reading.path.is_provable());
    assert!(Path::read(made.as_bytes()).unwrap().exact);
}

/// Each of these is refused outside, with 2.
#[test]
fn scripts() {
    for port in ["πύλη", "порт", "港口", "١٢", "é", "𠀀"] {
        let text = format!("ports/{port}");
        let port_id = PortId::try_from(port).unwrap();
        assert_eq!(
            Path::read(text.as_bytes()).map(|reading| reading.path),
            Ok(Path::Ports { port_id })
        );
        assert_eq!(hostpath::PortId::try_from(port), Err(Refusal::NotAscii));
        assert_eq!(hostpath::Path::read(text.as_bytes()), Err(Refusal::NotAscii.into()));
    }
}

#[test]
fn refusals() {
    assert_eq!(validate_identifier_chars(b"\xf0\x9f\xa6"), Err(Refusal::BadUtf8));
    assert_eq!(validate_identifier_chars("🦀".as_bytes()), Err(Refusal::BadChar));
    assert_eq!(validate_identifier_length(b"\xed\xa0\x80", 1, 9), Err(Refusal::BadUtf8));
    assert_eq!(validate_identifier_length("é".as_bytes(), 2, 2), Ok(()));
    assert_eq!(validate_prefix_length("é".as_bytes(), 5, 30), Err(Refusal::BadLength));
    assert_eq!(validate_named_u64_index("é-1".as_bytes(), "é".as_bytes()), Ok(()));
    assert_eq!(validate_named_u64_index("é-1".as_bytes(), b"\xc3"), Err(Refusal::BadUtf8.into()));
    assert_eq!(Path::read(b"ports/\xc0\xaf"), Err(Refusal::BadUtf8.into()));
    assert_eq!(Path::read("é".repeat(2049).as_bytes()), Err(Refusal::TooLong.into()));
    assert_eq!(ConnectionId::try_from("ééééé"), Err(Refusal::BadPrefix.into()));
}

/// Places are counted in bytes.
#[test]
fn faults() {
    let fault = Path::read("πύλη/٣/upgradedClient".as_bytes()).unwrap_err();
    let place = Some(Place { number: Number::UpgradeHeight, byte: 9 });
    assert_eq!(fault, Fault { refusal: Refusal::NotADigit, place });
    let fault = ChannelId::try_from("channel-1é").unwrap_err();
    let place = Some(Place { number: Number::Index, byte: 9 });
    assert_eq!(fault, Fault { refusal: Refusal::NotADigit, place });
}

#[test]
fn lengths_are_in_bytes() {
    assert!(PortId::try_from("é".repeat(64).as_str()).is_ok());
    assert_eq!(PortId::try_from("é".repeat(65).as_str()), Err(Refusal::BadLength));
    let most = "é".repeat((PATH_MOST - "/18446744073709551615/upgradedConsState".len()) / 2);
    let path = Path::from(UpgradeConsensusStatePath::new(&most, u64::MAX).unwrap());
    assert_eq!(path.to_string().len(), PATH_MOST - 1);
    let more = most + "é";
    assert_eq!(UpgradeConsensusStatePath::new(&more, u64::MAX), Err(Refusal::TooLong));
    assert_eq!(UpgradeConsensusStatePath::new("é/", 5), Err(Refusal::BadSegment));
    assert_eq!(UpgradeConsensusStatePath::new(b"\xff", 5), Err(Refusal::BadUtf8));
    let crab = UpgradeConsensusStatePath::new("🦀", 5).unwrap();
    assert_eq!(crab.upgrade_path(), "🦀");
}

#[test]
fn texts() {
    let mut room = [0; CLIENT_ID_MOST];
    let client = ClientId::new("\u{3000}клиент\u{85}", 4, &mut room);
    assert_eq!(client.map(ClientId::as_str), Ok("клиент-4"));
    let parent = &mut [0; PARENT_MOST];
    let parent = consensus_state_parent(client.unwrap(), parent);
    assert_eq!(parent, "clients/клиент-4/consensusStates");
    let port = PortId::try_from("港口").unwrap();
    let (mut id, mut room) = ([0; CHANNEL_ID_MOST], [0; PACKETS_PATH_MOST]);
    let channel = ChannelId::new(7, &mut id);
    assert_eq!(
        commitments_path(port, channel, &mut room),
        "commitments/ports/港口/channels/channel-7/sequences"
    );
    assert_eq!(acks_path(port, channel, &mut room), "acks/ports/港口/channels/channel-7/sequences");
    assert_eq!(
        receipts_path(port, channel, &mut room),
        "receipts/ports/港口/channels/channel-7/sequences"
    );
}

/// What was made outside is the same here.
#[test]
fn widened() {
    let client = hostpath::ClientId::try_from("07-tendermint-4").unwrap();
    assert_eq!(ClientId::from(client), ClientId::try_from(client.as_str()).unwrap());
    let connection = hostpath::ConnectionId::try_from("connection-3").unwrap();
    assert_eq!(ConnectionId::from(connection), ConnectionId::try_from("connection-3").unwrap());
    let port = hostpath::PortId::try_from("transfer").unwrap();
    assert_eq!(PortId::from(port), PortId::try_from("transfer").unwrap());
    let channel = hostpath::ChannelId::try_from("channel-+01").unwrap();
    assert_eq!(ChannelId::from(channel), ChannelId::try_from("channel-+01").unwrap());
    for text in [
        "nextChannelSequence",
        "clients/07-tendermint-4/consensusStates/007-2/processedTime",
        "connections/connection-3",
        "receipts/ports/transfer/channels/channel-0/sequences/5",
        "upgradedIBCState/5/upgradedClient",
        "upgradedIBCState/05/upgradedConsState",
    ] {
        let (plain, wide) = (hostpath::Path::read(text).unwrap(), Path::read(text).unwrap());
        assert_eq!((Reading::from(plain), Path::from(plain.path)), (wide, wide.path), "{text}");
    }
}

/// A book keeps ASCII keys alone.
#[test]
fn books_stay_ascii() {
    let mut buffer = [0; book_size(1)];
    let mut book = Book::new(&mut buffer, [1, 0]).unwrap();
    assert_eq!(
        book.write(Owner::One, "ports/πύλη".as_bytes(), b"a digest"),
        Err(Refusal::NotAscii)
    );
}
