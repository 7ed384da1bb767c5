//! Identifiers and paths that own their text, in both modules.
#![cfg(feature = "alloc")]
use std::collections::BTreeSet;

use hostpath::{book_size, Book, Owner, Path, Refusal, BOOK_VALUE};
use hostpath::{wide, OwnedChannelId, OwnedClientId, OwnedConnectionId, OwnedPath, OwnedPortId};

/// What is owned outlives the text that it was read from.
#[test]
fn kept() {
    let kept: BTreeSet<OwnedPath> = {
        let lines =
            String::from("ports/transfer\nx/+05/upgradedClient\nports/icahost\nx/5/upgradedClient");
        lines.lines().map(|line| Path::try_from(line).unwrap().into()).collect()
    };
    let keys: Vec<&str> = kept.iter().map(OwnedPath::as_str).collect();
    assert_eq!(keys, ["ports/icahost", "ports/transfer", "x/5/upgradedClient"]);
    for path in &kept {
        assert_eq!(OwnedPath::from(path.as_path()), *path);
        assert_eq!(
            (path.as_path().to_string(), path.to_string()),
            (path.as_str().into(), path.clone().into())
        );
    }
}

/// It is the text of a record.
#[test]
fn in_a_book() {
    let mut buffer = [0; book_size(1)];
    let mut book = Book::new(&mut buffer, [0, 1]).unwrap();
    let path: OwnedPath = "clients/07-tendermint-4/consensusStates/007-2".parse().unwrap();
    assert_eq!(book.write(Owner::Two, &path, "a digest"), Ok(()));
    assert_eq!(book.lookup(Owner::Two, path, &mut [0; BOOK_VALUE]), Ok(&b"a digest"[..]));
}

#[test]
fn identifiers() {
    let client = OwnedClientId::new(" 07-tendermint", 4).unwrap();
    assert_eq!((client.as_str(), client.as_id().as_str()), ("07-tendermint-4", "07-tendermint-4"));
    assert_eq!(OwnedClientId::new("07 tendermint", 4), Err(Refusal::BadChar));
    assert_eq!(Ok(OwnedConnectionId::new(3)), "connection-3".parse());
    assert_eq!(Ok(OwnedChannelId::new(7)), "channel-7".parse());
    assert_ne!("channel-+01".parse::<OwnedChannelId>(), "channel-1".parse());
    assert_eq!("channel-01".parse::<OwnedChannelId>(), Err(Refusal::BadPrefix.into()));
    let port: OwnedPortId = "transfer".parse().unwrap();
    assert!(port == *"transfer" && port.as_ref() == "transfer");
    let path = Path::Ports { port_id: port.as_id() };
    assert_eq!(OwnedPath::from(path).as_path(), path);
    assert_eq!(String::from(port), "transfer");
}

#[test]
fn wide_ones() {
    let port: wide::OwnedPortId = "πύλη".parse().unwrap();
    let path: wide::OwnedPath = wide::Path::Ports { port_id: port.as_id() }.into();
    assert_eq!(path.as_str(), "ports/πύλη");
    assert_eq!(path.as_path(), wide::Path::Ports { port_id: port.as_id() });
    assert_eq!("ports/πύλη".parse::<OwnedPath>(), Err(Refusal::NotAscii.into()));
}
