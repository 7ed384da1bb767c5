//! What include/hostpath.h writes by hand stands here too: the kinds and the sizes. bin/interface makes
//! the rest of both.
use hostpath::{Owner, PacketKind, Path};

const HEADER: &str = include_str!("../../../include/hostpath.h");

/// The number that the header has for a name.
fn number(name: &str) -> Option<usize> {
    let (_, after) = HEADER.split_once(&format!("HP_{name} = "))?;
    after.split(|c: char| !c.is_ascii_digit()).next()?.parse().ok()
}

#[test]
fn sizes() {
    for (name, size) in [
        ("READING", hostpath::READING),
        ("ITERATION_KEY", hostpath::ITERATION_KEY),
        ("PACKET_KEY_MOST", hostpath::PACKET_KEY_MOST),
        ("PATH_MOST", hostpath::PATH_MOST),
        ("KEY_MOST", hostpath::KEY_MOST),
        ("CLIENT_ID_MOST", hostpath::CLIENT_ID_MOST),
        ("CHANNEL_ID_MOST", hostpath::CHANNEL_ID_MOST),
        ("PARENT_MOST", hostpath::PARENT_MOST),
        ("LEAF_MOST", hostpath::LEAF_MOST),
        ("PACKETS_PATH_MOST", hostpath::PACKETS_PATH_MOST),
        ("BOOK_HEAD", hostpath::BOOK_HEAD),
        ("BOOK_SLOT", hostpath::BOOK_SLOT),
        ("BOOK_2_HEAD", hostpath::BOOK_2_HEAD),
        ("BOOK_2_SLOT", hostpath::BOOK_2_SLOT),
        ("BOOK_KEY", hostpath::BOOK_KEY),
        ("BOOK_VALUE", hostpath::BOOK_VALUE),
        ("BOOK_MOST", hostpath::BOOK_MOST),
        ("BOOK_TABLE", hostpath::BOOK_TABLE),
        ("BOOK_ANSWER", hostpath::BOOK_ANSWER),
    ] {
        assert_eq!(number(name), Some(size), "{name}");
    }
}

#[test]
fn packet_kinds() {
    for kind in PacketKind::ALL {
        let name = format!("{kind:?}").to_uppercase();
        assert_eq!(number(&format!("PACKET_{name}")), Some(kind.marker().into()), "{name}");
    }
}

#[test]
fn owners() {
    for owner in Owner::ALL {
        let name = format!("OWNER_{owner:?}").to_uppercase();
        assert_eq!(number(&name), Some(owner.number().into()), "{name}");
    }
}

/// A case's name in letters of one size.
fn plain(name: &str) -> String {
    name.replace('_', "").to_lowercase()
}

/// Each kind's comment is its path, with letters for what it carries.
#[test]
fn kinds() {
    let parts = [
        ("C", "07-tendermint-4"),
        ("R-h", "7-2"),
        ("K", "connection-3"),
        ("P", "transfer"),
        ("H", "channel-0"),
        ("S", "5"),
        ("U", "upgradedIBCState"),
        ("n", "9"),
    ];
    let filled =
        |word| parts.iter().find(|(letter, _)| *letter == word).map_or(word, |part| part.1);
    let list = HEADER.split("enum hp_kind {").nth(1).unwrap().split("};").next().unwrap();
    for (kind, line) in (1..).zip(list.trim().lines()) {
        let (name, said) = line.trim().split_once(" = ").unwrap();
        let shape = said.split("/* ").nth(1).unwrap().trim_end_matches(" */");
        let text = shape.split('/').map(filled).collect::<Vec<_>>().join("/");
        let reading = Path::read(&text).unwrap();
        let (path, case) = (reading.path, format!("{:?}", reading.path));
        assert_eq!((path.kind(), reading.exact), (kind, true), "{line}");
        assert_eq!(number(&name["HP_".len()..]), Some(kind.into()), "{line}");
        assert_eq!(plain(name), plain(&format!("HP{}", case.split([' ', '(']).next().unwrap())));
        assert_eq!(path.to_string(), text);
        assert_eq!(path.is_provable(), ![8, 10].contains(&kind), "{line}");
    }
    assert_eq!(list.matches(" = ").count(), 19);
}
