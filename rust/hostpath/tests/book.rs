//! The book through its type.
use hostpath::Owner::{One, Two};
use hostpath::{book_2_size, book_size, Book, ClientId, Owner, Refusal, Table};
use hostpath::{BOOK_2_HEAD, BOOK_2_SLOT, BOOK_ANSWER, BOOK_HEAD, BOOK_KEY, BOOK_MOST, BOOK_SLOT};
use hostpath::{BOOK_TABLE, BOOK_VALUE};

const LOOSE: &[u8] = b"clients/07-tendermint-4/consensusStates/007-+2";
const EXACT: &[u8] = b"clients/07-tendermint-4/consensusStates/7-2";

/// The client that the texts are of, and another.
fn clients() -> [ClientId<'static>; 2] {
    ["07-tendermint-4", "07-tendermint-5"].map(|id| ClientId::try_from(id).unwrap())
}

/// What the book holds under a text of an owner's.
fn held(book: &Book, owner: Owner, text: &[u8]) -> Result<Vec<u8>, Refusal> {
    book.lookup(owner, text, &mut [0xa5; BOOK_VALUE]).map(<[u8]>::to_vec)
}

#[test]
fn calls() {
    let mut buffer = [0xa5; book_size(2)];
    let mut book = Book::new(&mut buffer, [2, 0]).unwrap();
    assert_eq!(held(&book, One, EXACT), Err(Refusal::Absent));
    assert!(book.write_lenient(One, LOOSE, [1; BOOK_VALUE]).is_ok());
    assert_eq!(book.write(One, EXACT, [2; 32]), Ok(()));
    assert_eq!(book.write(One, "ports/transfer", [3]), Ok(()));
    assert_eq!(book.write(One, String::from("ports/icahost"), vec![4; 32]), Err(Refusal::Full));
    assert_eq!(held(&book, One, EXACT), Ok(vec![2; 32]));
    assert_eq!(clients().map(|id| book.oldest(One, id)), [Ok((7, 2)), Err(Refusal::Absent)]);
    assert!(book.remove_lenient(One, LOOSE).is_ok());
    assert_eq!(book.remove(One, EXACT), Err(Refusal::Absent));
    assert_eq!(book.bytes()[..BOOK_HEAD], *b"HPB\0\x03\0\x01\0\0\x02\0\0");
    assert_eq!(held(&Book::open(&mut buffer), One, b"ports/transfer"), Ok(vec![3]));
}

/// One text under two owners is two records, and neither owner's calls see or change the other's, nor take its slots.
#[test]
fn owners() {
    let mut buffer = [0; book_size(4)];
    let mut book = Book::new(&mut buffer, [2, 1]).unwrap();
    assert_eq!(book.write(Two, EXACT, "of two"), Ok(()));
    assert_eq!(book.write(Two, "ports/transfer", "of two"), Err(Refusal::Full));
    assert_eq!(held(&book, One, EXACT), Err(Refusal::Absent));
    assert_eq!(book.remove(One, EXACT), Err(Refusal::Absent));
    assert_eq!(Owner::ALL.map(|owner| book.oldest(owner, clients()[0]).is_ok()), [false, true]);
    assert_eq!(book.counts(), Ok([0, 1]));
    for text in [EXACT, b"ports/transfer"] {
        assert_eq!(book.write(One, text, "of one"), Ok(()));
    }
    assert_eq!(book.write(One, "ports/icahost", "of one"), Err(Refusal::Full)); // though a slot is free
    assert_eq!((book.quotas(), book.counts()), (Ok([2, 1]), Ok([2, 1])));
    assert_eq!(held(&book, Two, EXACT), Ok(b"of two".to_vec()));
    assert_eq!(book.remove(Two, EXACT), Ok(()));
    assert_eq!(held(&book, One, EXACT), Ok(b"of one".to_vec()));
    assert_eq!(book.write(One, "ports/icahost", "of one"), Err(Refusal::Full));
    assert_eq!((book.quotas(), book.counts()), (Ok([2, 1]), Ok([2, 0])));
}

/// Quotas sum to no more than the slots, in more than 16 bits; the buffer's size is looked at first.
#[test]
fn quotas() {
    for quotas in [[0, 0], [0, 2], [1, 0], [1, 1], [2, 0]] {
        let mut buffer = [0xa5; book_size(2)];
        let book = Book::new(&mut buffer, quotas).unwrap();
        assert_eq!((book.quotas(), book.counts()), (Ok(quotas), Ok([0, 0])));
    }
    for quotas in [[2, 1], [0, 3], [1, 65_535], [32_768, 32_768], [65_535, 3], [65_535, 65_535]] {
        let mut buffer = [0xa5; book_size(2)];
        assert_eq!(Book::new(&mut buffer, quotas).err(), Some(Refusal::Full), "{quotas:?}");
        assert_eq!(buffer, [0xa5; book_size(2)]);
        assert_eq!(Book::new(&mut buffer[1..], quotas).err(), Some(Refusal::BadBook));
    }
}

/// A number that is no owner's, which no `Owner` has, comes behind the book and ahead of all else.
#[test]
fn bad_owners() {
    use hostpath::raw::*;
    let mut buffer = [0; book_size(1)];
    Book::new(&mut buffer, [0, 1]).unwrap();
    let (made, mut out, refusal) = (buffer, [0; BOOK_VALUE], Refusal::BadOwner.number());
    for owner in [0, 3, 255] {
        assert_eq!(book_write(&mut buffer, owner, b"x", b""), refusal);
        assert_eq!(book_remove_lenient(&mut buffer, owner, b"x"), refusal);
        assert_eq!(book_lookup(&buffer, owner, EXACT, &mut out).refusal, refusal);
        assert_eq!(book_oldest(&buffer, owner, b"").refusal, refusal);
        assert_eq!(book_clear(&mut buffer, owner, b"", 0).refusal, refusal);
        assert_eq!(book_lookup_many(&buffer, owner, b"", b"x", &mut []).refusal, refusal);
        assert_eq!(book_write(&mut [], owner, b"x", b""), Refusal::BadBook.number());
    }
    assert_eq!(buffer, made);
}

/// A clearing goes by pairs and not by texts, takes times and heights with their states, and those without one that are below
/// all that is kept; the other owner, another client and other records of this one are left.
#[test]
fn clearings() {
    let mut buffer = [0; book_size(12)];
    let leaves = ["10-2", "7-2", "7-2/processedTime", "7-2/processedHeight", "9-100"];
    let orphans = ["9-99/processedTime", "9-101/processedHeight"];
    for (keep, gone, left) in
        [(0, 7, 0), (1, 6, 1), (2, 4, 3), (3, 0, 7), (4, 0, 7), (usize::MAX, 0, 7)]
    {
        let mut book = Book::new(&mut buffer, [9, 2]).unwrap();
        let key = |leaf| format!("clients/07-tendermint-4/consensusStates/{leaf}");
        for leaf in leaves.into_iter().chain(orphans) {
            book.write(One, key(leaf), leaf).unwrap();
        }
        book.write(One, "clients/07-tendermint-4/clientState", "a digest").unwrap();
        book.write(One, "clients/07-tendermint-5/consensusStates/1-1", "a digest").unwrap();
        book.write(Two, key("1-1"), "of two").unwrap();
        assert_eq!(book.clear(One, clients()[0], keep), Ok(gone), "{keep}");
        assert_eq!(book.counts(), Ok([left + 2, 1]), "{keep}");
        assert_eq!(book.clear(One, clients()[0], keep), Ok(0), "{keep}");
        for free in 0..gone {
            assert_eq!(book.write(One, format!("ports/transfer.{free}"), "a digest"), Ok(()));
        }
        assert_eq!(book.write(One, "ports/transfer", "a digest"), Err(Refusal::Full));
        assert_eq!(held(&book, Two, key("1-1").as_bytes()), Ok(b"of two".to_vec()));
        let kept = book.lookup(One, key("9-101/processedHeight"), &mut [0; BOOK_VALUE]).is_ok();
        assert_eq!(kept, [2, 3, 4, usize::MAX].contains(&keep));
    }
}

/// Without a state nothing goes, whatever is to be kept.
#[test]
fn nothing_to_clear() {
    let mut buffer = [0; book_size(1)];
    let mut book = Book::new(&mut buffer, [1, 0]).unwrap();
    book.write(One, [EXACT, b"/processedTime"].concat(), "a digest").unwrap();
    for keep in [0, 1, usize::MAX] {
        for owner in Owner::ALL {
            assert_eq!(clients().map(|id| book.clear(owner, id, keep)), [Ok(0), Ok(0)]);
        }
    }
    assert_eq!(book.counts(), Ok([1, 0]));
}

/// A lenient call answers which key it worked on, also where the text is that key, or as long as a key can be.
#[test]
fn keys() {
    let mut buffer = [0; book_size(1)];
    let mut book = Book::new(&mut buffer, [1, 0]).unwrap();
    let long = "u".repeat(BOOK_KEY - "/5/upgradedClient".len()) + "/5/upgradedClient";
    let loose = long.replace("/5/", "/+05/");
    let exact = std::str::from_utf8(EXACT).unwrap();
    for (text, key) in [(LOOSE, exact), (EXACT, exact), (loose.as_bytes(), &long)] {
        let written = book.write_lenient(One, text, "a digest").unwrap();
        assert_eq!(written.as_str(), key);
        let mut room = [0; BOOK_VALUE];
        let held = book.lookup_lenient(One, text, &mut room).unwrap();
        assert_eq!((held.key, held.value), (written, &b"a digest"[..]));
        let removed = book.remove_lenient(One, text).unwrap();
        assert_eq!((removed, removed.to_string()), (written, key.into()));
        assert_eq!(book.remove_lenient(One, text), Err(Refusal::Absent));
    }
}

/// A loose text is refused by the plain calls, after 3 and before 10, and the lenient ones find its key's record.
#[test]
fn loose() {
    let mut buffer = [0; book_size(1)];
    let mut book = Book::new(&mut buffer, [1, 0]).unwrap();
    book.write(One, EXACT, [1; 32]).unwrap();
    let before = book.bytes().to_vec();
    let long = [&[b'u'; 300][..], b"/05/upgradedClient"].concat();
    for (text, lenient) in [(LOOSE, Ok(())), (&long, Err(Refusal::KeyTooLong))] {
        assert_eq!(book.write(One, text, [2; BOOK_VALUE + 1]), Err(Refusal::Loose));
        assert_eq!(book.remove(One, text), Err(Refusal::Loose));
        assert_eq!(held(&book, One, text), Err(Refusal::Loose));
        assert_eq!(book.bytes(), before);
        assert_eq!(book.lookup_lenient(One, text, &mut [0; BOOK_VALUE]).map(|_| ()), lenient);
    }
    assert_eq!(
        book.remove(One, b"clients/07-tendermint-4/consensusStates/007"),
        Err(Refusal::NotAPath)
    );
}

#[test]
fn no_book() {
    for size in [0, 1, book_size(0), book_size(1) + 1, book_size(BOOK_MOST + 1)] {
        assert_eq!(
            Book::new(&mut vec![0; size], [0, 0]).map(|_| ()),
            Err(Refusal::BadBook),
            "{size}"
        );
    }
    let mut buffer = [0; book_size(1)];
    let mut book = Book::open(&mut buffer);
    assert_eq!(book.write(One, EXACT, [1; 32]), Err(Refusal::BadBook));
    assert_eq!(book.remove(One, EXACT), Err(Refusal::BadBook));
    assert_eq!(held(&book, One, EXACT), Err(Refusal::BadBook));
    assert_eq!(book.oldest(One, clients()[0]), Err(Refusal::BadBook));
    assert_eq!(book.clear(One, clients()[0], 0), Err(Refusal::BadBook));
    assert_eq!((book.quotas(), book.counts()), (Err(Refusal::BadBook), Err(Refusal::BadBook)));
    assert_eq!(buffer, [0; book_size(1)]);
    assert_eq!(Book::open(&mut []).quotas(), Err(Refusal::BadBook));
}

/// The sizes that tell, and what a lookup leaves of its room.
#[test]
fn sizes() {
    use hostpath::raw::{book_lookup, book_write, Written};
    let mut buffer = [0; book_size(BOOK_MOST)];
    Book::new(&mut buffer, [199, 1]).unwrap();
    for length in [0, BOOK_VALUE + 1] {
        let value = vec![1; length];
        assert_eq!(book_write(&mut buffer, 2, EXACT, &value), Refusal::BadLength.number());
    }
    for length in [1, 31, 32, 33, 63, 64] {
        assert_eq!(book_write(&mut buffer, 2, EXACT, &vec![1; length]), 0);
        let mut out = [b'.'; BOOK_VALUE + 1];
        let short = Written { refusal: Refusal::NoRoom.number(), length: 0 };
        assert_eq!(book_lookup(&buffer, 2, EXACT, &mut out[..BOOK_VALUE - 1]), short);
        assert_eq!(out, [b'.'; BOOK_VALUE + 1]);
        let done = Written { refusal: 0, length: length as u64 };
        assert_eq!(book_lookup(&buffer, 2, EXACT, &mut out), done);
        let (value, rest) = out.split_at(length);
        assert!(value.iter().all(|byte| *byte == 1) && rest.iter().all(|byte| *byte == b'.'));
    }
}

/// The bytes of a book of an older version with one record in two slots, whose value has 32 bytes.
fn older(version: u8) -> Vec<u8> {
    let field = [&[EXACT.len() as u8][..], EXACT, &vec![0; BOOK_KEY - EXACT.len()]].concat();
    let value = if version == 1 { vec![7; 32] } else { [&[32][..], &[7; 32], &[0; 32]].concat() };
    let slot = [field, value].concat();
    let head = [b'H', b'P', b'B', 0, version, 0, 1, 0];
    [&head[..], &slot, &vec![0; slot.len()]].concat()
}

/// What becomes of a book of either older version: all records are owner one's.
#[test]
fn converted() {
    let mut between = vec![0xa5; book_2_size(2)];
    for version in [1, 2] {
        let mut old = older(version);
        for quotas in [[1, 0], [1, 1], [2, 0]] {
            let mut new = [0xa5; book_size(2)];
            let book = Book::convert(&old, &mut between, &mut new, quotas).unwrap();
            assert_eq!(held(&book, One, EXACT), Ok(vec![7; 32]));
            assert_eq!(held(&book, Two, EXACT), Err(Refusal::Absent));
            assert_eq!(book.oldest(One, clients()[0]), Ok((7, 2)));
            assert_eq!((book.quotas(), book.counts()), (Ok(quotas), Ok([1, 0])));
        }
        assert_eq!(between, older(2));
        assert_eq!(held(&Book::open(&mut old), One, EXACT), Err(Refusal::BadBook));
    }
    assert_eq!((older(2).len(), BOOK_2_HEAD + 2 * BOOK_2_SLOT), (between.len(), between.len()));
    assert_eq!((BOOK_HEAD - BOOK_2_HEAD, BOOK_SLOT - BOOK_2_SLOT), (4, 1));
}

/// What an older book holds of kind 8 stays until it is removed, and is not written again.
#[test]
fn retired() {
    let connections = b"clients/07-tendermint-4/connections";
    let (mut between, mut new) = (vec![0; book_2_size(2)], [0; book_size(2)]);
    for version in [1, 2] {
        let mut old = older(version);
        old[8] = connections.len() as u8;
        old[9..9 + BOOK_KEY].fill(0);
        old[9..9 + connections.len()].copy_from_slice(connections);
        let mut book = Book::convert(&old, &mut between, &mut new, [1, 1]).unwrap();
        let before = book.bytes().to_vec();
        for (owner, length) in [(One, 0), (One, 1), (One, 64), (One, 65), (Two, 0), (Two, 1)] {
            let value = vec![1; length];
            assert_eq!(book.write(owner, connections, &value), Err(Refusal::Retired));
            assert_eq!(book.write_lenient(owner, connections, &value), Err(Refusal::Retired));
        }
        assert_eq!(book.write(One, "connections/connection-0", "a digest"), Err(Refusal::Full));
        assert_eq!(book.bytes(), before);
        assert_eq!(held(&book, One, connections), Ok(vec![7; 32]));
        assert_eq!(book.remove(One, connections), Ok(()));
        assert_eq!(book.write(One, connections, "a digest"), Err(Refusal::Retired));
        assert_eq!(book.write(One, "connections/connection-0", "a digest"), Ok(()));
    }
}

/// A book of version 2 needs no room between, and a refusal leaves the buffer.
#[test]
fn conversions_refused() {
    let refused = |old: &[u8], size, quotas| {
        let mut new = vec![0xa5; size];
        let answer = Book::convert(old, &mut [], &mut new, quotas).map(|_| ());
        assert!(answer.is_ok() || new == vec![0xa5; size]);
        answer
    };
    let (old, right) = (older(2), book_size(2));
    assert_eq!(refused(&old, right, [1, 1]), Ok(()));
    for size in [0, old.len(), book_size(1), right - 1, right + 1, book_size(3)] {
        assert_eq!(refused(&old, size, [9, 9]), Err(Refusal::NoRoom), "{size}");
    }
    for quotas in [[0, 2], [0, 0], [2, 1], [1, 65_535], [65_535, 65_535]] {
        assert_eq!(refused(&old, right, quotas), Err(Refusal::Full), "{quotas:?}");
    }
    assert_eq!(refused(&older(1), right, [1, 1]), Err(Refusal::NoRoom)); // none between
    for none in [&old[..old.len() - 1], &older(1)[1..], &older(3), b""] {
        assert_eq!(refused(none, 0, [9, 9]), Err(Refusal::BadBook));
    }
}

/// Each answer is that of a lookup alone, in the order of the texts, and what stands behind them is left.
#[test]
fn many() {
    let mut buffer = [0; book_size(BOOK_MOST)];
    let mut book = Book::new(&mut buffer, [100, 100]).unwrap();
    let ports: Vec<String> = (0..BOOK_MOST).map(|port| format!("ports/transfer.{port}")).collect();
    for (port, at) in ports.iter().zip(1..) {
        let owner = Owner::ALL[usize::from(at) % 2];
        book.write(owner, port, vec![at; 1 + usize::from(at) % BOOK_VALUE]).unwrap();
    }
    let mut buckets = [0xa5; BOOK_TABLE];
    let mut table = Table::open(&mut buckets);
    assert_eq!(book.fill(&mut table), Ok(()));
    assert_eq!(table.bytes().iter().filter(|bucket| **bucket != 0).count(), BOOK_MOST);

    let long = [b'u'; 4097];
    let odd: [&[u8]; 8] =
        [b"", b"ports/\xff", b"ports/absent", b"x/5x/upgradedClient", LOOSE, &long, b"", EXACT];
    let texts: Vec<&[u8]> = ports.iter().map(String::as_bytes).chain(odd).collect();
    for (owner, end) in [(One, &b""[..]), (Two, b"\n")] {
        let lines = [&texts.join(&b'\n'), end].concat();
        let mut room = vec![0xa5; BOOK_ANSWER * texts.len() + 1];
        let answers = book.lookup_many(owner, &table, &lines, &mut room).unwrap();
        assert_eq!(answers.len(), texts.len());
        for (text, answer) in texts.iter().zip(answers) {
            assert_eq!(
                answer.map(<[u8]>::to_vec),
                held(&book, owner, text),
                "{}",
                text.escape_ascii()
            );
        }
        assert_eq!(room.last(), Some(&0xa5));
        let short = &mut room[..BOOK_ANSWER * texts.len() - 1];
        assert_eq!(book.lookup_many(owner, &table, &lines, short).err(), Some(Refusal::NoRoom));
    }
}

/// The order of refusals, and which table is stale.
#[test]
fn tables() {
    let mut buffer = [0; book_size(2)];
    let mut book = Book::new(&mut buffer, [1, 1]).unwrap();
    let mut buckets = [0; BOOK_TABLE];
    let mut table = Table::open(&mut buckets);
    let many = |book: &Book, table: &Table, texts: &[u8]| {
        let mut room = [0xa5; 2 * BOOK_ANSWER];
        let answers = book.lookup_many(One, table, texts, &mut room).map(|answers| answers.len());
        assert!(answers.is_ok() || room == [0xa5; 2 * BOOK_ANSWER]);
        answers
    };
    assert_eq!(many(&book, &table, b""), Ok(0)); // no records, no buckets
    assert_eq!(many(&book, &table, b"\n\n"), Ok(2));
    book.write(One, EXACT, b"a digest").unwrap();
    assert_eq!(many(&book, &table, b"\n\n\n"), Err(Refusal::BadTable));
    book.fill(&mut table).unwrap();
    assert_eq!(many(&book, &table, b"\n\n\n"), Err(Refusal::NoRoom));
    assert_eq!(many(&book, &table, EXACT), Ok(1));
    book.write(One, EXACT, b"another").unwrap(); // the same keys, so the same table
    assert_eq!(many(&book, &table, EXACT), Ok(1));
    book.write(Two, EXACT, b"another").unwrap(); // either owner's makes it stale
    assert_eq!(many(&book, &table, EXACT), Err(Refusal::BadTable));
    book.remove(Two, EXACT).unwrap();
    assert_eq!(many(&book, &table, EXACT), Ok(1));
    book.remove(One, EXACT).unwrap();
    assert_eq!(many(&book, &table, EXACT), Err(Refusal::BadTable));
    let (mut none, before) = ([0; 8], *table.bytes());
    let none = Book::open(&mut none);
    assert_eq!(none.fill(&mut table), Err(Refusal::BadBook));
    assert_eq!(*table.bytes(), before);
    assert_eq!(many(&none, &table, EXACT), Err(Refusal::BadBook));
}

/// A lent buffer may begin at any address.
#[test]
fn addresses() {
    let mut room = [0xa5; book_size(2) + 32];
    for at in 0..32 {
        let mut book = Book::new(&mut room[at..at + book_size(2)], [1, 1]).unwrap();
        assert_eq!(book.write(One, "ports/transfer", [1; 33]), Ok(()));
        assert_eq!(book.write(Two, EXACT, [2; BOOK_VALUE]), Ok(()));
        assert_eq!(held(&book, One, b"ports/transfer"), Ok(vec![1; 33]));
        assert_eq!(book.remove(Two, EXACT), Ok(()));
        assert!(room[at + book_size(2)..].iter().all(|byte| *byte == 0xa5));
    }
}
