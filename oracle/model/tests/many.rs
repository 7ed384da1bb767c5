//! Request L9's sentences, with the owners of request L10, asked of the model.
use model::book::{Book, Manner, VALUE};
use model::many::{filled, fnv1a, home, lookups, texts, ANSWER, BUCKETS};
use model::{ABSENT, BAD_OWNER, BAD_TABLE, NOT_A_PATH, NO_ROOM};

#[test]
fn published_values() {
    assert_eq!(fnv1a(b""), 0xcbf2_9ce4_8422_2325);
    assert_eq!(fnv1a(b"a"), 0xaf63_dc4c_8601_ec8c);
    assert_eq!(fnv1a(b"foobar"), 0x8594_4171_f739_67e8);
}

/// Two keys of the last bucket: the first in key order stands there, and the other goes round.
#[test]
fn round_the_end() {
    let ports = (0..).map(|number| format!("ports/p{number}").into_bytes());
    let mut keys: Vec<Vec<u8>> =
        ports.filter(|port| home(2, port) == BUCKETS - 1).take(2).collect();
    keys.sort();
    let mut book = Book::empty(2, [0, 2]);
    for key in keys.iter().rev() {
        book.write(2, Manner::Plain, key, b"v").unwrap();
    }
    let table = filled(&book);
    assert_eq!((table[BUCKETS - 1], table[0]), (1, 2));
    assert_eq!(table.iter().filter(|bucket| **bucket != 0).count(), 2);
}

#[test]
fn lines() {
    assert_eq!(texts(b""), [b""; 0]);
    assert_eq!(texts(b"\n"), [b""]);
    assert_eq!(texts(b"\n\n"), [b"", b""]);
    assert_eq!(texts(b"a\n\nb"), [&b"a"[..], b"", b"b"]);
    assert_eq!(texts(b"a\nb\n"), [b"a", b"b"]);
}

/// The owner byte is hashed ahead of the key, so one text of two owners has two homes and two buckets.
#[test]
fn owners() {
    let key = b"ports/ab";
    assert_eq!(home(1, key), (fnv1a(b"\x01ports/ab") % 512) as usize);
    let mut book = Book::empty(2, [1, 1]);
    for (owner, value) in [(2, b"v"), (1, b"w")] {
        book.write(owner, Manner::Plain, key, value).unwrap();
    }
    let table = filled(&book);
    assert_eq!((table[home(1, key)], table[home(2, key)]), (1, 2));
    for (owner, value) in [(1, b'w'), (2, b'v')] {
        assert_eq!(lookups(&book, owner, &table, key, ANSWER).unwrap()[..3], [0, 1, value]);
    }
    for owner in [0, 3, 255] {
        assert_eq!(lookups(&book, owner, &table[1..], key, 0), Err(BAD_OWNER));
    }
}

#[test]
fn answers() {
    let mut book = Book::ones(1);
    book.write(1, Manner::Plain, b"ports/ab", &[7; VALUE - 1]).unwrap();
    let table = filled(&book);
    let lines = b"ports/ab\nports/abc\n\n";
    let given = lookups(&book, 1, &table, lines, 3 * ANSWER).unwrap();
    let zeros = [0; ANSWER - 1];
    assert_eq!(given[..2], [0, 63]);
    assert_eq!(given[2..ANSWER], [&[7; VALUE - 1][..], &[0]].concat());
    assert_eq!(given[ANSWER..2 * ANSWER], [&[ABSENT][..], &zeros].concat());
    assert_eq!(given[2 * ANSWER..], [&[NOT_A_PATH][..], &zeros].concat());
    assert_eq!(lookups(&book, 1, &table, lines, 3 * ANSWER - 1), Err(NO_ROOM));
    assert_eq!(lookups(&book, 1, &table[1..], lines, 0), Err(BAD_TABLE));
    assert_eq!(lookups(&book, 1, &table, b"", 0), Ok(vec![]));
}
