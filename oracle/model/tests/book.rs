//! Document 01's sentences on the book, and those of requests L10, L13 and L14, asked of the model.
use model::book::Manner::{Lenient, Plain};
use model::book::{is_book, key, Book, Buffer, Call, Given, Manner, Version, HEAD, OWNERS, SLOT};
use model::book::{Quotas, VALUE};
use model::pool::Pools;
use model::random::Random;
use model::spelling::{odd, Spelt};
use model::{
    ABSENT, BAD_BOOK, BAD_LENGTH, BAD_OWNER, FULL, KEY_TOO_LONG, NOT_ASCII, NOT_A_DIGIT, NOT_A_PATH,
};
use model::{NO_DIGITS, NO_ROOM, RETIRED, TOO_LARGE, TOO_LONG};

const LOOSE: &[u8] = b"clients/07-tendermint-4/consensusStates/007-+2";
const EXACT: &[u8] = b"clients/07-tendermint-4/consensusStates/7-2";
const ONE: [u8; 32] = [1; 32];
const TWO: [u8; VALUE] = [2; VALUE];

#[test]
fn spellings_are_one_path() {
    let mut book = Book::ones(1);
    assert_eq!(book.write(1, Lenient, LOOSE, &ONE), Ok(()));
    assert_eq!(book.lookup(1, Plain, EXACT, VALUE), Ok(ONE.to_vec()));
    assert_eq!(book.write(1, Plain, EXACT, &TWO), Ok(()));
    assert_eq!(book.lookup(1, Lenient, LOOSE, VALUE), Ok(TWO.to_vec()));
    assert_eq!(book.remove(1, Lenient, LOOSE), Ok(()));
    assert_eq!(book.lookup(1, Plain, EXACT, VALUE), Err(ABSENT));
}

/// A loose text is refused by plain calls alone, after 3 and before 10.
#[test]
fn loose_texts() {
    let mut book = Book::ones(1);
    let long = Spelt::long(256, &mut Random(1)).loose();
    for (text, refusal) in [(LOOSE, ABSENT), (&long, KEY_TOO_LONG)] {
        assert_eq!(book.write(1, Plain, text, b""), Err(model::LOOSE));
        assert_eq!(book.remove(1, Plain, text), Err(model::LOOSE));
        assert_eq!(book.lookup(1, Plain, text, 0), Err(model::LOOSE));
        assert_eq!(book.remove(1, Lenient, text), Err(refusal));
    }
    assert_eq!(
        book.remove(1, Plain, b"clients/07-tendermint-4/consensusStates/007"),
        Err(NOT_A_PATH)
    );
}

#[test]
fn indexes_are_kept_as_written() {
    let mut book = Book::ones(2);
    assert_eq!(book.write(1, Plain, b"channelEnds/ports/ab/channels/channel-1", &ONE), Ok(()));
    assert_eq!(book.write(1, Plain, b"channelEnds/ports/ab/channels/channel-+01", &TWO), Ok(()));
    assert_eq!(book.free(), [0, 0]);
}

#[test]
fn refusals_in_order() {
    let mut book = Book::ones(1);
    let long = Spelt::long(256, &mut Random(1)).exact();
    for (text, refusal) in [
        (&[0xff; 4097][..], TOO_LONG),
        (b"\xff", NOT_ASCII),
        (b"x", NOT_A_PATH),
        (b"//upgradedClient", NO_DIGITS),
        (b"clients/07-tendermint-4/consensusStates/7-x", NOT_A_DIGIT),
        (b"/18446744073709551616/upgradedClient", TOO_LARGE),
        (&long, KEY_TOO_LONG),
    ] {
        for manner in Manner::BOTH {
            assert_eq!(book.write(1, manner, text, b""), Err(refusal));
            assert_eq!(book.remove(1, manner, text), Err(refusal));
            assert_eq!(book.lookup(1, manner, text, 0), Err(refusal));
        }
    }
    assert_eq!(book.lookup(1, Plain, EXACT, 63), Err(NO_ROOM));
    assert_eq!(book.lookup(1, Plain, EXACT, 64), Err(ABSENT));
    assert_eq!(book.remove(1, Plain, EXACT), Err(ABSENT));
    assert_eq!(book.write(1, Plain, b"ports/ab", &ONE), Ok(()));
    assert_eq!(book.write(1, Plain, EXACT, &[]), Err(BAD_LENGTH));
    assert_eq!(book.write(1, Plain, EXACT, &[0; 65]), Err(BAD_LENGTH));
    assert_eq!(book.write(1, Plain, EXACT, &ONE), Err(FULL));
    assert_eq!(book.write(1, Plain, b"ports/ab", &TWO), Ok(()));
    assert_eq!(book.oldest(1, b"short"), Err(BAD_LENGTH));
    assert_eq!(book.oldest(1, b"07-tendermint-4"), Err(ABSENT));
}

#[test]
fn ten_is_judged_on_the_rendering() {
    let text = [&b"x/"[..], &[b'0'; 400], b"5/upgradedClient"].concat();
    assert_eq!(key(Lenient, &text), Ok(b"x/5/upgradedClient".to_vec()));
    assert_eq!(key(Plain, &Spelt::long(255, &mut Random(1)).exact()).map(|key| key.len()), Ok(255));
    assert_eq!(key(Plain, &Spelt::longest().exact()).map(|key| key.len()), Ok(251));
}

#[test]
fn oldest_has_the_smallest_pair() {
    let mut book = Book::ones(4);
    for text in [
        "clients/07-tendermint-4/consensusStates/10-2",
        "clients/07-tendermint-4/consensusStates/7-2",
        "clients/07-tendermint-40/consensusStates/6-2",
    ] {
        assert_eq!(book.write(1, Plain, text.as_bytes(), &ONE), Ok(()));
    }
    assert_eq!(
        book.write(1, Plain, b"clients/07-tendermint-4/consensusStates/1-1/processedTime", &ONE),
        Ok(())
    );
    assert_eq!(book.oldest(1, b"07-tendermint-4"), Ok([7, 2]));
    assert_eq!(book.oldest(1, b"07-tendermint-"), Err(ABSENT));
}

/// A book of these leaves below a client's states, and what is left of them after a clearing, with the number that it answers.
fn cleared(leaves: &[&str], keep: u64) -> (Vec<String>, u64) {
    let parent = "clients/07-tendermint-4/consensusStates/";
    let mut book = Book::ones(16);
    for leaf in leaves {
        book.write(1, Plain, format!("{parent}{leaf}").as_bytes(), &ONE).unwrap();
    }
    let gone = book.clear(1, b"07-tendermint-4", keep).unwrap();
    assert_eq!(book.free()[0], 16 - leaves.len() + gone as usize);
    let left = book.keys().map(|(_, key)| String::from_utf8(key.clone()).unwrap());
    (left.map(|key| key.strip_prefix(parent).unwrap().into()).collect(), gone)
}

/// Request L13: the greatest pairs stay, `10-2` among them, and the rest go, each with its time and height.
#[test]
fn clearing_keeps_the_greatest_pairs() {
    let leaves = ["10-2", "7-2", "7-2/processedTime", "7-2/processedHeight", "9-100"];
    for (keep, left) in [
        (0, &[][..]),
        (1, &["10-2"]),
        (2, &["10-2", "9-100"]),
        (3, &["10-2", "7-2", "7-2/processedHeight", "7-2/processedTime", "9-100"]),
        (4, &["10-2", "7-2", "7-2/processedHeight", "7-2/processedTime", "9-100"]),
        (u64::MAX, &["10-2", "7-2", "7-2/processedHeight", "7-2/processedTime", "9-100"]),
    ] {
        let gone = (leaves.len() - left.len()) as u64;
        assert_eq!(
            cleared(&leaves, keep),
            (left.iter().map(|leaf| leaf.to_string()).collect(), gone)
        );
    }
}

/// A time or height without a state goes exactly where its pair is below every kept one; with 0 to be kept all of them go
/// where there is a state, and where there is none nothing does.
#[test]
fn clearing_of_what_has_no_state() {
    let orphans =
        ["0-0/processedTime", "7-1/processedHeight", "7-3/processedTime", "99-0/processedHeight"];
    let with = |state| [&orphans[..], &[state]].concat();
    assert_eq!(cleared(&with("7-2"), 1).0, ["7-2", "7-3/processedTime", "99-0/processedHeight"]);
    assert_eq!(cleared(&with("7-2"), 9).0, ["7-2", "7-3/processedTime", "99-0/processedHeight"]);
    assert_eq!(
        cleared(&with("0-0"), 1),
        (
            vec![
                "0-0", "0-0/processedTime", "7-1/processedHeight", "7-3/processedTime",
                "99-0/processedHeight"
            ]
            .into_iter()
            .map(String::from)
            .collect(),
            0
        )
    );
    assert_eq!(cleared(&with("7-2"), 0), (vec![], 5));
    for keep in [0, 1, u64::MAX] {
        assert_eq!(cleared(&orphans, keep).1, 0);
    }
}

/// Other records stay: of the other owner, of a client whose name begins so, of other kinds.
#[test]
fn clearing_of_others() {
    let mut book = Book::empty(6, [5, 1]);
    for text in [
        "4/clientState", "4/connections", "4/consensusStates/7-2", "40/consensusStates/7-2",
        "/consensusStates/7-2",
    ] {
        book.enter(1, format!("clients/07-tendermint-{text}").as_bytes(), &ONE).unwrap();
    }
    book.write(2, Plain, EXACT, &ONE).unwrap();
    let whole = book.clone();
    for (owner, client, refusal) in [
        (3, &b"\xff"[..], BAD_OWNER),
        (1, b"/\xff", NOT_ASCII),
        (1, b"/", model::BAD_CHAR),
        (1, b"short", BAD_LENGTH),
    ] {
        assert_eq!(book.clear(owner, client, 0), Err(refusal));
        assert_eq!(book, whole);
        let call = Call::Clear(owner, client.to_vec(), 0);
        assert_eq!(Buffer::of(b"").act(&call), Err(BAD_BOOK));
    }
    assert_eq!(book.clear(1, b"07-tendermint-4", 0), Ok(1));
    assert_eq!(book.lookup(1, Plain, EXACT, VALUE), Err(ABSENT));
    assert_eq!(book.write(1, Plain, EXACT, &ONE), Ok(()));
    assert_eq!(book, whole);
}

/// Request L14: no record of kind 8 is written and none replaced, 25 after 10 and before 6; those that a book holds are looked up,
/// removed, converted and counted towards the quota.
#[test]
fn kind_8_is_retired() {
    let connections = b"clients/07-tendermint-4/connections";
    for version in [Version::One, Version::Two] {
        let mut old = Book::ones(1);
        old.enter(1, connections, &ONE).unwrap();
        let mut buffer = Buffer::of(&[7; Version::Two.size(1)]);
        let second = old.bytes_of(Version::Two);
        if version == Version::One {
            let call = Call::Convert(old.bytes_of(version));
            assert_eq!(buffer.act(&call), Ok(Given::Nothing));
            assert_eq!(buffer.bytes(), second);
        }
        let mut buffer = Buffer::of(&[7; HEAD + SLOT]);
        assert_eq!(buffer.act(&Call::ConvertOwners(second, [1, 0])), Ok(Given::Nothing));
        let mut book = Book::of(&buffer.bytes()).unwrap();
        let whole = book.clone();
        for manner in Manner::BOTH {
            for length in [0, 1, VALUE, VALUE + 1] {
                assert_eq!(book.write(1, manner, connections, &vec![2; length]), Err(RETIRED));
                assert_eq!(book.write(2, manner, connections, &vec![2; length]), Err(RETIRED));
                assert_eq!(book.write(3, manner, connections, &vec![2; length]), Err(BAD_OWNER));
            }
        }
        assert_eq!(book, whole);
        assert_eq!(book.write(1, Plain, b"connections/connection-0", &ONE), Err(FULL));
        assert_eq!(book.lookup(1, Plain, connections, VALUE), Ok(ONE.to_vec()));
        assert_eq!(book.remove(1, Plain, connections), Ok(()));
        assert_eq!(book.write(1, Plain, connections, &ONE), Err(RETIRED));
        assert_eq!(book.write(1, Plain, b"connections/connection-0", &ONE), Ok(()));
    }
}

/// One text under two owners is two paths, and each owner sees its own records alone.
#[test]
fn owners() {
    let mut book = Book::empty(4, [2, 1]);
    assert_eq!(book.write(1, Plain, EXACT, &ONE), Ok(()));
    assert_eq!(book.lookup(2, Plain, EXACT, VALUE), Err(ABSENT));
    assert_eq!(book.remove(2, Plain, EXACT), Err(ABSENT));
    assert_eq!(book.oldest(2, b"07-tendermint-4"), Err(ABSENT));
    assert_eq!(book.write(2, Plain, EXACT, &TWO), Ok(()));
    assert_eq!(book.lookup(1, Plain, EXACT, VALUE), Ok(ONE.to_vec()));
    assert_eq!(book.lookup(2, Plain, EXACT, VALUE), Ok(TWO.to_vec()));
    assert_eq!(OWNERS.map(|owner| book.oldest(owner, b"07-tendermint-4")), [Ok([7, 2]); 2]);
}

/// FULL is judged by the caller's own count and quota: of one owner's slots the other takes none, and a slot that is in no
/// quota is nobody's.
#[test]
fn quotas() {
    let mut book = Book::empty(4, [2, 1]);
    assert_eq!(book.free(), [2, 1]);
    assert_eq!(book.write(2, Plain, EXACT, &ONE), Ok(()));
    assert_eq!(book.write(2, Plain, b"ports/ab", &ONE), Err(FULL));
    assert_eq!(book.write(2, Plain, EXACT, &TWO), Ok(()));
    assert_eq!(book.write(1, Plain, EXACT, &ONE), Ok(()));
    assert_eq!(book.write(1, Plain, b"ports/ab", &ONE), Ok(()));
    assert_eq!(book.write(1, Plain, b"ports/cd", &ONE), Err(FULL));
    assert_eq!((book.free(), book.quotas()), ([0, 0], [2, 1]));
    assert_eq!(book.remove(2, Plain, EXACT), Ok(()));
    assert_eq!(book.write(1, Plain, b"ports/cd", &ONE), Err(FULL));
    assert_eq!(Book::empty(4, [0, 4]).write(1, Plain, EXACT, &ONE), Err(FULL));
}

/// 23 comes ahead of everything but 9.
#[test]
fn bad_owners() {
    let mut book = Book::empty(1, [0, 0]);
    for owner in [0, 3, 255] {
        for text in [&[0xff; 4097][..], b"\xff", b"x", LOOSE, EXACT] {
            for manner in Manner::BOTH {
                assert_eq!(book.write(owner, manner, text, b""), Err(BAD_OWNER));
                assert_eq!(book.remove(owner, manner, text), Err(BAD_OWNER));
                assert_eq!(book.lookup(owner, manner, text, 0), Err(BAD_OWNER));
            }
            assert_eq!(book.oldest(owner, text), Err(BAD_OWNER));
            let call = Call::Remove(owner, Plain, text.to_vec());
            assert_eq!(call.path(), None);
            assert_eq!(Buffer::of(b"").act(&call), Err(BAD_BOOK));
        }
    }
}

#[test]
fn layout() {
    let mut book = Book::empty(200, [197, 3]);
    book.write(2, Plain, b"ports/ab", &ONE).unwrap();
    book.write(1, Plain, b"ports/cd", &TWO).unwrap();
    let mut bytes = vec![0; HEAD + 200 * SLOT];
    bytes[..HEAD].copy_from_slice(b"HPB\0\x03\0\x02\0\0\xc5\0\x03");
    bytes[12..22].copy_from_slice(b"\x01\x08ports/cd");
    bytes[269] = 64;
    bytes[270..334].copy_from_slice(&TWO);
    bytes[334..344].copy_from_slice(b"\x02\x08ports/ab");
    bytes[591] = 32;
    bytes[592..624].copy_from_slice(&ONE);
    assert_eq!(book.bytes(), bytes);
    assert_eq!(Book::of(&bytes), Some(book));
}

/// What every damage below is done to: four slots, three of them used, the quotas of both owners and one slot of nobody's.
fn book() -> Vec<u8> {
    let mut book = Book::empty(4, [2, 1]);
    book.write(1, Plain, EXACT, &ONE).unwrap();
    book.write(1, Plain, b"ports/ab", &TWO).unwrap();
    book.write(2, Plain, b"acks/ports/ab/channels/channel-0/sequences/1", &TWO).unwrap();
    book.bytes()
}

type Damage = fn(&mut Vec<u8>);

#[test]
fn no_books() {
    let damages: [(&str, Damage); 25] = [
        ("mark", |b| b[2] = b'b'),
        ("version", |b| b[4] = 2),
        ("last byte of the count's header", |b| b[7] = 1),
        ("count too small", |b| b[6] = 2),
        ("count too large", |b| b[6] = 4),
        ("count beyond the slots", |b| b[5] = 1),
        ("owner 1 above its quota", |b| b[9] = 1),
        ("owner 2 above its quota", |b| b[11] = 0),
        ("quotas above the slots", |b| b[11] = 3),
        ("quotas that sum to 4 in 16 bits", |b| b[8..12].copy_from_slice(b"\xff\xff\0\x05")),
        ("an owner 0", |b| b[HEAD] = 0),
        ("an owner 3", |b| b[HEAD + 2 * SLOT] = 3),
        ("owners falling", |b| b[HEAD..HEAD + 3 * SLOT].rotate_left(2 * SLOT)),
        ("the other owner's first", |b| b[HEAD + 2 * SLOT] = 1),
        ("a key twice", |b| b.copy_within(HEAD..HEAD + SLOT, HEAD + SLOT)),
        ("keys falling", |b| b[HEAD..HEAD + 2 * SLOT].rotate_left(SLOT)),
        ("a loose key", |b| {
            b[HEAD + 1] += 1;
            b[HEAD + 42..HEAD + 46].copy_from_slice(b"7-02");
        }),
        ("fill after a key", |b| b[HEAD + 256] = 1),
        ("a key of no length", |b| b[HEAD + 1..HEAD + 257].fill(0)),
        ("fill after a value", |b| b[HEAD + SLOT - 1] = 1),
        ("a value of no length", |b| b[HEAD + 257] = 0),
        ("a value of 65 bytes", |b| b[HEAD + SLOT + 257] = 65),
        ("an unused slot", |b| *b.last_mut().unwrap() = 1),
        ("an owner of an unused slot", |b| b[HEAD + 3 * SLOT] = 1),
        ("length", |b| b.push(0)),
    ];
    assert!(is_book(&book()));
    for (name, damage) in damages {
        let mut bytes = book();
        damage(&mut bytes);
        assert!(!is_book(&bytes), "{name}");
        let mut buffer = Buffer::of(&bytes);
        assert_eq!(buffer.act(&Call::Remove(1, Plain, EXACT.to_vec())), Err(BAD_BOOK), "{name}");
        assert_eq!(buffer.bytes(), bytes, "{name}");
    }
}

/// Quotas that do not sum to all slots, or are 0, are those of a book.
#[test]
fn other_quotas() {
    for quotas in [[2, 2], [3, 1], [2, 1]] {
        let mut bytes = book();
        (bytes[9], bytes[11]) = (quotas[0], quotas[1]);
        assert_eq!(Book::of(&bytes).map(|book| book.quotas()), Some(quotas.map(u16::from)));
    }
    assert!(is_book(&Book::empty(1, [0, 0]).bytes()));
}

#[test]
fn new_looks_at_the_length_and_the_quotas() {
    for (length, answer) in [
        (0, Err(BAD_BOOK)),
        (12, Err(BAD_BOOK)),
        (334, Ok(Given::Nothing)),
        (329, Err(BAD_BOOK)),
        (335, Err(BAD_BOOK)),
        (64_412, Ok(Given::Nothing)),
        (64_734, Err(BAD_BOOK)),
    ] {
        let mut buffer = Buffer::of(&vec![7; length]);
        assert_eq!(buffer.act(&Call::New([0, 1])), answer, "{length}");
        assert_eq!(is_book(&buffer.bytes()), answer.is_ok(), "{length}");
    }
    for (quotas, answer) in SUMS {
        let mut buffer = Buffer::of(&[7; HEAD + 2 * SLOT]);
        assert_eq!(buffer.act(&Call::New(quotas)), answer, "{quotas:?}");
        assert_eq!(is_book(&buffer.bytes()), answer.is_ok(), "{quotas:?}");
        assert_eq!(Buffer::of(b"").act(&Call::New(quotas)), Err(BAD_BOOK), "{quotas:?}");
    }
}

/// Quotas of a book of two slots.
const SUMS: [(Quotas, Result<Given, u8>); 8] = [
    ([2, 0], Ok(Given::Nothing)),
    ([1, 1], Ok(Given::Nothing)),
    ([1, 0], Ok(Given::Nothing)),
    ([2, 1], Err(FULL)),
    ([0, 3], Err(FULL)),
    ([1, 65_535], Err(FULL)),
    ([32_768, 32_768], Err(FULL)),
    ([65_535, 3], Err(FULL)),
];

/// A book of version 1 and its conversion have the same records.
#[test]
fn conversions() {
    let mut book = Book::ones(2);
    book.write(1, Plain, EXACT, &ONE).unwrap();
    let old = book.bytes_of(Version::One);
    assert_eq!(old.len(), 584);
    assert_eq!(old[..8], *b"HPB\0\x01\0\x01\0");
    assert_eq!(old[264..296], ONE);
    for (length, answer) in [
        (Version::Two.size(2), Ok(Given::Nothing)),
        (Version::Two.size(2) - 1, Err(NO_ROOM)),
        (Version::Two.size(2) + 1, Err(NO_ROOM)),
        (Version::Two.size(1), Err(NO_ROOM)),
        (Version::Three.size(2), Err(NO_ROOM)),
        (0, Err(NO_ROOM)),
    ] {
        let mut buffer = Buffer::of(&vec![7; length]);
        assert_eq!(buffer.act(&Call::Convert(old.clone())), answer, "{length}");
        let made = book.bytes_of(Version::Two);
        let after = if answer.is_ok() { made.clone() } else { vec![7; length] };
        assert_eq!(buffer.bytes(), after, "{length}");
        assert_eq!(buffer.act(&Call::Convert(made)), Err(BAD_BOOK));
    }
}

/// Version 2 into 3: the size is looked at ahead of the quotas, and all records become owner 1's.
#[test]
fn conversions_to_owners() {
    let mut book = Book::ones(2);
    book.write(1, Plain, EXACT, &ONE).unwrap();
    let old = book.bytes_of(Version::Two);
    assert_eq!(old[..8], *b"HPB\0\x02\0\x01\0");
    assert_eq!((old[264], &old[265..297]), (32, &ONE[..]));
    let none = [([0, 2], Err(FULL)), ([0, 0], Err(FULL))];
    for (quotas, answer) in SUMS.into_iter().chain(none) {
        let call = Call::ConvertOwners(old.clone(), quotas);
        let mut buffer = Buffer::of(&vec![7; Version::Three.size(2)]);
        assert_eq!(buffer.act(&call), answer, "{quotas:?}");
        if answer.is_ok() {
            let look = Call::Lookup(1, Plain, EXACT.to_vec(), VALUE);
            assert_eq!(buffer.act(&look), Ok(Given::Value(ONE.to_vec())));
            assert_eq!(Book::of(&buffer.bytes()).map(|book| book.quotas()), Some(quotas));
        }
        for length in [Version::Two.size(2), Version::Three.size(3), 0] {
            assert_eq!(Buffer::of(&vec![7; length]).act(&call), Err(NO_ROOM), "{length}");
        }
        for other in [book.bytes(), book.bytes_of(Version::One), vec![]] {
            assert_eq!(Buffer::of(b"").act(&Call::ConvertOwners(other, quotas)), Err(BAD_BOOK));
        }
    }
}

/// A book stays one by every call, and its bytes say all of it.
#[test]
fn books_stay_books() {
    let (mut random, pools) = (Random(7), Pools::default());
    for slots in (1..20).chain([199, 200]) {
        let first = random.below(slots + 1);
        let quotas = [first, random.below(slots - first + 1)].map(|quota| quota as u16);
        let mut book = Book::empty(slots, quotas);
        for _ in 0..3 * slots {
            let (path, owner) = (Spelt::chance(&mut random), random.of(&OWNERS));
            let _ = book.write(owner, Lenient, &path.spelling(&mut random), &ONE);
            let _ = book.remove(3 - owner, Lenient, &odd(&pools, &mut random));
            let _ = book.write(owner, Plain, &odd(&pools, &mut random), &TWO);
        }
        assert_eq!(book.quotas(), quotas);
        assert_eq!(Book::of(&book.bytes()), Some(book));
    }
}
