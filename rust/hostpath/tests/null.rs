//! Null pointers with count 0, which no slice of Rust has: the calls as C has them.
use core::ptr::{null, null_mut};

use hostpath::raw::c::*;
use hostpath::raw::{Count, Fault, Packet, Pair, Written};
use hostpath::{book_size, Book, BOOK_TABLE, BOOK_VALUE};

const PORT: &[u8] = b"ports/transfer";

fn refused(refusal: u8) -> Written {
    Written { refusal, length: 0 }
}

fn fault(refusal: u8) -> Fault {
    Fault { refusal, place: 0 }
}

#[test]
fn identifiers() {
    // SAFETY: as of every call here, a pointer is null with count 0 or that of a live slice.
    unsafe {
        assert_eq!(hp_validate_identifier_chars(null(), 0), 0);
        assert_eq!(hp_validate_port_identifier(null(), 0), 6);
        assert_eq!(hp_validate_named_u64_index(null(), 0, null(), 0), fault(7));
        assert_eq!(hp_client_id_new(null(), 0, 4, null_mut(), 0), refused(6));
        assert_eq!(hp_channel_id_new(4, null_mut(), 0), refused(4));
    }
}

#[test]
fn paths() {
    let (port, size) = (PORT.as_ptr(), PORT.len());
    let mut out = [0; 17];
    unsafe {
        assert_eq!(hp_read(null(), 0, null_mut(), 0), fault(3));
        assert_eq!(hp_read(port, size, null_mut(), 0), fault(4));
        assert_eq!(hp_walk(null(), 0, null_mut(), 0), fault(3));
        assert_eq!(hp_walk(port, size, null_mut(), 0), fault(4));
        assert_eq!(hp_key(null(), 0, null_mut(), 0), refused(3));
        assert_eq!(hp_key(port, size, null_mut(), 0), refused(4));
        assert_eq!(hp_render(10, null(), 0, null(), 0, 0, 0, null_mut(), 0), refused(6));
        let made = hp_render(18, null(), 0, null(), 0, 5, 0, out.as_mut_ptr(), out.len());
        assert_eq!(made, Written { refusal: 0, length: 17 });
    }
    assert_eq!(&out, b"/5/upgradedClient");
}

#[test]
fn wide_calls() {
    let (port, size) = (PORT.as_ptr(), PORT.len());
    let mut out = [0; 17];
    unsafe {
        assert_eq!(hp_wide_validate_identifier_chars(null(), 0), 0);
        assert_eq!(hp_wide_validate_port_identifier(null(), 0), 6);
        assert_eq!(hp_wide_validate_named_u64_index(null(), 0, null(), 0), fault(7));
        assert_eq!(hp_wide_client_id_new(null(), 0, 4, null_mut(), 0), refused(6));
        assert_eq!(hp_wide_read(null(), 0, null_mut(), 0), fault(3));
        assert_eq!(hp_wide_read(port, size, null_mut(), 0), fault(4));
        assert_eq!(hp_wide_key(null(), 0, null_mut(), 0), refused(3));
        assert_eq!(hp_wide_key(port, size, null_mut(), 0), refused(4));
        assert_eq!(hp_wide_render(10, null(), 0, null(), 0, 0, 0, null_mut(), 0), refused(6));
        let made = hp_wide_render(18, null(), 0, null(), 0, 5, 0, out.as_mut_ptr(), out.len());
        assert_eq!(made, Written { refusal: 0, length: 17 });
        assert_eq!(hp_wide_consensus_state_parent(null(), 0, null_mut(), 0), refused(6));
        assert_eq!(hp_wide_acks_path(null(), 0, null(), 0, null_mut(), 0), refused(6));
    }
    assert_eq!(&out, b"/5/upgradedClient");
}

#[test]
fn iteration_keys() {
    let pair = |refusal| Pair { refusal, number: 0, height: 0 };
    unsafe {
        assert_eq!(hp_iteration_key(7, 2, null_mut(), 0), refused(4));
        assert_eq!(hp_read_iteration_key(null(), 0), pair(15));
        assert_eq!(hp_first_above(null(), 0, 0, 0), pair(12));
        assert_eq!(hp_last_below(null(), 0, u64::MAX, u64::MAX), pair(12));
    }
}

#[test]
fn packet_keys() {
    let client = b"07-tendermint-4";
    let refused_key = Packet { refusal: 24, kind: 0, length: 0, sequence: 0 };
    unsafe {
        assert_eq!(hp_v2_read(null(), 0), refused_key);
        assert_eq!(hp_v2_write(4, null(), 0, 7, null_mut(), 0), refused(24));
        assert_eq!(hp_v2_write(1, null(), 0, 7, null_mut(), 0), refused(6));
        assert_eq!(hp_v2_write(1, client.as_ptr(), client.len(), 7, null_mut(), 0), refused(4));
    }
}

#[test]
fn books() {
    let (port, size) = (PORT.as_ptr(), PORT.len());
    let mut out = [0; BOOK_VALUE];
    unsafe {
        assert_eq!(hp_book_new(null_mut(), 0, 0, 0), 9);
        assert_eq!(hp_book_write(null_mut(), 0, 1, port, size, out.as_ptr(), BOOK_VALUE), 9);
        assert_eq!(hp_book_remove(null_mut(), 0, 1, port, size), 9);
        assert_eq!(
            hp_book_lookup(null(), 0, 1, port, size, out.as_mut_ptr(), BOOK_VALUE),
            refused(9)
        );
        let none = Pair { refusal: 9, number: 0, height: 0 };
        assert_eq!(hp_book_oldest(null(), 0, 1, port, size), none);
        assert_eq!(hp_book_write(null_mut(), 0, 1, null(), 0, null(), 0), 9);
        assert_eq!(hp_book_remove(null_mut(), 0, 1, null(), 0), 9);
        assert_eq!(hp_book_lookup(null(), 0, 1, null(), 0, null_mut(), 0), refused(9));
        assert_eq!(hp_book_write_lenient(null_mut(), 0, 1, null(), 0, null(), 0), 9);
        assert_eq!(hp_book_remove_lenient(null_mut(), 0, 1, null(), 0), 9);
        assert_eq!(hp_book_lookup_lenient(null(), 0, 1, null(), 0, null_mut(), 0), refused(9));
        assert_eq!(hp_book_convert(null(), 0, null_mut(), 0), 9);
        assert_eq!(hp_book_convert_owners(null(), 0, null_mut(), 0, 0, 0), 9);
        assert_eq!(hp_book_oldest(null(), 0, 1, null(), 0), none);
        let none = Count { refusal: 9, count: 0 };
        assert_eq!(hp_book_clear(null_mut(), 0, 1, null(), 0, 0), none);
        assert_eq!(hp_book_fill(null(), 0, null_mut(), 0), 9);
        let many = hp_book_lookup_many(null(), 0, 1, null(), 0, null(), 0, null_mut(), 0);
        assert_eq!(many, refused(9));
    }
    assert_eq!(out, [0; BOOK_VALUE]);
}

#[test]
fn texts_values_and_rooms() {
    let mut buffer = [0; book_size(1)];
    Book::new(&mut buffer, [1, 0]).unwrap();
    let made = buffer;
    let (port, size) = (PORT.as_ptr(), PORT.len());
    let (book, n) = (buffer.as_mut_ptr(), buffer.len());
    let mut out = [0; BOOK_VALUE];
    unsafe {
        assert_eq!(hp_book_write(book, n, 1, null(), 0, out.as_ptr(), BOOK_VALUE), 3);
        assert_eq!(hp_book_write(book, n, 1, port, size, null(), 0), 6);
        assert_eq!(hp_book_remove(book, n, 1, null(), 0), 3);
        assert_eq!(hp_book_lookup(book, n, 1, null(), 0, out.as_mut_ptr(), BOOK_VALUE), refused(3));
        assert_eq!(hp_book_lookup(book, n, 1, port, size, null_mut(), 0), refused(4));
        assert_eq!(hp_book_write(book, n, 3, null(), 0, null(), 0), 23);
        let short = Pair { refusal: 6, number: 0, height: 0 };
        assert_eq!(hp_book_oldest(book, n, 1, null(), 0), short);
        let short = Count { refusal: 6, count: 0 };
        assert_eq!(hp_book_clear(book, n, 1, null(), 0, 0), short);
        assert_eq!(hp_book_fill(book, n, null_mut(), 0), 4);
        let none = hp_book_lookup_many(book, n, 1, null(), 0, null(), 0, null_mut(), 0);
        assert_eq!(none, refused(22));
        let empty = [0; BOOK_TABLE];
        let (table, t) = (empty.as_ptr(), empty.len());
        let nothing = hp_book_lookup_many(book, n, 1, table, t, null(), 0, null_mut(), 0);
        assert_eq!(nothing, Written { refusal: 0, length: 0 });
        assert_eq!(
            hp_book_lookup_many(book, n, 1, table, t, port, size, null_mut(), 0),
            refused(4)
        );
    }
    assert_eq!(buffer, made);
}
