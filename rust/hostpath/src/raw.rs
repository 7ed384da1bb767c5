//! The calls as the library has them, refusals as numbers: [`c`] on pointers, and below it the same on slices. The crate's
//! other items are made of these, and are what to use.
//!
//! The numbers after a call are its refusals, in the order in which they are looked for; 0 is done.

// Below, made by bin/interface: answers.

/// What a call answers.
#[repr(C)]
#[derive(Clone, Copy, Debug, PartialEq, Eq)]
#[must_use]
pub struct Fault {
    /// A refusal's number, or 0.
    pub refusal: u8,
    /// The byte, counted from 0, where the fault of a number stands: of 17, 18 and 19 alone, else 0.
    pub place: u64,
}

/// What a call answers.
#[repr(C)]
#[derive(Clone, Copy, Debug, PartialEq, Eq)]
#[must_use]
pub struct Written {
    /// A refusal's number, or 0.
    pub refusal: u8,
    /// 0 where the call is refused.
    pub length: u64,
}

/// What a call answers.
#[repr(C)]
#[derive(Clone, Copy, Debug, PartialEq, Eq)]
#[must_use]
pub struct Flag {
    /// A refusal's number, or 0.
    pub refusal: u8,
    /// 0 where the call is refused.
    pub value: u8,
}

/// What a call answers.
#[repr(C)]
#[derive(Clone, Copy, Debug, PartialEq, Eq)]
#[must_use]
pub struct Pair {
    /// A refusal's number, or 0.
    pub refusal: u8,
    /// 0 where the call is refused.
    pub number: u64,
    /// 0 where the call is refused.
    pub height: u64,
}

/// What a call answers.
#[repr(C)]
#[derive(Clone, Copy, Debug, PartialEq, Eq)]
#[must_use]
pub struct Packet {
    /// A refusal's number, or 0.
    pub refusal: u8,
    /// 0 where the call is refused.
    pub kind: u8,
    /// 0 where the call is refused.
    pub length: u64,
    /// 0 where the call is refused.
    pub sequence: u64,
}

/// What a call answers.
#[repr(C)]
#[derive(Clone, Copy, Debug, PartialEq, Eq)]
#[must_use]
pub struct Count {
    /// A refusal's number, or 0.
    pub refusal: u8,
    /// 0 where the call is refused.
    pub count: u64,
}
// Above, made by bin/interface.

/// The calls as C has them: a text or a buffer is a pointer and a count of bytes.
pub mod c {
    use super::*;

    extern "C" {
        // Below, made by bin/interface: calls on pointers.
        /// [`validate_identifier_chars`] on pointers.
        pub fn hp_validate_identifier_chars(id: *const u8, id_len: usize) -> u8;
        /// [`validate_identifier_length`] on pointers.
        pub fn hp_validate_identifier_length(id: *const u8, id_len: usize, min: u64, max: u64) -> u8;
        /// [`validate_prefix_length`] on pointers.
        pub fn hp_validate_prefix_length(prefix: *const u8, prefix_len: usize, min: u64, max: u64) -> u8;
        /// [`validate_named_u64_index`] on pointers.
        pub fn hp_validate_named_u64_index(id: *const u8, id_len: usize, name: *const u8, name_len: usize) -> Fault;
        /// [`validate_client_type`] on pointers.
        pub fn hp_validate_client_type(id: *const u8, id_len: usize) -> u8;
        /// [`validate_client_identifier`] on pointers.
        pub fn hp_validate_client_identifier(id: *const u8, id_len: usize) -> u8;
        /// [`validate_connection_identifier`] on pointers.
        pub fn hp_validate_connection_identifier(id: *const u8, id_len: usize) -> Fault;
        /// [`validate_port_identifier`] on pointers.
        pub fn hp_validate_port_identifier(id: *const u8, id_len: usize) -> u8;
        /// [`validate_channel_identifier`] on pointers.
        pub fn hp_validate_channel_identifier(id: *const u8, id_len: usize) -> Fault;
        /// [`client_id_new`] on pointers.
        pub fn hp_client_id_new(client_type: *const u8, client_type_len: usize, counter: u64, out: *mut u8, out_len: usize) -> Written;
        /// [`channel_id_new`] on pointers.
        pub fn hp_channel_id_new(counter: u64, out: *mut u8, out_len: usize) -> Written;
        /// [`read`] on pointers.
        pub fn hp_read(text: *const u8, text_len: usize, out: *mut u8, out_len: usize) -> Fault;
        /// [`walk`] on pointers.
        pub fn hp_walk(text: *const u8, text_len: usize, out: *mut u8, out_len: usize) -> Fault;
        /// [`key`] on pointers.
        pub fn hp_key(text: *const u8, text_len: usize, out: *mut u8, out_len: usize) -> Written;
        /// [`render`] on pointers.
        pub fn hp_render(kind: u8, first: *const u8, first_len: usize, second: *const u8, second_len: usize, a: u64, b: u64, out: *mut u8, out_len: usize) -> Written;
        /// [`is_provable`] on pointers.
        pub fn hp_is_provable(kind: u8) -> Flag;
        /// [`iteration_key`] on pointers.
        pub fn hp_iteration_key(number: u64, height: u64, out: *mut u8, out_len: usize) -> Written;
        /// [`read_iteration_key`] on pointers.
        pub fn hp_read_iteration_key(key: *const u8, key_len: usize) -> Pair;
        /// [`first_above`] on pointers.
        pub fn hp_first_above(block: *const u8, block_len: usize, number: u64, height: u64) -> Pair;
        /// [`last_below`] on pointers.
        pub fn hp_last_below(block: *const u8, block_len: usize, number: u64, height: u64) -> Pair;
        /// [`v2_read`] on pointers.
        pub fn hp_v2_read(key: *const u8, key_len: usize) -> Packet;
        /// [`v2_write`] on pointers.
        pub fn hp_v2_write(kind: u8, client: *const u8, client_len: usize, sequence: u64, out: *mut u8, out_len: usize) -> Written;
        /// [`client_state_prefix`] on pointers.
        pub fn hp_client_state_prefix(out: *mut u8, out_len: usize) -> Written;
        /// [`client_state_leaf`] on pointers.
        pub fn hp_client_state_leaf(out: *mut u8, out_len: usize) -> Written;
        /// [`consensus_state_parent`] on pointers.
        pub fn hp_consensus_state_parent(client: *const u8, client_len: usize, out: *mut u8, out_len: usize) -> Written;
        /// [`consensus_state_leaf`] on pointers.
        pub fn hp_consensus_state_leaf(number: u64, height: u64, out: *mut u8, out_len: usize) -> Written;
        /// [`update_time_leaf`] on pointers.
        pub fn hp_update_time_leaf(number: u64, height: u64, out: *mut u8, out_len: usize) -> Written;
        /// [`update_height_leaf`] on pointers.
        pub fn hp_update_height_leaf(number: u64, height: u64, out: *mut u8, out_len: usize) -> Written;
        /// [`connection_prefix`] on pointers.
        pub fn hp_connection_prefix(out: *mut u8, out_len: usize) -> Written;
        /// [`channel_end_prefix`] on pointers.
        pub fn hp_channel_end_prefix(out: *mut u8, out_len: usize) -> Written;
        /// [`commitments_path`] on pointers.
        pub fn hp_commitments_path(port: *const u8, port_len: usize, channel: *const u8, channel_len: usize, out: *mut u8, out_len: usize) -> Written;
        /// [`acks_path`] on pointers.
        pub fn hp_acks_path(port: *const u8, port_len: usize, channel: *const u8, channel_len: usize, out: *mut u8, out_len: usize) -> Written;
        /// [`receipts_path`] on pointers.
        pub fn hp_receipts_path(port: *const u8, port_len: usize, channel: *const u8, channel_len: usize, out: *mut u8, out_len: usize) -> Written;
        /// [`commitment_prefix`] on pointers.
        pub fn hp_commitment_prefix(out: *mut u8, out_len: usize) -> Written;
        /// [`ack_prefix`] on pointers.
        pub fn hp_ack_prefix(out: *mut u8, out_len: usize) -> Written;
        /// [`receipt_prefix`] on pointers.
        pub fn hp_receipt_prefix(out: *mut u8, out_len: usize) -> Written;
        /// [`wide_validate_identifier_chars`] on pointers.
        pub fn hp_wide_validate_identifier_chars(id: *const u8, id_len: usize) -> u8;
        /// [`wide_validate_identifier_length`] on pointers.
        pub fn hp_wide_validate_identifier_length(id: *const u8, id_len: usize, min: u64, max: u64) -> u8;
        /// [`wide_validate_prefix_length`] on pointers.
        pub fn hp_wide_validate_prefix_length(prefix: *const u8, prefix_len: usize, min: u64, max: u64) -> u8;
        /// [`wide_validate_named_u64_index`] on pointers.
        pub fn hp_wide_validate_named_u64_index(id: *const u8, id_len: usize, name: *const u8, name_len: usize) -> Fault;
        /// [`wide_validate_client_type`] on pointers.
        pub fn hp_wide_validate_client_type(id: *const u8, id_len: usize) -> u8;
        /// [`wide_validate_client_identifier`] on pointers.
        pub fn hp_wide_validate_client_identifier(id: *const u8, id_len: usize) -> u8;
        /// [`wide_validate_connection_identifier`] on pointers.
        pub fn hp_wide_validate_connection_identifier(id: *const u8, id_len: usize) -> Fault;
        /// [`wide_validate_port_identifier`] on pointers.
        pub fn hp_wide_validate_port_identifier(id: *const u8, id_len: usize) -> u8;
        /// [`wide_validate_channel_identifier`] on pointers.
        pub fn hp_wide_validate_channel_identifier(id: *const u8, id_len: usize) -> Fault;
        /// [`wide_client_id_new`] on pointers.
        pub fn hp_wide_client_id_new(client_type: *const u8, client_type_len: usize, counter: u64, out: *mut u8, out_len: usize) -> Written;
        /// [`wide_read`] on pointers.
        pub fn hp_wide_read(text: *const u8, text_len: usize, out: *mut u8, out_len: usize) -> Fault;
        /// [`wide_key`] on pointers.
        pub fn hp_wide_key(text: *const u8, text_len: usize, out: *mut u8, out_len: usize) -> Written;
        /// [`wide_render`] on pointers.
        pub fn hp_wide_render(kind: u8, first: *const u8, first_len: usize, second: *const u8, second_len: usize, a: u64, b: u64, out: *mut u8, out_len: usize) -> Written;
        /// [`wide_consensus_state_parent`] on pointers.
        pub fn hp_wide_consensus_state_parent(client: *const u8, client_len: usize, out: *mut u8, out_len: usize) -> Written;
        /// [`wide_commitments_path`] on pointers.
        pub fn hp_wide_commitments_path(port: *const u8, port_len: usize, channel: *const u8, channel_len: usize, out: *mut u8, out_len: usize) -> Written;
        /// [`wide_acks_path`] on pointers.
        pub fn hp_wide_acks_path(port: *const u8, port_len: usize, channel: *const u8, channel_len: usize, out: *mut u8, out_len: usize) -> Written;
        /// [`wide_receipts_path`] on pointers.
        pub fn hp_wide_receipts_path(port: *const u8, port_len: usize, channel: *const u8, channel_len: usize, out: *mut u8, out_len: usize) -> Written;
        /// [`book_new`] on pointers.
        pub fn hp_book_new(book: *mut u8, book_len: usize, quota1: u16, quota2: u16) -> u8;
        /// [`book_write`] on pointers.
        pub fn hp_book_write(book: *mut u8, book_len: usize, owner: u8, text: *const u8, text_len: usize, value: *const u8, value_len: usize) -> u8;
        /// [`book_remove`] on pointers.
        pub fn hp_book_remove(book: *mut u8, book_len: usize, owner: u8, text: *const u8, text_len: usize) -> u8;
        /// [`book_lookup`] on pointers.
        pub fn hp_book_lookup(book: *const u8, book_len: usize, owner: u8, text: *const u8, text_len: usize, out: *mut u8, out_len: usize) -> Written;
        /// [`book_write_lenient`] on pointers.
        pub fn hp_book_write_lenient(book: *mut u8, book_len: usize, owner: u8, text: *const u8, text_len: usize, value: *const u8, value_len: usize) -> u8;
        /// [`book_remove_lenient`] on pointers.
        pub fn hp_book_remove_lenient(book: *mut u8, book_len: usize, owner: u8, text: *const u8, text_len: usize) -> u8;
        /// [`book_lookup_lenient`] on pointers.
        pub fn hp_book_lookup_lenient(book: *const u8, book_len: usize, owner: u8, text: *const u8, text_len: usize, out: *mut u8, out_len: usize) -> Written;
        /// [`book_oldest`] on pointers.
        pub fn hp_book_oldest(book: *const u8, book_len: usize, owner: u8, client: *const u8, client_len: usize) -> Pair;
        /// [`book_clear`] on pointers.
        pub fn hp_book_clear(book: *mut u8, book_len: usize, owner: u8, client: *const u8, client_len: usize, keep: u64) -> Count;
        /// [`book_convert`] on pointers.
        pub fn hp_book_convert(old: *const u8, old_len: usize, book: *mut u8, book_len: usize) -> u8;
        /// [`book_convert_owners`] on pointers.
        pub fn hp_book_convert_owners(old: *const u8, old_len: usize, book: *mut u8, book_len: usize, quota1: u16, quota2: u16) -> u8;
        /// [`book_fill`] on pointers.
        pub fn hp_book_fill(book: *const u8, book_len: usize, table: *mut u8, table_len: usize) -> u8;
        /// [`book_lookup_many`] on pointers.
        pub fn hp_book_lookup_many(book: *const u8, book_len: usize, owner: u8, table: *const u8, table_len: usize, texts: *const u8, texts_len: usize, out: *mut u8, out_len: usize) -> Written;
        /// [`refusal_text`] on pointers.
        pub fn hp_refusal_text(number: u8, out: *mut u8, out_len: usize) -> Written;
        // Above, made by bin/interface.
    }
}

// Below, made by bin/interface: calls on slices.

/// All bytes are A-Z, a-z, 0-9 or one of `. _ + - # [ ] < >`: [2](crate::Refusal::NotAscii), [5](crate::Refusal::BadChar).
pub fn validate_identifier_chars(id: &[u8]) -> u8 {
    // SAFETY: each pointer and count are those of one live slice.
    unsafe { c::hp_validate_identifier_chars(id.as_ptr(), id.len()) }
}

/// The length is from min, raised to 1, to max: [2](crate::Refusal::NotAscii), [6](crate::Refusal::BadLength).
pub fn validate_identifier_length(id: &[u8], min: u64, max: u64) -> u8 {
    // SAFETY: each pointer and count are those of one live slice.
    unsafe { c::hp_validate_identifier_length(id.as_ptr(), id.len(), min, max) }
}

/// The length is from min - 2, raised to 1, to max - 21, both stopping at 0: [2](crate::Refusal::NotAscii), [6](crate::Refusal::BadLength).
pub fn validate_prefix_length(prefix: &[u8], min: u64, max: u64) -> u8 {
    // SAFETY: each pointer and count are those of one live slice.
    unsafe { c::hp_validate_prefix_length(prefix.as_ptr(), prefix.len(), min, max) }
}

/// The name, `-` and an index; either text may give 2. The place of 17, 18 and 19 is the byte of id where the fault
/// stands: [2](crate::Refusal::NotAscii), [7](crate::Refusal::BadPrefix), then [17](crate::Refusal::NoDigits), [18](crate::Refusal::NotADigit) or [19](crate::Refusal::TooLarge).
pub fn validate_named_u64_index(id: &[u8], name: &[u8]) -> Fault {
    // SAFETY: each pointer and count are those of one live slice.
    unsafe { c::hp_validate_named_u64_index(id.as_ptr(), id.len(), name.as_ptr(), name.len()) }
}

/// A client type of 7 to 43 bytes: [2](crate::Refusal::NotAscii), [5](crate::Refusal::BadChar), [6](crate::Refusal::BadLength).
pub fn validate_client_type(id: &[u8]) -> u8 {
    // SAFETY: each pointer and count are those of one live slice.
    unsafe { c::hp_validate_client_type(id.as_ptr(), id.len()) }
}

/// A client identifier of 9 to 64 bytes: [2](crate::Refusal::NotAscii), [5](crate::Refusal::BadChar), [6](crate::Refusal::BadLength).
pub fn validate_client_identifier(id: &[u8]) -> u8 {
    // SAFETY: each pointer and count are those of one live slice.
    unsafe { c::hp_validate_client_identifier(id.as_ptr(), id.len()) }
}

/// A connection identifier of 10 to 64 bytes, `connection-` and an index, with the place as above: [2](crate::Refusal::NotAscii), [5](crate::Refusal::BadChar), [6](crate::Refusal::BadLength), [7](crate::Refusal::BadPrefix), then [17](crate::Refusal::NoDigits),
/// [18](crate::Refusal::NotADigit) or [19](crate::Refusal::TooLarge).
pub fn validate_connection_identifier(id: &[u8]) -> Fault {
    // SAFETY: each pointer and count are those of one live slice.
    unsafe { c::hp_validate_connection_identifier(id.as_ptr(), id.len()) }
}

/// A port identifier of 2 to 128 bytes: [2](crate::Refusal::NotAscii), [5](crate::Refusal::BadChar), [6](crate::Refusal::BadLength).
pub fn validate_port_identifier(id: &[u8]) -> u8 {
    // SAFETY: each pointer and count are those of one live slice.
    unsafe { c::hp_validate_port_identifier(id.as_ptr(), id.len()) }
}

/// A channel identifier of 8 to 64 bytes, `channel-` and an index, with the place as above: [2](crate::Refusal::NotAscii), [5](crate::Refusal::BadChar), [6](crate::Refusal::BadLength), [7](crate::Refusal::BadPrefix), then [17](crate::Refusal::NoDigits),
/// [18](crate::Refusal::NotADigit) or [19](crate::Refusal::TooLarge).
pub fn validate_channel_identifier(id: &[u8]) -> Fault {
    // SAFETY: each pointer and count are those of one live slice.
    unsafe { c::hp_validate_channel_identifier(id.as_ptr(), id.len()) }
}

/// The client type without the bytes 9 to 13 and 32 at its ends, `-` and the counter: [2](crate::Refusal::NotAscii), [5](crate::Refusal::BadChar), [6](crate::Refusal::BadLength), [4](crate::Refusal::NoRoom).
pub fn client_id_new(client_type: &[u8], counter: u64, out: &mut [u8]) -> Written {
    // SAFETY: each pointer and count are those of one live slice.
    unsafe { c::hp_client_id_new(client_type.as_ptr(), client_type.len(), counter, out.as_mut_ptr(), out.len()) }
}

/// `channel-` and the counter: [4](crate::Refusal::NoRoom).
pub fn channel_id_new(counter: u64, out: &mut [u8]) -> Written {
    // SAFETY: each pointer and count are those of one live slice.
    unsafe { c::hp_channel_id_new(counter, out.as_mut_ptr(), out.len()) }
}

/// The reading in 26 bytes, high bytes first: kind; 1 exact or 0 loose; start and length of the first identifier
/// and of the second, 2 bytes each; two numbers of 8 bytes. What the kind lacks is 0. 17, 18 and 19 stand at 3's place, where
/// a number alone is wrong, with the byte of the text where its fault stands: [1](crate::Refusal::TooLong), [2](crate::Refusal::NotAscii), [3](crate::Refusal::NotAPath) ([17](crate::Refusal::NoDigits), [18](crate::Refusal::NotADigit), [19](crate::Refusal::TooLarge)), [4](crate::Refusal::NoRoom).
pub fn read(text: &[u8], out: &mut [u8]) -> Fault {
    // SAFETY: each pointer and count are those of one live slice.
    unsafe { c::hp_read(text.as_ptr(), text.len(), out.as_mut_ptr(), out.len()) }
}

/// The same by the second reader, which goes forward over the text and keeps no table of its components. A text that is refused
/// is looked at again for the reason, a bad number by such a table. Equal to hp_read on every input, and faster, so of the two
/// this is the one to call. hp_read is the plainer one, which it is held against.
pub fn walk(text: &[u8], out: &mut [u8]) -> Fault {
    // SAFETY: each pointer and count are those of one live slice.
    unsafe { c::hp_walk(text.as_ptr(), text.len(), out.as_mut_ptr(), out.len()) }
}

/// The rendering of the text: [1](crate::Refusal::TooLong), [2](crate::Refusal::NotAscii), [3](crate::Refusal::NotAPath) ([17](crate::Refusal::NoDigits), [18](crate::Refusal::NotADigit), [19](crate::Refusal::TooLarge)), [4](crate::Refusal::NoRoom).
pub fn key(text: &[u8], out: &mut [u8]) -> Written {
    // SAFETY: each pointer and count are those of one live slice.
    unsafe { c::hp_key(text.as_ptr(), text.len(), out.as_mut_ptr(), out.len()) }
}

/// The path of a kind; what the kind lacks has no influence: [14](crate::Refusal::BadKind), first, second (an upgrade path: [2](crate::Refusal::NotAscii), [13](crate::Refusal::BadSegment)), [1](crate::Refusal::TooLong), [4](crate::Refusal::NoRoom).
pub fn render(kind: u8, first: &[u8], second: &[u8], a: u64, b: u64, out: &mut [u8]) -> Written {
    // SAFETY: each pointer and count are those of one live slice.
    unsafe { c::hp_render(kind, first.as_ptr(), first.len(), second.as_ptr(), second.len(), a, b, out.as_mut_ptr(), out.len()) }
}

/// 1 where paths of the kind are provable: [14](crate::Refusal::BadKind).
pub fn is_provable(kind: u8) -> Flag {
    // SAFETY: each pointer and count are those of one live slice.
    unsafe { c::hp_is_provable(kind) }
}

/// `iterateConsensusStates`, number and height, 38 bytes: [4](crate::Refusal::NoRoom).
pub fn iteration_key(number: u64, height: u64, out: &mut [u8]) -> Written {
    // SAFETY: each pointer and count are those of one live slice.
    unsafe { c::hp_iteration_key(number, height, out.as_mut_ptr(), out.len()) }
}

/// The revision number and height of an iteration key: [15](crate::Refusal::BadIterKey).
pub fn read_iteration_key(key: &[u8]) -> Pair {
    // SAFETY: each pointer and count are those of one live slice.
    unsafe { c::hp_read_iteration_key(key.as_ptr(), key.len()) }
}

/// The first key above number and height in a block of iteration keys that stand one after the other and rise. 16 for a
/// length that is no multiple of 38, for a piece that is no key, and for keys out of order or equal: [16](crate::Refusal::BadBlock), [12](crate::Refusal::Absent).
pub fn first_above(block: &[u8], number: u64, height: u64) -> Pair {
    // SAFETY: each pointer and count are those of one live slice.
    unsafe { c::hp_first_above(block.as_ptr(), block.len(), number, height) }
}

/// The last key below number and height in such a block: [16](crate::Refusal::BadBlock), [12](crate::Refusal::Absent).
pub fn last_below(block: &[u8], number: u64, height: u64) -> Pair {
    // SAFETY: each pointer and count are those of one live slice.
    unsafe { c::hp_last_below(block.as_ptr(), block.len(), number, height) }
}

/// What a packet key says: its kind, 1 commitments, 2 receipts, 3 acknowledgements; how many of its first bytes are the
/// client; its sequence. The last nine bytes are cut off first. 24 for fewer than nine, or for another marker: [24](crate::Refusal::BadV2Key), the
/// client's [2](crate::Refusal::NotAscii), [5](crate::Refusal::BadChar), [6](crate::Refusal::BadLength).
pub fn v2_read(key: &[u8]) -> Packet {
    // SAFETY: each pointer and count are those of one live slice.
    unsafe { c::hp_v2_read(key.as_ptr(), key.len()) }
}

/// The client, the kind's marker byte, and the sequence in 8 bytes, high byte first. 24 for a kind that is not 1, 2 or 3:
/// [24](crate::Refusal::BadV2Key), the client's [2](crate::Refusal::NotAscii), [5](crate::Refusal::BadChar), [6](crate::Refusal::BadLength); then [4](crate::Refusal::NoRoom).
pub fn v2_write(kind: u8, client: &[u8], sequence: u64, out: &mut [u8]) -> Written {
    // SAFETY: each pointer and count are those of one live slice.
    unsafe { c::hp_v2_write(kind, client.as_ptr(), client.len(), sequence, out.as_mut_ptr(), out.len()) }
}

/// `clients`: [4](crate::Refusal::NoRoom).
pub fn client_state_prefix(out: &mut [u8]) -> Written {
    // SAFETY: each pointer and count are those of one live slice.
    unsafe { c::hp_client_state_prefix(out.as_mut_ptr(), out.len()) }
}

/// `clientState`: [4](crate::Refusal::NoRoom).
pub fn client_state_leaf(out: &mut [u8]) -> Written {
    // SAFETY: each pointer and count are those of one live slice.
    unsafe { c::hp_client_state_leaf(out.as_mut_ptr(), out.len()) }
}

/// `clients/C/consensusStates`: the client's [2](crate::Refusal::NotAscii), [5](crate::Refusal::BadChar), [6](crate::Refusal::BadLength); then [4](crate::Refusal::NoRoom).
pub fn consensus_state_parent(client: &[u8], out: &mut [u8]) -> Written {
    // SAFETY: each pointer and count are those of one live slice.
    unsafe { c::hp_consensus_state_parent(client.as_ptr(), client.len(), out.as_mut_ptr(), out.len()) }
}

/// `consensusStates/R-h`: [4](crate::Refusal::NoRoom).
pub fn consensus_state_leaf(number: u64, height: u64, out: &mut [u8]) -> Written {
    // SAFETY: each pointer and count are those of one live slice.
    unsafe { c::hp_consensus_state_leaf(number, height, out.as_mut_ptr(), out.len()) }
}

/// `consensusStates/R-h/processedTime`: [4](crate::Refusal::NoRoom).
pub fn update_time_leaf(number: u64, height: u64, out: &mut [u8]) -> Written {
    // SAFETY: each pointer and count are those of one live slice.
    unsafe { c::hp_update_time_leaf(number, height, out.as_mut_ptr(), out.len()) }
}

/// `consensusStates/R-h/processedHeight`: [4](crate::Refusal::NoRoom).
pub fn update_height_leaf(number: u64, height: u64, out: &mut [u8]) -> Written {
    // SAFETY: each pointer and count are those of one live slice.
    unsafe { c::hp_update_height_leaf(number, height, out.as_mut_ptr(), out.len()) }
}

/// `connections`: [4](crate::Refusal::NoRoom).
pub fn connection_prefix(out: &mut [u8]) -> Written {
    // SAFETY: each pointer and count are those of one live slice.
    unsafe { c::hp_connection_prefix(out.as_mut_ptr(), out.len()) }
}

/// `channelEnds`: [4](crate::Refusal::NoRoom).
pub fn channel_end_prefix(out: &mut [u8]) -> Written {
    // SAFETY: each pointer and count are those of one live slice.
    unsafe { c::hp_channel_end_prefix(out.as_mut_ptr(), out.len()) }
}

/// `commitments/ports/P/channels/H/sequences`: the port's [2](crate::Refusal::NotAscii), [5](crate::Refusal::BadChar), [6](crate::Refusal::BadLength); the channel's [2](crate::Refusal::NotAscii), [5](crate::Refusal::BadChar), [6](crate::Refusal::BadLength), [7](crate::Refusal::BadPrefix), then
/// [17](crate::Refusal::NoDigits), [18](crate::Refusal::NotADigit) or [19](crate::Refusal::TooLarge); then [4](crate::Refusal::NoRoom).
pub fn commitments_path(port: &[u8], channel: &[u8], out: &mut [u8]) -> Written {
    // SAFETY: each pointer and count are those of one live slice.
    unsafe { c::hp_commitments_path(port.as_ptr(), port.len(), channel.as_ptr(), channel.len(), out.as_mut_ptr(), out.len()) }
}

/// `acks/ports/P/channels/H/sequences`: the port's [2](crate::Refusal::NotAscii), [5](crate::Refusal::BadChar), [6](crate::Refusal::BadLength); the channel's [2](crate::Refusal::NotAscii), [5](crate::Refusal::BadChar), [6](crate::Refusal::BadLength), [7](crate::Refusal::BadPrefix), then
/// [17](crate::Refusal::NoDigits), [18](crate::Refusal::NotADigit) or [19](crate::Refusal::TooLarge); then [4](crate::Refusal::NoRoom).
pub fn acks_path(port: &[u8], channel: &[u8], out: &mut [u8]) -> Written {
    // SAFETY: each pointer and count are those of one live slice.
    unsafe { c::hp_acks_path(port.as_ptr(), port.len(), channel.as_ptr(), channel.len(), out.as_mut_ptr(), out.len()) }
}

/// `receipts/ports/P/channels/H/sequences`: the port's [2](crate::Refusal::NotAscii), [5](crate::Refusal::BadChar), [6](crate::Refusal::BadLength); the channel's [2](crate::Refusal::NotAscii), [5](crate::Refusal::BadChar), [6](crate::Refusal::BadLength), [7](crate::Refusal::BadPrefix), then
/// [17](crate::Refusal::NoDigits), [18](crate::Refusal::NotADigit) or [19](crate::Refusal::TooLarge); then [4](crate::Refusal::NoRoom).
pub fn receipts_path(port: &[u8], channel: &[u8], out: &mut [u8]) -> Written {
    // SAFETY: each pointer and count are those of one live slice.
    unsafe { c::hp_receipts_path(port.as_ptr(), port.len(), channel.as_ptr(), channel.len(), out.as_mut_ptr(), out.len()) }
}

/// `commitments`: [4](crate::Refusal::NoRoom).
pub fn commitment_prefix(out: &mut [u8]) -> Written {
    // SAFETY: each pointer and count are those of one live slice.
    unsafe { c::hp_commitment_prefix(out.as_mut_ptr(), out.len()) }
}

/// `acks`: [4](crate::Refusal::NoRoom).
pub fn ack_prefix(out: &mut [u8]) -> Written {
    // SAFETY: each pointer and count are those of one live slice.
    unsafe { c::hp_ack_prefix(out.as_mut_ptr(), out.len()) }
}

/// `receipts`: [4](crate::Refusal::NoRoom).
pub fn receipt_prefix(out: &mut [u8]) -> Written {
    // SAFETY: each pointer and count are those of one live slice.
    unsafe { c::hp_receipt_prefix(out.as_mut_ptr(), out.len()) }
}

/// All characters are letters, numbers or one of `. _ + - # [ ] < >`: [21](crate::Refusal::BadUtf8), [5](crate::Refusal::BadChar).
pub fn wide_validate_identifier_chars(id: &[u8]) -> u8 {
    // SAFETY: each pointer and count are those of one live slice.
    unsafe { c::hp_wide_validate_identifier_chars(id.as_ptr(), id.len()) }
}

/// As hp_validate_identifier_length: [21](crate::Refusal::BadUtf8), [6](crate::Refusal::BadLength).
pub fn wide_validate_identifier_length(id: &[u8], min: u64, max: u64) -> u8 {
    // SAFETY: each pointer and count are those of one live slice.
    unsafe { c::hp_wide_validate_identifier_length(id.as_ptr(), id.len(), min, max) }
}

/// As hp_validate_prefix_length: [21](crate::Refusal::BadUtf8), [6](crate::Refusal::BadLength).
pub fn wide_validate_prefix_length(prefix: &[u8], min: u64, max: u64) -> u8 {
    // SAFETY: each pointer and count are those of one live slice.
    unsafe { c::hp_wide_validate_prefix_length(prefix.as_ptr(), prefix.len(), min, max) }
}

/// As hp_validate_named_u64_index; the digits of an index are ASCII: [21](crate::Refusal::BadUtf8), [7](crate::Refusal::BadPrefix), then [17](crate::Refusal::NoDigits), [18](crate::Refusal::NotADigit) or [19](crate::Refusal::TooLarge).
pub fn wide_validate_named_u64_index(id: &[u8], name: &[u8]) -> Fault {
    // SAFETY: each pointer and count are those of one live slice.
    unsafe { c::hp_wide_validate_named_u64_index(id.as_ptr(), id.len(), name.as_ptr(), name.len()) }
}

/// As hp_validate_client_type: [21](crate::Refusal::BadUtf8), [5](crate::Refusal::BadChar), [6](crate::Refusal::BadLength).
pub fn wide_validate_client_type(id: &[u8]) -> u8 {
    // SAFETY: each pointer and count are those of one live slice.
    unsafe { c::hp_wide_validate_client_type(id.as_ptr(), id.len()) }
}

/// As hp_validate_client_identifier: [21](crate::Refusal::BadUtf8), [5](crate::Refusal::BadChar), [6](crate::Refusal::BadLength).
pub fn wide_validate_client_identifier(id: &[u8]) -> u8 {
    // SAFETY: each pointer and count are those of one live slice.
    unsafe { c::hp_wide_validate_client_identifier(id.as_ptr(), id.len()) }
}

/// As hp_validate_connection_identifier: [21](crate::Refusal::BadUtf8), [5](crate::Refusal::BadChar), [6](crate::Refusal::BadLength), [7](crate::Refusal::BadPrefix), then [17](crate::Refusal::NoDigits), [18](crate::Refusal::NotADigit) or [19](crate::Refusal::TooLarge).
pub fn wide_validate_connection_identifier(id: &[u8]) -> Fault {
    // SAFETY: each pointer and count are those of one live slice.
    unsafe { c::hp_wide_validate_connection_identifier(id.as_ptr(), id.len()) }
}

/// As hp_validate_port_identifier: [21](crate::Refusal::BadUtf8), [5](crate::Refusal::BadChar), [6](crate::Refusal::BadLength).
pub fn wide_validate_port_identifier(id: &[u8]) -> u8 {
    // SAFETY: each pointer and count are those of one live slice.
    unsafe { c::hp_wide_validate_port_identifier(id.as_ptr(), id.len()) }
}

/// As hp_validate_channel_identifier: [21](crate::Refusal::BadUtf8), [5](crate::Refusal::BadChar), [6](crate::Refusal::BadLength), [7](crate::Refusal::BadPrefix), then [17](crate::Refusal::NoDigits), [18](crate::Refusal::NotADigit) or [19](crate::Refusal::TooLarge).
pub fn wide_validate_channel_identifier(id: &[u8]) -> Fault {
    // SAFETY: each pointer and count are those of one live slice.
    unsafe { c::hp_wide_validate_channel_identifier(id.as_ptr(), id.len()) }
}

/// As hp_client_id_new, without the white space of all scripts at the ends: [21](crate::Refusal::BadUtf8), [5](crate::Refusal::BadChar), [6](crate::Refusal::BadLength), [4](crate::Refusal::NoRoom).
pub fn wide_client_id_new(client_type: &[u8], counter: u64, out: &mut [u8]) -> Written {
    // SAFETY: each pointer and count are those of one live slice.
    unsafe { c::hp_wide_client_id_new(client_type.as_ptr(), client_type.len(), counter, out.as_mut_ptr(), out.len()) }
}

/// As hp_read: [1](crate::Refusal::TooLong), [21](crate::Refusal::BadUtf8), [3](crate::Refusal::NotAPath) ([17](crate::Refusal::NoDigits), [18](crate::Refusal::NotADigit), [19](crate::Refusal::TooLarge)), [4](crate::Refusal::NoRoom).
pub fn wide_read(text: &[u8], out: &mut [u8]) -> Fault {
    // SAFETY: each pointer and count are those of one live slice.
    unsafe { c::hp_wide_read(text.as_ptr(), text.len(), out.as_mut_ptr(), out.len()) }
}

/// As hp_key: [1](crate::Refusal::TooLong), [21](crate::Refusal::BadUtf8), [3](crate::Refusal::NotAPath) ([17](crate::Refusal::NoDigits), [18](crate::Refusal::NotADigit), [19](crate::Refusal::TooLarge)), [4](crate::Refusal::NoRoom).
pub fn wide_key(text: &[u8], out: &mut [u8]) -> Written {
    // SAFETY: each pointer and count are those of one live slice.
    unsafe { c::hp_wide_key(text.as_ptr(), text.len(), out.as_mut_ptr(), out.len()) }
}

/// As hp_render: [14](crate::Refusal::BadKind), first, second (an upgrade path: [21](crate::Refusal::BadUtf8), [13](crate::Refusal::BadSegment)), [1](crate::Refusal::TooLong), [4](crate::Refusal::NoRoom).
pub fn wide_render(kind: u8, first: &[u8], second: &[u8], a: u64, b: u64, out: &mut [u8]) -> Written {
    // SAFETY: each pointer and count are those of one live slice.
    unsafe { c::hp_wide_render(kind, first.as_ptr(), first.len(), second.as_ptr(), second.len(), a, b, out.as_mut_ptr(), out.len()) }
}

/// As hp_consensus_state_parent: the client's [21](crate::Refusal::BadUtf8), [5](crate::Refusal::BadChar), [6](crate::Refusal::BadLength); then [4](crate::Refusal::NoRoom).
pub fn wide_consensus_state_parent(client: &[u8], out: &mut [u8]) -> Written {
    // SAFETY: each pointer and count are those of one live slice.
    unsafe { c::hp_wide_consensus_state_parent(client.as_ptr(), client.len(), out.as_mut_ptr(), out.len()) }
}

/// As hp_commitments_path: the port's [21](crate::Refusal::BadUtf8), [5](crate::Refusal::BadChar), [6](crate::Refusal::BadLength); the channel's [21](crate::Refusal::BadUtf8), [5](crate::Refusal::BadChar), [6](crate::Refusal::BadLength), [7](crate::Refusal::BadPrefix), then
/// [17](crate::Refusal::NoDigits), [18](crate::Refusal::NotADigit) or [19](crate::Refusal::TooLarge); then [4](crate::Refusal::NoRoom).
pub fn wide_commitments_path(port: &[u8], channel: &[u8], out: &mut [u8]) -> Written {
    // SAFETY: each pointer and count are those of one live slice.
    unsafe { c::hp_wide_commitments_path(port.as_ptr(), port.len(), channel.as_ptr(), channel.len(), out.as_mut_ptr(), out.len()) }
}

/// As hp_acks_path: the port's [21](crate::Refusal::BadUtf8), [5](crate::Refusal::BadChar), [6](crate::Refusal::BadLength); the channel's [21](crate::Refusal::BadUtf8), [5](crate::Refusal::BadChar), [6](crate::Refusal::BadLength), [7](crate::Refusal::BadPrefix), then
/// [17](crate::Refusal::NoDigits), [18](crate::Refusal::NotADigit) or [19](crate::Refusal::TooLarge); then [4](crate::Refusal::NoRoom).
pub fn wide_acks_path(port: &[u8], channel: &[u8], out: &mut [u8]) -> Written {
    // SAFETY: each pointer and count are those of one live slice.
    unsafe { c::hp_wide_acks_path(port.as_ptr(), port.len(), channel.as_ptr(), channel.len(), out.as_mut_ptr(), out.len()) }
}

/// As hp_receipts_path: the port's [21](crate::Refusal::BadUtf8), [5](crate::Refusal::BadChar), [6](crate::Refusal::BadLength); the channel's [21](crate::Refusal::BadUtf8), [5](crate::Refusal::BadChar), [6](crate::Refusal::BadLength), [7](crate::Refusal::BadPrefix), then
/// [17](crate::Refusal::NoDigits), [18](crate::Refusal::NotADigit) or [19](crate::Refusal::TooLarge); then [4](crate::Refusal::NoRoom).
pub fn wide_receipts_path(port: &[u8], channel: &[u8], out: &mut [u8]) -> Written {
    // SAFETY: each pointer and count are those of one live slice.
    unsafe { c::hp_wide_receipts_path(port.as_ptr(), port.len(), channel.as_ptr(), channel.len(), out.as_mut_ptr(), out.len()) }
}

/// Makes the buffer, whatever it holds, a book of version 3 without records, in which owner 1 may have quota1 of them and owner 2
/// quota2; its size alone is looked at: [9](crate::Refusal::BadBook), then [11](crate::Refusal::Full) where the quotas sum to more than its slots.
pub fn book_new(book: &mut [u8], quota1: u16, quota2: u16) -> u8 {
    // SAFETY: each pointer and count are those of one live slice.
    unsafe { c::hp_book_new(book.as_mut_ptr(), book.len(), quota1, quota2) }
}

/// The owner's text, which is its own rendering, holds the value from now on, anew or in place of what it held:
/// [9](crate::Refusal::BadBook), [23](crate::Refusal::BadOwner), [1](crate::Refusal::TooLong), [2](crate::Refusal::NotAscii), [3](crate::Refusal::NotAPath) ([17](crate::Refusal::NoDigits), [18](crate::Refusal::NotADigit), [19](crate::Refusal::TooLarge)), [20](crate::Refusal::Loose), [10](crate::Refusal::KeyTooLong), [25](crate::Refusal::Retired) where it is of kind 8, [6](crate::Refusal::BadLength), then [11](crate::Refusal::Full) where it is new and the owner has as many records as its
/// quota.
pub fn book_write(book: &mut [u8], owner: u8, text: &[u8], value: &[u8]) -> u8 {
    // SAFETY: each pointer and count are those of one live slice.
    unsafe { c::hp_book_write(book.as_mut_ptr(), book.len(), owner, text.as_ptr(), text.len(), value.as_ptr(), value.len()) }
}

/// The owner's text, which is its own rendering, holds nothing from now on: [9](crate::Refusal::BadBook), [23](crate::Refusal::BadOwner), [1](crate::Refusal::TooLong), [2](crate::Refusal::NotAscii), [3](crate::Refusal::NotAPath) ([17](crate::Refusal::NoDigits), [18](crate::Refusal::NotADigit), [19](crate::Refusal::TooLarge)), [20](crate::Refusal::Loose), [10](crate::Refusal::KeyTooLong), [12](crate::Refusal::Absent).
pub fn book_remove(book: &mut [u8], owner: u8, text: &[u8]) -> u8 {
    // SAFETY: each pointer and count are those of one live slice.
    unsafe { c::hp_book_remove(book.as_mut_ptr(), book.len(), owner, text.as_ptr(), text.len()) }
}

/// What the owner's text, which is its own rendering, holds, 1 to 64 bytes; wants room for 64 whatever it holds:
/// [9](crate::Refusal::BadBook), [23](crate::Refusal::BadOwner), [1](crate::Refusal::TooLong), [2](crate::Refusal::NotAscii), [3](crate::Refusal::NotAPath) ([17](crate::Refusal::NoDigits), [18](crate::Refusal::NotADigit), [19](crate::Refusal::TooLarge)), [20](crate::Refusal::Loose), [10](crate::Refusal::KeyTooLong), [4](crate::Refusal::NoRoom), [12](crate::Refusal::Absent).
pub fn book_lookup(book: &[u8], owner: u8, text: &[u8], out: &mut [u8]) -> Written {
    // SAFETY: each pointer and count are those of one live slice.
    unsafe { c::hp_book_lookup(book.as_ptr(), book.len(), owner, text.as_ptr(), text.len(), out.as_mut_ptr(), out.len()) }
}

/// As hp_book_write, on the rendering of the text, for importers that pad their heights:
/// [9](crate::Refusal::BadBook), [23](crate::Refusal::BadOwner), [1](crate::Refusal::TooLong), [2](crate::Refusal::NotAscii), [3](crate::Refusal::NotAPath) ([17](crate::Refusal::NoDigits), [18](crate::Refusal::NotADigit), [19](crate::Refusal::TooLarge)), [10](crate::Refusal::KeyTooLong), [25](crate::Refusal::Retired), [6](crate::Refusal::BadLength), [11](crate::Refusal::Full).
pub fn book_write_lenient(book: &mut [u8], owner: u8, text: &[u8], value: &[u8]) -> u8 {
    // SAFETY: each pointer and count are those of one live slice.
    unsafe { c::hp_book_write_lenient(book.as_mut_ptr(), book.len(), owner, text.as_ptr(), text.len(), value.as_ptr(), value.len()) }
}

/// As hp_book_remove, on the rendering of the text, for importers that pad their heights: [9](crate::Refusal::BadBook), [23](crate::Refusal::BadOwner), [1](crate::Refusal::TooLong), [2](crate::Refusal::NotAscii), [3](crate::Refusal::NotAPath) ([17](crate::Refusal::NoDigits), [18](crate::Refusal::NotADigit), [19](crate::Refusal::TooLarge)), [10](crate::Refusal::KeyTooLong), [12](crate::Refusal::Absent).
pub fn book_remove_lenient(book: &mut [u8], owner: u8, text: &[u8]) -> u8 {
    // SAFETY: each pointer and count are those of one live slice.
    unsafe { c::hp_book_remove_lenient(book.as_mut_ptr(), book.len(), owner, text.as_ptr(), text.len()) }
}

/// As hp_book_lookup, on the rendering of the text, for importers that pad their heights: [9](crate::Refusal::BadBook), [23](crate::Refusal::BadOwner), [1](crate::Refusal::TooLong), [2](crate::Refusal::NotAscii), [3](crate::Refusal::NotAPath) ([17](crate::Refusal::NoDigits), [18](crate::Refusal::NotADigit), [19](crate::Refusal::TooLarge)), [10](crate::Refusal::KeyTooLong), [4](crate::Refusal::NoRoom), [12](crate::Refusal::Absent).
pub fn book_lookup_lenient(book: &[u8], owner: u8, text: &[u8], out: &mut [u8]) -> Written {
    // SAFETY: each pointer and count are those of one live slice.
    unsafe { c::hp_book_lookup_lenient(book.as_ptr(), book.len(), owner, text.as_ptr(), text.len(), out.as_mut_ptr(), out.len()) }
}

/// The smallest pair of revision number and height among the client's records `clients/C/consensusStates/R-h` of that owner: [9](crate::Refusal::BadBook), [23](crate::Refusal::BadOwner),
/// the client's [2](crate::Refusal::NotAscii), [5](crate::Refusal::BadChar), [6](crate::Refusal::BadLength); then [12](crate::Refusal::Absent).
pub fn book_oldest(book: &[u8], owner: u8, client: &[u8]) -> Pair {
    // SAFETY: each pointer and count are those of one live slice.
    unsafe { c::hp_book_oldest(book.as_ptr(), book.len(), owner, client.as_ptr(), client.len()) }
}

/// Of the client's records `clients/C/consensusStates/R-h` of that owner keeps as many as `keep` says, those with the greatest pairs of
/// revision number and height, and removes the others, each with its processed time and height; then those times and heights that
/// have no such record and a pair below every kept one. Without such a record it removes nothing. Answers how many records went:
/// [9](crate::Refusal::BadBook), [23](crate::Refusal::BadOwner), the client's [2](crate::Refusal::NotAscii), [5](crate::Refusal::BadChar), [6](crate::Refusal::BadLength).
pub fn book_clear(book: &mut [u8], owner: u8, client: &[u8], keep: u64) -> Count {
    // SAFETY: each pointer and count are those of one live slice.
    unsafe { c::hp_book_clear(book.as_mut_ptr(), book.len(), owner, client.as_ptr(), client.len(), keep) }
}

/// Makes the second buffer, whatever it holds, the book of version 2 that has the slots and the records of `old`, a book
/// of version 1: [9](crate::Refusal::BadBook) where that is none, then [4](crate::Refusal::NoRoom) where the second buffer is not of that book's size.
pub fn book_convert(old: &[u8], book: &mut [u8]) -> u8 {
    // SAFETY: each pointer and count are those of one live slice.
    unsafe { c::hp_book_convert(old.as_ptr(), old.len(), book.as_mut_ptr(), book.len()) }
}

/// Makes the second buffer, whatever it holds, the book of version 3 that has the slots and the records of `old`, a book of
/// version 2, all of them owner 1's: [9](crate::Refusal::BadBook) where that is none, then [4](crate::Refusal::NoRoom) where the second buffer is not of that book's size, then [11](crate::Refusal::Full)
/// where the quotas sum to more than its slots, or there are more records than the first quota.
pub fn book_convert_owners(old: &[u8], book: &mut [u8], quota1: u16, quota2: u16) -> u8 {
    // SAFETY: each pointer and count are those of one live slice.
    unsafe { c::hp_book_convert_owners(old.as_ptr(), old.len(), book.as_mut_ptr(), book.len(), quota1, quota2) }
}

/// Fills the first 512 bytes of the table with the buckets by which the book's records, of both owners, are found: [9](crate::Refusal::BadBook), [4](crate::Refusal::NoRoom).
pub fn book_fill(book: &[u8], table: &mut [u8]) -> u8 {
    // SAFETY: each pointer and count are those of one live slice.
    unsafe { c::hp_book_fill(book.as_ptr(), book.len(), table.as_mut_ptr(), table.len()) }
}

/// What hp_book_lookup gives the owner for each text of `texts`, which byte 10 ends, by a table of 512 bytes that was filled from this book
/// as it is now: 66 bytes a text, its refusal number, the length of its value, and the value filled with zeros to 64. Bytes after
/// the last 10 are a text if there are any: [9](crate::Refusal::BadBook), [23](crate::Refusal::BadOwner), [22](crate::Refusal::BadTable), [4](crate::Refusal::NoRoom).
pub fn book_lookup_many(book: &[u8], owner: u8, table: &[u8], texts: &[u8], out: &mut [u8]) -> Written {
    // SAFETY: each pointer and count are those of one live slice.
    unsafe { c::hp_book_lookup_many(book.as_ptr(), book.len(), owner, table.as_ptr(), table.len(), texts.as_ptr(), texts.len(), out.as_mut_ptr(), out.len()) }
}

/// The sentence of a refusal, by its number: what was wrong and what to do about it, at most 128 bytes. `done` for 0, and
/// nothing, with length 0, for a number that is no refusal: [4](crate::Refusal::NoRoom).
pub fn refusal_text(number: u8, out: &mut [u8]) -> Written {
    // SAFETY: each pointer and count are those of one live slice.
    unsafe { c::hp_refusal_text(number, out.as_mut_ptr(), out.len()) }
}
// Above, made by bin/interface.
