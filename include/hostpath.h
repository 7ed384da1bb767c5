/* IBC host paths and identifiers, and books of records under such paths: the C interface of libhostpath.a.
 *
 * Every call takes any bytes and any numbers. A text is a pointer and a count of bytes, a null
 * pointer with count 0 among them; it wants no final NUL, and a byte 0 in it is a byte like others. `out`,
 * `book` and `table` are lent buffers, each a pointer and a size in the same way, which no call keeps. No
 * pointer has to be aligned. What a call may write lies apart from all else that is lent to it: `out` from every
 * text, from the book and from the table, a table that is filled from the book, and a book that is
 * written from the text and the value. Texts that are only read may overlap. A success writes from byte 0 of
 * `out` and leaves the bytes after what it wrote, so there is no final NUL there either. A refusal changes no
 * byte of any buffer; its length, numbers and value are 0.
 *
 * Threads: calls share nothing, since the library has no state, allocates nothing, takes no lock and does no
 * input or output. So calls may run at the same time as long as none writes what another is lent: a book that is
 * only read may be read from several threads, and a book that one of them writes is for its writer to guard.
 *
 * Stack: HP_STACK bytes are enough for any call, twice what was seen. On x86-64 the deepest, hp_wide_key, takes about
 * 7,600, the sum of the frames of the archive that it goes through: no function there calls itself, and no frame grows
 * with what it is given. examples/stack.c measures it on any processor. Of the C library only memcpy and memset are called.
 *
 * The numbers after a call are its refusals, in the order in which they are looked for; 0 is done.
 * The library is proved in Rattle; rust/hostpath has the same calls for Rust, and examples/path.c uses them.
 */
#ifndef HOSTPATH_H
#define HOSTPATH_H

#include <stddef.h>
#include <stdint.h>

#ifdef __cplusplus
extern "C" {
#endif

/* The version of this header and of the archive that it belongs to, as in hostpath.pc. */
/* Below, made by bin/interface: version in c. */
#define HP_VERSION "0.1.0"
/* Above, made by bin/interface. */

/* The kinds of path: C is a client, K a connection, P a port, H a channel, S a sequence, R-h a
 * revision number and height, U an upgrade path, n a height. */
enum hp_kind {
    HP_NEXT_CLIENT_SEQUENCE = 1,     /* nextClientSequence */
    HP_NEXT_CONNECTION_SEQUENCE = 2, /* nextConnectionSequence */
    HP_NEXT_CHANNEL_SEQUENCE = 3,    /* nextChannelSequence */
    HP_CLIENT_STATE = 4,             /* clients/C/clientState */
    HP_CLIENT_CONSENSUS_STATE = 5,   /* clients/C/consensusStates/R-h */
    HP_CLIENT_UPDATE_TIME = 6,       /* clients/C/consensusStates/R-h/processedTime */
    HP_CLIENT_UPDATE_HEIGHT = 7,     /* clients/C/consensusStates/R-h/processedHeight */
    HP_CLIENT_CONNECTION = 8,        /* clients/C/connections */
    HP_CONNECTION = 9,               /* connections/K */
    HP_PORTS = 10,                   /* ports/P */
    HP_CHANNEL_END = 11,             /* channelEnds/ports/P/channels/H */
    HP_SEQ_SEND = 12,                /* nextSequenceSend/ports/P/channels/H */
    HP_SEQ_RECV = 13,                /* nextSequenceRecv/ports/P/channels/H */
    HP_SEQ_ACK = 14,                 /* nextSequenceAck/ports/P/channels/H */
    HP_COMMITMENT = 15,              /* commitments/ports/P/channels/H/sequences/S */
    HP_ACK = 16,                     /* acks/ports/P/channels/H/sequences/S */
    HP_RECEIPT = 17,                 /* receipts/ports/P/channels/H/sequences/S */
    HP_UPGRADE_CLIENT_STATE = 18,    /* U/n/upgradedClient */
    HP_UPGRADE_CONSENSUS_STATE = 19  /* U/n/upgradedConsState */
};

/* What `first`, `second`, `a` and `b` of hp_render are, and in this order the two identifiers and the
 * two numbers of a reading. What a kind lacks is empty or 0 in a reading, and may be anything in hp_render.
 *
 *    kind        first            second       a                   b
 *    1 to 3
 *    4, 8        client C
 *    5, 6, 7     client C                      revision number R   revision height h
 *    9           connection K
 *    10          port P
 *    11 to 14    port P           channel H
 *    15, 16, 17  port P           channel H    sequence S
 *    18, 19      upgrade path U                height n
 */

/* The kinds of packet key of IBC version 2, by their marker bytes. */
enum hp_packet_kind {
    HP_PACKET_COMMITMENT = 1,
    HP_PACKET_RECEIPT = 2,
    HP_PACKET_ACKNOWLEDGEMENT = 3
};

/* Sizes in bytes, and of a book in slots. A room of HP_.._MOST bytes is enough for what the calls named beside it
 * write, whatever they are given; in a shorter one a text that fits is written, and any other is refused with 4. */
enum {
    HP_READING = 26,            /* a reading: hp_read, hp_walk, hp_wide_read */
    HP_PATH_MOST = 4096,        /* the longest text of a path, and the longest rendering: hp_key, hp_render */
    HP_KEY_MOST = 251,          /* the same of kinds 1 to 17, all but upgrade paths */
    HP_CLIENT_ID_MOST = 64,     /* hp_client_id_new, and any client, connection or channel */
    HP_CHANNEL_ID_MOST = 28,    /* hp_channel_id_new */
    HP_PORT_ID_MOST = 128,      /* any port */
    HP_ITERATION_KEY = 38,      /* an iteration key: hp_iteration_key */
    HP_PACKET_KEY_MOST = 73,    /* the longest packet key: hp_v2_write */
    HP_PREFIX_MOST = 11,        /* hp_client_state_prefix and the other words: .._leaf of it, .._prefix */
    HP_PARENT_MOST = 88,        /* hp_consensus_state_parent */
    HP_LEAF_MOST = 73,          /* hp_consensus_state_leaf, hp_update_time_leaf, hp_update_height_leaf */
    HP_PACKETS_PATH_MOST = 230, /* hp_commitments_path, hp_acks_path, hp_receipts_path */
    HP_REFUSAL_MOST = 128,      /* hp_refusal_text */
    HP_BOOK_HEAD = 12,          /* what stands before a book's slots */
    HP_BOOK_SLOT = 322,         /* a slot: the owner, HP_BOOK_KEY, HP_BOOK_VALUE and the lengths of both */
    HP_BOOK_2_HEAD = 8,         /* what stands before the slots of a book of version 2 */
    HP_BOOK_2_SLOT = 321,       /* a slot of version 2 */
    HP_BOOK_KEY = 255,          /* the longest key */
    HP_BOOK_VALUE = 64,         /* the longest value; the shortest has one byte: hp_book_lookup */
    HP_BOOK_MOST = 200,         /* the slots of the largest book; the smallest has one */
    HP_BOOK_TABLE = 512,        /* a table of buckets beside a book, by which hp_book_lookup_many finds records */
    HP_BOOK_ANSWER = 66,        /* what hp_book_lookup_many writes for a text */
    HP_STACK = 16384            /* stack that is enough for any call */
};

/* Where the parts of a reading stand in its HP_READING bytes; numbers have their high bytes first. */
enum hp_reading_at {
    HP_AT_KIND = 0,          /* 1 byte: the kind */
    HP_AT_EXACT = 1,         /* 1 byte: 1 where the text is exactly its key, 0 where it is a loose spelling */
    HP_AT_FIRST = 2,         /* 2 bytes: where the first identifier begins in the text */
    HP_AT_FIRST_LENGTH = 4,  /* 2 bytes */
    HP_AT_SECOND = 6,        /* 2 bytes: where the second begins */
    HP_AT_SECOND_LENGTH = 8, /* 2 bytes */
    HP_AT_A = 10,            /* 8 bytes: the first number */
    HP_AT_B = 18             /* 8 bytes: the second */
};

/* The two owners of a book's records. */
enum hp_owner {
    HP_OWNER_ONE = 1,
    HP_OWNER_TWO = 2
};

/* A book of so many slots is a buffer of this size. Each of its two owners has a quota of the slots.
 * Header: `HPB`, version 3 and the count of records in 2 bytes each, high byte first, and a zero byte; then the quotas of
 * owner 1 and of owner 2, 2 bytes each, which sum to no more than the slots.
 * Slot: the owner, 1 byte; the key's length, 1 byte; the key, HP_BOOK_KEY bytes, zero filled; the value's length, 1 byte;
 * the value, HP_BOOK_VALUE bytes, zero filled. Used slots come first, owner 1's ahead of owner 2's, and each owner's in
 * strictly rising byte order of key, no more than its quota; the others are all zero. A key is the rendering of a path. Any
 * other buffer is no book, and every call but hp_book_new looks. */
#define HP_BOOK_SIZE(slots) (HP_BOOK_HEAD + HP_BOOK_SLOT * (slots))

/* Older books are only converted. In version 2, which hp_book_convert_owners takes, the header has no quotas and a slot no
 * owner; a book of that version has this size. In version 1, which hp_book_convert takes and turns into version 2, a
 * slot of 288 bytes has a value of 32 behind the key and no value's length. */
#define HP_BOOK_2_SIZE(slots) (HP_BOOK_2_HEAD + HP_BOOK_2_SLOT * (slots))

/* Why a call was refused, and what to do about it. */
enum hp_refusal {
    HP_DONE = 0,
    /* Below, made by bin/interface: refusals in c. */
    /* the text, or the path that it makes, has more than 4,096 bytes: shorten it */
    HP_TOO_LONG = 1,
    /* a byte of the text is 128 or more: write the text in ASCII alone */
    HP_NOT_ASCII = 2,
    /* the text fits none of the nineteen kinds of path: hold its words and numbers against the table of kinds */
    HP_NOT_A_PATH = 3,
    /* the lent buffer is too short, or not of the size that a converted book has: lend one of the right size */
    HP_NO_ROOM = 4,
    /* a byte is none of A-Z, a-z, 0-9 and . _ + - # [ ] < >, which identifiers are made of: take it out */
    HP_BAD_CHAR = 5,
    /* the identifier is too short or too long, or the value is empty or over 64 bytes: give one of the right length */
    HP_BAD_LENGTH = 6,
    /* the identifier is not its name, a dash and a number without leading zeros: write it as in channel-7 */
    HP_BAD_PREFIX = 7,
    /* the buffer holds no book of the version that the call takes: make a new one in it, or convert an older one */
    HP_BAD_BOOK = 9,
    /* the path's key has more than the 255 bytes that a book keeps: shorten its upgrade path */
    HP_KEY_TOO_LONG = 10,
    /* the quota has no room for another record, or the book for such quotas: remove a record, or take other quotas */
    HP_FULL = 11,
    /* the book holds no such record, or the block no such key: ask for the key of the text to see which record was looked for */
    HP_ABSENT = 12,
    /* the upgrade path has a slash: give it as one piece, such as upgradedIBCState */
    HP_BAD_SEGMENT = 13,
    /* the kind is not a number from 1 to 19: take it from the table of kinds */
    HP_BAD_KIND = 14,
    /* the bytes are not iterateConsensusStates and 16 more, 38 in all: give one whole iteration key */
    HP_BAD_ITER_KEY = 15,
    /* the block is not whole iteration keys that rise, no two the same: put them in order and take out what is no key */
    HP_BAD_BLOCK = 16,
    /* where a number should stand there is no digit: write one, from 0 to 18446744073709551615 */
    HP_NO_DIGITS = 17,
    /* a byte of the number is no digit: write it in the digits 0 to 9 alone */
    HP_NOT_A_DIGIT = 18,
    /* the number is above 18446744073709551615: write a smaller one */
    HP_TOO_LARGE = 19,
    /* a number of the text has a plus or leading zeros, so it is not its own key: give its key, or make the lenient call */
    HP_LOOSE = 20,
    /* the text is no UTF-8: give it as UTF-8 without overlong forms and surrogates */
    HP_BAD_UTF8 = 21,
    /* the table is not the 512 numbers that filling it from this book gives: fill it again */
    HP_BAD_TABLE = 22,
    /* the owner is neither 1 nor 2: give the number of the network that the record belongs to */
    HP_BAD_OWNER = 23,
    /* the bytes are not a client, a marker of 1, 2 or 3 and 8 more, or the kind is not one of these: give a whole packet key */
    HP_BAD_V2_KEY = 24,
    /* the path is of kind 8, which is written to books no more: derive a client's connections, and look up or remove such records */
    HP_RETIRED = 25
    /* Above, made by bin/interface. */
};

/* What calls answer: a refusal, or HP_DONE, and what they give, which is 0 where they refuse. A place is told where they
 * refuse, of HP_NO_DIGITS, HP_NOT_A_DIGIT and HP_TOO_LARGE alone: the byte, counted from 0, where the number's fault
 * stands. In every other answer it is 0. */
/* Below, made by bin/interface: answers in c. */
struct hp_fault { uint8_t refusal; uint64_t place; };
struct hp_written { uint8_t refusal; uint64_t length; };
struct hp_flag { uint8_t refusal; uint8_t value; };
struct hp_pair { uint8_t refusal; uint64_t number; uint64_t height; };
struct hp_packet { uint8_t refusal; uint8_t kind; uint64_t length; uint64_t sequence; };
struct hp_count { uint8_t refusal; uint64_t count; };
/* Above, made by bin/interface. */

/* Below, made by bin/interface: calls in c. */

/* Identifier checks. */

/* All bytes are A-Z, a-z, 0-9 or one of `. _ + - # [ ] < >`: 2, 5. */
uint8_t hp_validate_identifier_chars(const uint8_t *id, size_t id_len);
/* The length is from min, raised to 1, to max: 2, 6. */
uint8_t hp_validate_identifier_length(const uint8_t *id, size_t id_len, uint64_t min, uint64_t max);
/* The length is from min - 2, raised to 1, to max - 21, both stopping at 0: 2, 6. */
uint8_t hp_validate_prefix_length(const uint8_t *prefix, size_t prefix_len, uint64_t min, uint64_t max);
/* The name, `-` and an index; either text may give 2. The place of 17, 18 and 19 is the byte of id where the fault
 * stands: 2, 7, then 17, 18 or 19. */
struct hp_fault hp_validate_named_u64_index(const uint8_t *id, size_t id_len, const uint8_t *name, size_t name_len);
/* A client type of 7 to 43 bytes: 2, 5, 6. */
uint8_t hp_validate_client_type(const uint8_t *id, size_t id_len);
/* A client identifier of 9 to 64 bytes: 2, 5, 6. */
uint8_t hp_validate_client_identifier(const uint8_t *id, size_t id_len);
/* A connection identifier of 10 to 64 bytes, `connection-` and an index, with the place as above: 2, 5, 6, 7, then 17,
 * 18 or 19. */
struct hp_fault hp_validate_connection_identifier(const uint8_t *id, size_t id_len);
/* A port identifier of 2 to 128 bytes: 2, 5, 6. */
uint8_t hp_validate_port_identifier(const uint8_t *id, size_t id_len);
/* A channel identifier of 8 to 64 bytes, `channel-` and an index, with the place as above: 2, 5, 6, 7, then 17,
 * 18 or 19. */
struct hp_fault hp_validate_channel_identifier(const uint8_t *id, size_t id_len);

/* Identifiers from a counter. */

/* The client type without the bytes 9 to 13 and 32 at its ends, `-` and the counter: 2, 5, 6, 4. */
struct hp_written hp_client_id_new(const uint8_t *client_type, size_t client_type_len, uint64_t counter, uint8_t *out, size_t out_len);
/* `channel-` and the counter: 4. */
struct hp_written hp_channel_id_new(uint64_t counter, uint8_t *out, size_t out_len);

/* Paths. */

/* The reading in 26 bytes, high bytes first: kind; 1 exact or 0 loose; start and length of the first identifier
 * and of the second, 2 bytes each; two numbers of 8 bytes. What the kind lacks is 0. 17, 18 and 19 stand at 3's place, where
 * a number alone is wrong, with the byte of the text where its fault stands: 1, 2, 3 (17, 18, 19), 4. */
struct hp_fault hp_read(const uint8_t *text, size_t text_len, uint8_t *out, size_t out_len);
/* The same by the second reader, which goes forward over the text and keeps no table of its components. A text that is refused
 * is looked at again for the reason, a bad number by such a table. Equal to hp_read on every input, and faster, so of the two
 * this is the one to call. hp_read is the plainer one, which it is held against. */
struct hp_fault hp_walk(const uint8_t *text, size_t text_len, uint8_t *out, size_t out_len);
/* The rendering of the text: 1, 2, 3 (17, 18, 19), 4. */
struct hp_written hp_key(const uint8_t *text, size_t text_len, uint8_t *out, size_t out_len);
/* The path of a kind; what the kind lacks has no influence: 14, first, second (an upgrade path: 2, 13), 1, 4. */
struct hp_written hp_render(uint8_t kind, const uint8_t *first, size_t first_len, const uint8_t *second, size_t second_len, uint64_t a, uint64_t b, uint8_t *out, size_t out_len);
/* 1 where paths of the kind are provable: 14. */
struct hp_flag hp_is_provable(uint8_t kind);
/* `iterateConsensusStates`, number and height, 38 bytes: 4. */
struct hp_written hp_iteration_key(uint64_t number, uint64_t height, uint8_t *out, size_t out_len);
/* The revision number and height of an iteration key: 15. */
struct hp_pair hp_read_iteration_key(const uint8_t *key, size_t key_len);
/* The first key above number and height in a block of iteration keys that stand one after the other and rise. 16 for a
 * length that is no multiple of 38, for a piece that is no key, and for keys out of order or equal: 16, 12. */
struct hp_pair hp_first_above(const uint8_t *block, size_t block_len, uint64_t number, uint64_t height);
/* The last key below number and height in such a block: 16, 12. */
struct hp_pair hp_last_below(const uint8_t *block, size_t block_len, uint64_t number, uint64_t height);

/* Packet keys of IBC version 2, which no book takes. */

/* What a packet key says: its kind, 1 commitments, 2 receipts, 3 acknowledgements; how many of its first bytes are the
 * client; its sequence. The last nine bytes are cut off first. 24 for fewer than nine, or for another marker: 24, the
 * client's 2, 5, 6. */
struct hp_packet hp_v2_read(const uint8_t *key, size_t key_len);
/* The client, the kind's marker byte, and the sequence in 8 bytes, high byte first. 24 for a kind that is not 1, 2 or 3:
 * 24, the client's 2, 5, 6; then 4. */
struct hp_written hp_v2_write(uint8_t kind, const uint8_t *client, size_t client_len, uint64_t sequence, uint8_t *out, size_t out_len);

/* Texts above and below a path. */

/* `clients`: 4. */
struct hp_written hp_client_state_prefix(uint8_t *out, size_t out_len);
/* `clientState`: 4. */
struct hp_written hp_client_state_leaf(uint8_t *out, size_t out_len);
/* `clients/C/consensusStates`: the client's 2, 5, 6; then 4. */
struct hp_written hp_consensus_state_parent(const uint8_t *client, size_t client_len, uint8_t *out, size_t out_len);
/* `consensusStates/R-h`: 4. */
struct hp_written hp_consensus_state_leaf(uint64_t number, uint64_t height, uint8_t *out, size_t out_len);
/* `consensusStates/R-h/processedTime`: 4. */
struct hp_written hp_update_time_leaf(uint64_t number, uint64_t height, uint8_t *out, size_t out_len);
/* `consensusStates/R-h/processedHeight`: 4. */
struct hp_written hp_update_height_leaf(uint64_t number, uint64_t height, uint8_t *out, size_t out_len);
/* `connections`: 4. */
struct hp_written hp_connection_prefix(uint8_t *out, size_t out_len);
/* `channelEnds`: 4. */
struct hp_written hp_channel_end_prefix(uint8_t *out, size_t out_len);
/* `commitments/ports/P/channels/H/sequences`: the port's 2, 5, 6; the channel's 2, 5, 6, 7, then
 * 17, 18 or 19; then 4. */
struct hp_written hp_commitments_path(const uint8_t *port, size_t port_len, const uint8_t *channel, size_t channel_len, uint8_t *out, size_t out_len);
/* `acks/ports/P/channels/H/sequences`: the port's 2, 5, 6; the channel's 2, 5, 6, 7, then
 * 17, 18 or 19; then 4. */
struct hp_written hp_acks_path(const uint8_t *port, size_t port_len, const uint8_t *channel, size_t channel_len, uint8_t *out, size_t out_len);
/* `receipts/ports/P/channels/H/sequences`: the port's 2, 5, 6; the channel's 2, 5, 6, 7, then
 * 17, 18 or 19; then 4. */
struct hp_written hp_receipts_path(const uint8_t *port, size_t port_len, const uint8_t *channel, size_t channel_len, uint8_t *out, size_t out_len);
/* `commitments`: 4. */
struct hp_written hp_commitment_prefix(uint8_t *out, size_t out_len);
/* `acks`: 4. */
struct hp_written hp_ack_prefix(uint8_t *out, size_t out_len);
/* `receipts`: 4. */
struct hp_written hp_receipt_prefix(uint8_t *out, size_t out_len);

/* Letters beyond ASCII: as the plain call of that name, with 21 in the place of 2. Characters are those of UTF-8; a letter or number
 * of any script may stand in an identifier; lengths and places are counted in bytes. */

/* All characters are letters, numbers or one of `. _ + - # [ ] < >`: 21, 5. */
uint8_t hp_wide_validate_identifier_chars(const uint8_t *id, size_t id_len);
/* As hp_validate_identifier_length: 21, 6. */
uint8_t hp_wide_validate_identifier_length(const uint8_t *id, size_t id_len, uint64_t min, uint64_t max);
/* As hp_validate_prefix_length: 21, 6. */
uint8_t hp_wide_validate_prefix_length(const uint8_t *prefix, size_t prefix_len, uint64_t min, uint64_t max);
/* As hp_validate_named_u64_index; the digits of an index are ASCII: 21, 7, then 17, 18 or 19. */
struct hp_fault hp_wide_validate_named_u64_index(const uint8_t *id, size_t id_len, const uint8_t *name, size_t name_len);
/* As hp_validate_client_type: 21, 5, 6. */
uint8_t hp_wide_validate_client_type(const uint8_t *id, size_t id_len);
/* As hp_validate_client_identifier: 21, 5, 6. */
uint8_t hp_wide_validate_client_identifier(const uint8_t *id, size_t id_len);
/* As hp_validate_connection_identifier: 21, 5, 6, 7, then 17, 18 or 19. */
struct hp_fault hp_wide_validate_connection_identifier(const uint8_t *id, size_t id_len);
/* As hp_validate_port_identifier: 21, 5, 6. */
uint8_t hp_wide_validate_port_identifier(const uint8_t *id, size_t id_len);
/* As hp_validate_channel_identifier: 21, 5, 6, 7, then 17, 18 or 19. */
struct hp_fault hp_wide_validate_channel_identifier(const uint8_t *id, size_t id_len);
/* As hp_client_id_new, without the white space of all scripts at the ends: 21, 5, 6, 4. */
struct hp_written hp_wide_client_id_new(const uint8_t *client_type, size_t client_type_len, uint64_t counter, uint8_t *out, size_t out_len);
/* As hp_read: 1, 21, 3 (17, 18, 19), 4. */
struct hp_fault hp_wide_read(const uint8_t *text, size_t text_len, uint8_t *out, size_t out_len);
/* As hp_key: 1, 21, 3 (17, 18, 19), 4. */
struct hp_written hp_wide_key(const uint8_t *text, size_t text_len, uint8_t *out, size_t out_len);
/* As hp_render: 14, first, second (an upgrade path: 21, 13), 1, 4. */
struct hp_written hp_wide_render(uint8_t kind, const uint8_t *first, size_t first_len, const uint8_t *second, size_t second_len, uint64_t a, uint64_t b, uint8_t *out, size_t out_len);
/* As hp_consensus_state_parent: the client's 21, 5, 6; then 4. */
struct hp_written hp_wide_consensus_state_parent(const uint8_t *client, size_t client_len, uint8_t *out, size_t out_len);
/* As hp_commitments_path: the port's 21, 5, 6; the channel's 21, 5, 6, 7, then
 * 17, 18 or 19; then 4. */
struct hp_written hp_wide_commitments_path(const uint8_t *port, size_t port_len, const uint8_t *channel, size_t channel_len, uint8_t *out, size_t out_len);
/* As hp_acks_path: the port's 21, 5, 6; the channel's 21, 5, 6, 7, then
 * 17, 18 or 19; then 4. */
struct hp_written hp_wide_acks_path(const uint8_t *port, size_t port_len, const uint8_t *channel, size_t channel_len, uint8_t *out, size_t out_len);
/* As hp_receipts_path: the port's 21, 5, 6; the channel's 21, 5, 6, 7, then
 * 17, 18 or 19; then 4. */
struct hp_written hp_wide_receipts_path(const uint8_t *port, size_t port_len, const uint8_t *channel, size_t channel_len, uint8_t *out, size_t out_len);

/* Books. */

/* Makes the buffer, whatever it holds, a book of version 3 without records, in which owner 1 may have quota1 of them and owner 2
 * quota2; its size alone is looked at: 9, then 11 where the quotas sum to more than its slots. */
uint8_t hp_book_new(uint8_t *book, size_t book_len, uint16_t quota1, uint16_t quota2);
/* The owner's text, which is its own rendering, holds the value from now on, anew or in place of what it held:
 * 9, 23, 1, 2, 3 (17, 18, 19), 20, 10, 25 where it is of kind 8, 6, then 11 where it is new and the owner has as many records as its
 * quota. */
uint8_t hp_book_write(uint8_t *book, size_t book_len, uint8_t owner, const uint8_t *text, size_t text_len, const uint8_t *value, size_t value_len);
/* The owner's text, which is its own rendering, holds nothing from now on: 9, 23, 1, 2, 3 (17, 18, 19), 20, 10, 12. */
uint8_t hp_book_remove(uint8_t *book, size_t book_len, uint8_t owner, const uint8_t *text, size_t text_len);
/* What the owner's text, which is its own rendering, holds, 1 to 64 bytes; wants room for 64 whatever it holds:
 * 9, 23, 1, 2, 3 (17, 18, 19), 20, 10, 4, 12. */
struct hp_written hp_book_lookup(const uint8_t *book, size_t book_len, uint8_t owner, const uint8_t *text, size_t text_len, uint8_t *out, size_t out_len);
/* As hp_book_write, on the rendering of the text, for importers that pad their heights:
 * 9, 23, 1, 2, 3 (17, 18, 19), 10, 25, 6, 11. */
uint8_t hp_book_write_lenient(uint8_t *book, size_t book_len, uint8_t owner, const uint8_t *text, size_t text_len, const uint8_t *value, size_t value_len);
/* As hp_book_remove, on the rendering of the text, for importers that pad their heights: 9, 23, 1, 2, 3 (17, 18, 19), 10, 12. */
uint8_t hp_book_remove_lenient(uint8_t *book, size_t book_len, uint8_t owner, const uint8_t *text, size_t text_len);
/* As hp_book_lookup, on the rendering of the text, for importers that pad their heights: 9, 23, 1, 2, 3 (17, 18, 19), 10, 4, 12. */
struct hp_written hp_book_lookup_lenient(const uint8_t *book, size_t book_len, uint8_t owner, const uint8_t *text, size_t text_len, uint8_t *out, size_t out_len);
/* The smallest pair of revision number and height among the client's records `clients/C/consensusStates/R-h` of that owner: 9, 23,
 * the client's 2, 5, 6; then 12. */
struct hp_pair hp_book_oldest(const uint8_t *book, size_t book_len, uint8_t owner, const uint8_t *client, size_t client_len);
/* Of the client's records `clients/C/consensusStates/R-h` of that owner keeps as many as `keep` says, those with the greatest pairs of
 * revision number and height, and removes the others, each with its processed time and height; then those times and heights that
 * have no such record and a pair below every kept one. Without such a record it removes nothing. Answers how many records went:
 * 9, 23, the client's 2, 5, 6. */
struct hp_count hp_book_clear(uint8_t *book, size_t book_len, uint8_t owner, const uint8_t *client, size_t client_len, uint64_t keep);
/* Makes the second buffer, whatever it holds, the book of version 2 that has the slots and the records of `old`, a book
 * of version 1: 9 where that is none, then 4 where the second buffer is not of that book's size. */
uint8_t hp_book_convert(const uint8_t *old, size_t old_len, uint8_t *book, size_t book_len);
/* Makes the second buffer, whatever it holds, the book of version 3 that has the slots and the records of `old`, a book of
 * version 2, all of them owner 1's: 9 where that is none, then 4 where the second buffer is not of that book's size, then 11
 * where the quotas sum to more than its slots, or there are more records than the first quota. */
uint8_t hp_book_convert_owners(const uint8_t *old, size_t old_len, uint8_t *book, size_t book_len, uint16_t quota1, uint16_t quota2);
/* Fills the first 512 bytes of the table with the buckets by which the book's records, of both owners, are found: 9, 4. */
uint8_t hp_book_fill(const uint8_t *book, size_t book_len, uint8_t *table, size_t table_len);
/* What hp_book_lookup gives the owner for each text of `texts`, which byte 10 ends, by a table of 512 bytes that was filled from this book
 * as it is now: 66 bytes a text, its refusal number, the length of its value, and the value filled with zeros to 64. Bytes after
 * the last 10 are a text if there are any: 9, 23, 22, 4. */
struct hp_written hp_book_lookup_many(const uint8_t *book, size_t book_len, uint8_t owner, const uint8_t *table, size_t table_len, const uint8_t *texts, size_t texts_len, uint8_t *out, size_t out_len);

/* What refusals mean. */

/* The sentence of a refusal, by its number: what was wrong and what to do about it, at most 128 bytes. `done` for 0, and
 * nothing, with length 0, for a number that is no refusal: 4. */
struct hp_written hp_refusal_text(uint8_t number, uint8_t *out, size_t out_len);
/* Above, made by bin/interface. */

#ifdef __cplusplus
}
#endif

#endif
