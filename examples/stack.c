/* Measures the stack that the calls need: each runs on a stack of its own, which was filled with one byte, and what is no
 * longer that byte was used. The texts are those of all kinds, and what is wrong in each way. Prints the most that any call
 * used, with what this program puts around it; the status is 1 where that is more than three quarters of HP_STACK. */
#define _XOPEN_SOURCE 600
#include <stdio.h>
#include <string.h>
#include <ucontext.h>

#include "hostpath.h"

#define SLOTS HP_BOOK_MOST
#define TEXTS (sizeof texts / sizeof *texts)

static const char *const texts[] = {
    "", "clients", "nextClientSequence", "nextConnectionSequence", "nextChannelSequence", "clients/07-tendermint-4/clientState",
    "clients/07-tendermint-4/consensusStates/007-2", "clients/07-tendermint-4/consensusStates/7-2/processedTime",
    "clients/07-tendermint-4/consensusStates/7-2/processedHeight", "clients/07-tendermint-4/connections",
    "connections/connection-3", "ports/transfer", "channelEnds/ports/transfer/channels/channel-0",
    "nextSequenceSend/ports/transfer/channels/channel-0", "nextSequenceRecv/ports/transfer/channels/channel-0",
    "nextSequenceAck/ports/transfer/channels/channel-0", "commitments/ports/transfer/channels/channel-0/sequences/1",
    "acks/ports/transfer/channels/channel-0/sequences/18446744073709551615",
    "receipts/ports/transfer/channels/channel-0/sequences/+001", "upgradedIBCState/5/upgradedClient",
    "upgradedIBCState/5/upgradedConsState", "x/99999999999999999999/upgradedClient", "x//upgradedClient", "ports/ab\377",
    "receipts/ports/transfer/channels/channel-0/sequences/1x", "clients/07-tendermint-4/consensusStates/7-x", "07-tendermint-4",
    "channel-0", "channel-01", "channel-x", "connection-3", "connection-99999999999999999999", "transfer", "  07-tendermint\t",
    "ports/\316\264\317\215\316\277", "\316\264\317\215\316\277\316\264\317\215\316\277-0", "\346\227\245\346\234\254\350\252\236",
    "\360\237\230\200", "\316\264/5/upgradedClient"};
static uint8_t longest[HP_PATH_MOST + 1];
static uint8_t book[HP_BOOK_SIZE(SLOTS)], old[8 + 288 * SLOTS], newer[HP_BOOK_2_SIZE(SLOTS)], newest[HP_BOOK_SIZE(SLOTS)];
static uint8_t states[HP_BOOK_SIZE(SLOTS)], table[HP_BOOK_TABLE], out[HP_PATH_MOST], many[SLOTS * HP_BOOK_ANSWER];
static uint8_t key[HP_ITERATION_KEY], block[2 * HP_ITERATION_KEY];

/* The calls on one text, or on two, that have a wide one of the same name. */
#define CALLS_ON(hp, t, n)                                                                                                     \
    hp##_validate_identifier_chars(t, n);                                                                                      \
    hp##_validate_identifier_length(t, n, 1, 9);                                                                               \
    hp##_validate_prefix_length(t, n, 1, 99);                                                                                  \
    hp##_validate_named_u64_index(t, n, (const uint8_t *)"channel", 7);                                                        \
    hp##_validate_client_type(t, n);                                                                                           \
    hp##_validate_client_identifier(t, n);                                                                                     \
    hp##_validate_connection_identifier(t, n);                                                                                 \
    hp##_validate_port_identifier(t, n);                                                                                       \
    hp##_validate_channel_identifier(t, n);                                                                                    \
    hp##_client_id_new(t, n, UINT64_MAX, out, sizeof out);                                                                     \
    hp##_read(t, n, out, sizeof out);                                                                                          \
    hp##_key(t, n, out, sizeof out);                                                                                           \
    hp##_consensus_state_parent(t, n, out, sizeof out)
#define CALLS_ON_TWO(hp, t, n, u, m)                                                                                           \
    for (int kind = 0; kind <= 20; kind++) {                                                                                   \
        hp##_render((uint8_t)kind, t, n, u, m, UINT64_MAX, 1, out, sizeof out);                                                \
    }                                                                                                                          \
    hp##_commitments_path(t, n, u, m, out, sizeof out);                                                                        \
    hp##_acks_path(t, n, u, m, out, sizeof out);                                                                               \
    hp##_receipts_path(t, n, u, m, out, sizeof out)

static void calls_on(const uint8_t *t, size_t n) {
    CALLS_ON(hp, t, n);
    CALLS_ON(hp_wide, t, n);
    hp_walk(t, n, out, sizeof out);
    hp_v2_read(t, n);
    hp_v2_write(HP_PACKET_RECEIPT, t, n, UINT64_MAX, out, sizeof out);
    hp_read_iteration_key(t, n);
}

static void calls_on_two(const uint8_t *t, size_t n, const uint8_t *u, size_t m) {
    CALLS_ON_TWO(hp, t, n, u, m);
    CALLS_ON_TWO(hp_wide, t, n, u, m);
}

/* By each owner, and by numbers that are none. */
static void calls_on_books(const uint8_t *t, size_t n) {
    for (uint8_t owner = 0; owner <= 3; owner++) {
        hp_book_write(book, sizeof book, owner, t, n, (const uint8_t *)"value", 5);
        hp_book_write_lenient(book, sizeof book, owner, t, n, (const uint8_t *)"value", 5);
        hp_book_lookup(book, sizeof book, owner, t, n, out, sizeof out);
        hp_book_lookup_lenient(book, sizeof book, owner, t, n, out, sizeof out);
        hp_book_oldest(book, sizeof book, owner, t, n);
        hp_book_clear(book, sizeof book, owner, t, n, 1);
        hp_book_fill(book, sizeof book, table, sizeof table);
        hp_book_lookup_many(book, sizeof book, owner, table, sizeof table, t, n, many, sizeof many);
        if (n % 2) {
            hp_book_remove(book, sizeof book, owner, t, n);
        } else {
            hp_book_remove_lenient(book, sizeof book, owner, t, n);
        }
    }
}

/* The calls that take no text. */
static void other_calls(void) {
    for (int number = 0; number < 256; number++) {
        hp_refusal_text((uint8_t)number, out, sizeof out);
        hp_is_provable((uint8_t)number);
    }
    hp_channel_id_new(UINT64_MAX, out, sizeof out);
    hp_iteration_key(1, 2, block, HP_ITERATION_KEY);
    hp_iteration_key(1, 3, block + HP_ITERATION_KEY, HP_ITERATION_KEY);
    hp_iteration_key(7, 2, key, sizeof key);
    hp_read_iteration_key(key, sizeof key);
    hp_first_above(block, sizeof block, 1, 2);
    hp_last_below(block, sizeof block, 1, 3);
    hp_client_state_prefix(out, sizeof out);
    hp_client_state_leaf(out, sizeof out);
    hp_consensus_state_leaf(1, 2, out, sizeof out);
    hp_update_time_leaf(1, 2, out, sizeof out);
    hp_update_height_leaf(1, 2, out, sizeof out);
    hp_connection_prefix(out, sizeof out);
    hp_channel_end_prefix(out, sizeof out);
    hp_commitment_prefix(out, sizeof out);
    hp_ack_prefix(out, sizeof out);
    hp_receipt_prefix(out, sizeof out);
    memcpy(old, "HPB\0\1\0\0\0", 8);
    hp_book_convert(old, sizeof old, newer, sizeof newer);
    hp_book_convert_owners(newer, sizeof newer, newest, sizeof newest, SLOTS, 0);
}

static void nothing(void) {
}

static void all_calls(void) {
    hp_book_new(book, sizeof book, SLOTS / 2, SLOTS / 2);
    for (size_t i = 0; i < TEXTS; i++) {
        const uint8_t *t = (const uint8_t *)texts[i];
        calls_on(t, strlen(texts[i]));
        calls_on_books(t, strlen(texts[i]));
        for (size_t k = 0; k < TEXTS; k++) {
            calls_on_two(t, strlen(texts[i]), (const uint8_t *)texts[k], strlen(texts[k]));
        }
    }
    for (size_t n = HP_PATH_MOST - 1; n <= HP_PATH_MOST + 1; n++) {
        memset(longest, 'u', n);
        memcpy(longest + n - 17, "/5/upgradedClient", 17);
        calls_on(longest, n);
        calls_on_two(longest, n, longest, n);
        calls_on_books(longest, n);
    }
    other_calls();
    hp_book_clear(states, sizeof states, HP_OWNER_ONE, (const uint8_t *)"07-tendermint-4", 15, SLOTS / 2);
}

/* The largest book, full of one client's states, whose order as texts is not that of their numbers. */
static void fill_states(void) {
    char state[64];
    hp_book_new(states, sizeof states, SLOTS, 0);
    for (int i = 0; i < SLOTS; i++) {
        int n = snprintf(state, sizeof state, "clients/07-tendermint-4/consensusStates/%d-%d", i % 11, SLOTS - i);
        hp_book_write(states, sizeof states, HP_OWNER_ONE, (const uint8_t *)state, (size_t)n, (const uint8_t *)"value", 5);
    }
}

/* How much of a stack is used by this, with what a change of stacks takes. */
static size_t used_by(void (*what)(void)) {
    static uint8_t stack[16 * HP_STACK];
    ucontext_t here, there;
    memset(stack, 0xa5, sizeof stack);
    getcontext(&there);
    there.uc_stack.ss_sp = stack;
    there.uc_stack.ss_size = sizeof stack;
    there.uc_link = &here;
    makecontext(&there, what, 0);
    swapcontext(&here, &there);
    size_t left = 0;
    while (left < sizeof stack && stack[left] == 0xa5) {
        left++;
    }
    return sizeof stack - left;
}

int main(void) {
    fill_states();
    size_t most = used_by(all_calls) - used_by(nothing);
    printf("%d\n", (int)most);
    return most > HP_STACK / 4 * 3;
}
