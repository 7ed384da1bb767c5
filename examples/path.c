/* A customer asked for clients/07-tendermint-4/consensusStates/007-2. The store has no such key: the text is a loose
 * spelling of another one. This program reads the text, asks for its key, and keeps a record under it, in a book that two
 * networks share; it is told what is wrong with another text; it turns a book of version 1 into one of today; and it
 * reads a port in Greek and a packet key of IBC version 2. */
#include <inttypes.h>
#include <stdio.h>
#include <string.h>

#include "hostpath.h"

static const char text[] = "clients/07-tendermint-4/consensusStates/007-2";

/* A C string as the library takes texts: a pointer and a count. */
#define TEXT(string) (const uint8_t *)(string), strlen(string)

/* A number of a reading, high byte first. */
static uint64_t number(const uint8_t *bytes, int count) {
    uint64_t value = 0;
    while (count-- > 0) {
        value = value << 8 | *bytes++;
    }
    return value;
}

static int refused(const char *call, uint8_t refusal) {
    printf("%-9s refused with %d\n", call, refusal);
    return 1;
}

/* What the text is, and the key that the store has for it. */
static int read_it(void) {
    uint8_t reading[HP_READING];
    uint8_t key[HP_PATH_MOST];
    struct hp_fault fault = hp_walk(TEXT(text), reading, sizeof reading);
    if (fault.refusal != HP_DONE || reading[HP_AT_KIND] != HP_CLIENT_CONSENSUS_STATE) {
        return refused("read", fault.refusal);
    }
    const char *client = text + number(reading + HP_AT_FIRST, 2);
    int length = (int)number(reading + HP_AT_FIRST_LENGTH, 2);
    uint64_t revision = number(reading + HP_AT_A, 8);
    uint64_t height = number(reading + HP_AT_B, 8);
    printf("text      %s\n", text);
    printf("read      kind %d, %s, client %.*s, revision number %" PRIu64 ", height %" PRIu64 "\n", reading[HP_AT_KIND],
           reading[HP_AT_EXACT] ? "exact" : "loose", length, client, revision, height);

    struct hp_written written = hp_key(TEXT(text), key, sizeof key);
    if (written.refusal != HP_DONE) {
        return refused("key", written.refusal);
    }
    printf("key       %.*s\n", (int)written.length, (const char *)key);

    written = hp_render(HP_CLIENT_UPDATE_TIME, (const uint8_t *)client, (size_t)length, NULL, 0, revision, height, key,
                        sizeof key);
    if (written.refusal != HP_DONE) {
        return refused("render", written.refusal);
    }
    printf("beside it %.*s\n", (int)written.length, (const char *)key);
    return 0;
}

/* Where a number alone is wrong, the place says which byte to mend, and the refusal's sentence says how. */
static int mend_it(void) {
    static const char wrong[] = "clients/07-tendermint-4/consensusStates/7-x";
    uint8_t reading[HP_READING];
    uint8_t sentence[HP_REFUSAL_MOST];
    struct hp_fault fault = hp_walk(TEXT(wrong), reading, sizeof reading);
    if (fault.refusal != HP_NOT_A_DIGIT) {
        return refused("read", fault.refusal);
    }
    struct hp_written written = hp_refusal_text(fault.refusal, sentence, sizeof sentence);
    printf("refused   %s: '%c' at byte %" PRIu64 ", %.*s\n", wrong, wrong[fault.place], fault.place, (int)written.length,
           (const char *)sentence);
    return 0;
}

static void look_up(const uint8_t *book, size_t size, uint8_t owner, const char *path) {
    uint8_t value[HP_BOOK_VALUE];
    struct hp_written held = hp_book_lookup(book, size, owner, TEXT(path), value, sizeof value);
    if (held.refusal == HP_DONE) {
        printf("lookup    by owner %d of %s: \"%.*s\"\n", owner, path, (int)held.length, (const char *)value);
    } else {
        printf("lookup    by owner %d of %s: refused with %d%s\n", owner, path, held.refusal,
               held.refusal == HP_ABSENT ? ", no such record" : "");
    }
}

/* Many texts in one call, by a table that is filled from the book; it is filled anew once a record of either owner's comes
 * or goes. */
static int look_up_many(const uint8_t *book, size_t size, uint8_t owner, const char *texts) {
    uint8_t table[HP_BOOK_TABLE];
    uint8_t answers[2 * HP_BOOK_ANSWER];
    uint8_t refusal = hp_book_fill(book, size, table, sizeof table);
    if (refusal != HP_DONE) {
        return refused("fill", refusal);
    }
    struct hp_written written = hp_book_lookup_many(book, size, owner, table, sizeof table, TEXT(texts), answers,
                                                    sizeof answers);
    if (written.refusal != HP_DONE) {
        return refused("many", written.refusal);
    }
    for (const uint8_t *answer = answers; answer < answers + written.length; answer += HP_BOOK_ANSWER) {
        printf("many      %d, a value of %d bytes: \"%.*s\"\n", answer[0], answer[1], answer[1], (const char *)answer + 2);
    }
    return 0;
}

/* Texts of one path share a record; another client, zeros and all, has its own. */
static int keep_it(uint8_t *book, size_t size) {
    static const uint8_t owner = HP_OWNER_ONE;
    uint8_t refusal = hp_book_write(book, size, owner, TEXT(text), TEXT("up to 64 bytes under this key"));
    printf("write     %s: refused with %d%s\n", text, refusal, refusal == HP_LOOSE ? ", not its own key" : "");
    refusal = hp_book_write_lenient(book, size, owner, TEXT(text), TEXT("up to 64 bytes under this key"));
    if (refusal != HP_DONE) {
        return refused("write", refusal);
    }
    printf("written   %s, leniently\n", text);
    look_up(book, size, owner, "clients/07-tendermint-4/consensusStates/7-2");
    look_up(book, size, owner, "clients/007-tendermint-4/consensusStates/7-2");

    struct hp_pair oldest = hp_book_oldest(book, size, owner, TEXT("07-tendermint-4"));
    if (oldest.refusal != HP_DONE) {
        return refused("oldest", oldest.refusal);
    }
    printf("oldest    revision number %" PRIu64 ", height %" PRIu64 "\n", oldest.number, oldest.height);
    return look_up_many(book, size, owner, "clients/07-tendermint-4/consensusStates/7-2\nports/transfer\n");
}

/* Of a client's states the newest are kept, by their numbers and not by their texts, and the slots of the others are free. */
static int clear_it(void) {
    static const char *const states[] = {"clients/07-tendermint-4/consensusStates/7-2",
                                         "clients/07-tendermint-4/consensusStates/7-2/processedTime",
                                         "clients/07-tendermint-4/consensusStates/10-2"};
    static uint8_t book[HP_BOOK_SIZE(3)];
    uint8_t refusal = hp_book_new(book, sizeof book, 3, 0);
    for (size_t i = 0; i < 3 && refusal == HP_DONE; i++) {
        refusal = hp_book_write(book, sizeof book, HP_OWNER_ONE, TEXT(states[i]), TEXT("a digest"));
    }
    if (refusal != HP_DONE) {
        return refused("write", refusal);
    }
    struct hp_count cleared = hp_book_clear(book, sizeof book, HP_OWNER_ONE, TEXT("07-tendermint-4"), 1);
    if (cleared.refusal != HP_DONE) {
        return refused("clear", cleared.refusal);
    }
    printf("cleared   %d records, all but the newest state\n", (int)cleared.count);
    look_up(book, sizeof book, HP_OWNER_ONE, states[0]);
    look_up(book, sizeof book, HP_OWNER_ONE, states[2]);
    return 0;
}

/* Two networks in one book: neither sees or changes the other's records, nor takes a slot of the other's quota. */
static int share_it(void) {
    static const char key[] = "clients/07-tendermint-4/consensusStates/7-2";
    static uint8_t book[HP_BOOK_SIZE(3)];
    uint8_t refusal = hp_book_new(book, sizeof book, 2, 1);
    if (refusal != HP_DONE) {
        return refused("new", refusal);
    }
    if (keep_it(book, sizeof book)) {
        return 1;
    }
    look_up(book, sizeof book, HP_OWNER_TWO, key);
    refusal = hp_book_write(book, sizeof book, HP_OWNER_TWO, TEXT(key), TEXT("of the other network"));
    if (refusal != HP_DONE) {
        return refused("write", refusal);
    }
    look_up(book, sizeof book, HP_OWNER_TWO, key);
    look_up(book, sizeof book, HP_OWNER_ONE, key);
    refusal = hp_book_write(book, sizeof book, HP_OWNER_TWO, TEXT("ports/transfer"), TEXT("one more"));
    printf("write     by owner 2 of ports/transfer: refused with %d%s\n", refusal,
           refusal == HP_FULL ? ", its quota is full" : "");
    return 0;
}

/* An older book is converted version by version, and all of its records are then owner 1's. */
static int convert_it(void) {
    static uint8_t old[8 + 288] = {'H', 'P', 'B', 0, 1, 0, 1, 0, 8, 'p', 'o', 'r', 't', 's', '/', 'a', 'b'};
    static uint8_t between[HP_BOOK_2_SIZE(1)], book[HP_BOOK_SIZE(1)];
    memset(old + 8 + 1 + HP_BOOK_KEY, '.', 32);
    uint8_t refusal = hp_book_convert(old, sizeof old, between, sizeof between);
    if (refusal == HP_DONE) {
        refusal = hp_book_convert_owners(between, sizeof between, book, sizeof book, 1, 0);
    }
    if (refusal != HP_DONE) {
        return refused("convert", refusal);
    }
    look_up(book, sizeof book, HP_OWNER_ONE, "ports/ab");
    return 0;
}

/* A network that names its ports in Greek: the wide calls take what the plain ones refuse. */
static int read_greek(void) {
    static const char greek[] = "ports/\316\264\317\215\316\277"; /* the letters delta, upsilon and omicron */
    uint8_t reading[HP_READING];
    printf("plain     %s: refused with %d\n", greek, hp_walk(TEXT(greek), reading, sizeof reading).refusal);
    struct hp_fault fault = hp_wide_read(TEXT(greek), reading, sizeof reading);
    if (fault.refusal != HP_DONE) {
        return refused("wide", fault.refusal);
    }
    printf("wide      %s: kind %d, a port of %d bytes\n", greek, reading[HP_AT_KIND],
           (int)number(reading + HP_AT_FIRST_LENGTH, 2));
    return 0;
}

/* The key of a packet's commitment in IBC version 2: a client, a marker byte and a sequence. */
static int key_packet(void) {
    uint8_t key[HP_PACKET_KEY_MOST];
    struct hp_written written = hp_v2_write(HP_PACKET_COMMITMENT, TEXT("07-tendermint-4"), 9, key, sizeof key);
    if (written.refusal != HP_DONE) {
        return refused("packet", written.refusal);
    }
    struct hp_packet packet = hp_v2_read(key, written.length);
    if (packet.refusal != HP_DONE) {
        return refused("packet", packet.refusal);
    }
    printf("packet    %d bytes: kind %d, client %.*s, sequence %" PRIu64 "\n", (int)written.length, packet.kind,
           (int)packet.length, (const char *)key, packet.sequence);
    return 0;
}

int main(void) {
    return read_it() || mend_it() || share_it() || clear_it() || convert_it() || read_greek() || key_packet();
}
