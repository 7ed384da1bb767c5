/* Holds the names of the header to the library: prints the version, has each call write the longest text that it can into
 * the room that the header has for it, and prints the sentence of every number that has one. */
#include <stdio.h>
#include <string.h>

#include "hostpath.h"

static int failed = 0;

/* A call filled its room to the last byte. */
static void fills(const char *room, struct hp_written written, size_t size) {
    if (written.refusal != HP_DONE || written.length != size) {
        printf("%s is %d, and the call answers %d, %d\n", room, (int)size, written.refusal, (int)written.length);
        failed = 1;
    }
}

static void rooms(void) {
    static const uint64_t most = UINT64_MAX;
    static uint8_t out[HP_PATH_MOST], text[HP_PATH_MOST], port[HP_PORT_ID_MOST], client[HP_CLIENT_ID_MOST];
    static const char end[] = "/5/upgradedClient";
    uint8_t channel[] = "channel-+0000000000000000000000000000000000000000000000000000001";
    memset(text, 'u', sizeof text);
    memcpy(text + sizeof text - strlen(end), end, strlen(end));
    memset(port, 'p', sizeof port);
    memset(client, 'c', sizeof client);

    fills("HP_PATH_MOST", hp_key(text, sizeof text, out, HP_PATH_MOST), HP_PATH_MOST);
    fills("HP_KEY_MOST", hp_render(HP_COMMITMENT, port, sizeof port, channel, sizeof channel - 1, most, 0, out, HP_KEY_MOST), HP_KEY_MOST);
    fills("HP_CLIENT_ID_MOST", hp_client_id_new(client, 43, most, out, HP_CLIENT_ID_MOST), HP_CLIENT_ID_MOST);
    fills("HP_CHANNEL_ID_MOST", hp_channel_id_new(most, out, HP_CHANNEL_ID_MOST), HP_CHANNEL_ID_MOST);
    fills("HP_ITERATION_KEY", hp_iteration_key(most, most, out, HP_ITERATION_KEY), HP_ITERATION_KEY);
    fills("HP_PACKET_KEY_MOST", hp_v2_write(HP_PACKET_RECEIPT, client, sizeof client, most, out, HP_PACKET_KEY_MOST), HP_PACKET_KEY_MOST);
    fills("HP_PREFIX_MOST", hp_connection_prefix(out, HP_PREFIX_MOST), HP_PREFIX_MOST);
    fills("HP_PARENT_MOST", hp_consensus_state_parent(client, sizeof client, out, HP_PARENT_MOST), HP_PARENT_MOST);
    fills("HP_LEAF_MOST", hp_update_height_leaf(most, most, out, HP_LEAF_MOST), HP_LEAF_MOST);
    fills("HP_PACKETS_PATH_MOST", hp_commitments_path(port, sizeof port, channel, sizeof channel - 1, out, HP_PACKETS_PATH_MOST), HP_PACKETS_PATH_MOST);
}

/* Where the last part of a reading stands, and its 8 bytes, are all of it. */
static void places(void) {
    uint8_t reading[HP_READING];
    static const char text[] = "acks/ports/ab/channels/channel-0/sequences/258";
    struct hp_fault fault = hp_walk((const uint8_t *)text, strlen(text), reading, sizeof reading);
    if (fault.refusal != HP_DONE || HP_AT_B + 8 != HP_READING || reading[HP_AT_KIND] != HP_ACK || reading[HP_AT_EXACT] != 1 ||
        reading[HP_AT_FIRST + 1] != 11 || reading[HP_AT_FIRST_LENGTH + 1] != 2 || reading[HP_AT_SECOND + 1] != 23 ||
        reading[HP_AT_SECOND_LENGTH + 1] != 9 || reading[HP_AT_A + 6] != 1 || reading[HP_AT_A + 7] != 2) {
        printf("a part of a reading stands elsewhere\n");
        failed = 1;
    }
}

static void sentences(void) {
    uint8_t out[HP_REFUSAL_MOST];
    for (int number = 0; number < 256; number++) {
        struct hp_written written = hp_refusal_text((uint8_t)number, out, sizeof out);
        if (written.refusal != HP_DONE) {
            printf("%d: refused with %d\n", number, written.refusal);
            failed = 1;
        }
        if (written.length > 0) {
            printf("%d %.*s\n", number, (int)written.length, (const char *)out);
        }
    }
    if (hp_refusal_text(HP_ABSENT, out, 100).refusal != HP_NO_ROOM) {
        printf("a sentence is written without room\n");
        failed = 1;
    }
}

int main(void) {
    printf("%s\n", HP_VERSION);
    rooms();
    places();
    sentences();
    return failed;
}
