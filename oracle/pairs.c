/* For oracle/library, which names the module's own function inner_..: the module is made for x86-64, where a struct of more
 * than 16 bytes is answered through a pointer in the first argument. Other processors have that pointer elsewhere, so each
 * such call gets a function around it. */
#include "hostpath.h"

/* Below, made by bin/interface: calls around others. */

void inner_hp_read_iteration_key(struct hp_pair *answer, const uint8_t *key, size_t key_len);

struct hp_pair hp_read_iteration_key(const uint8_t *key, size_t key_len) {
    struct hp_pair answer;
    inner_hp_read_iteration_key(&answer, key, key_len);
    return answer;
}

void inner_hp_first_above(struct hp_pair *answer, const uint8_t *block, size_t block_len, uint64_t number, uint64_t height);

struct hp_pair hp_first_above(const uint8_t *block, size_t block_len, uint64_t number, uint64_t height) {
    struct hp_pair answer;
    inner_hp_first_above(&answer, block, block_len, number, height);
    return answer;
}

void inner_hp_last_below(struct hp_pair *answer, const uint8_t *block, size_t block_len, uint64_t number, uint64_t height);

struct hp_pair hp_last_below(const uint8_t *block, size_t block_len, uint64_t number, uint64_t height) {
    struct hp_pair answer;
    inner_hp_last_below(&answer, block, block_len, number, height);
    return answer;
}

void inner_hp_v2_read(struct hp_packet *answer, const uint8_t *key, size_t key_len);

struct hp_packet hp_v2_read(const uint8_t *key, size_t key_len) {
    struct hp_packet answer;
    inner_hp_v2_read(&answer, key, key_len);
    return answer;
}

void inner_hp_book_oldest(struct hp_pair *answer, const uint8_t *book, size_t book_len, uint8_t owner, const uint8_t *client, size_t client_len);

struct hp_pair hp_book_oldest(const uint8_t *book, size_t book_len, uint8_t owner, const uint8_t *client, size_t client_len) {
    struct hp_pair answer;
    inner_hp_book_oldest(&answer, book, book_len, owner, client, client_len);
    return answer;
}
/* Above, made by bin/interface. */
