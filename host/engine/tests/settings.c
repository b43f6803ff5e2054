/* Saved settings from C, as include/limudvek.h declares them. Ends with 0 where all is as it should be, else
 * with the line of the first fault. ./test builds it with the proved library. */
#include <stdlib.h>
#include <string.h>

#include "limudvek.h"

#define WANT(holds) \
    do { \
        if (!(holds)) return __LINE__; \
    } while (0)

#define LATEST 0xffffffffu
#define RECALL 28
#define VERSION(number) (256 * (uint64_t)(number))

int main(void) {
    /* "ping" with one parameter "freq", 440.0; the last zero is the string's own. */
    static const uint8_t file[] = "SCgf\0\0\0\2\0\1\4ping\0\0\0\0\0\0\0\1\x43\xdc\0\0\0\0\0\1\4freq\0\0\0\0\0\0\0\0\0";
    /* Name, highest version, version, setting: one save. */
    static const uint8_t saved[] = "\1\0\4ping\4\0\4\0\0\0\1\2\0\4\0\0\0\1\3\0\x8" "freq\x43\xdc\0";
    enum { ONE = sizeof saved, MORE = 7 + 11 };
    static const uint8_t *const name = (const uint8_t *)"ping";
    size_t words_length = engine_words(), arena_length = engine_arena();
    uint32_t *words = malloc(4 * words_length), *before = malloc(4 * words_length);
    uint8_t *arena = malloc(arena_length), store[ONE + MORE + 1], again[ONE + MORE + 1], none[1];
    WANT(words && before && arena);
    WANT(sizeof file == 46 && ONE == 32);
    WANT(engine_fresh(words, words_length, arena, arena_length) == 0);
#define DONE(op, a, b, c, d, e, bytes, length) \
    WANT(engine_apply(op, a, b, c, d, e, bytes, length, words, words_length, arena, arena_length, none, 0) == 0)
#define SAVE(node, length) settings_save(node, words, words_length, arena, arena_length, store, length)
#define RECALLED(length, version, node) \
    settings_recall(name, length, version, node, store, sizeof store, words, words_length, arena, arena_length)
#define DROP(length, version) settings_drop(name, length, version, store, sizeof store)
    DONE(1, 0, 0, 0, 0, 0, file, sizeof file);
    DONE(4, 1, 1, 0, 0, 0, file, 0);
    DONE(3, 1000, 1, 0, 0, 0, name, 4);

    /* A first save, byte for byte, and zeros behind it. */
    memset(store, 0xff, sizeof store);
    store[0] = 0;
    WANT(SAVE(1000, ONE - 1) == 33);
    WANT(store[0] == 0 && store[1] == 0xff);
    WANT(SAVE(1000, sizeof store) == VERSION(1));
    WANT(memcmp(store, saved, ONE) == 0);
    for (size_t i = ONE; i < sizeof store; i++) WANT(store[i] == 0);

    /* Recalled, bit for bit and unmapped. */
    memcpy(before, words, 4 * words_length);
    DONE(13, 1000, 0, 0, 0, 7, file, 0);
    DONE(17, 1000, 0, 5, 0, 0, file, 0);
    WANT(memcmp(words, before, 4 * words_length) != 0);
    WANT(RECALLED(4, 1, LATEST) == 0);
    WANT(memcmp(words, before, 4 * words_length) == 0);

    /* Another fills the store to one before its end; the next finds no room until one is dropped. */
    DONE(13, 1000, 0, 0, 0, 7, file, 0);
    WANT(SAVE(LATEST, sizeof store) == VERSION(2));
    WANT(store[sizeof store - 2] == 7 && store[sizeof store - 1] == 0);
    memcpy(again, store, sizeof store);
    WANT(SAVE(1000, sizeof store) == 33);
    WANT(memcmp(store, again, sizeof store) == 0);
    WANT(DROP(4, 2) == 0);
    WANT(store[13] == 2);
    WANT(SAVE(1000, sizeof store) == VERSION(3));
    WANT(DROP(4, 2) == 32);
    WANT(DROP(3, 3) == 32);
    WANT(DROP(4, 0) == 32);

    /* The other refusals, in their order. */
    WANT(SAVE(7, sizeof store) == 17);
    WANT(SAVE(1, sizeof store) == 18);
    WANT(RECALLED(4, 2, 7) == 17);
    WANT(RECALLED(4, 2, 1) == 18);
    WANT(RECALLED(4, 2, 1000) == 32);
    WANT(RECALLED(0, 1, 1000) == 32);
    store[0] = 5;
    WANT(SAVE(7, sizeof store) == 31);
    WANT(RECALLED(4, 1, 7) == 31);
    WANT(DROP(4, 1) == 31);

    /* A recall is none of engine_apply, in no list, and no message. */
    uint32_t item[12] = {RECALL, 1, 1000, 0, 0, 0, 0, 4};
    WANT(engine_apply(RECALL, 1, 1000, 0, 0, 0, name, 4, words, words_length, arena, arena_length, none, 0) == 255);
    WANT(engine_list(item, 12, name, 4, words, words_length, arena, arena_length) == 34);
    WANT(message_write(RECALL, 1, 1000, 0, 0, 0, name, 4, none, 0) == 27);
    WANT(message_write(RECALL, 1, 1000, 0, 0, 0, name, 5, none, 0) == 26);

    /* A state that is refused comes first. */
    words[1] = 7;
    WANT(SAVE(7, sizeof store) == 1);
    WANT(RECALLED(4, 1, 7) == 1);
    WANT(DROP(4, 1) == 31);
    free(words);
    free(before);
    free(arena);
    return 0;
}
