/* Lists from C, as include/limudvek.h declares them. Ends with 0 where all is as it should be, else with
 * the line of the first fault. ./test builds it with the proved library. */
#include <stdlib.h>
#include <string.h>

#include "limudvek.h"

#define WANT(holds) \
    do { \
        if (!(holds)) return __LINE__; \
    } while (0)

int main(void) {
    /* /g_new 5 1 0, /c_set 7 2.0, /d_free x, /g_new 6 1 0 */
    static const uint32_t items[4][12] = {{4, 5, 1, 0}, {19, 7, 0, 0, 0, 0x40000000}, {2, 0, 0, 0, 0, 0, 1, 1}, {4, 6, 1, 0}};
    static const uint8_t bytes[2] = {'a', 'x'};
    size_t words_length = engine_words(), arena_length = engine_arena();
    uint32_t *words = malloc(4 * words_length), *before = malloc(4 * words_length), list[513][12] = {{0}};
    uint8_t *arena = malloc(arena_length);
    WANT(words && before && arena);
    WANT(engine_fresh(words, words_length, arena, arena_length) == 0);
#define SEND(items, count, bytes_length) \
    engine_list((items)[0], 12 * (count), bytes, bytes_length, words, words_length, arena, arena_length)

    /* None, and the first two. */
    WANT(SEND(items, 0, 0) == 0);
    WANT(words[0] == 1);
    WANT(SEND(items, 2, 2) == 256 * 2);
    WANT(words[0] == 2);

    /* Refused at the first (15), and at the second (16), before which one stays done. */
    WANT(SEND(items, 4, 2) == 15);
    WANT(SEND(items + 1, 3, 2) == 16 + 256);
    WANT(SEND(items + 3, 1, 2) == 256);
    WANT(words[0] == 3);

    /* A file that is cut at its first field, after one that is accepted: place 0. "SC" and a third. */
    memcpy(list[0], items[1], sizeof items[1]);
    list[1][0] = 1;
    list[1][7] = 2;
    WANT(SEND(list, 2, 2) == 2 + 256);

    /* Refused whole: too long, one that replies, a fault of an item, bytes that are not there. */
    memcpy(before, words, 4 * words_length);
    for (int i = 0; i < 513; i++) memcpy(list[i], items[1], sizeof items[1]);
    WANT(SEND(list, 512, 0) == 256 * 512);
    WANT(SEND(list, 513, 0) == 34);
    list[511][0] = 26;
    WANT(SEND(list, 512, 0) == 34);
    list[511][8] = 1;
    WANT(SEND(list, 512, 0) == 255);
    WANT(SEND(items, 4, 1) == 255);
    WANT(engine_list(items[0], 47, bytes, 2, words, words_length, arena, arena_length) == 255);
    WANT(engine_list(items[0], 48, bytes, 2, words, words_length - 1, arena, arena_length) == 1);
    WANT(memcmp(words, before, 4 * words_length) == 0);
    free(words);
    free(before);
    free(arena);
    return 0;
}
