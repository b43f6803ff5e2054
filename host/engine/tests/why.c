/* Why a node is silent, from C, as include/limudvek.h declares it. Ends with 0 where all is as it should be,
 * else with the line of the first fault. ./test builds it with the proved library. */
#include <stdlib.h>
#include <string.h>

#include "limudvek.h"

#define WANT(holds) \
    do { \
        if (!(holds)) return __LINE__; \
    } while (0)

#define LATEST 0xffffffffu
#define NO_NODE (1 << 8)
#define GROUP (2 << 8)
#define OFF (3 << 8)
#define BELOW(number) ((4 << 8) + ((uint64_t)(number) << 16))
#define RUNS(place) ((5 << 8) + ((uint64_t)(place) << 16))

int main(void) {
    /* "a" with every count 0; the last zero is the string's own. */
    static const uint8_t file[] = "SCgf\0\0\0\2\0\1\1a\0\0\0\0\0\0\0\0\0\0\0\0\0\0\0\0\0";
    size_t words_length = engine_words(), arena_length = engine_arena();
    uint32_t *words = malloc(4 * words_length), *before = malloc(4 * words_length);
    uint8_t *arena = malloc(arena_length), none[1];
    WANT(words && before && arena);
    WANT(engine_fresh(words, words_length, arena, arena_length) == 0);
#define WHY(number) engine_why(number, words, words_length, arena, arena_length)
#define DONE(op, a, b, c, bytes, length) \
    WANT(engine_apply(op, a, b, c, 0, 0, bytes, length, words, words_length, arena, arena_length, none, 0) == 0)

    WANT(WHY(0) == GROUP);
    WANT(WHY(LATEST) == NO_NODE);

    /* 0 [2147483647 [1 [10 11]] -8] */
    DONE(1, 0, 0, 0, file, sizeof file);
    DONE(4, 0x7fffffff, 1, 0, file, 0);
    DONE(4, 1, 1, 0x7fffffff, file, 0);
    DONE(3, 10, 1, 1, file + 11, 1);
    DONE(3, 11, 1, 1, file + 11, 1);
    DONE(3, LATEST, 1, 0, file + 11, 1);
    memcpy(before, words, 4 * words_length);
    WANT(WHY(10) == RUNS(1));
    WANT(WHY(11) == RUNS(2));
    WANT(WHY(LATEST) == RUNS(3));
    WANT(WHY(LATEST - 7) == RUNS(3));
    WANT(WHY(LATEST - 8) == NO_NODE);
    WANT(WHY(1) == GROUP);
    WANT(WHY(12) == NO_NODE);
    WANT(WHY(0x80000000) == NO_NODE);
    WANT(memcmp(words, before, 4 * words_length) == 0);

    /* Off: itself, the group that it is in, the one above that, the root. */
    DONE(12, 10, 0, 0, file, 0);
    WANT(WHY(10) == OFF);
    WANT(WHY(11) == RUNS(1));
    DONE(12, 1, 0, 0, file, 0);
    WANT(WHY(10) == OFF);
    WANT(WHY(11) == BELOW(1));
    WANT(WHY(LATEST) == RUNS(1));
    DONE(12, 0x7fffffff, 0, 0, file, 0);
    WANT(WHY(11) == BELOW(0x7fffffff));
    DONE(12, 0, 0, 0, file, 0);
    WANT(WHY(11) == BELOW(0));
    WANT(WHY(LATEST) == BELOW(0));
    WANT(WHY(1) == GROUP);

    /* A state that is refused. */
    WANT(engine_why(11, words, words_length - 1, arena, arena_length) == 1);
    words[1] = 7;
    WANT(WHY(11) == 1);
    WANT(WHY(LATEST) == 1);
    free(words);
    free(before);
    free(arena);
    return 0;
}
