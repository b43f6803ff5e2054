/* Messages from C, as include/limudvek.h declares them. Ends with 0 where all is as it should be, else
 * with the line of the first fault. ./test builds it with the proved library. */
#include <stdlib.h>
#include <string.h>

#include "limudvek.h"

#define WANT(holds) \
    do { \
        if (!(holds)) return __LINE__; \
    } while (0)

int main(void) {
    static const uint8_t group[28] = "/g_new\0\0,iii\0\0\0\0\0\0\0\5\0\0\0\1\0\0\0";
    static const uint8_t query[20] = "/n_query\0\0\0\0,i\0\0\0\0\0\5";
    static const uint8_t info[48] = "/n_info\0,iiiiiii\0\0\0\0\0\0\0\5\0\0\0\0\xff\xff\xff\xff\xff\xff\xff\xff"
                                    "\0\0\0\1\xff\xff\xff\xff\xff\xff\xff\xff";
    size_t words_length = engine_words(), arena_length = engine_arena();
    uint32_t *words = malloc(4 * words_length);
    uint8_t *arena = malloc(arena_length), message[40], reply[60];
    WANT(words && arena);
    WANT(engine_fresh(words, words_length, arena, arena_length) == 0);
#define SEND(message, length) engine_message(message, length, words, words_length, arena, arena_length, reply, sizeof reply)
#define WRITE(op, a, b, c, bytes, length, room) message_write(op, a, b, c, 0, 0, (const uint8_t *)(bytes), length, message, room)

    /* /g_new 5 1 0 */
    memset(message, 7, sizeof message);
    WANT(WRITE(4, 5, 1, 0, "", 0, 27) == 24 && message[0] == 7);
    WANT(WRITE(4, 5, 1, 0, "", 0, sizeof message) == 256 * sizeof group);
    WANT(memcmp(message, group, sizeof group) == 0 && message[sizeof group] == 7);
    WANT(SEND(message, sizeof group) == 0);
    WANT(SEND(message, sizeof group) == 15);

    /* /n_query 5 */
    WANT(WRITE(24, 5, 0, 0, "", 0, sizeof message) == 256 * sizeof query);
    WANT(memcmp(message, query, sizeof query) == 0);
    WANT(SEND(query, sizeof query) == 256 * sizeof info);
    WANT(memcmp(reply, info, sizeof info) == 0);

    /* Refused by the writer, and by the reader. */
    WANT(WRITE(2, 0, 0, 0, "a\200", 2, sizeof message) == 26);
    WANT(WRITE(27, 0, 0, 0, "", 0, sizeof message) == 27);
    WANT(WRITE(28, 0, 0, 0, "", 0, sizeof message) == 27);
    WANT(WRITE(29, 0, 0, 0, "", 0, sizeof message) == 255);
    WANT(SEND(query, sizeof query - 1) == 26);
    WANT(SEND((const uint8_t *)"/quit\0\0\0,\0\0", 12) == 27);
    free(words);
    free(arena);
    return 0;
}
