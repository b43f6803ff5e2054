/* A host in C: a fresh engine, a definition loaded, a voice made, faded and asked for; then a list of
 * commands in one call, of which the third is refused.
 * Build it with the proved library, as ./test does:
 *   cc -Iinclude examples/host.c target/staticlib/libengine.a -o host
 */
#include <inttypes.h>
#include <stdio.h>
#include <stdlib.h>

#include "limudvek.h"

/* "ping" with one parameter "freq", 440.0 */
static const uint8_t ping[46] = "SCgf\0\0\0\2\0\1\4ping\0\0\0\0\0\0\0\1\x43\xdc\0\0\0\0\0\1\4freq\0\0\0\0\0\0\0";

int main(void) {
    uint64_t words_length = engine_words(), arena_length = engine_arena();
    uint32_t *words = malloc(4 * words_length);
    uint8_t *arena = malloc(arena_length), reply[64] = {0};
    if (!words || !arena) return 2;
#define APPLY(op, a, b, c, d, e, bytes, length) \
    engine_apply(op, a, b, c, d, e, (const uint8_t *)(bytes), length, words, words_length, arena, arena_length, reply, sizeof reply)
    printf("fresh: %" PRIu32 "\n", engine_fresh(words, words_length, arena, arena_length));
    printf("/d_recv: %" PRIu64 "\n", APPLY(1, 0, 0, 0, 0, 0, ping, sizeof ping));
    printf("/s_new ping 1000 1 0: %" PRIu64 "\n", APPLY(3, 1000, 1, 0, 0, 0, "ping", 4));
    printf("/s_new ping 1000 1 0, again: %" PRIu64 "\n", APPLY(3, 1000, 1, 0, 0, 0, "ping", 4));
    printf("/n_set 1000 freq 220.0: %" PRIu64 "\n", APPLY(14, 1000, 0, 0, 0, 0x435C0000, "freq", 4));
    uint64_t answer = APPLY(22, 1000, 0, 0, 0, 0, "freq", 4);
    printf("/s_get 1000 freq: %" PRIu64 ", %" PRIu64 " bytes:", answer % 256, answer / 256);
    for (uint64_t i = 0; i < answer / 256; i++) printf(" %02x", reply[i]);
    printf("\n");
    /* /g_new 1 1 0, /n_set 1000 freq 110.0, /n_free 7, /n_free 1000 */
    static const uint32_t items[4][12] = {{4, 1, 1, 0}, {14, 1000, 0, 0, 0, 0x42DC0000, 0, 4}, {5, 7}, {5, 1000}};
    answer = engine_list(items[0], 4 * 12, (const uint8_t *)"freq", 4, words, words_length, arena, arena_length);
    printf("a list of 4: refused %" PRIu64 ", %" PRIu64 " before it stay done\n", answer % 256, answer / 256 % 65536);
    free(words);
    free(arena);
    return 0;
}
