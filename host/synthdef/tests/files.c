/* Files from C, as include/limudvek.h declares them. Ends with 0 where all is as it should be, else with
 * the line of the first fault. ./test builds it with the proved library. */
#include <string.h>

#include "limudvek.h"

#define WANT(holds) \
    do { \
        if (!(holds)) return __LINE__; \
    } while (0)

int main(void) {
    static const uint8_t one[36] = "SCgf\0\0\0\1\0\1\4ping\0\0\0\1\x43\xdc\0\0\0\1\4freq\0\0\0\0\0";
    static const uint8_t two[46] = "SCgf\0\0\0\2\0\1\4ping\0\0\0\0\0\0\0\1\x43\xdc\0\0\0\0\0\1\4freq\0\0\0\0\0\0\0";
    uint8_t out[50];
    memset(out, 7, sizeof out);

    /* One definition in either version. */
    WANT(synthdef_refusal(one, sizeof one) == 0 && synthdef_refusal(two, sizeof two) == 0);
    WANT(synthdef_version(one, sizeof one) == 1 && synthdef_version(two, sizeof two) == 2);
    WANT(synthdef_count(one, sizeof one) == 1 && synthdef_count(two, sizeof two) == 1);
    WANT(synthdef_name_start(one, sizeof one, 0) == 11 && synthdef_name_end(one, sizeof one, 0) == 15);

    /* Widened, where there is room. */
    WANT(synthdef_widen(one, sizeof one, out, sizeof two - 1) == 0 && out[0] == 7);
    WANT(synthdef_widen(one, sizeof one, out, sizeof out) == sizeof two);
    WANT(memcmp(out, two, sizeof two) == 0 && out[sizeof two] == 7);
    memset(out, 7, sizeof out);
    WANT(synthdef_widen(two, sizeof two, out, sizeof two) == sizeof two);
    WANT(memcmp(out, two, sizeof two) == 0 && out[sizeof two] == 7);

    /* Refused: cut, and of another version. */
    memset(out, 7, sizeof out);
    WANT(synthdef_refusal(one, sizeof one - 1) == 2 && synthdef_place(one, sizeof one - 1) == 34);
    WANT(synthdef_version(one, sizeof one - 1) == 0);
    WANT(synthdef_widen(one, sizeof one - 1, out, sizeof out) == 0 && out[0] == 7);
    WANT(synthdef_refusal((const uint8_t *)"SCgf\0\0\0\3\0", 10) == 4);
    return 0;
}
