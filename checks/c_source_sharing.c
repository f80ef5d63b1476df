/* Looks that the functions of checks/c_source_sharing.ll answer right as bin/ll2c writes them: it ends with 0 if they do. */
#include <string.h>

#include "c_source_sharing.h"

typedef int32_t call(const uint8_t *from, uint8_t *to);

int main(void) {
    static call *const calls[] = {a_call_touches_both, the_result_is_the_argument, a_local_is_wanted_behind_a_result,
                                  a_byte_stays_behind_a_result};
    static const uint8_t from[2] = {1, 2}, wanted[][2] = {{2, 1}, {2, 1}, {2, 2}, {2, 2}};
    for (unsigned i = 0; i < sizeof calls / sizeof *calls; i++) {
        uint8_t to[2] = {0};
        calls[i](from, to);
        if (memcmp(to, wanted[i], 2) != 0) return 1 + (int)i;
    }
    return 0;
}
