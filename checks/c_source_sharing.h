/* The functions of checks/c_source_sharing.ll: the first two write the two bytes the other way round, the others the second byte twice. */
#include <stdint.h>

int32_t a_call_touches_both(const uint8_t *from, uint8_t *to);
int32_t the_result_is_the_argument(const uint8_t *from, uint8_t *to);
int32_t a_local_is_wanted_behind_a_result(const uint8_t *from, uint8_t *to);
int32_t a_byte_stays_behind_a_result(const uint8_t *from, uint8_t *to);
