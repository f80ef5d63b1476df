/*
 * c_source_helpers [ROUNDS]: the helpers at the head of rathonsi.c against what they stand for: numbers of 128 bits against the
 * compiler's, loads and stores against shifts, and blocks byte by byte. Prints how many differ.
 */
#include "rathonsi.c"

#include <stdio.h>
#include <stdlib.h>

typedef unsigned __int128 wide;

static uint64_t state = UINT64_C(88172645463325252);
static long differ;

static uint64_t draw(void) {
    state ^= state << 13;
    state ^= state >> 7;
    state ^= state << 17;
    return state;
}

/* Numbers at which a carry or a sign turns, and any other. */
static uint64_t word(void) {
    uint64_t by = draw() % 64;
    switch (draw() % 5) {
    case 0: return 0;
    case 1: return UINT64_MAX;
    case 2: return UINT64_C(1) << by;
    case 3: return draw() % 300;
    default: return draw();
    }
}

static wide of(u128 a) {
    return (wide)a.hi << 64 | a.lo;
}

static u128 number(void) {
    uint64_t high = word(), low = word();
    return u128_of(high, low);
}

static void same(int is_same) {
    if (!is_same) differ++;
}

static void numbers(void) {
    u128 a = number(), b = draw() % 3 == 0 ? a : number(), n = u128_of(0, draw() % 128);
    same(of(u128_add(a, b)) == of(a) + of(b));
    same(of(u128_sub(a, b)) == of(a) - of(b));
    same(of(u128_mul(a, b)) == of(a) * of(b));
    same(of(u128_and(a, b)) == (of(a) & of(b)));
    same(of(u128_or(a, b)) == (of(a) | of(b)));
    same(of(u128_xor(a, b)) == (of(a) ^ of(b)));
    same(of(u128_shl(a, n)) == of(a) << n.lo);
    same(of(u128_lshr(a, n)) == of(a) >> n.lo);
    same(u128_eq(a, b) == (of(a) == of(b)) && u128_ne(a, b) == (of(a) != of(b)));
    same(u128_ult(a, b) == (of(a) < of(b)) && u128_ule(a, b) == (of(a) <= of(b)));
    same(u128_ugt(a, b) == (of(a) > of(b)) && u128_uge(a, b) == (of(a) >= of(b)));
}

static void memory(void) {
    uint8_t bytes[24] = {0};
    u128 a = number();
    uint64_t at = draw() % 8, n = word();
    st_i128(bytes + at, a);
    for (int i = 0; i < 16; i++) same(bytes[at + (unsigned)i] == (uint8_t)(of(a) >> 8 * i));
    same(of(ld_i128(bytes + at)) == of(a) && ld_i8(bytes + at) == (uint8_t)a.lo && ld_i64(bytes + at + 8) == a.hi);
    same(ld_i16(bytes + at + 1) == (uint16_t)(a.lo >> 8) && ld_i32(bytes + at + 3) == (uint32_t)(a.lo >> 24));
    st_i64(bytes + at, n);
    same(ld_i64(bytes + at) == n && ld_i64(bytes + at + 8) == a.hi);
    st_i32(bytes + at, (uint32_t)~n);
    same(ld_i64(bytes + at) == (n >> 32 << 32 | (uint32_t)~n));
    st_i16(bytes + at, (uint16_t)n);
    same(ld_i64(bytes + at) == (n >> 32 << 32 | ((uint32_t)~n >> 16 << 16) | (uint16_t)n));
    st_ptr(bytes + at, bytes);
    same(ld_ptr(bytes + at) == bytes);
}

static uint8_t byte(block a, int i) {
    uint8_t bytes[16];
    st_block(bytes, a);
    return bytes[i];
}

static block any(void) {
    uint8_t bytes[16];
    for (int i = 0; i < 16; i++) bytes[i] = (uint8_t)(draw() % 2 ? draw() : 126 + draw() % 4);
    return ld_block(bytes);
}

static void blocks(void) {
    block a = any(), b = any(), mask = block_ule(a, b), table = any(), at = block_and(any(), draw() % 2 ? block_of(~0u, ~0u, ~0u, ~0u)
                                                                                              : block_of(0x0f0f0f0fu, 0x1f0f0f1fu, 0x0f0f0f0fu, 0x0f1f0f0fu));
    unsigned by = (unsigned)(draw() % 8);
    for (int i = 0; i < 16; i++) {
        uint8_t x = byte(a, i), y = byte(b, i), k = byte(at, i);
        same(byte(block_and(a, b), i) == (x & y) && byte(block_or(a, b), i) == (x | y) && byte(block_xor(a, b), i) == (x ^ y));
        same(byte(block_add(a, b), i) == (uint8_t)(x + y) && byte(block_lshr(a, by), i) == x >> by);
        same(byte(mask, i) == (x <= y ? 255 : 0) && byte(block_negative(a), i) == (x > 127 ? 255 : 0));
        same(byte(block_select(mask, a, b), i) == (x <= y ? x : y));
        same(byte(look_up(table, at), i) == (k < 16 ? byte(table, k) : 0));
    }
}

int main(int count, char **words) {
    long rounds = count > 1 ? atol(words[1]) : 200000;
    for (long i = 0; i < rounds; i++) {
        numbers();
        memory();
        if (i % 8 == 0) blocks();
    }
    printf("helpers: %ld differ\n", differ);
    return differ != 0;
}
