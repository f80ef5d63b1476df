#include <stddef.h>
#include <stdint.h>
#include <string.h>

/* APART functions would make the stack deeper as parts of their callers. */
#if defined(__GNUC__)
#define INLINE static inline __attribute__((always_inline, unused))
#define APART static __attribute__((noinline))
#else
#define INLINE static
#define APART static
#endif

/* What the proof says is never reached. A program may define it otherwise, as long as it doesn't go on. */
#ifndef RATHONSI_TRAP
#if defined(__GNUC__)
#define RATHONSI_TRAP() __builtin_trap()
#else
#define RATHONSI_TRAP() for (;;) {}
#endif
#endif

#ifndef RATHONSI_BIG_ENDIAN
#if defined(__BYTE_ORDER__) && defined(__ORDER_BIG_ENDIAN__) && defined(__ORDER_LITTLE_ENDIAN__)
#define RATHONSI_BIG_ENDIAN (__BYTE_ORDER__ == __ORDER_BIG_ENDIAN__)
#elif defined(__LITTLE_ENDIAN__) || defined(_M_IX86) || defined(_M_X64)
#define RATHONSI_BIG_ENDIAN 0
#else
#error "define RATHONSI_BIG_ENDIAN as 1 if the processor is big-endian, as 0 if it is little-endian"
#endif
#endif

/* A pointer takes 8 bytes of memory, and fills the first of them. */
typedef char pointers_have_8_bytes_at_most[sizeof(uint8_t *) <= 8 ? 1 : -1];

/* Memory of this many bytes, aligned to what a register holds. */
#define MEMORY(name, size) union { uint64_t aligned; uint8_t bytes[size]; } name

/* ---- Numbers of 128 bits ------------------------------------------------------------------------------------------------- */

typedef struct u128 { uint64_t lo, hi; } u128;

INLINE u128 u128_of(uint64_t hi, uint64_t lo) { u128 r; r.lo = lo; r.hi = hi; return r; }
INLINE u128 u128_and(u128 a, u128 b) { return u128_of(a.hi & b.hi, a.lo & b.lo); }
INLINE u128 u128_or(u128 a, u128 b) { return u128_of(a.hi | b.hi, a.lo | b.lo); }
INLINE u128 u128_xor(u128 a, u128 b) { return u128_of(a.hi ^ b.hi, a.lo ^ b.lo); }
INLINE u128 u128_add(u128 a, u128 b) {
    uint64_t lo = a.lo + b.lo;
    return u128_of(a.hi + b.hi + (lo < a.lo), lo);
}
INLINE u128 u128_sub(u128 a, u128 b) { return u128_of(a.hi - b.hi - (a.lo < b.lo), a.lo - b.lo); }
INLINE u128 u128_mul(u128 a, u128 b) {
    uint64_t al = (uint32_t)a.lo, ah = a.lo >> 32, bl = (uint32_t)b.lo, bh = b.lo >> 32;
    uint64_t low = al * bl, left = al * bh, right = ah * bl;
    uint64_t middle = (low >> 32) + (uint32_t)left + (uint32_t)right;
    uint64_t high = ah * bh + (left >> 32) + (right >> 32) + (middle >> 32);
    return u128_of(high + a.hi * b.lo + a.lo * b.hi, a.lo * b.lo);
}
INLINE u128 u128_shl(u128 a, u128 by) {
    unsigned n = (unsigned)by.lo & 127u;
    if (n == 0) return a;
    if (n >= 64) return u128_of(a.lo << (n - 64), 0);
    return u128_of((a.hi << n) | (a.lo >> (64 - n)), a.lo << n);
}
INLINE u128 u128_lshr(u128 a, u128 by) {
    unsigned n = (unsigned)by.lo & 127u;
    if (n == 0) return a;
    if (n >= 64) return u128_of(0, a.hi >> (n - 64));
    return u128_of(a.hi >> n, (a.lo >> n) | (a.hi << (64 - n)));
}
INLINE uint8_t u128_eq(u128 a, u128 b) { return a.lo == b.lo && a.hi == b.hi; }
INLINE uint8_t u128_ne(u128 a, u128 b) { return !u128_eq(a, b); }
INLINE uint8_t u128_ult(u128 a, u128 b) { return a.hi < b.hi || (a.hi == b.hi && a.lo < b.lo); }
INLINE uint8_t u128_ule(u128 a, u128 b) { return !u128_ult(b, a); }
INLINE uint8_t u128_ugt(u128 a, u128 b) { return u128_ult(b, a); }
INLINE uint8_t u128_uge(u128 a, u128 b) { return !u128_ult(a, b); }

/* ---- Memory -------------------------------------------------------------------------------------------------------------- */

/* Numbers lie in memory with the low byte first, on every processor: the module writes a number of 64 bits and reads its low
 * byte back. No address is asked to be aligned. They go byte by byte where the high byte comes first, and on an ARM without
 * unaligned access, where memcpy of four bytes would be a call. */
#ifndef RATHONSI_BYTES
#if RATHONSI_BIG_ENDIAN || (defined(__arm__) && !defined(__ARM_FEATURE_UNALIGNED))
#define RATHONSI_BYTES 1
#else
#define RATHONSI_BYTES 0
#endif
#endif
INLINE uint8_t ld_i8(const uint8_t *p) { return *p; }
INLINE uint8_t ld_i1(const uint8_t *p) { return *p; }
INLINE void st_i8(uint8_t *p, uint8_t v) { *p = v; }
INLINE void st_i1(uint8_t *p, uint8_t v) { *p = v; }
#if RATHONSI_BYTES
INLINE uint16_t ld_i16(const uint8_t *p) { return (uint16_t)((uint32_t)p[0] | (uint32_t)p[1] << 8); }
INLINE uint32_t ld_i32(const uint8_t *p) {
    return (uint32_t)p[0] | (uint32_t)p[1] << 8 | (uint32_t)p[2] << 16 | (uint32_t)p[3] << 24;
}
INLINE uint64_t ld_i64(const uint8_t *p) { return (uint64_t)ld_i32(p) | (uint64_t)ld_i32(p + 4) << 32; }
INLINE void st_i16(uint8_t *p, uint16_t v) { p[0] = (uint8_t)v; p[1] = (uint8_t)(v >> 8); }
INLINE void st_i32(uint8_t *p, uint32_t v) {
    p[0] = (uint8_t)v; p[1] = (uint8_t)(v >> 8); p[2] = (uint8_t)(v >> 16); p[3] = (uint8_t)(v >> 24);
}
INLINE void st_i64(uint8_t *p, uint64_t v) { st_i32(p, (uint32_t)v); st_i32(p + 4, (uint32_t)(v >> 32)); }
#else
INLINE uint16_t ld_i16(const uint8_t *p) { uint16_t v; memcpy(&v, p, 2); return v; }
INLINE uint32_t ld_i32(const uint8_t *p) { uint32_t v; memcpy(&v, p, 4); return v; }
INLINE uint64_t ld_i64(const uint8_t *p) { uint64_t v; memcpy(&v, p, 8); return v; }
INLINE void st_i16(uint8_t *p, uint16_t v) { memcpy(p, &v, 2); }
INLINE void st_i32(uint8_t *p, uint32_t v) { memcpy(p, &v, 4); }
INLINE void st_i64(uint8_t *p, uint64_t v) { memcpy(p, &v, 8); }
#endif
INLINE u128 ld_i128(const uint8_t *p) { return u128_of(ld_i64(p + 8), ld_i64(p)); }
INLINE void st_i128(uint8_t *p, u128 v) { st_i64(p, v.lo); st_i64(p + 8, v.hi); }
INLINE uint8_t *ld_ptr(const uint8_t *p) { uint8_t *v; memcpy(&v, p, sizeof v); return v; }
/* With RATHONSI_POISON the bytes that a pointer doesn't fill are written, too, so that a test sees if they are read. */
INLINE void st_ptr(uint8_t *p, uint8_t *v) {
    memcpy(p, &v, sizeof v);
#ifdef RATHONSI_POISON
    memset(p + sizeof v, 0xae, 8 - sizeof v);
#endif
}

/* ---- Blocks of sixteen bytes --------------------------------------------------------------------------------------------- */

/* Byte i is bits 8 * (i % 4) on of word i / 4. A comparison gives a block with ff or 00 in each byte. */
typedef struct block { uint32_t w0, w1, w2, w3; } block;

INLINE block block_of(uint32_t w0, uint32_t w1, uint32_t w2, uint32_t w3) {
    block r;
    r.w0 = w0; r.w1 = w1; r.w2 = w2; r.w3 = w3;
    return r;
}
INLINE block ld_block(const uint8_t *p) { return block_of(ld_i32(p), ld_i32(p + 4), ld_i32(p + 8), ld_i32(p + 12)); }
INLINE void st_block(uint8_t *p, block v) { st_i32(p, v.w0); st_i32(p + 4, v.w1); st_i32(p + 8, v.w2); st_i32(p + 12, v.w3); }
INLINE block block_and(block a, block b) { return block_of(a.w0 & b.w0, a.w1 & b.w1, a.w2 & b.w2, a.w3 & b.w3); }
INLINE block block_or(block a, block b) { return block_of(a.w0 | b.w0, a.w1 | b.w1, a.w2 | b.w2, a.w3 | b.w3); }
INLINE block block_xor(block a, block b) { return block_of(a.w0 ^ b.w0, a.w1 ^ b.w1, a.w2 ^ b.w2, a.w3 ^ b.w3); }
/* mask ? a : b, byte by byte */
INLINE block block_select(block mask, block a, block b) { return block_xor(b, block_and(mask, block_xor(a, b))); }

/* The same in each of the four bytes of a word: a sum; a shift right by less than 8; ff where a <= b, and where a's sign bit is set. */
INLINE uint32_t bytes_add(uint32_t a, uint32_t b) {
    return ((a & 0x7f7f7f7fu) + (b & 0x7f7f7f7fu)) ^ ((a ^ b) & 0x80808080u);
}
INLINE uint32_t bytes_lshr(uint32_t a, unsigned by) { return (a >> by) & ((0xffu >> by) * 0x01010101u); }
INLINE uint32_t bytes_ule(uint32_t a, uint32_t b) {
    uint32_t low = (b | 0x80808080u) - (a & 0x7f7f7f7fu);
    return ((((low & ~(a ^ b)) | (b & ~a)) >> 7) & 0x01010101u) * 0xffu;
}
INLINE uint32_t bytes_negative(uint32_t a) { return ((a >> 7) & 0x01010101u) * 0xffu; }
INLINE block block_add(block a, block b) {
    return block_of(bytes_add(a.w0, b.w0), bytes_add(a.w1, b.w1), bytes_add(a.w2, b.w2), bytes_add(a.w3, b.w3));
}
INLINE block block_lshr(block a, unsigned by) {
    return block_of(bytes_lshr(a.w0, by), bytes_lshr(a.w1, by), bytes_lshr(a.w2, by), bytes_lshr(a.w3, by));
}
INLINE block block_ule(block a, block b) {
    return block_of(bytes_ule(a.w0, b.w0), bytes_ule(a.w1, b.w1), bytes_ule(a.w2, b.w2), bytes_ule(a.w3, b.w3));
}
INLINE block block_negative(block a) {
    return block_of(bytes_negative(a.w0), bytes_negative(a.w1), bytes_negative(a.w2), bytes_negative(a.w3));
}

/* The bytes of a table at the four indices of a word; 0 where an index is over 15, since k - 16 has ones above its eighth bit
 * just where k is below 16. No branch. */
INLINE uint32_t at_index(const uint8_t *table, uint32_t k) { return table[k & 15u] & ((k - 16u) >> 8) & 0xffu; }
INLINE uint32_t at_indices(const uint8_t *table, uint32_t k) {
    return at_index(table, k & 0xffu) | at_index(table, (k >> 8) & 0xffu) << 8 | at_index(table, (k >> 16) & 0xffu) << 16
        | at_index(table, k >> 24) << 24;
}
INLINE block look_up(block table, block at) {
    MEMORY(m, 16);
    st_block(m.bytes, table);
    return block_of(at_indices(m.bytes, at.w0), at_indices(m.bytes, at.w1), at_indices(m.bytes, at.w2), at_indices(m.bytes, at.w3));
}
