/* Five formulas for the inverse of a byte, and AES-128 in counter mode over each, in plain C: what the library's routes are measured against.
 * Written as one would write them in C without intrinsics, with no branch and no address that depends on a byte, sixteen bytes a call. */
#include "plain.h"

#include <string.h>

typedef uint8_t u8;

/* ---- the byte field */

static inline u8 times_x(u8 a) { return (u8)(a << 1 ^ (0x1B & -(a >> 7))); }

static inline u8 product(u8 a, u8 b) {
    u8 sum = 0;
    for (int i = 0; i < 8; i++) {
        sum ^= (u8)(a & -(b >> i & 1));
        a = times_x(a);
    }
    return sum;
}

static inline u8 square(u8 a) { return product(a, a); }

/* a, or b where a is 0. */
static inline u8 or_else(u8 a, u8 b) { return a ? a : b; }

/* The byte where the bit is 1, and else 0. */
static inline u8 keep(u8 byte, int bit) { return (u8)(byte & -bit); }

static inline int bit(u8 b, int i) { return b >> i & 1; }

/* ---- power: s = a^84, r = a s s + s; r, or s where r is 0 */

static inline u8 power_inverse(u8 a) {
    u8 a2 = square(a), a4 = square(a2), a8 = square(a4), a16 = square(a8), a32 = square(a16), a64 = square(a32);
    u8 s = product(product(a4, a16), a64);
    u8 r = product(product(a, s), s) ^ s;
    return or_else(r, s);
}

/* ---- split: b = a^17 lies in the subfield of sixteen elements, where powers are sums over bits */

static inline u8 split_inverse(u8 a) {
    u8 a16 = square(square(square(square(a))));
    u8 b = product(a16, a);
    u8 b4 = keep(0xB0, bit(b, 3)) ^ keep(0xE1, bit(b, 6)) ^ keep(0x0C, bit(b, 4)) ^ (u8)bit(b, 0);
    u8 b8 = keep(0xED, bit(b, 3)) ^ keep(0x5C, bit(b, 6)) ^ keep(0x50, bit(b, 4)) ^ (u8)bit(b, 0);
    u8 t = product(b, b8) ^ b4;
    return product(a16, or_else(t, b4));
}

/* ---- table: the inverse of a^17 by a table of sixteen bytes, gone over whole */

static const u8 INVERSES[16] = {0x00, 0x01, 0x0C, 0xE0, 0xED, 0x5C, 0xB1, 0x0D, 0xB0, 0xE1, 0xBD, 0xBC, 0x51, 0xEC, 0x5D, 0x50};

static inline u8 table_inverse(u8 a) {
    u8 a16 = square(square(square(square(a))));
    u8 b = product(a16, a);
    int index = bit(b, 3) << 3 | bit(b, 6) << 2 | bit(b, 5) << 1 | bit(b, 0);
    u8 entry = 0;
    for (int i = 0; i < 16; i++)
        entry |= keep(INVERSES[i], i == index);
    return product(a16, entry);
}

/* ---- an additive map by its columns */

static inline u8 image(const u8 columns[8], u8 a) {
    u8 sum = 0;
    for (int i = 0; i < 8; i++)
        sum ^= keep(columns[i], bit(a, i));
    return sum;
}

/* ---- nibble-pair: h X + l over nibbles modulo x^4 + x + 1, X X = X + 9 */

static const u8 INTO_NIBBLES[8] = {0x01, 0x2E, 0x49, 0x43, 0x35, 0xD0, 0x3D, 0xE9};
static const u8 OUT_OF_NIBBLES[8] = {0x01, 0x5C, 0xE0, 0x50, 0x1F, 0xEE, 0x55, 0x6A};

static inline u8 nibble_product(u8 a, u8 b) {
    u8 sum = 0;
    for (int i = 0; i < 4; i++) {
        sum ^= (u8)(a & -(b >> i & 1));
        a = (u8)(a << 1 ^ (0x13 & -(a >> 3)));
    }
    return sum;
}

/* The one of 1 to 15 whose product with a is 1, or 0 where none is. */
static inline u8 nibble_inverse(u8 a) {
    u8 found = 0;
    for (u8 trial = 1; trial < 16; trial++)
        found |= keep(trial, nibble_product(a, trial) == 1);
    return found;
}

static inline u8 nibble_pair_inverse(u8 a) {
    u8 pair = image(INTO_NIBBLES, a), h = pair >> 4, l = pair & 15;
    u8 norm = nibble_product(9, nibble_product(h, h)) ^ nibble_product(h, l) ^ nibble_product(l, l);
    u8 scale = nibble_inverse(norm);
    return image(OUT_OF_NIBBLES, (u8)(nibble_product(h, scale) << 4 | nibble_product(h ^ l, scale)));
}

/* ---- bit-tower: three pairs over bits, with X X = X + 1, X + 2 and X + 8 */

static const u8 INTO_TOWER[8] = {0x01, 0x41, 0x66, 0x6C, 0x56, 0x9A, 0x58, 0xC4};
static const u8 OUT_OF_TOWER[8] = {0x01, 0xBC, 0x5C, 0xB0, 0xF3, 0xE7, 0x03, 0xDF};

static inline u8 product2(u8 a, u8 b) {
    u8 ah = a >> 1, al = a & 1, bh = b >> 1, bl = b & 1;
    u8 highs = ah & bh;
    return (u8)((highs ^ (ah & bl) ^ (al & bh)) << 1 | (highs ^ (al & bl)));
}

static inline u8 inverse2(u8 a) {
    u8 h = a >> 1, l = a & 1;
    u8 norm = h ^ (h & l) ^ l;
    return (u8)((h & norm) << 1 | ((h ^ l) & norm));
}

static inline u8 product4(u8 a, u8 b) {
    u8 ah = a >> 2, al = a & 3, bh = b >> 2, bl = b & 3;
    u8 highs = product2(ah, bh);
    return (u8)((highs ^ product2(ah, bl) ^ product2(al, bh)) << 2 | (product2(2, highs) ^ product2(al, bl)));
}

static inline u8 inverse4(u8 a) {
    u8 h = a >> 2, l = a & 3;
    u8 scale = inverse2(product2(2, product2(h, h)) ^ product2(h, l) ^ product2(l, l));
    return (u8)(product2(h, scale) << 2 | product2(h ^ l, scale));
}

static inline u8 bit_tower_inverse(u8 a) {
    u8 tower = image(INTO_TOWER, a), h = tower >> 4, l = tower & 15;
    u8 scale = inverse4(product4(8, product4(h, h)) ^ product4(h, l) ^ product4(l, l));
    return image(OUT_OF_TOWER, (u8)(product4(h, scale) << 4 | product4(h ^ l, scale)));
}

/* ---- AES-128 over a way to invert sixteen bytes */

typedef void invert_function(u8 bytes[16]);

static inline u8 rotated(u8 b, int n) { return (u8)(b << n | b >> (8 - n)); }

static inline void substitute(invert_function *invert, u8 s[16]) {
    invert(s);
    for (int i = 0; i < 16; i++)
        s[i] = s[i] ^ rotated(s[i], 1) ^ rotated(s[i], 2) ^ rotated(s[i], 3) ^ rotated(s[i], 4) ^ 0x63;
}

static inline void shift_rows(u8 s[16]) {
    u8 t[16];
    for (int c = 0; c < 4; c++)
        for (int r = 0; r < 4; r++)
            t[4 * c + r] = s[4 * ((c + r) % 4) + r];
    memcpy(s, t, 16);
}

static inline void mix_columns(u8 s[16]) {
    for (int c = 0; c < 16; c += 4) {
        u8 a = s[c], b = s[c + 1], d = s[c + 2], e = s[c + 3], all = a ^ b ^ d ^ e;
        s[c] = a ^ all ^ times_x(a ^ b);
        s[c + 1] = b ^ all ^ times_x(b ^ d);
        s[c + 2] = d ^ all ^ times_x(d ^ e);
        s[c + 3] = e ^ all ^ times_x(e ^ a);
    }
}

static inline void add_key(u8 s[16], const u8 key[16]) {
    for (int i = 0; i < 16; i++)
        s[i] ^= key[i];
}

/* Eleven round keys. The four bytes that a round substitutes stand first in sixteen, so that each is one call. */
static inline void expand(invert_function *invert, const u8 key[16], u8 keys[11][16]) {
    memcpy(keys[0], key, 16);
    u8 constant = 1;
    for (int round = 1; round <= 10; round++) {
        const u8 *last = keys[round - 1];
        u8 word[16] = {last[13], last[14], last[15], last[12]};
        substitute(invert, word);
        word[0] ^= constant;
        constant = times_x(constant);
        for (int i = 0; i < 4; i++)
            keys[round][i] = last[i] ^ word[i];
        for (int i = 4; i < 16; i++)
            keys[round][i] = last[i] ^ keys[round][i - 4];
    }
}

static inline void encrypt(invert_function *invert, u8 keys[11][16], u8 s[16]) {
    add_key(s, keys[0]);
    for (int round = 1; round < 10; round++) {
        substitute(invert, s);
        shift_rows(s);
        mix_columns(s);
        add_key(s, keys[round]);
    }
    substitute(invert, s);
    shift_rows(s);
    add_key(s, keys[10]);
}

static inline void cover(invert_function *invert, const u8 key[16], const u8 prefix[12], uint32_t number, u8 *run, size_t length) {
    u8 keys[11][16];
    expand(invert, key, keys);
    for (size_t at = 0; at < length; at += 16, number++) {
        u8 block[16];
        memcpy(block, prefix, 12);
        block[12] = (u8)(number >> 24);
        block[13] = (u8)(number >> 16);
        block[14] = (u8)(number >> 8);
        block[15] = (u8)number;
        encrypt(invert, keys, block);
        size_t left = length - at < 16 ? length - at : 16;
        for (size_t i = 0; i < left; i++)
            run[at + i] ^= block[i];
    }
}

/* ---- the five */

#define ROUTE(formula)                                                                                                      \
    static void formula##_invert(u8 bytes[16]) {                                                                            \
        for (int i = 0; i < 16; i++)                                                                                        \
            bytes[i] = formula##_inverse(bytes[i]);                                                                         \
    }                                                                                                                       \
    static void formula##_cover(const u8 key[16], const u8 prefix[12], uint32_t number, u8 *run, size_t length) {           \
        cover(formula##_invert, key, prefix, number, run, length);                                                          \
    }

ROUTE(power)
ROUTE(split)
ROUTE(table)
ROUTE(nibble_pair)
ROUTE(bit_tower)

const struct plain_route plain_routes[5] = {
    {"power", power_invert, power_cover},
    {"split", split_invert, split_cover},
    {"table", table_invert, table_cover},
    {"nibble-pair", nibble_pair_invert, nibble_pair_cover},
    {"bit-tower", bit_tower_invert, bit_tower_cover},
};
