/* AES in counter mode over five proved routes, for C.
 *
 * Two functions. Each works on what it is passed and keeps nothing: no state stays behind, nothing is allocated, and both may be called from several
 * threads at once on different buffers. Link with libembed.a, which `rt lib` makes in crates/embed/out (examples/c shows how).
 *
 * What cannot be seen from inside, and is the caller's to see to:
 *   - a null pointer, or a buffer that is shorter than the length that is passed with it. A pointer must not be null even where its length is 0;
 *   - buffers that overlap. No buffer that is written (run, bytes, reply) may overlap another one of the same call;
 *   - that a counter number is never used twice under one key and prefix, over all calls. Each call covers from the number that it is passed; keep
 *     number + count, and pass that next time;
 *   - that a tally is carried on: keep reply.tally, and pass that as the starting tally next time.
 * Everything else that can be wrong is answered by a status, with nothing altered but the reply.
 */
#ifndef JANVLOZER_H
#define JANVLOZER_H

#include <stddef.h>
#include <stdint.h>

#ifdef __cplusplus
extern "C" {
#endif

/* The routes: ways to invert a byte. All give the same bytes; they differ in time and in code. */
enum janvlozer_route {
    JANVLOZER_POWER = 0,
    JANVLOZER_SPLIT = 1,
    JANVLOZER_TABLE = 2,
    JANVLOZER_NIBBLE_PAIR = 3,
    JANVLOZER_BIT_TOWER = 4
};

/* What a call is answered. For each refusal: its value, which stands in reply.value. */
enum janvlozer_status {
    JANVLOZER_TAKEN = 0,          /* taken; the value is 0 */
    JANVLOZER_KEY_LENGTH = 1,     /* a key that is not 16, 24 or 32 bytes: its length */
    JANVLOZER_BLOCK_LENGTH = 3,   /* not 16 bytes to invert: how many */
    JANVLOZER_RUN_LENGTH = 4,     /* a run above 65,536 bytes: its length */
    JANVLOZER_REMAINING = 5,      /* more counter numbers wanted than remain up to 2^32: how many remain */
    JANVLOZER_INVERSIONS = 6,     /* the tally would rise above 2^40: how many inversions are left */
    JANVLOZER_PREFIX_LENGTH = 7,  /* a prefix that is not 12 bytes: its length */
    JANVLOZER_OPENING_NUMBER = 8, /* a counter number above 2^32: that number */
    JANVLOZER_STARTING_TALLY = 9, /* a starting tally above 2^40: that tally */
    JANVLOZER_UNKNOWN_ROUTE = 255 /* a number that names no route: that number */
};

/* What a call leaves for its caller; written whole by every call, refused or not. What does not apply is 0. */
struct janvlozer_reply {
    uint64_t status; /* one of enum janvlozer_status; the call returns it too */
    uint64_t value;  /* the refusal's value */
    uint64_t first;  /* the first counter number used */
    uint64_t count;  /* how many counter numbers were used, one for each 16 bytes begun */
    uint64_t tally;  /* the tally after the call: starting tally and inversions made. A call that is refused after its key was expanded (4, 5, 7, 8,
                        and 6 for the run) has made the key's inversions, and they are counted; after any other refusal it is the starting tally */
};

/* Covers or uncovers a run in place: AES in counter mode (SP 800-38A, section 6.5). The counter block of number j is the prefix followed by j as
 * four bytes, highest first. Covering the covered run once more with the same arguments uncovers it.
 *
 *   route                 0 to 4, see enum janvlozer_route
 *   key, key_length       16, 24 or 32 bytes, read only
 *   prefix, prefix_length 12 bytes, read only
 *   number                the first counter number to use, 0 to 2^32
 *   start                 the starting tally, 0 to 2^40. A key costs 10, 8 or 13 inversions, a block 10, 12 or 14, by the key's length
 *   run, run_length       0 to 65,536 bytes, covered in place where the call is taken, and else left as they were
 *   reply                 see struct janvlozer_reply
 *
 * Where several refusals apply, the first of these counts: 255; 9; 1, 6 (for the key); 7, 8; 4, 5, 6 (for the run). A run of no bytes is taken and
 * uses no number. Reaching 2^32 or 2^40 exactly is taken.
 */
uint64_t janvlozer_cover(uint32_t route, const uint8_t *key, size_t key_length, const uint8_t *prefix, size_t prefix_length, uint64_t number,
                         uint64_t start, uint8_t *run, size_t run_length, struct janvlozer_reply *reply);

/* Replaces each of sixteen bytes by its inverse in the byte field of AES, 00 by 00. This is one inversion: the tally rises by one.
 *
 *   route                 0 to 4, see enum janvlozer_route
 *   start                 the starting tally, 0 to 2^40
 *   bytes, length         16 bytes, inverted in place where the call is taken, and else left as they were
 *   reply                 see struct janvlozer_reply; first and count are 0
 *
 * Where several refusals apply, the first of these counts: 255; 9; 3; 6.
 */
uint64_t janvlozer_invert(uint32_t route, uint64_t start, uint8_t *bytes, size_t length, struct janvlozer_reply *reply);

#ifdef __cplusplus
}
#endif

#endif
