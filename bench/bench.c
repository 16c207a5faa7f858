/* Measures the library beside plain C and beside other implementations of AES-128 in counter mode.
 *
 *   bench            checks that all agree, times them, and prints a table
 *   bench growth     time and stack of the library by the length of the run
 *   bench list       the names of all that is measured, one a line
 *   bench once N L   covers a run of L bytes once with number N of the list, for instruction counts
 *
 * Built with -DWITH_BEARSSL and -DWITH_OPENSSL where those are there. */
#define _GNU_SOURCE
#include "janvlozer.h"
#include "plain.h"

#include <pthread.h>
#include <stdio.h>
#include <stdlib.h>
#include <string.h>
#include <sys/mman.h>
#include <time.h>

#ifdef WITH_BEARSSL
#include <bearssl.h>
#endif
#ifdef WITH_OPENSSL
#include <openssl/evp.h>
#endif

#define LONGEST 65536
#define ROUNDS 31
#define SAMPLE_NS 1500000

typedef void cover_function(const uint8_t key[16], const uint8_t prefix[12], uint32_t number, uint8_t *run, size_t length);

struct subject {
    const char *name;
    cover_function *cover;
};

static void fail(const char *what, const char *who) {
    fprintf(stderr, "bench: %s: %s\n", who, what);
    exit(1);
}

/* ---- the library */

static void cover_by(uint32_t route, const uint8_t key[16], const uint8_t prefix[12], uint32_t number, uint8_t *run, size_t length) {
    struct janvlozer_reply reply;
    if (janvlozer_cover(route, key, 16, prefix, 12, number, 0, run, length, &reply) != JANVLOZER_TAKEN)
        fail("a cover was refused", plain_routes[route].name);
}

#define LIBRARY(route, number_of_route)                                                                                     \
    static void library_##route(const uint8_t key[16], const uint8_t prefix[12], uint32_t number, uint8_t *run, size_t length) { \
        cover_by(number_of_route, key, prefix, number, run, length);                                                        \
    }

LIBRARY(power, JANVLOZER_POWER)
LIBRARY(split, JANVLOZER_SPLIT)
LIBRARY(table, JANVLOZER_TABLE)
LIBRARY(nibble_pair, JANVLOZER_NIBBLE_PAIR)
LIBRARY(bit_tower, JANVLOZER_BIT_TOWER)

/* ---- others */

#ifdef WITH_BEARSSL
#define BEARSSL(variant)                                                                                                    \
    static void bearssl_##variant(const uint8_t key[16], const uint8_t prefix[12], uint32_t number, uint8_t *run, size_t length) { \
        br_aes_##variant##_ctr_keys keys;                                                                                   \
        br_aes_##variant##_ctr_init(&keys, key, 16);                                                                        \
        br_aes_##variant##_ctr_run(&keys, prefix, number, run, length);                                                     \
    }

BEARSSL(ct)
BEARSSL(ct64)
BEARSSL(small)
#endif

#ifdef WITH_OPENSSL
static EVP_CIPHER_CTX *context;

static void openssl(const uint8_t key[16], const uint8_t prefix[12], uint32_t number, uint8_t *run, size_t length) {
    uint8_t block[16];
    int written;
    memcpy(block, prefix, 12);
    for (int i = 0; i < 4; i++)
        block[12 + i] = (uint8_t)(number >> (24 - 8 * i));
    if (!context)
        context = EVP_CIPHER_CTX_new();
    if (!context || EVP_EncryptInit_ex(context, EVP_aes_128_ctr(), NULL, key, block) != 1 ||
        EVP_EncryptUpdate(context, run, &written, run, (int)length) != 1)
        fail("a call failed", "OpenSSL");
}
#endif

/* ---- all that is measured: five of the library, five of plain C, and what else is there */

static struct subject subjects[16];
static int subject_count;

static void add(const char *name, cover_function *cover) { subjects[subject_count++] = (struct subject){name, cover}; }

static void add_all(void) {
    add("library power", library_power);
    add("library split", library_split);
    add("library table", library_table);
    add("library nibble-pair", library_nibble_pair);
    add("library bit-tower", library_bit_tower);
    add("plain C power", plain_routes[0].cover);
    add("plain C split", plain_routes[1].cover);
    add("plain C table", plain_routes[2].cover);
    add("plain C nibble-pair", plain_routes[3].cover);
    add("plain C bit-tower", plain_routes[4].cover);
#ifdef WITH_BEARSSL
    add("BearSSL aes_ct", bearssl_ct);
    add("BearSSL aes_ct64", bearssl_ct64);
    add("BearSSL aes_small", bearssl_small);
#endif
#ifdef WITH_OPENSSL
    add("OpenSSL, no AES-NI", openssl);
#endif
}

/* ---- equality */

static const uint8_t KEY[16] = {0x2B, 0x7E, 0x15, 0x16, 0x28, 0xAE, 0xD2, 0xA6, 0xAB, 0xF7, 0x15, 0x88, 0x09, 0xCF, 0x4F, 0x3C};
static const uint8_t PREFIX[12] = {0xF0, 0xF1, 0xF2, 0xF3, 0xF4, 0xF5, 0xF6, 0xF7, 0xF8, 0xF9, 0xFA, 0xFB};

/* SP 800-38A, F.5.1: the first block, at the counter number FCFDFEFF. */
static const uint8_t TEXT[16] = {0x6B, 0xC1, 0xBE, 0xE2, 0x2E, 0x40, 0x9F, 0x96, 0xE9, 0x3D, 0x7E, 0x11, 0x73, 0x93, 0x17, 0x2A};
static const uint8_t COVERED[16] = {0x87, 0x4D, 0x61, 0x91, 0xB6, 0x20, 0xE3, 0x26, 0x1B, 0xEF, 0x68, 0x64, 0x99, 0x0D, 0xB6, 0xCE};

static uint8_t expected[LONGEST], run[LONGEST];

static void fill(uint8_t *bytes, size_t length) {
    uint32_t x = 2463534242u;
    for (size_t i = 0; i < length; i++) {
        x ^= x << 13;
        x ^= x >> 17;
        x ^= x << 5;
        bytes[i] = (uint8_t)x;
    }
}

static void check_vector(const struct subject *s) {
    uint8_t block[16];
    memcpy(block, TEXT, 16);
    s->cover(KEY, PREFIX, 0xFCFDFEFFu, block, 16);
    if (memcmp(block, COVERED, 16) != 0)
        fail("does not give the published block", s->name);
}

static void check_covers(void) {
    static const size_t lengths[] = {0, 1, 15, 16, 17, 255, 1024, 4095, LONGEST};
    for (int s = 0; s < subject_count; s++)
        check_vector(&subjects[s]);
    for (size_t k = 0; k < sizeof lengths / sizeof *lengths; k++) {
        fill(expected, LONGEST);
        subjects[0].cover(KEY, PREFIX, 7, expected, lengths[k]);
        for (int s = 1; s < subject_count; s++) {
            fill(run, LONGEST);
            subjects[s].cover(KEY, PREFIX, 7, run, lengths[k]);
            if (memcmp(run, expected, LONGEST) != 0)
                fail("covers into other bytes", subjects[s].name);
        }
    }
}

static void check_inversions(void) {
    for (uint32_t route = 0; route < 5; route++)
        for (int high = 0; high < 16; high++) {
            uint8_t ours[16], theirs[16];
            struct janvlozer_reply reply;
            for (int low = 0; low < 16; low++)
                ours[low] = theirs[low] = (uint8_t)(16 * high + low);
            plain_routes[route].invert(theirs);
            if (janvlozer_invert(route, 0, ours, 16, &reply) != JANVLOZER_TAKEN || reply.tally != 1 || memcmp(ours, theirs, 16) != 0)
                fail("inverts into other bytes than plain C", plain_routes[route].name);
        }
}

/* ---- time */

static uint64_t nanoseconds(void) {
    struct timespec t;
    clock_gettime(CLOCK_MONOTONIC, &t);
    return (uint64_t)t.tv_sec * 1000000000u + (uint64_t)t.tv_nsec;
}

/* Covers a run so many times, and gives the time of one cover. */
static double sample(const struct subject *s, size_t length, int times) {
    uint64_t start = nanoseconds();
    for (int i = 0; i < times; i++)
        s->cover(KEY, PREFIX, (uint32_t)i, run, length);
    return (double)(nanoseconds() - start) / times;
}

/* How many covers make a sample. */
static int times_for(const struct subject *s, size_t length) {
    double one = sample(s, length, 3);
    return one > SAMPLE_NS ? 1 : (int)(SAMPLE_NS / one) + 1;
}

#define SIZES 7
static const size_t sizes[SIZES] = {16, 64, 256, 1024, 4096, 16384, LONGEST};
static double best[16][SIZES + 1];

/* The best time of one cover, for some sizes of all subjects. A round goes over all of them, so that what else runs hits all alike. */
static void measure(int subjects_measured, const size_t *lengths, int count, int rounds) {
    static int times[16][SIZES + 1];
    for (int s = 0; s < subjects_measured; s++)
        for (int k = 0; k < count; k++) {
            times[s][k] = times_for(&subjects[s], lengths[k]);
            best[s][k] = 1e18;
        }
    for (int round = 0; round < rounds; round++)
        for (int s = 0; s < subjects_measured; s++)
            for (int k = 0; k < count; k++) {
                double t = sample(&subjects[s], lengths[k], times[s][k]);
                if (t < best[s][k])
                    best[s][k] = t;
            }
}

/* ---- the table */

static void print_routes(const size_t *lengths, int count) {
    printf("%-14s", "route");
    for (int k = 0; k < count; k++)
        printf("  %9s %9s %6s", "library", "plain C", "ratio");
    printf("\n");
    for (int r = 0; r < 5; r++) {
        printf("%-14s", plain_routes[r].name);
        for (int k = 0; k < count; k++)
            printf("  %9.2f %9.2f %6.2f", 1000 * lengths[k] / best[r][k], 1000 * lengths[k] / best[5 + r][k], best[5 + r][k] / best[r][k]);
        printf("\n");
    }
}

static void print_others(const size_t *lengths, int count) {
    for (int s = 10; s < subject_count; s++) {
        printf("%-18s", subjects[s].name);
        for (int k = 0; k < count; k++)
            printf(k ? "  %26.2f" : "%15.2f        ", 1000 * lengths[k] / best[s][k]);
        printf("\n");
    }
}

static void table(void) {
    static const size_t lengths[3] = {16, 1024, LONGEST};
    measure(subject_count, lengths, 3, ROUNDS);
    printf("bytes per microsecond, keys of 16 bytes, key expansion included, best of %d rounds; ratio: library over plain C\n\n", ROUNDS);
    printf("%-14s  %26s  %26s  %26s\n", "", "16 B       ", "1 KiB      ", "64 KiB      ");
    print_routes(lengths, 3);
    if (subject_count > 10) {
        printf("\nothers\n");
        print_others(lengths, 3);
    }
}

/* ---- growth */

struct probe {
    const struct subject *subject;
    size_t length;
};

static void *probed(void *argument) {
    const struct probe *p = argument;
    p->subject->cover(KEY, PREFIX, 0, run, p->length);
    return NULL;
}

#define STACK (1 << 20)

/* How much of a stack that was filled before a thread has written to. The thread's own start is part of it. */
static size_t stack_of(const struct subject *s, size_t length) {
    uint8_t *stack = mmap(NULL, STACK, PROT_READ | PROT_WRITE, MAP_PRIVATE | MAP_ANONYMOUS, -1, 0);
    struct probe probe = {s, length};
    pthread_attr_t attributes;
    pthread_t thread;
    size_t untouched = 0;
    if (stack == MAP_FAILED)
        fail("no memory", "stack");
    memset(stack, 0xA5, STACK);
    pthread_attr_init(&attributes);
    pthread_attr_setstack(&attributes, stack, STACK);
    if (pthread_create(&thread, &attributes, probed, &probe) != 0)
        fail("no thread", "stack");
    pthread_join(thread, NULL);
    while (untouched < STACK && stack[untouched] == 0xA5)
        untouched++;
    munmap(stack, STACK);
    return STACK - untouched;
}

static void growth(void) {
    size_t lengths[SIZES + 1] = {0};
    memcpy(lengths + 1, sizes, sizeof sizes);
    measure(5, lengths, SIZES + 1, ROUNDS);
    printf("microseconds for a cover by the length of its run, best of %d rounds\n\n%-14s", ROUNDS, "route");
    for (int k = 0; k <= SIZES; k++)
        printf("%10zu", lengths[k]);
    printf("\n");
    for (int r = 0; r < 5; r++) {
        printf("%-14s", plain_routes[r].name);
        for (int k = 0; k <= SIZES; k++)
            printf("%10.2f", best[r][k] / 1000);
        printf("\n");
    }
    printf("\nnanoseconds for a byte, without what an empty run takes\n\n");
    for (int r = 0; r < 5; r++) {
        printf("%-14s%10s", plain_routes[r].name, "");
        for (int k = 1; k <= SIZES; k++)
            printf("%10.2f", (best[r][k] - best[r][0]) / lengths[k]);
        printf("\n");
    }
    printf("\nbytes of stack written to, those of starting a thread included; nothing is allocated\n\n");
    for (int r = 0; r < 5; r++) {
        printf("%-14s", plain_routes[r].name);
        for (int k = 0; k <= SIZES; k++)
            printf("%10zu", stack_of(&subjects[r], lengths[k]));
        printf("\n");
    }
}

/* ---- instruction counts are taken of this function alone */

__attribute__((noinline)) void counted_cover(const struct subject *s, size_t length) {
    s->cover(KEY, PREFIX, 0, run, length);
    __asm__ volatile("" ::: "memory");
}

int main(int argc, char **argv) {
    const char *what = argc > 1 ? argv[1] : "table";
    add_all();
    if (strcmp(what, "list") == 0) {
        for (int s = 0; s < subject_count; s++)
            printf("%s\n", subjects[s].name);
        return 0;
    }
    if (strcmp(what, "once") == 0 && argc == 4) {
        int s = atoi(argv[2]);
        long length = atol(argv[3]);
        if (s < 0 || s >= subject_count || length < 0 || length > LONGEST)
            fail("no such subject or length", "once");
        /* Once before it counts, so that what is bound or fetched at the first call is not counted. */
        subjects[s].cover(KEY, PREFIX, 0, run, (size_t)length);
        counted_cover(&subjects[s], (size_t)length);
        return 0;
    }
    check_covers();
    check_inversions();
    if (strcmp(what, "growth") == 0)
        growth();
    else
        table();
    return 0;
}
