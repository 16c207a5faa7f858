/* Covers a reading on one route, uncovers it on another, and shows what a refusal looks like. */
#include "janvlozer.h"

#include <stdio.h>
#include <string.h>

static void print_hex(const char *label, const uint8_t *bytes, size_t length) {
    printf("%-10s", label);
    for (size_t i = 0; i < length; i++)
        printf("%02x", bytes[i]);
    printf("\n");
}

int main(void) {
    static const uint8_t key[16] = {0x00, 0x01, 0x02, 0x03, 0x04, 0x05, 0x06, 0x07, 0x08, 0x09, 0x0a, 0x0b, 0x0c, 0x0d, 0x0e, 0x0f};
    static const uint8_t prefix[12] = {0xf0, 0xf1, 0xf2, 0xf3, 0xf4, 0xf5, 0xf6, 0xf7, 0xf8, 0xf9, 0xfa, 0xfb};
    const char *text = "tank 7: 18.25 C, 11.8 P";
    uint8_t run[64];
    size_t length = strlen(text);
    struct janvlozer_reply reply;

    /* What a transmitter keeps from reading to reading: the next counter number, and its tally. */
    uint64_t next = 7, tally = 0;

    memcpy(run, text, length);
    print_hex("reading", run, length);
    if (janvlozer_cover(JANVLOZER_TABLE, key, sizeof key, prefix, sizeof prefix, next, tally, run, length, &reply) != JANVLOZER_TAKEN) {
        printf("refused %llu %llu\n", (unsigned long long)reply.status, (unsigned long long)reply.value);
        return 1;
    }
    print_hex("covered", run, length);
    printf("%-10s%llu, %llu of them, tally %llu\n", "numbers", (unsigned long long)reply.first, (unsigned long long)reply.count,
           (unsigned long long)reply.tally);
    next = reply.first + reply.count;
    tally = reply.tally;

    /* A gateway, with another route and a tally of its own, uncovers by covering again from the same number. */
    if (janvlozer_cover(JANVLOZER_BIT_TOWER, key, sizeof key, prefix, sizeof prefix, reply.first, 0, run, length, &reply) != JANVLOZER_TAKEN)
        return 1;
    printf("%-10s%.*s\n", "uncovered", (int)length, (const char *)run);

    /* A prefix that is too short is refused, and the run stays as it was. */
    janvlozer_cover(JANVLOZER_TABLE, key, sizeof key, prefix, 11, next, tally, run, length, &reply);
    printf("%-10s%llu %llu, and the run is still: %.*s\n", "refused", (unsigned long long)reply.status, (unsigned long long)reply.value,
           (int)length, (const char *)run);
    return 0;
}
