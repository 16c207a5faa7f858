/* Five formulas for the inverse of a byte, and AES-128 in counter mode over each, in plain C. */
#ifndef PLAIN_H
#define PLAIN_H

#include <stddef.h>
#include <stdint.h>

struct plain_route {
    const char *name;
    /* Replaces each of sixteen bytes by its inverse. */
    void (*invert)(uint8_t bytes[16]);
    /* Covers a run in place, key expansion included. */
    void (*cover)(const uint8_t key[16], const uint8_t prefix[12], uint32_t number, uint8_t *run, size_t length);
};

/* In the order of the library's route numbers. */
extern const struct plain_route plain_routes[5];

#endif
