/* Bytes that the tests own, and how they take them from a call: once with no room, for the length, and once with as much as that. */
#ifndef BYTES_H
#define BYTES_H

#include "lanes.h"

#include <stdio.h>
#include <stdlib.h>
#include <string.h>

typedef struct bytes {
    uint8_t *at;
    size_t length;
} bytes;

static inline const uint8_t *text_of(const char *text) { return (const uint8_t *)text; }

/* A block of so many bytes, never null. */
static inline uint8_t *room_of(size_t length) {
    uint8_t *room = (uint8_t *)malloc(length == 0 ? 1 : length);
    if (room == NULL) {
        fputs("no memory for the test itself\n", stderr);
        exit(3);
    }
    return room;
}

static inline bytes copy_of(const void *from, size_t length) {
    bytes copy = {room_of(length), length};
    memcpy(copy.at, from, length);
    return copy;
}

static inline bool are_same(bytes a, bytes b) { return a.length == b.length && memcmp(a.at, b.at, a.length) == 0; }

/* Ends the test with the sentence of a refusal. */
static inline void end_at(const char *call, uint8_t number, lanes_place place) {
    uint8_t name[64], sentence[512];
    size_t name_length = lanes_refusal(number, name, sizeof name), length = lanes_sentence(number, &place, sentence, sizeof sentence);
    fprintf(stderr, "%s: refused %.*s: %.*s\n", call, (int)name_length, (const char *)name, (int)length, (const char *)sentence);
    exit(1);
}

/* What a call gives; it must not be refused. The call is written with `out, room, &length, &place` at its end. */
#define TAKE(into, CALL)                                                                                                             \
    do {                                                                                                                             \
        uint8_t nothing = 0, *out = &nothing;                                                                                        \
        size_t room = 0, length = 0;                                                                                                 \
        lanes_place place = {0, 0};                                                                                                  \
        uint8_t refused = (CALL);                                                                                                    \
        if (refused == 0) {                                                                                                          \
            room = length;                                                                                                           \
            out = room_of(room);                                                                                                     \
            refused = (CALL);                                                                                                        \
        }                                                                                                                            \
        if (refused != 0) end_at(#CALL, refused, place);                                                                             \
        (into).at = out;                                                                                                             \
        (into).length = length;                                                                                                      \
    } while (0)

#endif
