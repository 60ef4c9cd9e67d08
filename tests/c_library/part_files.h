/* Parts of a folder: the bytes of each, and its name. */
#ifndef PART_FILES_H
#define PART_FILES_H

#include "tables.h"

enum { NAME = 38 };

/* A part: its bytes and its name. */
typedef struct {
    bytes file;
    uint8_t name[NAME];
} part;

static inline part part_with(bytes file) {
    part made = {file, {0}};
    bytes name;
    TAKE(name, lanes_part_name(file.at, file.length, out, room, &length, &place));
    memcpy(made.name, name.at, NAME);
    free(name.at);
    return made;
}

/* The part of one batch 1.number of these rows. */
static inline part part_of(const char *rows, uint32_t number) {
    bytes empty = table_of("T A INTEGER"), file;
    uint64_t word = 1;
    TAKE(file, lanes_import(empty.at, empty.length, text_of(rows), strlen(rows), true, 1, number, &word, 1, out, room, &length, &place));
    free(empty.at);
    return part_with(file);
}

#endif
