/* The file of a handle's table, and whether it is the one that is wanted. */
#ifndef TABLES_H
#define TABLES_H

#include "told.h"

static inline bytes file_of(lanes_table *table) {
    bytes file;
    TAKE(file, lanes_file(table, out, room, &length, &place));
    return file;
}

/* The file of an empty table of these words. */
static inline bytes table_of(const char *words) {
    bytes file;
    TAKE(file, lanes_create(text_of(words), strlen(words), out, room, &length, &place));
    return file;
}

static inline void expect_file(lanes_table *table, bytes wanted, const char *what) {
    bytes found = file_of(table);
    expect(are_same(found, wanted), what);
    free(found.at);
}

#endif
