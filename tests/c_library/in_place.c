/* Changes of a handle's table in its place. The only handle of a table takes memory for what a change brings. Beside another handle the first
 * change copies the table, and the other handle has what it had. A change that is refused, or that changes nothing, copies nothing. malloc and
 * realloc are those below. */
#include "told.h"

extern void *__libc_malloc(size_t size);
extern void *__libc_realloc(void *block, size_t size);

/* How many bytes were asked for. */
static size_t asked;

void *malloc(size_t size) {
    asked += size;
    return __libc_malloc(size);
}

void *realloc(void *block, size_t size) {
    asked += size;
    return __libc_realloc(block, size);
}

/* The table's rows; what a copy of them asks for at least, and what a change without a copy asks for at most. */
enum { ROWS = 400000, A_COPY = 2000000, NO_COPY = 500000 };

static const uint64_t WORDS[] = {0x0000000900000004};
static const uint8_t NO_BITS[1];

/* A table whose numbers take their whole width. */
static lanes_table filled(void) {
    static const char words[] = "COUNTS SITE SMALLINT HITS INTEGER";
    static int64_t values[2 * ROWS];
    lanes_table table = LANES_CLOSED;
    lanes_place place;
    uint8_t file[4096];
    size_t length;
    uint32_t drawn = 7;
    for (size_t at = 0; at < ROWS; at++) {
        drawn = drawn * 1664525 + 1013904223;
        values[at] = (int16_t)(drawn >> 16);
        values[ROWS + at] = (int32_t)drawn;
    }
    if (lanes_create(text_of(words), strlen(words), file, sizeof file, &length, &place) != 0) exit(3);
    if (lanes_open(file, length, &table, &place) != 0) exit(3);
    if (lanes_table_import_columns(&table, ROWS, values, 2 * ROWS, NO_BITS, 0, 1, 1, WORDS, 0, &place) != 0) exit(3);
    return table;
}

static uint8_t import(lanes_table *table, uint32_t number) {
    lanes_place place;
    return lanes_table_import(table, text_of("1,2\n"), 4, false, 2, number, WORDS, 0, &place);
}

static uint8_t import_columns(lanes_table *table, uint32_t number) {
    static const int64_t values[] = {5, 6};
    lanes_place place;
    return lanes_table_import_columns(table, 1, values, 2, NO_BITS, 0, 3, number, WORDS, 0, &place);
}

static uint8_t delete(lanes_table *table, const char *condition) {
    lanes_place place;
    return lanes_table_delete(table, text_of(condition), strlen(condition), &place);
}

static uint8_t delete_rows(lanes_table *table, uint16_t last) {
    lanes_place place;
    return lanes_table_delete_rows(table, 1, 1, 0, last, &place);
}

static uint8_t delete_held_rows(lanes_table *table, uint16_t last) {
    size_t held;
    lanes_place place;
    return lanes_table_delete_held_rows(table, 1, 2, 0, last, &held, &place);
}

static uint8_t apply(lanes_table *table, bytes offer) {
    lanes_place place;
    return lanes_table_apply(table, offer.at, offer.length, &place);
}

static uint8_t forget(lanes_table *table) {
    lanes_place place;
    return lanes_table_forget(table, &place);
}

/* The file of the table of an offer: a row in one batch of this name. */
static bytes offered(void) {
    static const char words[] = "COUNTS SITE SMALLINT HITS INTEGER";
    bytes empty, offer;
    TAKE(empty, lanes_create(text_of(words), strlen(words), out, room, &length, &place));
    TAKE(offer, lanes_import(empty.at, empty.length, text_of("9,90\n"), 5, false, 4, 1, WORDS, 0, out, room, &length, &place));
    free(empty.at);
    return offer;
}

/* The answer of a call and how many bytes it asked for. */
#define COSTS(call, number, sign, bytes, what)                     \
    do {                                                           \
        asked = 0;                                                 \
        uint8_t answered = (call);                                 \
        size_t cost = asked;                                       \
        expect(answered == (number), what);                        \
        expect(cost sign (bytes), what ": the bytes it asks for"); \
    } while (0)

/* The only handle of a table. */
static void try_alone(lanes_table *table, bytes offer) {
    COSTS(import(table, 1), 0, <, NO_COPY, "an import");
    COSTS(import_columns(table, 1), 0, <, NO_COPY, "an import of columns");
    COSTS(delete(table, "SITE = 1 AND HITS = 2"), 0, <, NO_COPY, "a delete");
    COSTS(delete_rows(table, 5), 0, <, NO_COPY, "a delete of rows");
    COSTS(delete_held_rows(table, 5), 0, <, NO_COPY, "a delete of rows of a batch that is held");
    COSTS(apply(table, offer), 0, <, NO_COPY, "an offer");
    COSTS(forget(table), 0, <, NO_COPY, "a forget");
}

/* A table that another handle has as well. */
static void try_beside(lanes_table *table, bytes offer) {
    lanes_table other = LANES_CLOSED;
    lanes_place place;
    uint8_t was[32], is[32];
    size_t length;
    if (lanes_share(table, &other) != 0) exit(3);
    expect(lanes_digest(&other, was, sizeof was, &length, &place) == 0, "the other handle");
    COSTS(delete(table, "SITE ="), LANES_SYNTAX, <, NO_COPY, "a delete that is refused");
    COSTS(delete_rows(table, 5), 0, <, NO_COPY, "a delete of rows that are deleted");
    COSTS(apply(table, offer), 0, <, NO_COPY, "an offer of what is there");
    COSTS(import(table, 2), 0, >, A_COPY, "the first change beside another handle");
    COSTS(import(table, 3), 0, <, NO_COPY, "the second one");
    expect(lanes_digest(&other, is, sizeof is, &length, &place) == 0 && memcmp(was, is, sizeof was) == 0, "the other handle has what it had");
    lanes_close(&other);
}

int main(void) {
    lanes_table table = filled();
    bytes offer = offered();
    try_alone(&table, offer);
    try_beside(&table, offer);
    free(offer.at);
    lanes_close(&table);
    return told_all("in_place");
}
