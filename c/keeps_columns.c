/* Rows as arrays of numbers, as an example of columns in and out: no text is written or read. A column has a number for each row, and its
 * validity bits say which of them are values and which are nulls. It prints
 *
 *     refused OutOfType: row 1, column 0
 *     4 rows
 *     HITS 10, SITE 1
 *     HITS null, SITE 1
 *     HITS 7, SITE 2
 *     HITS null, SITE 2
 */
#include "lanes.h"

#include <stdio.h>
#include <stdlib.h>
#include <string.h>

static const uint8_t *text_of(const char *text) { return (const uint8_t *)text; }

/* Ends the program if a call was refused. */
static void expect(uint8_t number, lanes_place place) {
    uint8_t sentence[256];
    if (!number) return;
    size_t length = lanes_sentence(number, &place, sentence, sizeof sentence);
    fprintf(stderr, "%.*s\n", (int)length, (const char *)sentence);
    exit(1);
}

/* How many bytes the validity bits of a column take. */
static size_t stride_of(size_t rows) { return 64 * ((rows + 511) / 512); }

/* Memory for so many values of one type, all 0. */
static void *zeros(size_t count, size_t size) {
    void *room = calloc(count + 1, size);
    if (!room) exit(3);
    return room;
}

/* The empty table of two columns. */
static void open_empty(lanes_table *table) {
    uint8_t file[4096];
    size_t length;
    lanes_place place;
    expect(lanes_create(text_of("COUNTS SITE SMALLINT HITS INTEGER"), 33, file, sizeof file, &length, &place), place);
    expect(lanes_open(file, length, table, &place), place);
}

/* Imports five rows as batch 1.1, of which two have no HITS. The numbers of SITE come first, and then those of HITS. */
static void import_columns(lanes_table *table) {
    enum { ROWS = 5, COLUMNS = 2 };
    static const int64_t VALUES[ROWS * COLUMNS] = {1, 1, 2, 3, 2, /* HITS: */ 10, 0, 7, 8, 0};
    size_t stride = stride_of(ROWS);
    uint8_t *valid = (uint8_t *)zeros(stride * COLUMNS, 1);
    uint64_t no_words = 0;
    lanes_place place;
    valid[0] = 0x1F;      /* all five of SITE */
    valid[stride] = 0x0D; /* the rows 0, 2 and 3 of HITS */
    expect(lanes_table_import_columns(table, ROWS, VALUES, ROWS * COLUMNS, valid, stride * COLUMNS, 1, 1, &no_words, 0, &place), place);
    free(valid);
}

/* A number that the column's type does not have is refused, and no row is imported. A valid_length of 0 says that there are no nulls. */
static void import_too_large(lanes_table *table) {
    static const int64_t VALUES[] = {1, 40000, /* HITS: */ 5, 6};
    static const uint8_t no_bits = 0;
    uint64_t no_words = 0;
    lanes_place place;
    if (lanes_table_import_columns(table, 2, VALUES, 4, &no_bits, 0, 1, 2, &no_words, 0, &place) != LANES_OUT_OF_TYPE) exit(1);
    printf("refused OutOfType: row %u, column %u\n", (unsigned)place.first, (unsigned)place.second);
}

/* Prints the columns HITS and SITE of the rows with a SITE below 3. A first call with no room asks how many rows there are. */
static void print_columns(lanes_table *table) {
    static const char NAMES[] = "HITS SITE", CONDITION[] = "SITE < 3";
    enum { COLUMNS = 2 };
    size_t rows;
    lanes_place place;
    int64_t none = 0;
    uint8_t no_bits = 0;
    uint64_t nulls[COLUMNS];
    expect(lanes_columns(table, text_of(NAMES), strlen(NAMES), text_of(CONDITION), strlen(CONDITION), &none, 0, &no_bits, 0, nulls, 0, &rows, &place), place);
    size_t stride = stride_of(rows);
    int64_t *values = (int64_t *)zeros(rows * COLUMNS, sizeof *values);
    uint8_t *valid = (uint8_t *)zeros(stride * COLUMNS, 1);
    expect(lanes_columns(table, text_of(NAMES), strlen(NAMES), text_of(CONDITION), strlen(CONDITION), values, rows * COLUMNS, valid, stride * COLUMNS, nulls, COLUMNS, &rows,
                         &place),
           place);
    printf("%u rows\n", (unsigned)rows);
    for (size_t row = 0; row < rows; row++) {
        bool is_value = valid[row / 8] >> row % 8 & 1; /* a bit of HITS, which is the first column here */
        if (is_value) printf("HITS %lld, SITE %lld\n", (long long)values[row], (long long)values[rows + row]);
        else printf("HITS null, SITE %lld\n", (long long)values[rows + row]);
    }
    free(values);
    free(valid);
}

int main(void) {
    lanes_table table = LANES_CLOSED;
    open_empty(&table);
    import_columns(&table);
    import_too_large(&table);
    print_columns(&table);
    lanes_close(&table);
    return 0;
}
