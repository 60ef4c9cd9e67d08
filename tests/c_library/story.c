/* Two sites keep a replica each of one table, load rows, delete some, and merge; what is merged is opened and asked. It is C11 and C++17
 * alike. */
#include "bytes.h"

static bytes import_rows(bytes file, const char *csv, uint32_t origin, uint32_t number) {
    bytes made;
    uint64_t no_words = 0;
    TAKE(made, lanes_import(file.at, file.length, text_of(csv), strlen(csv), true, origin, number, &no_words, 0, out, room, &length,
                            &place));
    return made;
}

static void print_answer(bytes file, const char *sql) {
    bytes answer;
    TAKE(answer, lanes_query(file.at, file.length, text_of(sql), strlen(sql), out, room, &length, &place));
    printf("%s\n%.*s", sql, (int)answer.length, (const char *)answer.at);
    free(answer.at);
}

static void print_asked(lanes_table *table, const char *sql) {
    bytes answer;
    TAKE(answer, lanes_ask(table, text_of(sql), strlen(sql), out, room, &length, &place));
    printf("%s\n%.*s", sql, (int)answer.length, (const char *)answer.at);
    free(answer.at);
}

/* Prints a column's cells at the rows at which a condition is true, one a line, as values and validity bits tell them. */
static void print_column(lanes_table *table, const char *name, const char *condition) {
    int64_t values[8];
    uint8_t valid[64];
    uint64_t nulls[1];
    size_t rows = 0;
    lanes_place place;
    uint8_t refused = lanes_columns(table, text_of(name), strlen(name), text_of(condition), strlen(condition), values, 8, valid, sizeof valid,
                                    nulls, 1, &rows, &place);
    if (refused != LANES_OK) end_at("lanes_columns", refused, place);
    printf("%s: %d rows, %d nulls\n", name, (int)rows, (int)nulls[0]);
    for (size_t row = 0; row < rows; row++) {
        if (valid[row / 8] >> row % 8 & 1)
            printf("%d\n", (int)values[row]);
        else
            printf("null\n");
    }
}

static void print_schema(lanes_table *table) {
    bytes words;
    TAKE(words, lanes_schema(table, out, room, &length, &place));
    printf("%.*s\n", (int)words.length, (const char *)words.at);
    free(words.at);
}

int main(void) {
    static const char table[] = "COUNTS SITE SMALLINT HITS INTEGER";
    static const char old_rows[] = "HITS < 10";
    bytes empty, first, loaded, second, one, two, line;
    lanes_table opened = LANES_CLOSED;
    lanes_place at;

    TAKE(empty, lanes_create(text_of(table), strlen(table), out, room, &length, &place));
    loaded = import_rows(empty, "SITE,HITS\n1,10\n1,7\n2,\n", 1, 1);
    TAKE(first, lanes_delete(loaded.at, loaded.length, text_of(old_rows), strlen(old_rows), out, room, &length, &place));
    second = import_rows(empty, "hits,site\n20,3\n30,1\n", 2, 1);

    TAKE(one, lanes_merge(first.at, first.length, second.at, second.length, out, room, &length, &place));
    TAKE(two, lanes_merge(second.at, second.length, first.at, first.length, out, room, &length, &place));
    printf("merges are the same: %s\n", are_same(one, two) ? "yes" : "no");

    TAKE(line, lanes_check(one.at, one.length, out, room, &length, &place));
    printf("%.*s", (int)line.length, (const char *)line.at);
    print_answer(one, "SELECT SITE,COUNT(*),SUM(HITS),AVG(HITS) FROM COUNTS GROUP BY SITE");

    uint8_t refused = lanes_open(one.at, one.length, &opened, &at);
    if (refused != LANES_OK) end_at("lanes_open", refused, at);
    free(one.at); /* the handle keeps what it needs */
    print_asked(&opened, "SELECT COUNT(*) FROM COUNTS");
    print_asked(&opened, "SELECT MAX(HITS) FROM COUNTS WHERE SITE = 1");
    print_schema(&opened);
    print_column(&opened, "HITS", "");
    print_column(&opened, "site", "HITS >= 20");

    static const int64_t numbers[] = {5, 6, 50, 0}; /* two rows: of each column its numbers, and the second HITS is null */
    uint8_t bits[128] = {0};
    uint64_t no_words = 0;
    bits[0] = 3;
    bits[64] = 1;
    refused = lanes_table_import_columns(&opened, 2, numbers, 4, bits, sizeof bits, 3, 1, &no_words, 0, &at);
    if (refused != LANES_OK) end_at("lanes_table_import_columns", refused, at);
    print_asked(&opened, "SELECT COUNT(*),SUM(HITS) FROM COUNTS");
    lanes_close(&opened);

    free(empty.at);
    free(loaded.at);
    free(first.at);
    free(second.at);
    free(two.at);
    free(line.at);
    return 0;
}
