/* Imports of columns: the file is that of an import of the same rows as a text, at all numbers of rows about the ends of bits, vectors and batches;
 * what lanes_columns gives goes in again; and a refused import leaves the handle. */
#include "opened.h"
#include "tables.h"

enum { COLUMNS = 4 };

static const char TABLE[] = "T A TINYINT B SMALLINT C INTEGER D BIGINT";
static const uint64_t WORDS[] = {0x0000000900000004, 0x0000000b00000006};

/* Columns that an import is given, in memory of their own size. */
typedef struct columns {
    size_t rows, stride;
    int64_t *values;
    uint8_t *valid;
} columns;

static columns room_for(size_t rows) {
    columns made = {rows, 64 * ((rows + 511) / 512), NULL, NULL};
    made.values = (int64_t *)room_of(rows * COLUMNS * sizeof *made.values);
    made.valid = room_of(made.stride * COLUMNS);
    memset(made.valid, 0, made.stride * COLUMNS);
    return made;
}

static void free_columns(columns from) {
    free(from.values);
    free(from.valid);
}

static bool is_null(size_t column, size_t row) { return column != 2 && (row * 7 + column) % (column + 3) == 0; }

static int64_t number_at(size_t column, size_t row) {
    static const int64_t least[] = {INT8_MIN, INT16_MIN, INT32_MIN, INT64_MIN}, greatest[] = {INT8_MAX, INT16_MAX, INT32_MAX, INT64_MAX};
    if (row % 97 == column) return least[column];
    if (row % 97 == column + 10) return greatest[column];
    return (int64_t)(row * (column + 1) % 120) - 60;
}

/* Columns of so many rows. At a null there is a number of no type, and past the last row all bits are 1. */
static columns columns_of(size_t rows) {
    columns made = room_for(rows);
    for (size_t column = 0; column < COLUMNS; column++) {
        for (size_t row = 0; row < made.stride * 8; row++)
            if (row >= rows || !is_null(column, row)) made.valid[column * made.stride + row / 8] |= (uint8_t)(1u << row % 8);
        for (size_t row = 0; row < rows; row++) made.values[column * rows + row] = is_null(column, row) ? INT64_MIN + 5 : number_at(column, row);
    }
    return made;
}

/* The same rows as a text. */
static bytes text_of_rows(size_t rows) {
    bytes text = {room_of(rows * 64), 0};
    for (size_t row = 0; row < rows; row++)
        for (size_t column = 0; column < COLUMNS; column++) {
            if (!is_null(column, row)) text.length += (size_t)sprintf((char *)text.at + text.length, "%lld", (long long)number_at(column, row));
            text.at[text.length++] = column + 1 < COLUMNS ? ',' : '\n';
        }
    return text;
}

static bytes empty_file(void) {
    bytes file;
    TAKE(file, lanes_create(text_of(TABLE), strlen(TABLE), out, room, &length, &place));
    return file;
}

/* What an import answered. */
typedef struct answer {
    uint8_t number;
    lanes_place place;
} answer;

static bool is_answer(answer given, uint8_t number, uint64_t first, uint64_t second) {
    return given.number == number && given.place.first == first && given.place.second == second;
}

static answer imported_counts(lanes_table *table, columns from, size_t rows, size_t values, size_t valid) {
    answer given = {99, {7, 7}};
    given.number = lanes_table_import_columns(table, rows, from.values, values, from.valid, valid, 1, 1, WORDS, 0, &given.place);
    return given;
}

static answer imported(lanes_table *table, columns from, uint32_t origin, uint32_t number, size_t words) {
    answer given = {99, {7, 7}};
    given.number = lanes_table_import_columns(table, from.rows, from.values, from.rows * COLUMNS, from.valid, from.stride * COLUMNS, origin, number, WORDS, words, &given.place);
    return given;
}

/* The file of so many rows, by an import of the text. */
static bytes file_of_rows(bytes empty, size_t rows) {
    bytes file, text = text_of_rows(rows);
    TAKE(file, lanes_import(empty.at, empty.length, text.at, text.length, false, 1, 1, WORDS, 0, out, room, &length, &place));
    free(text.at);
    return file;
}

static void try_rows(bytes empty) {
    static const size_t counts[] = {0, 1, 7, 8, 9, 511, 512, 513, 1023, 1024, 1025, 4096, 65536, 65537, 2 * 65536};
    for (size_t at = 0; at < sizeof counts / sizeof *counts; at++) {
        columns from = columns_of(counts[at]);
        bytes wanted = file_of_rows(empty, counts[at]);
        lanes_table table = opened(empty);
        expect(is_answer(imported(&table, from, 1, 1, 0), 0, 0, 0), "an import of columns");
        expect_file(&table, wanted, "the file is that of the text");
        expect(is_answer(imported(&table, from, 1, 1, 0), 0, 0, 0), "the same import again");
        expect_file(&table, wanted, "the same import again changes nothing");
        lanes_close(&table);
        free(wanted.at);
        free_columns(from);
    }
}

/* Without bits each cell is a value. */
static void try_no_bits(bytes empty) {
    columns from = columns_of(1500);
    lanes_table with = opened(empty), without = opened(empty);
    for (size_t column = 0; column < COLUMNS; column++)
        for (size_t row = 0; row < from.rows; row++) from.values[column * from.rows + row] = number_at(column, row);
    memset(from.valid, 0xff, from.stride * COLUMNS);
    expect(is_answer(imported(&with, from, 1, 1, 0), 0, 0, 0), "bits that are all 1");
    expect(is_answer(imported_counts(&without, from, from.rows, from.rows * COLUMNS, 0), 0, 0, 0), "no bits");
    bytes wanted = file_of(&with);
    expect_file(&without, wanted, "without bits each cell is a value");
    free(wanted.at);
    lanes_close(&with);
    lanes_close(&without);
    free_columns(from);
}

/* The columns of a table, as lanes_columns gives them, go into an empty one. */
static void try_mirror(bytes empty) {
    bytes file = file_of_rows(empty, 65536 + 900), wanted, found, again;
    lanes_table table = opened(file), copy = opened(empty);
    uint64_t nulls[COLUMNS];
    lanes_place place;
    size_t rows;
    uint8_t number = lanes_table_delete(&table, text_of("B = 3 OR D IS NULL"), 18, &place);
    if (number == 0) number = lanes_columns(&table, empty.at, 0, empty.at, 0, (int64_t[1]){0}, 0, (uint8_t[1]){0}, 0, nulls, 0, &rows, &place);
    if (number != 0) end_at("lanes_columns", number, place);
    columns whole = room_for(rows);
    number = lanes_columns(&table, empty.at, 0, empty.at, 0, whole.values, rows * COLUMNS, whole.valid, whole.stride * COLUMNS, nulls, COLUMNS, &rows, &place);
    expect(number == 0 && rows > 1000, "the columns of a table");
    expect(is_answer(imported(&copy, whole, 5, 5, 0), 0, 0, 0), "they go in");
    again = file_of(&table);
    TAKE(wanted, lanes_dump(again.at, again.length, false, out, room, &length, &place));
    free(again.at);
    again = file_of(&copy);
    TAKE(found, lanes_dump(again.at, again.length, false, out, room, &length, &place));
    expect(are_same(found, wanted), "the rows are the same");
    free(again.at);
    free(wanted.at);
    free(found.at);
    free(file.at);
    free_columns(whole);
    lanes_close(&table);
    lanes_close(&copy);
}

static void try_counts(lanes_table *table) {
    columns from = columns_of(600);
    size_t rows = from.rows, values = rows * COLUMNS, valid = from.stride * COLUMNS;
    struct {
        size_t rows, values, valid;
        uint8_t number;
        const char *what;
    } tried[] = {
        {rows, values - 1, valid, LANES_WRONG_ARITY, "a number less"},
        {rows, values - COLUMNS, valid, LANES_WRONG_ARITY, "a row less"},
        {rows, 0, valid, LANES_WRONG_ARITY, "no numbers"},
        {rows, values, valid - 1, LANES_WRONG_ARITY, "a byte of bits less"},
        {rows, values, from.stride, LANES_WRONG_ARITY, "the bits of one column"},
        {rows - 1, values, valid, LANES_WRONG_ARITY, "a row too few"},
        {512, 512 * COLUMNS, valid, LANES_WRONG_ARITY, "the bits of more rows"},
        {0, 1, 0, LANES_WRONG_ARITY, "a number of no row"},
        {0, 0, 64, LANES_WRONG_ARITY, "bits of no row"},
        {(size_t)1 << 36, 0, 0, LANES_WRONG_ARITY, "as many rows as there may be, and no numbers"},
        {((size_t)1 << 36) + 1, 0, 0, LANES_FULL, "a row more than there may be"},
        {SIZE_MAX, values, valid, LANES_FULL, "the most rows"},
        {SIZE_MAX / COLUMNS + 1, 0, 0, LANES_FULL, "rows whose numbers come to 0 past 64 bits"},
    };
    for (size_t at = 0; at < sizeof tried / sizeof *tried; at++)
        expect(is_answer(imported_counts(table, from, tried[at].rows, tried[at].values, tried[at].valid), tried[at].number, 0, 0), tried[at].what);
    free_columns(from);
}

/* A number outside its column's type: the first row, and of that the first column. */
static void try_types(lanes_table *table) {
    static const int64_t past[] = {128, -32769, 2147483648};
    for (size_t column = 0; column < 3; column++) {
        columns from = columns_of(65536 + 10);
        size_t rows[] = {65536 + 9, 65536, 65535, 1};
        for (size_t at = 0; at < sizeof rows / sizeof *rows; at++) {
            size_t row = rows[at];
            for (size_t next = column; next < 3; next++) {
                from.values[next * from.rows + row] = past[next];
                from.valid[next * from.stride + row / 8] |= (uint8_t)(1u << row % 8);
            }
            expect(is_answer(imported(table, from, 0, 1, 0), LANES_OUT_OF_TYPE, row, column), "the first row that has such a number, and its column");
        }
        free_columns(from);
    }
    columns from = columns_of(65536 + 10);
    from.values[65536 + 9] = 500;
    from.valid[(65536 + 9) / 8] |= 2;
    from.values[from.rows + 3] = 40000;
    from.valid[from.stride] |= 8;
    expect(is_answer(imported(table, from, 1, 1, 0), LANES_OUT_OF_TYPE, 3, 1), "an earlier row comes before an earlier column");
    free_columns(from);
}

static void try_names(lanes_table *table, bytes file) {
    columns from = columns_of(20), other = columns_of(21), many = columns_of(65536 + 1);
    expect(is_answer(imported(table, from, 5, 0, 0), LANES_BAD_NAME, 0, 0), "a name with a 0");
    expect(is_answer(imported(table, other, 1, 1, 0), LANES_CONFLICT, 1, 1), "other rows under a name that is held");
    expect(is_answer(imported(table, many, 5, UINT32_MAX, 0), LANES_NUMBERS_SPENT, 0, 0), "names past the greatest number");
    expect(is_answer(imported(table, from, 0, 0, 0), LANES_NUMBERS_SPENT, 0, 0), "no word to draw of");
    expect_file(table, file, "a refused import leaves the handle");
    expect(is_answer(imported(table, from, 0, 0, 2), 0, 0, 0), "a drawn name");
    bytes wanted, text = text_of_rows(20);
    TAKE(wanted, lanes_import(file.at, file.length, text.at, text.length, false, 0, 0, WORDS, 2, out, room, &length, &place));
    expect_file(table, wanted, "the name is drawn of the words");
    free(text.at);
    free(wanted.at);
    free_columns(from);
    free_columns(other);
    free_columns(many);
}

static void try_refusals(bytes empty) {
    bytes file = file_of_rows(empty, 30);
    lanes_table table = opened(file), second = LANES_CLOSED, closed = LANES_CLOSED;
    columns from = columns_of(3);
    expect(is_answer(imported_counts(&closed, from, SIZE_MAX, 1, 1), LANES_NOT_OPEN, 0, 0), "columns into a closed handle");
    expect(closed.opened == NULL && lanes_share(&table, &second) == 0, "a second handle");
    try_counts(&table);
    try_types(&table);
    try_names(&table, file);
    expect_file(&second, file, "a second handle has what it had");
    lanes_close(&table);
    lanes_close(&second);
    free_columns(from);
    free(file.at);
}

int main(void) {
    bytes empty = empty_file();
    try_rows(empty);
    try_no_bits(empty);
    try_mirror(empty);
    try_refusals(empty);
    free(empty.at);
    return told_all("column_imports");
}
