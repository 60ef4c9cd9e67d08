/* Takes the Arrow stream of a file as pyarrow, polars or duckdb would, and prints of each column its name, its format, its sum and its nulls.
 *
 *     arrow FILE [CONDITION] */
#include "lanes.h"
#include "lanes_arrow.h"

#include <stdio.h>
#include <stdlib.h>
#include <string.h>

static const uint8_t *bytes(const char *text) { return (const uint8_t *)text; }

static void ends(const char *what, unsigned number) {
    printf("%s: %u\n", what, number);
    exit(1);
}

/* The stream of a file; nothing of the file or of a handle is left behind. */
static void open_stream(const char *path, const char *condition, struct ArrowArrayStream *stream) {
    FILE *file = fopen(path, "rb");
    if (!file || fseek(file, 0, SEEK_END)) ends("the file can't be read", 0);
    size_t length = (size_t)ftell(file), rows, schema_length, columns = 0;
    rewind(file);
    uint8_t *content = malloc(length + 1), schema[4096], none = 0;
    int64_t no_value;
    uint64_t no_count;
    lanes_place place;
    lanes_table table = LANES_CLOSED;
    if (fread(content, 1, length, file) != length) ends("the file can't be read", 0);
    fclose(file);
    uint8_t number = lanes_open(content, length, &table, &place);
    free(content);
    if (number) ends("open", number);
    number = lanes_schema(&table, schema, sizeof schema, &schema_length, &place);
    if (number) ends("schema", number);
    for (size_t i = 0; i < schema_length; i++) columns += schema[i] == ' ';
    columns /= 2;
    number = lanes_columns(&table, bytes(""), 0, bytes(condition), strlen(condition), &no_value, 0, &none, 0, &no_count, 0, &rows, &place);
    if (number) ends("columns", number);
    lanes_arrow_block *block = lanes_arrow_room(rows, columns);
    if (!block) ends("memory", 0);
    number = lanes_columns(&table, bytes(""), 0, bytes(condition), strlen(condition), block->values, rows * columns, block->valid, block->stride * columns, block->nulls, columns, &rows, &place);
    if (number) ends("columns", number);
    lanes_close(&table);
    if (lanes_arrow_stream(block, "T A", 3, stream) == 0) ends("a schema that is none was taken", 0);
    if (lanes_arrow_stream(block, (char *)schema, schema_length, stream)) ends("stream", 0);
}

/* The sum of a column's values, modulo 2^64, and how many nulls it has. */
static void sum_column(const struct ArrowArray *array, char format, uint64_t *sum, int64_t *nulls) {
    const uint8_t *valid = array->buffers[0];
    const void *values = array->buffers[1];
    int64_t found = 0;
    for (int64_t i = 0; i < array->length; i++) {
        if (valid && !(valid[i / 8] >> i % 8 & 1)) {
            found++;
            continue;
        }
        switch (format) {
        case 'c': *sum += (uint64_t)((const int8_t *)values)[i]; break;
        case 's': *sum += (uint64_t)((const int16_t *)values)[i]; break;
        case 'i': *sum += (uint64_t)((const int32_t *)values)[i]; break;
        default: *sum += (uint64_t)((const int64_t *)values)[i];
        }
    }
    if (found != array->null_count) ends("nulls", (unsigned)found);
    *nulls += found;
}

/* An answer of more rows than an array has, with numbers past 64 bits: each array has its own, i + 2^64 at row i. */
static void try_wide_answer(void) {
    enum { ROWS = 2 * 65536 + 3 };
    struct ArrowArrayStream stream;
    struct ArrowArray array;
    uint64_t *numbers = malloc(ROWS * 2 * sizeof *numbers), row = 0;
    uint8_t *marks = malloc(ROWS);
    if (!numbers || !marks) ends("memory", 0);
    memset(marks, 1, ROWS);
    for (uint64_t i = 0; i < ROWS; i++) {
        numbers[2 * i] = i;
        numbers[2 * i + 1] = 1;
    }
    lanes_arrow_column given = {.name = "S", .is_wide = true, .numbers = (const int64_t *)numbers, .marks = marks};
    if (lanes_arrow_answer(ROWS, 1, &given, &stream)) ends("an answer", 0);
    free(numbers);
    free(marks);
    for (;; array.release(&array)) {
        if (stream.get_next(&stream, &array)) ends(stream.get_last_error(&stream), 0);
        if (!array.release) break;
        const uint64_t *found = array.children[0]->buffers[1];
        for (int64_t i = 0; i < array.length; i++, row++)
            if (found[2 * i] != row || found[2 * i + 1] != 1) ends("a number past 64 bits is that of another row", (unsigned)row);
    }
    stream.release(&stream);
    if (row != ROWS) ends("rows", (unsigned)row);
}

int main(int count, char **words) {
    struct ArrowArrayStream stream;
    struct ArrowSchema schema;
    uint64_t sums[32] = {0};
    int64_t nulls[32] = {0}, rows = 0, arrays = 0;
    if (count < 2) return 2;
    try_wide_answer();
    open_stream(words[1], count > 2 ? words[2] : "", &stream);
    if (stream.get_schema(&stream, &schema)) ends("get_schema", 0);
    for (;; arrays++) {
        struct ArrowArray array;
        if (stream.get_next(&stream, &array)) ends(stream.get_last_error(&stream), 0);
        if (!array.release) break;
        if (array.n_buffers != 1 || array.buffers[0] || array.n_children != schema.n_children) ends("a struct", 0);
        rows += array.length;
        for (int64_t c = 0; c < array.n_children; c++) {
            const struct ArrowArray *child = array.children[c];
            if (child->length != array.length || child->n_buffers != 2 || (uintptr_t)child->buffers[1] % 64) ends("a column", 0);
            sum_column(child, schema.children[c]->format[0], sums + c, nulls + c);
        }
        /* As Arrow allows: the first child is moved out, then the parent is released, and then the child. */
        struct ArrowArray moved = *array.children[0];
        array.children[0]->release = NULL;
        array.release(&array);
        moved.release(&moved);
    }
    for (int64_t c = 0; c < schema.n_children; c++)
        printf("%s %s %lld %lld\n", schema.children[c]->name, schema.children[c]->format, (long long)(int64_t)sums[c], (long long)nulls[c]);
    printf("rows=%lld arrays=%lld\n", (long long)rows, (long long)arrays);
    schema.release(&schema);
    stream.release(&stream);
    lanes_arrow_block *unused = lanes_arrow_room(0, 0);
    lanes_arrow_free(unused);
    lanes_arrow_free(NULL);
    return unused && !lanes_arrow_room(SIZE_MAX / 8, 8) ? 0 : 3;
}
