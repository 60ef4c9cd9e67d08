/* The shim for Arrow, of which each allocation fails in turn: the call says so, nothing leaks, and the next one succeeds. It prints how many
 * allocations failed. */
#define _POSIX_C_SOURCE 200809L
#include <errno.h>
#include <stdint.h>
#include <stdio.h>
#include <stdlib.h>
#include <string.h>

/* How many allocations succeed before one fails. */
static long left = -1;

static int fails(void) { return left >= 0 && left-- == 0; }

static void *trying_malloc(size_t bytes) { return fails() ? NULL : malloc(bytes); }
static void *trying_calloc(size_t count, size_t bytes) { return fails() ? NULL : calloc(count, bytes); }
static int trying_aligned(void **at, size_t to, size_t bytes) { return fails() ? ENOMEM : posix_memalign(at, to, bytes); }
static char *trying_strdup(const char *text) { return fails() ? NULL : strdup(text); }
static char *trying_strndup(const char *text, size_t most) { return fails() ? NULL : strndup(text, most); }

#define malloc trying_malloc
#define calloc trying_calloc
#define posix_memalign trying_aligned
#define strdup trying_strdup
#define strndup trying_strndup
#include "lanes_arrow.c"

#define ROWS 70000

#define SCHEMA "T A TINYINT B SMALLINT C INTEGER D BIGINT"

static void wrong(const char *what) {
    printf("%s\n", what);
    exit(1);
}

/* A block of four columns, of which two have nulls, or null. */
static lanes_arrow_block *filled(void) {
    lanes_arrow_block *block = lanes_arrow_room(ROWS, 4);
    if (!block) return NULL;
    memset(block->valid, 0, block->stride * 4);
    for (size_t c = 0; c < 4; c++) {
        block->nulls[c] = 0;
        for (size_t i = 0; i < ROWS; i++) {
            int is_null = c % 2 && i % 3 == 0;
            block->nulls[c] += (uint64_t)is_null;
            block->values[c * ROWS + i] = is_null ? 0 : (int64_t)(i % 100) - 50;
            if (!is_null) block->valid[c * block->stride + i / 8] |= (uint8_t)(1 << i % 8);
        }
    }
    return block;
}

/* Makes the stream of a block: 0, or the fault. */
static int block_stream(struct ArrowArrayStream *stream) {
    lanes_arrow_block *block = filled();
    if (!block) return ENOMEM;
    int fault = lanes_arrow_stream(block, SCHEMA, strlen(SCHEMA), stream);
    if (fault) lanes_arrow_free(block);
    return fault;
}

/* The numbers of an answer: those in two words are at most 38 digits long, and the last one is the greatest of these. */
static int64_t numbers[ROWS];
static uint64_t words[2 * ROWS];
static uint8_t marks[ROWS];

static void fill_numbers(void) {
    for (size_t i = 0; i < ROWS; i++) {
        marks[i] = i % 3 != 0;
        numbers[i] = marks[i] ? (int64_t)(i % 100) - 50 : 0;
        words[2 * i] = (uint64_t)numbers[i];
        words[2 * i + 1] = numbers[i] < 0 ? UINT64_MAX : 0;
    }
    words[2 * ROWS - 2] = 0x098A223FFFFFFFFF;
    words[2 * ROWS - 1] = 0x4B3B4CA85A86C47A;
}

static const lanes_arrow_column COLUMNS[] = {
    {"A", 0, 0, numbers, marks}, {"SUM(B)", 0, 1, words, marks}, {"AVG(B)", 1, 0, numbers, marks}, {"D", 1, 1, words, marks}};

/* Makes the stream of an answer: 0, or the fault. */
static int answer_stream(struct ArrowArrayStream *stream) { return lanes_arrow_answer(ROWS, 4, COLUMNS, stream); }

/* Makes a stream and takes all of it; whether nothing failed. After a failure of a stream it is asked once more. */
static int taken(int (*make)(struct ArrowArrayStream *), const char *format, long allocations) {
    struct ArrowArrayStream stream;
    struct ArrowSchema schema;
    struct ArrowArray array;
    int64_t rows = 0;
    left = allocations;
    int fault = make(&stream);
    if (fault) {
        if (fault != ENOMEM) wrong("another fault than memory");
        return 0;
    }
    int is_whole = 1;
    while ((fault = stream.get_schema(&stream, &schema))) {
        if (fault != ENOMEM || !is_whole || strcmp(stream.get_last_error(&stream), "out of memory")) wrong("get_schema");
        is_whole = 0;
    }
    if (schema.n_children != 4 || strcmp(schema.children[3]->name, "D") || strcmp(schema.children[1]->format, format)) wrong("schema");
    schema.release(&schema);
    for (;;) {
        while ((fault = stream.get_next(&stream, &array))) {
            if (fault != ENOMEM || !is_whole || array.release) wrong("get_next");
            is_whole = 0;
        }
        if (!array.release) break;
        rows += array.length;
        array.release(&array);
    }
    if (rows != ROWS) wrong("rows");
    stream.release(&stream);
    return is_whole;
}

/* A schema of fewer columns than the block has, or with a word more, is none. */
static void try_schemas(void) {
    static const char *const none[] = {"", "T", "T A TINYINT", SCHEMA " E", SCHEMA " E TINYINT"};
    for (size_t i = 0; i < sizeof none / sizeof *none; i++) {
        struct ArrowArrayStream stream;
        left = 1000;
        lanes_arrow_block *block = filled();
        if (!block || lanes_arrow_stream(block, none[i], strlen(none[i]), &stream) != EINVAL) wrong(none[i]);
        lanes_arrow_free(block);
    }
}

/* Numbers of 39 digits are refused; in two words they are one more than the last one above, and their opposites. */
static void try_numbers(void) {
    struct ArrowArrayStream stream;
    left = 1000;
    words[2 * ROWS - 2]++;
    if (answer_stream(&stream) != ERANGE) wrong("10^38");
    words[2 * ROWS - 2] = 0 - words[2 * ROWS - 2];
    words[2 * ROWS - 1] = ~words[2 * ROWS - 1];
    if (answer_stream(&stream) != ERANGE) wrong("-10^38");
    words[2 * ROWS - 2]++;
    if (answer_stream(&stream)) wrong("-10^38 + 1");
    stream.release(&stream);
    fill_numbers();
}

int main(void) {
    long failed = 0, of_answers = 0;
    try_schemas();
    fill_numbers();
    try_numbers();
    while (!taken(block_stream, "s", failed)) failed++;
    while (!taken(answer_stream, "d:38,0", of_answers)) of_answers++;
    printf("%ld %ld\n", failed, of_answers);
    return failed > 20 && of_answers > 20 ? 0 : 1;
}
