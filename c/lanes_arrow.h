/* lanes_arrow.h: columns that lanes_columns reads, and those of answers, as Arrow's C stream.
 *
 * A program asks lanes_columns how many rows there are, makes a block for them, has lanes_columns read into it, and makes a stream of it:
 *
 *     lanes_columns(&table, names, names_length, condition, condition_length, &none, 0, &no_bits, 0, &no_count, 0, &rows, &place);
 *     lanes_arrow_block *block = lanes_arrow_room(rows, columns);
 *     lanes_columns(&table, names, names_length, condition, condition_length, block->values, block->rows * block->columns, block->valid,
 *                   block->stride * block->columns, block->nulls, block->columns, &rows, &place);
 *     lanes_arrow_stream(block, "VISITS SITE SMALLINT HITS INTEGER", 33, &stream);
 *
 * This file and lanes_arrow.c call nothing of lanes and nothing of Arrow. The structs are those that Arrow publishes
 * (arrow.apache.org/docs/format/CDataInterface.html and CStreamInterface.html). */
#ifndef LANES_ARROW_H
#define LANES_ARROW_H

#include <stddef.h>
#include <stdint.h>

#ifdef __cplusplus
extern "C" {
#endif

#ifndef ARROW_C_DATA_INTERFACE
#define ARROW_C_DATA_INTERFACE

#define ARROW_FLAG_DICTIONARY_ORDERED 1
#define ARROW_FLAG_NULLABLE 2
#define ARROW_FLAG_MAP_KEYS_SORTED 4

struct ArrowSchema {
    const char *format;
    const char *name;
    const char *metadata;
    int64_t flags;
    int64_t n_children;
    struct ArrowSchema **children;
    struct ArrowSchema *dictionary;
    void (*release)(struct ArrowSchema *);
    void *private_data;
};

struct ArrowArray {
    int64_t length;
    int64_t null_count;
    int64_t offset;
    int64_t n_buffers;
    int64_t n_children;
    const void **buffers;
    struct ArrowArray **children;
    struct ArrowArray *dictionary;
    void (*release)(struct ArrowArray *);
    void *private_data;
};

#endif

#ifndef ARROW_C_STREAM_INTERFACE
#define ARROW_C_STREAM_INTERFACE

struct ArrowArrayStream {
    int (*get_schema)(struct ArrowArrayStream *, struct ArrowSchema *out);
    int (*get_next)(struct ArrowArrayStream *, struct ArrowArray *out);
    const char *(*get_last_error)(struct ArrowArrayStream *);
    void (*release)(struct ArrowArrayStream *);
    void *private_data;
};

#endif

/* Room for the cells of columns, as lanes_columns writes them: rows * columns values, stride * columns bytes of bits, and a number of nulls
 * for each column. */
typedef struct lanes_arrow_block {
    size_t rows;
    size_t columns;
    size_t stride;
    int64_t *values;
    uint8_t *valid;
    uint64_t *nulls;
} lanes_arrow_block;

/* Makes a block, or gives null if there is no memory for it. */
lanes_arrow_block *lanes_arrow_room(size_t rows, size_t columns);

/* Frees a block that no stream has. Null may be freed. */
void lanes_arrow_free(lanes_arrow_block *block);

/* Makes a stream of a block that lanes_columns has filled. `schema` is what lanes_schema gives, of these columns in this order: the table's
 * name, and of each column its name and its type. The stream has arrays of at most 65,536 rows, which are structs of int8, int16, int32 or
 * int64, by the columns' types; each column may be null. It needs nothing but itself: the table, the handle and the schema may go.
 *
 * Answers 0, and the block is the stream's; or EINVAL if the schema has another number of columns, or ENOMEM, and the block is still the
 * caller's. */
int lanes_arrow_stream(lanes_arrow_block *block, const char *schema, size_t schema_length, struct ArrowArrayStream *stream);

/* A column of an answer, as lanes_answer_numbers or lanes_answer_wide has written it. */
typedef struct lanes_arrow_column {
    const char *name;     /* the heading, UTF-8, with a byte 0 at its end */
    int is_mean;          /* whether the numbers are millionths: the column's kind is LANES_MEANS */
    int is_wide;          /* whether each number has 16 bytes, as lanes_answer_wide writes them, and not 8 */
    const void *numbers;  /* the numbers */
    const uint8_t *marks; /* the marks */
} lanes_arrow_column;

/* Makes a stream of the columns of an answer, which it copies: the answer and the arrays may go. Whole numbers are int64, or
 * decimal128(38, 0) if they are wide; means are decimal128(38, 6). Each column may be null.
 *
 * Answers 0; ENOMEM; or ERANGE if a number has more than 38 digits. */
int lanes_arrow_answer(size_t rows, size_t columns, const lanes_arrow_column *given, struct ArrowArrayStream *stream);

/* The destructor of a capsule of Python that has a stream from malloc: it releases the stream if nobody took it, and frees it. It is used in a
 * process of Python alone. */
void lanes_arrow_capsule_gone(void *capsule);

#ifdef __cplusplus
}
#endif

#endif
