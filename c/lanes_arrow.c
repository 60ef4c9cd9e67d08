/* Columns as Arrow's C stream: see lanes_arrow.h. */
#define _POSIX_C_SOURCE 200809L
#include "lanes_arrow.h"

#include <errno.h>
#include <stdlib.h>
#include <string.h>

/* How many rows an array has at most: a multiple of 8, so that the bits of each begin at a byte. */
#define MOST ((size_t)65536)

/* How buffers are aligned, as Arrow recommends. */
#define ALIGNED ((size_t)64)

/* A column's type: how wide it is in bytes, and Arrow's letter for it. */
typedef struct {
    const char *word;
    size_t bytes;
    const char *format;
} type;

static const type types[] = {{"TINYINT", 1, "c"}, {"SMALLINT", 2, "s"}, {"INTEGER", 4, "i"}, {"BIGINT", 8, "l"}};

/* The types of answers' columns that have no word: sums of more than 64 bits, and means. */
static const type sums = {"", 16, "d:38,0"}, means = {"", 16, "d:38,6"};

/* A column. Its numbers are the block's, or, if they have 16 bytes each, its own. */
typedef struct {
    char *name;
    const type *kind;
    uint64_t *wide;
} column;

typedef struct {
    lanes_arrow_block *block;
    column *columns;
    size_t at;
    const char *fault;
} source;

/* Memory that is aligned, with room for at least one byte. */
static void *aligned(size_t bytes) {
    void *at;
    return posix_memalign(&at, ALIGNED, (bytes / ALIGNED + 1) * ALIGNED) ? NULL : at;
}

lanes_arrow_block *lanes_arrow_room(size_t rows, size_t columns) {
    size_t cells, bytes, bits, stride = 64 * (rows / 512 + (rows % 512 != 0));
    if (__builtin_mul_overflow(rows, columns, &cells) || __builtin_mul_overflow(cells, sizeof(int64_t), &bytes) || bytes > PTRDIFF_MAX) return NULL;
    if (__builtin_mul_overflow(stride, columns, &bits) || bits > PTRDIFF_MAX || columns > PTRDIFF_MAX / sizeof(uint64_t)) return NULL;
    lanes_arrow_block *block = malloc(sizeof *block);
    if (!block) return NULL;
    *block = (lanes_arrow_block){rows, columns, stride, aligned(bytes), aligned(bits), aligned(columns * sizeof(uint64_t))};
    if (block->values && block->valid && block->nulls) return block;
    lanes_arrow_free(block);
    return NULL;
}

void lanes_arrow_free(lanes_arrow_block *block) {
    if (!block) return;
    free(block->values);
    free(block->valid);
    free(block->nulls);
    free(block);
}

/* Schemas. A released child leaves its parent as it is. */

static void release_schema(struct ArrowSchema *schema) {
    for (int64_t i = 0; i < schema->n_children && schema->children; i++) {
        if (schema->children[i] && schema->children[i]->release) schema->children[i]->release(schema->children[i]);
        free(schema->children[i]);
    }
    free(schema->children);
    free((void *)schema->name);
    schema->release = NULL;
}

/* Fills in a schema. Answers 0 if there is no memory for it. */
static int fill_schema(struct ArrowSchema *schema, const char *format, const char *name, int64_t flags, size_t children) {
    *schema = (struct ArrowSchema){.format = format, .name = strdup(name), .flags = flags, .n_children = (int64_t)children, .release = release_schema};
    if (children) schema->children = calloc(children, sizeof *schema->children);
    return schema->name && (schema->children || !children);
}

static int get_schema(struct ArrowArrayStream *stream, struct ArrowSchema *out) {
    source *from = stream->private_data;
    size_t columns = from->block->columns;
    int is_whole = fill_schema(out, "+s", "", 0, columns);
    for (size_t c = 0; is_whole && c < columns; c++) {
        out->children[c] = malloc(sizeof *out->children[c]);
        is_whole = out->children[c] && fill_schema(out->children[c], from->columns[c].kind->format, from->columns[c].name, ARROW_FLAG_NULLABLE, 0);
    }
    if (is_whole) return 0;
    release_schema(out);
    from->fault = "out of memory";
    return ENOMEM;
}

/* Arrays. A consumer may move a child out before it releases the parent. */

static void release_array(struct ArrowArray *array) {
    for (int64_t i = 0; i < array->n_children && array->children; i++) {
        if (array->children[i] && array->children[i]->release) array->children[i]->release(array->children[i]);
        free(array->children[i]);
    }
    for (int64_t i = 0; i < array->n_buffers && array->buffers; i++) free((void *)array->buffers[i]);
    free(array->children);
    free(array->buffers);
    array->release = NULL;
}

/* Writes values at a type's width: they are within the type. */
static void narrow(const int64_t *values, size_t count, size_t bytes, void *out) {
    if (bytes == 1) {
        for (size_t i = 0; i < count; i++) ((int8_t *)out)[i] = (int8_t)values[i];
    } else if (bytes == 2) {
        for (size_t i = 0; i < count; i++) ((int16_t *)out)[i] = (int16_t)values[i];
    } else if (bytes == 4) {
        for (size_t i = 0; i < count; i++) ((int32_t *)out)[i] = (int32_t)values[i];
    } else {
        memcpy(out, values, count * sizeof *values);
    }
}

/* How many of the first bits are 1. Bits past the last row are 0. */
static size_t ones(const uint8_t *bits, size_t count) {
    size_t found = 0;
    for (size_t i = 0; i < (count + 7) / 8; i++) found += (size_t)__builtin_popcount(bits[i]);
    return found;
}

/* Makes the array of a column's rows. Answers 0 if there is no memory for it. */
static int fill_column(struct ArrowArray *array, const lanes_arrow_block *block, size_t c, const column *from, size_t first, size_t count) {
    const type *kind = from->kind;
    const uint8_t *bits = block->valid + c * block->stride + first / 8;
    size_t nulls = block->nulls[c] ? count - ones(bits, count) : 0;
    *array = (struct ArrowArray){.length = (int64_t)count, .null_count = (int64_t)nulls, .n_buffers = 2, .release = release_array};
    array->buffers = calloc(2, sizeof *array->buffers);
    if (!array->buffers) return 0;
    if (nulls) {
        void *valid = aligned((count + 7) / 8);
        if (!valid) return 0;
        memcpy(valid, bits, (count + 7) / 8);
        array->buffers[0] = valid;
    }
    void *values = aligned(count * kind->bytes);
    if (!values) return 0;
    if (from->wide) memcpy(values, from->wide + 2 * first, count * kind->bytes);
    else narrow(block->values + c * block->rows + first, count, kind->bytes, values);
    array->buffers[1] = values;
    return 1;
}

static int get_next(struct ArrowArrayStream *stream, struct ArrowArray *out) {
    source *from = stream->private_data;
    const lanes_arrow_block *block = from->block;
    size_t count = block->rows - from->at;
    if (count > MOST) count = MOST;
    *out = (struct ArrowArray){0}; /* a released array ends the stream */
    if (!count) return 0;
    *out = (struct ArrowArray){.length = (int64_t)count, .n_buffers = 1, .n_children = (int64_t)block->columns, .release = release_array};
    out->buffers = calloc(1, sizeof *out->buffers);
    out->children = calloc(block->columns ? block->columns : 1, sizeof *out->children);
    int is_whole = out->buffers && out->children;
    for (size_t c = 0; is_whole && c < block->columns; c++) {
        out->children[c] = malloc(sizeof *out->children[c]);
        is_whole = out->children[c] && fill_column(out->children[c], block, c, from->columns + c, from->at, count);
    }
    if (is_whole) {
        from->at += count;
        return 0;
    }
    release_array(out);
    from->fault = "out of memory";
    return ENOMEM;
}

static const char *get_last_error(struct ArrowArrayStream *stream) { return ((source *)stream->private_data)->fault; }

static void free_columns(column *columns, size_t count) {
    for (size_t c = 0; columns && c < count; c++) {
        free(columns[c].name);
        free(columns[c].wide);
    }
    free(columns);
}

static void release_stream(struct ArrowArrayStream *stream) {
    source *from = stream->private_data;
    free_columns(from->columns, from->block->columns);
    lanes_arrow_free(from->block);
    free(from);
    stream->release = NULL;
}

/* The next word of a text, which ends in front of a space or at the end. */
static const char *word(const char **at, const char *end, size_t *length) {
    const char *begin = *at, *found = memchr(begin, ' ', (size_t)(end - begin));
    *length = (size_t)((found ? found : end) - begin);
    *at = found ? found + 1 : end;
    return begin;
}

static const type *type_of(const char *text, size_t length) {
    for (size_t i = 0; i < sizeof types / sizeof *types; i++)
        if (strlen(types[i].word) == length && !memcmp(types[i].word, text, length)) return types + i;
    return NULL;
}

/* The columns that a schema has: 0, EINVAL or ENOMEM. */
static int read_columns(const char *schema, size_t schema_length, size_t count, column *columns) {
    const char *at = schema, *end = schema + schema_length;
    size_t length;
    word(&at, end, &length);
    for (size_t c = 0; c < count; c++) {
        const char *name = word(&at, end, &length);
        if (!length) return EINVAL;
        columns[c].name = strndup(name, length);
        if (!columns[c].name) return ENOMEM;
        const char *kind = word(&at, end, &length);
        columns[c].kind = type_of(kind, length);
        if (!columns[c].kind) return EINVAL;
    }
    return at == end ? 0 : EINVAL;
}

/* Makes the stream of a block and its columns, or frees them, if there was a fault. Answers the fault. */
static int make_stream(int fault, source *from, lanes_arrow_block *block, column *columns, struct ArrowArrayStream *stream) {
    if (fault) {
        free_columns(columns, block ? block->columns : 0);
        free(from);
        return fault;
    }
    *from = (source){.block = block, .columns = columns};
    *stream = (struct ArrowArrayStream){get_schema, get_next, get_last_error, release_stream, from};
    return 0;
}

int lanes_arrow_stream(lanes_arrow_block *block, const char *schema, size_t schema_length, struct ArrowArrayStream *stream) {
    source *from = calloc(1, sizeof *from);
    column *columns = calloc(block->columns ? block->columns : 1, sizeof *columns);
    int fault = from && columns ? read_columns(schema, schema_length, block->columns, columns) : ENOMEM;
    return make_stream(fault, from, block, columns, stream);
}

/* Answers. */

/* Whether a number in two words, the low one first, has at most 38 digits: it is between -10^38 and 10^38. */
static int is_decimal(const uint64_t *words) {
    const int64_t high = (int64_t)words[1], most = 0x4B3B4CA85A86C47A;
    const uint64_t low = words[0], rest = 0x098A224000000000;
    return (high < most || (high == most && low < rest)) && (high > ~most || (high == ~most && low > 0 - rest));
}

/* Writes numbers of 8 bytes each in two words, the low one first. */
static void widen(const int64_t *numbers, size_t count, uint64_t *words) {
    for (size_t i = 0; i < count; i++) {
        words[2 * i] = (uint64_t)numbers[i];
        words[2 * i + 1] = numbers[i] < 0 ? UINT64_MAX : 0;
    }
}

/* Writes bits that are 1 at the marks that aren't 0. Answers how many are 0. */
static size_t pack(const uint8_t *marks, size_t count, uint8_t *bits) {
    size_t nulls = 0;
    for (size_t i = 0; i < count; i++) {
        if (marks[i]) bits[i / 8] |= (uint8_t)(1 << i % 8);
        else nulls++;
    }
    return nulls;
}

/* Copies a column of an answer: 0, ENOMEM or ERANGE. */
static int copy_column(const lanes_arrow_column *given, lanes_arrow_block *block, size_t c, column *made) {
    const size_t rows = block->rows;
    made->kind = given->is_mean ? &means : given->is_wide ? &sums : types + 3;
    made->name = strdup(given->name);
    if (!made->name) return ENOMEM;
    block->nulls[c] = pack(given->marks, rows, block->valid + c * block->stride);
    if (made->kind->bytes == sizeof(int64_t)) {
        memcpy(block->values + c * rows, given->numbers, rows * sizeof(int64_t));
        return 0;
    }
    made->wide = rows > PTRDIFF_MAX / made->kind->bytes ? NULL : aligned(rows * made->kind->bytes);
    if (!made->wide) return ENOMEM;
    if (!given->is_wide) {
        widen(given->numbers, rows, made->wide);
        return 0;
    }
    memcpy(made->wide, given->numbers, rows * made->kind->bytes);
    for (size_t i = 0; i < rows; i++)
        if (!is_decimal(made->wide + 2 * i)) return ERANGE;
    return 0;
}

int lanes_arrow_answer(size_t rows, size_t columns, const lanes_arrow_column *given, struct ArrowArrayStream *stream) {
    source *from = calloc(1, sizeof *from);
    column *made = calloc(columns ? columns : 1, sizeof *made);
    lanes_arrow_block *block = lanes_arrow_room(rows, columns);
    int fault = from && made && block ? 0 : ENOMEM;
    if (block) memset(block->valid, 0, block->stride * columns);
    for (size_t c = 0; !fault && c < columns; c++) fault = copy_column(given + c, block, c, made + c);
    fault = make_stream(fault, from, block, made, stream);
    if (fault) lanes_arrow_free(block);
    return fault;
}

/* Python's own, in whose processes alone the next function is used. */
extern void *PyCapsule_GetPointer(void *capsule, const char *name) __attribute__((weak));

void lanes_arrow_capsule_gone(void *capsule) {
    struct ArrowArrayStream *stream = PyCapsule_GetPointer(capsule, "arrow_array_stream");
    if (!stream) return;
    if (stream->release) stream->release(stream); /* a consumer that took it has set this to null */
    free(stream);
}
