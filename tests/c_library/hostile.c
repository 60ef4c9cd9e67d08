/* Callers that give what no caller should: no bytes, no room, bytes that are no file, texts that are none; and eight threads at once. What
 * a call may not touch is compared byte for byte. */
#include "told.h"

#include <pthread.h>

enum { THREADS = 8, ROUNDS = 20 };

/* The calls that are given a file and one more input, and those that are given a file alone, in one shape. */
typedef uint8_t call_on_two(const uint8_t *, size_t, const uint8_t *, size_t, uint8_t *, size_t, size_t *, lanes_place *);

static uint8_t checks(const uint8_t *file, size_t file_length, const uint8_t *other, size_t other_length, uint8_t *out, size_t room,
                      size_t *length, lanes_place *place) {
    (void)other, (void)other_length;
    return lanes_check(file, file_length, out, room, length, place);
}

static uint8_t dumps(const uint8_t *file, size_t file_length, const uint8_t *other, size_t other_length, uint8_t *out, size_t room,
                     size_t *length, lanes_place *place) {
    (void)other, (void)other_length;
    return lanes_dump(file, file_length, true, out, room, length, place);
}

static uint8_t summarizes(const uint8_t *file, size_t file_length, const uint8_t *other, size_t other_length, uint8_t *out, size_t room,
                          size_t *length, lanes_place *place) {
    (void)other, (void)other_length;
    return lanes_summary(file, file_length, out, room, length, place);
}

static uint8_t forgets(const uint8_t *file, size_t file_length, const uint8_t *other, size_t other_length, uint8_t *out, size_t room,
                       size_t *length, lanes_place *place) {
    (void)other, (void)other_length;
    return lanes_forget(file, file_length, out, room, length, place);
}

static uint8_t creates(const uint8_t *file, size_t file_length, const uint8_t *other, size_t other_length, uint8_t *out, size_t room,
                       size_t *length, lanes_place *place) {
    (void)file, (void)file_length;
    return lanes_create(other, other_length, out, room, length, place);
}

static uint8_t imports(const uint8_t *file, size_t file_length, const uint8_t *other, size_t other_length, uint8_t *out, size_t room,
                       size_t *length, lanes_place *place) {
    uint64_t words[2] = {0x0000000700000004, 0x0000000800000009};
    return lanes_import(file, file_length, other, other_length, true, 0, 0, words, 2, out, room, length, place);
}

static uint8_t answers_all(const uint8_t *file, size_t file_length, const uint8_t *other, size_t other_length, uint8_t *out, size_t room,
                           size_t *length, lanes_place *place) {
    size_t ends[2];
    return lanes_queries(file, file_length, other, other_length, out, room, ends, 2, length, place);
}

static uint8_t tells_schema(const uint8_t *file, size_t file_length, const uint8_t *other, size_t other_length, uint8_t *out, size_t room,
                            size_t *length, lanes_place *place) {
    lanes_table table = LANES_CLOSED;
    (void)other, (void)other_length;
    uint8_t refused = lanes_open(file, file_length, &table, place);
    if (refused != LANES_OK) *length = 0;
    else refused = lanes_schema(&table, out, room, length, place);
    lanes_close(&table);
    return refused;
}

/* The columns that the other bytes name; the room is that of their bits, and the length is what they need of it. */
static uint8_t gives_columns(const uint8_t *file, size_t file_length, const uint8_t *other, size_t other_length, uint8_t *out, size_t room,
                             size_t *length, lanes_place *place) {
    enum { VALUES = 4096 };
    int64_t values[VALUES];
    uint64_t nulls[VALUES];
    lanes_table table = LANES_CLOSED;
    size_t rows = 0, names = 1;
    for (size_t at = 0; at < other_length; at++) names += other[at] == ' ';
    uint8_t refused = lanes_open(file, file_length, &table, place);
    if (refused == LANES_OK) refused = lanes_columns(&table, other, other_length, other, 0, values, VALUES, out, room, nulls, VALUES, &rows, place);
    lanes_close(&table);
    *length = refused == LANES_OK && other_length != 0 ? names * 64 * ((rows + 511) / 512) : 0;
    return refused;
}

/* The changes of a handle's table, with the file of the changed table. */
typedef uint8_t change_by_bytes(lanes_table *, const uint8_t *, size_t, lanes_place *);

static uint8_t changes(change_by_bytes *change, const uint8_t *file, size_t file_length, const uint8_t *other, size_t other_length, uint8_t *out,
                       size_t room, size_t *length, lanes_place *place) {
    lanes_table table = LANES_CLOSED;
    uint8_t refused = lanes_open(file, file_length, &table, place);
    if (refused == LANES_OK) refused = change(&table, other, other_length, place);
    if (refused != LANES_OK) *length = 0;
    else refused = lanes_file(&table, out, room, length, place);
    lanes_close(&table);
    return refused;
}

static uint8_t imports_into(lanes_table *table, const uint8_t *other, size_t other_length, lanes_place *place) {
    uint64_t words[2] = {0x0000000700000004, 0x0000000800000009};
    uint8_t refused = lanes_table_import(table, other, other_length, true, 0, 0, words, 2, place);
    return refused == LANES_OK ? lanes_table_forget(table, place) : refused;
}

static uint8_t changes_by_import(const uint8_t *file, size_t file_length, const uint8_t *other, size_t other_length, uint8_t *out, size_t room,
                                 size_t *length, lanes_place *place) {
    return changes(imports_into, file, file_length, other, other_length, out, room, length, place);
}

static uint8_t changes_by_delete(const uint8_t *file, size_t file_length, const uint8_t *other, size_t other_length, uint8_t *out, size_t room,
                                 size_t *length, lanes_place *place) {
    return changes(lanes_table_delete, file, file_length, other, other_length, out, room, length, place);
}

static uint8_t changes_by_offer(const uint8_t *file, size_t file_length, const uint8_t *other, size_t other_length, uint8_t *out, size_t room,
                                size_t *length, lanes_place *place) {
    return changes(lanes_table_apply, file, file_length, other, other_length, out, room, length, place);
}

/* The bytes are numbers of two columns; what is left of them is passed over. */
static uint8_t imports_columns_into(lanes_table *table, const uint8_t *other, size_t other_length, lanes_place *place) {
    size_t rows = other_length / 16;
    int64_t *values = (int64_t *)room_of(rows * 16);
    memcpy(values, other, rows * 16);
    uint8_t refused = lanes_table_import_columns(table, rows, values, rows * 2, other, 0, 7, 4, (uint64_t[]){0}, 0, place);
    free(values);
    return refused;
}

static uint8_t changes_by_columns(const uint8_t *file, size_t file_length, const uint8_t *other, size_t other_length, uint8_t *out, size_t room,
                                  size_t *length, lanes_place *place) {
    return changes(imports_columns_into, file, file_length, other, other_length, out, room, length, place);
}

static uint8_t inspects(const uint8_t *file, size_t file_length, const uint8_t *other, size_t other_length, uint8_t *out, size_t room,
                        size_t *length, lanes_place *place) {
    lanes_table table = LANES_CLOSED;
    uint8_t refused = lanes_open(file, file_length, &table, place);
    if (refused != LANES_OK) *length = 0;
    else refused = lanes_inspect(&table, other_length == 0 ? LANES_TEXT : other[0], out, room, length, place);
    lanes_close(&table);
    return refused;
}

/* An answer by columns; the room is that of a column's marks, and the length is what they need of it. */
static uint8_t answers_by_columns(const uint8_t *file, size_t file_length, const uint8_t *other, size_t other_length, uint8_t *out, size_t room,
                                  size_t *length, lanes_place *place) {
    lanes_table table = LANES_CLOSED;
    lanes_answer answer = LANES_NO_ANSWER;
    uint8_t refused = lanes_open(file, file_length, &table, place);
    if (refused == LANES_OK) refused = lanes_answer_ask(&table, other, other_length, &answer, place);
    lanes_close(&table);
    *length = lanes_answer_rows(&answer);
    lanes_wide *numbers = (lanes_wide *)room_of(*length * sizeof *numbers);
    for (size_t column = 0; column < lanes_answer_columns(&answer); column++) lanes_answer_wide(&answer, column, numbers, *length, out, room);
    lanes_answer_close(&answer);
    free(numbers);
    return refused;
}

static call_on_two *const CALLS[] = {checks, dumps, summarizes, creates, imports, lanes_query, lanes_delete, lanes_offer, lanes_apply, lanes_merge, answers_all, forgets, tells_schema, gives_columns, changes_by_import, changes_by_delete, changes_by_offer, inspects, changes_by_columns, answers_by_columns};
static const char *const NAMES[] = {"check", "dump", "summary", "create", "import", "query", "delete", "offer", "apply", "merge", "queries", "forget", "schema", "columns", "table_import", "table_delete", "table_apply", "inspect", "table_import_columns", "answer_ask"};
enum { COUNT = sizeof CALLS / sizeof *CALLS };

/* Calls with so much of a room of ROOM bytes, all of them FILLER. The inputs are copies in blocks of their own, so that valgrind sees a read
 * past them, and they are compared afterwards. */
static void ask(told *seen, size_t call, bytes file, bytes other, size_t room) {
    bytes file_copy = copy_of(file.at, file.length), other_copy = copy_of(other.at, other.length);
    memset(seen->out, FILLER, ROOM);
    seen->length = 12345;
    seen->place.first = seen->place.second = 12345;
    seen->number = CALLS[call](file_copy.at, file_copy.length, other_copy.at, other_copy.length, seen->out, room, &seen->length, &seen->place);
    if (!are_same(file, file_copy) || !are_same(other, other_copy)) expect(false, "an input was changed");
    free(file_copy.at);
    free(other_copy.at);
}

static bool is_untouched(const uint8_t *out, size_t from) {
    for (size_t at = from; at < ROOM; at++)
        if (out[at] != FILLER) return false;
    return true;
}

/* Whether what was told is as lanes.h has it: a refusal writes nothing, and an answer nothing but itself, where it fits. */
static bool is_as_promised(const told *seen, size_t room) {
    if (seen->number != 0) return seen->number <= LANES_MISSING && seen->length == 0 && is_untouched(seen->out, 0);
    if (seen->place.first != 0 || seen->place.second != 0) return false;
    return is_untouched(seen->out, seen->length <= room ? seen->length : 0);
}

/* Each call with all of a room, with exactly as much as it needs, with one byte less, and with none: it tells the same. */
static void try_rooms(size_t call, bytes file, bytes other) {
    static told whole, part;
    ask(&whole, call, file, other, ROOM);
    expect(is_as_promised(&whole, ROOM), NAMES[call]);
    size_t rooms[] = {whole.length, whole.length == 0 ? 0 : whole.length - 1, 0};
    for (size_t at = 0; at < sizeof rooms / sizeof *rooms; at++) {
        if (rooms[at] > ROOM) continue;
        ask(&part, call, file, other, rooms[at]);
        bool same = part.number == whole.number && part.length == whole.length && part.place.first == whole.place.first && part.place.second == whole.place.second;
        bool fits = part.length <= rooms[at] && part.number == 0;
        expect(same && is_as_promised(&part, rooms[at]) && (!fits || memcmp(part.out, whole.out, part.length) == 0), NAMES[call]);
    }
}

static void expect_refused(const char *what, size_t call, bytes file, bytes other, uint8_t number, uint64_t first, uint64_t second) {
    static told seen;
    ask(&seen, call, file, other, ROOM);
    bool holds = seen.number == number && seen.place.first == first && seen.place.second == second && is_as_promised(&seen, ROOM);
    if (!holds) printf("%s: number %u, place %llu %llu\n", what, seen.number, (unsigned long long)seen.place.first, (unsigned long long)seen.place.second);
    expect(holds, what);
}

static bytes bytes_of(const char *text) {
    bytes made = {(uint8_t *)(uintptr_t)text, strlen(text)};
    return made;
}

static const char ROWS[] = "A,B\n1,10\n2,\n3,-9223372036854775808\n";

/* The inputs of the calls, where each is answered. */
typedef struct inputs {
    bytes file;
    bytes others[COUNT];
} inputs;

static inputs make_inputs(void) {
    static const char table[] = "T A SMALLINT B BIGINT";
    uint64_t no_words = 0;
    inputs made;
    bytes empty, other, summary;
    TAKE(empty, lanes_create(text_of(table), strlen(table), out, room, &length, &place));
    TAKE(made.file, lanes_import(empty.at, empty.length, text_of(ROWS), strlen(ROWS), true, 1, 1, &no_words, 0, out, room, &length, &place));
    TAKE(other, lanes_import(empty.at, empty.length, text_of("B,A\n7,7\n"), 8, true, 2, 1, &no_words, 0, out, room, &length, &place));
    TAKE(summary, lanes_summary(empty.at, empty.length, out, room, &length, &place));
    for (size_t call = 0; call < COUNT; call++) made.others[call] = copy_of("", 0);
    const char *texts[] = {table, ROWS, "SELECT A,AVG(B) FROM T GROUP BY A", "B IS NULL"};
    for (size_t at = 0; at < 4; at++) {
        free(made.others[3 + at].at);
        made.others[3 + at] = copy_of(texts[at], strlen(texts[at]));
    }
    static const char queries[] = "SELECT COUNT(A) FROM T WHERE B > 3\nSELECT COUNT(*) FROM T";
    static const int64_t numbers[] = {1, 2, 3, 4};
    bytes both = bytes_of(queries), cells = {(uint8_t *)(uintptr_t)numbers, sizeof numbers};
    for (size_t call = 7; call < COUNT; call++) {
        bytes from = call == 7 ? summary : call == 10 ? both : call == 13 ? bytes_of("B A") : call == 14 ? bytes_of("B,A\n5,6\n") : call == 15 ? bytes_of("A > 1") : call == 18 ? cells : call == 19 ? bytes_of("SELECT A,AVG(B) FROM T GROUP BY A") : other;
        free(made.others[call].at);
        made.others[call] = copy_of(from.at, from.length);
    }
    free(empty.at);
    free(other.at);
    free(summary.at);
    return made;
}

static void free_inputs(inputs *made) {
    free(made->file.at);
    for (size_t call = 0; call < COUNT; call++) free(made->others[call].at);
}

/* Every front of the file, and the file with each byte changed in turn. */
static void try_bad_files(const inputs *good) {
    for (size_t length = 0; length < good->file.length; length++) {
        bytes front = {good->file.at, length};
        for (size_t call = 0; call < COUNT; call++) {
            static told seen;
            if (CALLS[call] == creates) continue;
            ask(&seen, call, front, good->others[call], ROOM);
            expect(seen.number != 0 && is_as_promised(&seen, ROOM), "a front of a file is refused");
        }
    }
    for (size_t at = 0; at < good->file.length; at++) {
        static told seen;
        bytes changed = copy_of(good->file.at, good->file.length);
        changed.at[at] ^= 0x41;
        for (size_t call = 0; call < COUNT; call++) {
            ask(&seen, call, changed, good->others[call], ROOM);
            expect(is_as_promised(&seen, ROOM), "a file with a changed byte");
        }
        free(changed.at);
    }
}

static void try_refusals(const inputs *good) {
    bytes nothing = bytes_of(""), file = good->file, noise = bytes_of("\xff\xfe no file");
    for (size_t call = 0; call < COUNT; call++) {
        if (CALLS[call] == creates) continue;
        bool is_of_file = call < 7 || call == 10 || call > 11;
        if (is_of_file) expect_refused("no bytes", call, nothing, good->others[call], LANES_TRUNCATED, 0, 0);
        if (is_of_file) expect_refused("no file", call, noise, good->others[call], LANES_BAD_MAGIC, 0, 0);
    }
    expect_refused("no schema", 3, file, nothing, LANES_BAD_SCHEMA, 0, 0);
    expect_refused("a type that there isn't", 3, file, bytes_of("T A FLOAT"), LANES_BAD_SCHEMA, 0, 0);
    expect_refused("a table twice", 3, file, bytes_of("T A SMALLINT\nT A SMALLINT"), LANES_BAD_SCHEMA, 0, 0);
    expect_refused("no heading", 4, file, nothing, LANES_BAD_CSV, 1, 0);
    expect_refused("a field that is no number", 4, file, bytes_of("A,B\n1,2\n3,x\n"), LANES_BAD_CSV, 3, 2);
    expect_refused("a row of one field", 4, file, bytes_of("A,B\n1\n"), LANES_BAD_CSV, 2, 0);
    expect_refused("no query", 5, file, nothing, LANES_SYNTAX, 0, 0);
    expect_refused("a query that is no text", 5, file, bytes_of("SELECT \xff FROM T"), LANES_SYNTAX, 7, 0);
    expect_refused("a text before a bad file", 5, noise, bytes_of("\xc3"), LANES_SYNTAX, 0, 0);
    expect_refused("a column that there isn't", 5, file, bytes_of("SELECT C FROM T"), LANES_NO_SUCH_COLUMN, 7, 0);
    expect_refused("another table", 5, file, bytes_of("SELECT A FROM U"), LANES_NO_SUCH_TABLE, 0, 0);
    expect_refused("a condition that is none", 6, file, bytes_of("A >"), LANES_SYNTAX, 3, 0);
    expect_refused("a summary that is none", 7, file, noise, LANES_BAD_MAGIC, 0, 0);
    expect_refused("an offer that is none", 8, file, nothing, LANES_TRUNCATED, 0, 0);
    expect_refused("another file that is none", 9, file, noise, LANES_BAD_MAGIC, 0, 0);
    expect_refused("a forget of no bytes", 11, nothing, nothing, LANES_TRUNCATED, 0, 0);
    expect_refused("a forget of no file", 11, noise, nothing, LANES_BAD_MAGIC, 0, 0);
}

/* A batch of which every row is deleted is dropped, in a room of each size, and its deletion stays. */
static void try_forget(const inputs *good) {
    static const char all_rows[] = "A > 0", wanted[] = "ok batches=0 ranges=1\n";
    bytes dead, left, line;
    TAKE(dead, lanes_delete(good->file.at, good->file.length, text_of(all_rows), strlen(all_rows), out, room, &length, &place));
    try_rooms(11, dead, bytes_of(""));
    TAKE(left, lanes_forget(dead.at, dead.length, out, room, &length, &place));
    TAKE(line, lanes_check(left.at, left.length, out, room, &length, &place));
    expect(left.length < dead.length && line.length == strlen(wanted) && memcmp(line.at, wanted, line.length) == 0, "a batch that is forgotten");
    free(dead.at);
    free(left.at);
    free(line.at);
}

/* Two rows under one name, a name of 0 and another table. */
static void try_names(const inputs *good) {
    bytes other, table;
    uint8_t out[ROOM];
    size_t length;
    lanes_place place;
    uint64_t words = 0;
    memset(out, FILLER, ROOM);
    uint8_t number = lanes_import(good->file.at, good->file.length, text_of("A,B\n9,9\n"), 8, true, 1, 1, &words, 0, out, ROOM, &length, &place);
    expect(number == LANES_CONFLICT && place.first == 1 && place.second == 1 && length == 0 && is_untouched(out, 0), "a name that has other rows");
    number = lanes_import(good->file.at, good->file.length, text_of("9,9\n"), 4, false, 3, 0, &words, 0, out, ROOM, &length, &place);
    expect(number == LANES_BAD_NAME && is_untouched(out, 0), "a number of 0");
    number = lanes_import(good->file.at, good->file.length, text_of("9,9\n"), 4, false, 0, 0, &words, 0, out, ROOM, &length, &place);
    expect(number == LANES_NUMBERS_SPENT && is_untouched(out, 0), "no word to draw a name of");
    TAKE(other, lanes_import(good->file.at, good->file.length, text_of(ROWS), strlen(ROWS), true, 1, 1, &words, 0, out, room, &length, &place));
    expect(are_same(other, good->file), "an import that comes twice");
    TAKE(table, lanes_create(text_of("U A SMALLINT"), 12, out, room, &length, &place));
    number = lanes_merge(good->file.at, good->file.length, table.at, table.length, out, ROOM, &length, &place);
    expect(number == LANES_SCHEMA_DIFFERS && is_untouched(out, 0), "another table's file");
    free(other.at);
    free(table.at);
}

static void try_sentences(void) {
    uint8_t out[ROOM];
    lanes_place place = {7, 3};
    for (unsigned number = 0; number < 256; number++) {
        bool is_named = number >= 1 && number <= LANES_SYSTEM;
        memset(out, FILLER, ROOM);
        size_t length = lanes_refusal((uint8_t)number, out, ROOM);
        expect((length != 0) == is_named && length <= 32 && is_untouched(out, length), "a name");
        memset(out, FILLER, ROOM);
        expect(lanes_refusal((uint8_t)number, out, 0) == length && is_untouched(out, 0), "a name without room");
        length = lanes_sentence((uint8_t)number, &place, out, ROOM);
        expect((length != 0) == is_named && length <= 256 && is_untouched(out, length), "a sentence");
        memset(out, FILLER, ROOM);
        expect(lanes_sentence((uint8_t)number, &place, out, length == 0 ? 0 : length - 1) == length && is_untouched(out, 0), "a sentence without room");
    }
    memset(out, FILLER, ROOM);
    expect(lanes_version(out, ROOM) == strlen(LANES_VERSION) && memcmp(out, LANES_VERSION, strlen(LANES_VERSION)) == 0 && is_untouched(out, strlen(LANES_VERSION)), "the version is the header's");
}

/* Whether a sentence is one that a terminal can show. */
static bool is_shown(const uint8_t *sentence, size_t length) {
    for (size_t at = 0; at < length; at++)
        if (sentence[at] < 32 || sentence[at] == 127 || (sentence[at] == 0xc2 && sentence[at + 1] < 0xa0)) return false;
    return true;
}

/* What is said of a refusal with a text and the words of a table, in a room that is as large as it claims, and in one that claims far more. */
static void explain(const lanes_refused *refused, const char *text, const char *table) {
    static uint8_t out[ROOM], again[ROOM];
    bool is_named = refused->number >= 1 && refused->number <= LANES_SYSTEM;
    bytes words = copy_of(table, strlen(table)), given = copy_of(text, strlen(text));
    memset(out, FILLER, ROOM);
    size_t length = lanes_explain(refused, given.at, given.length, words.at, words.length, given.at, given.length, words.at, words.length, out, 1024);
    expect((length != 0) == is_named && length <= 1024 && is_untouched(out, length), "an explanation");
    expect(is_shown(out, length), "an explanation without control characters");
    memset(again, FILLER, ROOM);
    size_t same = lanes_explain(refused, given.at, given.length, words.at, words.length, given.at, given.length, words.at, words.length, again, (size_t)1 << 48);
    expect(same == length && memcmp(out, again, ROOM) == 0, "an explanation in a room of 2^48 bytes");
    expect(lanes_explain(refused, given.at, 0, words.at, 0, given.at, 0, words.at, 0, again, 0) <= 1024, "an explanation of nothing");
    free(words.at);
    free(given.at);
}

static void try_explanations(void) {
    static const char *const texts[] = {"", "SELECT A FROM \xff\xfe", "A,B\n1\n\x01\x7f,2", "T A INTEGER A INTEGER", "\xe2\x80\xae\x1b[31m >= = \xc2\x85", "x\ty,\x07z\n1;2\n"};
    static const char *const tables[] = {"", "T A INTEGER B SMALLINT", "U C BIGINT", "T A", "\xff\xff \x01"};
    static const lanes_place places[] = {{0, 0}, {1, 0}, {2, 1}, {7, 3}, {UINT64_MAX, UINT64_MAX}};
    for (unsigned number = 0; number <= LANES_SYSTEM + 2; number++)
        for (uint8_t given = 0; given < 8; given++)
            for (size_t at = 0; at < sizeof texts / sizeof *texts * (sizeof places / sizeof *places); at++) {
                lanes_refused refused;
                memset(&refused, 0, sizeof refused);
                refused.number = (uint8_t)number, refused.given = given, refused.place = places[at % 5];
                refused.separator = at % 3 == 0 ? 0 : at % 3 == 1 ? ';' : 0xff;
                refused.has_heading = (uint8_t)(at * 7), refused.needs_ends = (uint8_t)(at * 11);
                explain(&refused, texts[at / 5], tables[at % (sizeof tables / sizeof *tables)]);
            }
}

/* A table of so many long names that a sentence which has all of them is cut. */
static void try_long_sentences(void) {
    char table[32 * 80] = "T", *end = table + 1;
    static uint8_t out[ROOM];
    for (int column = 0; column < 32; column++) end += sprintf(end, " A%063d INTEGER", column);
    lanes_refused refused;
    memset(&refused, 0, sizeof refused);
    refused.number = LANES_NO_SUCH_COLUMN, refused.given = LANES_OF_CONDITION;
    size_t length = lanes_explain(&refused, text_of("Z = 1"), 5, text_of(table), strlen(table), text_of(""), 0, text_of(""), 0, out, ROOM);
    expect(length == 1024 && memcmp(out + 1021, "...", 3) == 0, "a long sentence is cut");
}

/* What one thread is told, again and again, beside what was told before there were threads. */
typedef struct errand {
    const inputs *given;
    const told *wanted;
    size_t differing;
} errand;

static void *run_errand(void *of) {
    errand *mine = (errand *)of;
    told *seen = (told *)malloc(sizeof *seen);
    for (size_t round = 0; seen != NULL && round < ROUNDS; round++)
        for (size_t call = 0; call < COUNT; call++) {
            const told *wanted = &mine->wanted[call];
            memset(seen->out, FILLER, ROOM);
            seen->number = CALLS[call](mine->given->file.at, mine->given->file.length, mine->given->others[call].at, mine->given->others[call].length, seen->out, ROOM, &seen->length, &seen->place);
            if (seen->number != wanted->number || seen->length != wanted->length || memcmp(seen->out, wanted->out, ROOM) != 0) mine->differing++;
        }
    free(seen);
    return NULL;
}

static void try_threads(const inputs *given) {
    static told wanted[COUNT];
    pthread_t threads[THREADS];
    errand errands[THREADS];
    for (size_t call = 0; call < COUNT; call++) {
        ask(&wanted[call], call, given->file, given->others[call], ROOM);
        expect(wanted[call].number == 0, NAMES[call]);
    }
    for (size_t at = 0; at < THREADS; at++) {
        errands[at].given = given;
        errands[at].wanted = wanted;
        errands[at].differing = 0;
        if (pthread_create(&threads[at], NULL, run_errand, &errands[at]) != 0) exit(3);
    }
    for (size_t at = 0; at < THREADS; at++) {
        pthread_join(threads[at], NULL);
        expect(errands[at].differing == 0, "eight threads at once");
    }
}

int main(void) {
    inputs good = make_inputs();
    for (size_t call = 0; call < COUNT; call++) try_rooms(call, good.file, good.others[call]);
    try_refusals(&good);
    try_names(&good);
    try_forget(&good);
    try_bad_files(&good);
    try_sentences();
    try_explanations();
    try_long_sentences();
    try_threads(&good);
    free_inputs(&good);
    return told_all("hostile");
}
