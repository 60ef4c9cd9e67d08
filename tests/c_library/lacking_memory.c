/* Each call on a handle with its first growth of memory refused, then with its second, and so on: it is refused as LANES_MEMORY, and the
 * handle has what it had, as has another handle of the same table; and the same call again succeeds. malloc and realloc are those below. */
#include "told.h"

extern void *__libc_malloc(size_t size);
extern void *__libc_realloc(void *block, size_t size);

/* How many growths are still given before one is refused; none is refused if it is negative. */
static long left = -1;

static bool is_given(void) {
    if (left < 0) return true;
    if (left == 0) {
        left = -1;
        return false;
    }
    left--;
    return true;
}

void *malloc(size_t size) { return is_given() ? __libc_malloc(size) : NULL; }

void *realloc(void *block, size_t size) { return is_given() ? __libc_realloc(block, size) : NULL; }

enum { MOST = 10000 };

static const uint64_t WORDS[] = {0x0000000900000004};
static uint8_t room[65536];
static size_t length;
static bytes offer;

static uint8_t import(lanes_table *table, lanes_place *place) { return lanes_table_import(table, text_of("3,30\n4,\n"), 8, false, 0, 0, WORDS, 1, place); }

static uint8_t import_columns(lanes_table *table, lanes_place *place) {
    static const int64_t values[] = {3, 4, 30, 0};
    static const uint8_t valid[128] = {[0] = 3, [64] = 1};
    return lanes_table_import_columns(table, 2, values, 4, valid, 128, 0, 0, WORDS, 1, place);
}

static uint8_t delete(lanes_table *table, lanes_place *place) { return lanes_table_delete(table, text_of("HITS < 10 OR SITE = 2"), 21, place); }

static uint8_t delete_rows(lanes_table *table, lanes_place *place) { return lanes_table_delete_rows(table, 1, 1, 0, 1, place); }

static uint8_t delete_held_rows(lanes_table *table, lanes_place *place) { return lanes_table_delete_held_rows(table, 1, 1, 0, 1, &length, place); }

static uint8_t spread(lanes_table *table, lanes_place *place) {
    static size_t ends[2];
    return lanes_spread(table, ends, 2, room, sizeof room, &length, place);
}

static uint8_t apply(lanes_table *table, lanes_place *place) { return lanes_table_apply(table, offer.at, offer.length, place); }

static uint8_t forget(lanes_table *table, lanes_place *place) { return lanes_table_forget(table, place); }

static uint8_t inspect(lanes_table *table, lanes_place *place) { return lanes_inspect(table, LANES_JSON, room, sizeof room, &length, place); }

static uint8_t file(lanes_table *table, lanes_place *place) { return lanes_file(table, room, sizeof room, &length, place); }

static uint8_t between(lanes_table *table, lanes_place *place) {
    static int64_t values[64];
    static uint8_t valid[256];
    static uint64_t nulls[2];
    return lanes_columns_between(table, 0, 1, text_of("HITS"), 4, text_of("SITE = 1"), 8, values, 64, valid, 256, nulls, 2, &length, place);
}

static uint8_t answer(lanes_table *table, lanes_place *place) {
    lanes_answer kept = LANES_NO_ANSWER;
    static const char sql[] = "SELECT SITE,AVG(HITS) FROM COUNTS GROUP BY SITE";
    uint8_t number = lanes_answer_ask(table, text_of(sql), sizeof sql - 1, &kept, place);
    lanes_answer_close(&kept);
    return number;
}

static bytes file_of(lanes_table *table) {
    bytes found;
    TAKE(found, lanes_file(table, out, room, &length, &place));
    return found;
}

static lanes_table opened(bytes start) {
    lanes_table table = LANES_CLOSED;
    lanes_place place;
    if (lanes_open(start.at, start.length, &table, &place) != 0) exit(3);
    return table;
}

/* The file of a table after a call to which nothing is refused. */
static bytes file_after(bytes start, uint8_t (*call)(lanes_table *, lanes_place *)) {
    lanes_table table = opened(start);
    lanes_place place;
    expect(call(&table, &place) == 0, "a call with memory");
    bytes then = file_of(&table);
    lanes_close(&table);
    return then;
}

/* Another handle of the table has what it had. */
static void expect_kept(lanes_table *other, bytes start, const char *what) {
    bytes kept = file_of(other);
    expect(are_same(kept, start), what);
    free(kept.at);
    lanes_close(other);
}

/* How many growths of a call were refused. A call may do without one: room that is asked for ahead. Then it does what it does with it. */
static long refuse_each(bytes start, uint8_t (*call)(lanes_table *, lanes_place *), bool is_shared, const char *what) {
    bytes done = file_after(start, call);
    long refused = 0;
    for (long growth = 0; growth < MOST; growth++) {
        lanes_table table = opened(start), other = LANES_CLOSED;
        lanes_place place;
        if (is_shared && lanes_share(&table, &other) != 0) exit(3);
        left = growth;
        uint8_t number = call(&table, &place);
        bool was_refused = left < 0;
        left = -1;
        bytes then = file_of(&table);
        expect(place.first == 0 && place.second == 0, what);
        if (number == 0) {
            expect(are_same(then, done), what);
        } else {
            refused++;
            expect(was_refused && number == LANES_MEMORY && are_same(then, start), what);
            expect(call(&table, &place) == 0, what);
        }
        if (is_shared) expect_kept(&other, start, what);
        free(then.at);
        lanes_close(&table);
        if (!was_refused) {
            free(done.at);
            return refused;
        }
    }
    exit(3);
}

/* More growths than these are refused, in the only handle of the table and beside another. */
static void expect_refused(bytes start, uint8_t (*call)(lanes_table *, lanes_place *), long least, const char *what) {
    expect(refuse_each(start, call, false, what) > least, what);
    expect(refuse_each(start, call, true, what) > least, what);
}

int main(void) {
    static const char table[] = "COUNTS SITE SMALLINT HITS INTEGER";
    bytes empty, start, both, dead;
    TAKE(empty, lanes_create(text_of(table), strlen(table), out, room, &length, &place));
    TAKE(start, lanes_import(empty.at, empty.length, text_of("1,10\n1,7\n2,\n"), 12, false, 1, 1, WORDS, 0, out, room, &length, &place));
    TAKE(offer, lanes_import(empty.at, empty.length, text_of("9,90\n"), 5, false, 2, 1, WORDS, 0, out, room, &length, &place));
    TAKE(both, lanes_apply(start.at, start.length, offer.at, offer.length, out, room, &length, &place));
    TAKE(dead, lanes_delete(both.at, both.length, text_of("SITE < 9"), 8, out, room, &length, &place));
    expect_refused(start, import, 5, "an import");
    expect_refused(start, import_columns, 5, "an import of columns");
    expect_refused(start, delete, 3, "a delete");
    expect_refused(start, delete_rows, 3, "a delete of rows");
    expect_refused(start, delete_held_rows, 3, "a delete of held rows");
    expect_refused(start, spread, 5, "a spread");
    expect_refused(start, apply, 5, "an offer");
    expect_refused(dead, forget, 0, "a forget");
    expect_refused(start, inspect, 5, "a report");
    expect_refused(start, file, 0, "a file");
    expect_refused(start, between, 2, "columns");
    expect_refused(start, answer, 5, "an answer by columns");
    free(empty.at);
    free(start.at);
    free(both.at);
    free(offer.at);
    free(dead.at);
    return told_all("lacking_memory");
}
