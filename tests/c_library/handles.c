/* Handles of files that stay open, and several queries of one opening: closed handles, a file opened over another, a refused one, bytes
 * that go, second handles, eight threads that share and close meanwhile, and rooms that are too small. */
#include "told.h"

#include <pthread.h>

enum { THREADS = 8, ROUNDS = 50, ENDS = 8 };

static const char SUM[] = "SELECT SUM(HITS) FROM COUNTS";
static const char GROUPS[] = "SELECT SITE,COUNT(*) FROM COUNTS GROUP BY SITE";

/* A file of counts that has these rows. */
static bytes file_of(const char *rows) {
    static const char table[] = "COUNTS SITE SMALLINT HITS INTEGER";
    uint64_t no_words = 0;
    bytes empty, file;
    TAKE(empty, lanes_create(text_of(table), strlen(table), out, room, &length, &place));
    TAKE(file, lanes_import(empty.at, empty.length, text_of(rows), strlen(rows), false, 1, 1, &no_words, 0, out, room, &length, &place));
    free(empty.at);
    return file;
}

static void clear(told *seen) {
    memset(seen->out, FILLER, ROOM);
    seen->length = 12345;
    seen->place.first = seen->place.second = 12345;
}

static void ask(told *seen, lanes_table *table, const char *sql, size_t room) {
    bytes copy = copy_of(sql, strlen(sql));
    clear(seen);
    seen->number = lanes_ask(table, copy.at, copy.length, seen->out, room, &seen->length, &seen->place);
    free(copy.at);
}

static bool is_untouched(const told *seen, size_t from) {
    for (size_t at = from; at < ROOM; at++)
        if (seen->out[at] != FILLER) return false;
    return true;
}

static bool is_refused(const told *seen, uint8_t number, uint64_t first, uint64_t second) {
    return seen->number == number && seen->length == 0 && seen->place.first == first && seen->place.second == second && is_untouched(seen, 0);
}

/* Whether a text was told: where it fits it stands in the room, and nothing else was written. */
static bool is_told(const told *seen, const char *text, size_t room) {
    size_t length = strlen(text);
    if (seen->number != 0 || seen->length != length || seen->place.first != 0 || seen->place.second != 0) return false;
    if (length > room) return is_untouched(seen, 0);
    return memcmp(seen->out, text, length) == 0 && is_untouched(seen, length);
}

static bool are_same_told(const told *a, const told *b) {
    return a->number == b->number && a->length == b->length && a->place.first == b->place.first && a->place.second == b->place.second && memcmp(a->out, b->out, ROOM) == 0;
}

static void expect_closed(lanes_table *table, const char *what) {
    static told seen;
    ask(&seen, table, SUM, ROOM);
    expect(is_refused(&seen, LANES_NOT_OPEN, 0, 0), what);
}

static void try_closed(void) {
    lanes_table table = LANES_CLOSED, other = LANES_CLOSED;
    expect_closed(&table, "a handle that was never opened");
    lanes_close(&table);
    lanes_close(&table);
    expect_closed(&table, "a closed handle that is closed");
    expect(lanes_share(&table, &other) == LANES_NOT_OPEN && other.opened == NULL, "a second handle of a closed one");
}

/* Opens the file from bytes that are freed at once. */
static uint8_t open_copy(bytes file, lanes_table *table, lanes_place *place) {
    bytes copy = copy_of(file.at, file.length);
    uint8_t number = lanes_open(copy.at, copy.length, table, place);
    free(copy.at);
    return number;
}

static void try_answers(bytes file, bytes other) {
    static told seen;
    lanes_table table = LANES_CLOSED, second = LANES_CLOSED;
    lanes_place place = {7, 7};
    expect(open_copy(file, &table, &place) == 0 && place.first == 0 && place.second == 0, "a file is opened");
    for (size_t room = 0; room <= 32; room++) {
        ask(&seen, &table, SUM, room);
        expect(is_told(&seen, "SUM(HITS)\n17\n", room), "an answer in rooms of all sizes");
    }
    ask(&seen, &table, "SELECT VISITS FROM COUNTS", ROOM);
    expect(is_refused(&seen, LANES_NO_SUCH_COLUMN, 7, 0), "a column that there isn't");
    ask(&seen, &table, "SELECT \xff", ROOM);
    expect(is_refused(&seen, LANES_SYNTAX, 7, 0), "a query that is no text");
    ask(&seen, &table, "", ROOM);
    expect(is_refused(&seen, LANES_SYNTAX, 0, 0), "no query");

    for (size_t length = 0; length < file.length; length++) {
        bytes front = {file.at, length};
        expect(open_copy(front, &table, &place) != 0, "a front of a file is refused");
    }
    ask(&seen, &table, SUM, ROOM);
    expect(is_told(&seen, "SUM(HITS)\n17\n", ROOM), "a handle is as it was after a file that is refused");

    expect(lanes_share(&table, &second) == 0, "a second handle");
    expect(open_copy(other, &table, &place) == 0, "a file over an open one");
    ask(&seen, &table, SUM, ROOM);
    expect(is_told(&seen, "SUM(HITS)\n50\n", ROOM), "the handle is of the other file");
    ask(&seen, &second, SUM, ROOM);
    expect(is_told(&seen, "SUM(HITS)\n17\n", ROOM), "the second handle is of the first file");
    expect(lanes_share(&table, &second) == 0, "a second handle over an open one");
    lanes_close(&table);
    expect_closed(&table, "a handle that was open is closed");
    ask(&seen, &second, SUM, ROOM);
    expect(is_told(&seen, "SUM(HITS)\n50\n", ROOM), "the second handle outlives the first");
    lanes_close(&second);
    expect_closed(&second, "the second handle is closed");
}

/* Each byte of the file changed in turn: what is refused leaves the handle closed, and what isn't is answered. */
static void try_changed_files(bytes file) {
    static told seen;
    for (size_t at = 0; at < file.length; at++) {
        lanes_table table = LANES_CLOSED;
        lanes_place place;
        bytes changed = copy_of(file.at, file.length);
        changed.at[at] ^= 0x41;
        uint8_t number = open_copy(changed, &table, &place);
        ask(&seen, &table, GROUPS, ROOM);
        expect((seen.number == LANES_NOT_OPEN) == (number != 0), "a file with a changed byte");
        lanes_close(&table);
        free(changed.at);
    }
}

/* Several queries in rooms of so many bytes and so many ends. */
static void ask_all(told *seen, bytes file, const char *sqls, size_t room, size_t ends[ENDS], size_t ends_room) {
    bytes copy = copy_of(sqls, strlen(sqls)), file_copy = copy_of(file.at, file.length);
    clear(seen);
    for (size_t at = 0; at < ENDS; at++) ends[at] = 999;
    seen->number = lanes_queries(file_copy.at, file_copy.length, copy.at, copy.length, seen->out, room, ends, ends_room, &seen->length, &seen->place);
    free(copy.at);
    free(file_copy.at);
}

static void try_queries(bytes file) {
    static const char sqls[] = "SELECT SUM(HITS) FROM COUNTS\nSELECT COUNT(*) FROM COUNTS WHERE SITE = 9\nSELECT MAX(SITE) AS S FROM COUNTS";
    static const char wanted[] = "SUM(HITS)\n17\nCOUNT(*)\n0\nS\n2\n";
    static const size_t wanted_ends[] = {13, 24, 28};
    static told seen;
    size_t ends[ENDS];
    for (size_t room = 0; room <= 32; room++)
        for (size_t ends_room = 0; ends_room <= ENDS; ends_room++) {
            ask_all(&seen, file, sqls, room, ends, ends_room);
            bool are_ends = true;
            for (size_t at = 0; at < ENDS; at++) are_ends = are_ends && ends[at] == (at < 3 && ends_room >= 3 ? wanted_ends[at] : 999);
            expect(is_told(&seen, wanted, room) && are_ends, "three queries in rooms of all sizes");
        }
    struct {
        const char *sqls, *what;
        uint8_t number;
        uint64_t first, second;
    } refused[] = {
        {"SELECT SUM(HITS) FROM COUNTS\nSELECT VISITS FROM COUNTS\nSELECT", "the second query is the first that is refused", LANES_NO_SUCH_COLUMN, 7, 1},
        {"SELECT SUM(HITS) FROM COUNTS\n\xc3", "a query that is no text", LANES_SYNTAX, 0, 1},
        {"SELECT SUM(HITS) FROM COUNTS\n", "a line feed at the end", LANES_SYNTAX, 0, 1},
        {"SELECT SUM(HITS) FROM VISITS", "another table", LANES_NO_SUCH_TABLE, 0, 0},
        {"", "no query", LANES_SYNTAX, 0, 0},
    };
    for (size_t at = 0; at < sizeof refused / sizeof *refused; at++) {
        ask_all(&seen, file, refused[at].sqls, ROOM, ends, ENDS);
        expect(is_refused(&seen, refused[at].number, refused[at].first, refused[at].second) && ends[0] == 999, refused[at].what);
    }
    for (size_t length = 0; length < file.length; length++) {
        bytes front = {file.at, length};
        ask_all(&seen, front, "\xff", ROOM, ends, ENDS);
        expect(seen.number >= LANES_BAD_SCHEMA && seen.number <= LANES_NOT_CANONICAL && ends[0] == 999, "the file is judged before the queries");
    }
}

/* What one thread asks of its own handle, again and again; other handles come and go meanwhile. */
typedef struct errand {
    lanes_table table;
    const told *wanted;
    size_t differing;
} errand;

static void *run_errand(void *of) {
    errand *mine = (errand *)of;
    told *seen = (told *)malloc(sizeof *seen);
    for (size_t round = 0; seen != NULL && round < ROUNDS; round++) {
        lanes_table other = LANES_CLOSED;
        ask(seen, &mine->table, GROUPS, ROOM);
        if (!are_same_told(seen, mine->wanted)) mine->differing++;
        if (lanes_share(&mine->table, &other) != 0) mine->differing++;
        if (round % 2 == 0) {
            lanes_close(&mine->table);
            mine->table = other;
        } else {
            ask(seen, &other, GROUPS, ROOM);
            if (!are_same_told(seen, mine->wanted)) mine->differing++;
            lanes_close(&other);
        }
    }
    free(seen);
    lanes_close(&mine->table);
    return NULL;
}

/* Eight threads with a handle each; the first handle is closed while they ask. */
static void try_threads(bytes file) {
    static told wanted;
    lanes_table table = LANES_CLOSED;
    lanes_place place;
    pthread_t threads[THREADS];
    errand errands[THREADS];
    expect(open_copy(file, &table, &place) == 0, "a file is opened for threads");
    ask(&wanted, &table, GROUPS, ROOM);
    expect(is_told(&wanted, "SITE,COUNT(*)\n1,2\n2,1\n", ROOM), "what the threads are to be told");
    for (size_t at = 0; at < THREADS; at++) {
        lanes_table closed = LANES_CLOSED;
        errands[at].table = closed;
        errands[at].wanted = &wanted;
        errands[at].differing = 0;
        expect(lanes_share(&table, &errands[at].table) == 0, "a handle for a thread");
    }
    for (size_t at = 0; at < THREADS; at++)
        if (pthread_create(&threads[at], NULL, run_errand, &errands[at]) != 0) exit(3);
    lanes_close(&table);
    for (size_t at = 0; at < THREADS; at++) {
        pthread_join(threads[at], NULL);
        expect(errands[at].differing == 0, "eight threads at once");
    }
}

int main(void) {
    bytes file = file_of("1,10\n1,7\n2,\n"), other = file_of("3,50\n");
    try_closed();
    try_answers(file, other);
    try_changed_files(file);
    try_queries(file);
    try_threads(file);
    free(file.at);
    free(other.at);
    return told_all("handles");
}
