/* The driver of files, of which each allocation fails in turn: the call says so, no lock is left, the file is as it was, and the next call
 * succeeds. The system reads and writes few bytes at a time, and is interrupted between. */
#define _DEFAULT_SOURCE
#include <errno.h>
#include <stdlib.h>
#include <string.h>
#include <unistd.h>

#include "told.h"

/* How many allocations succeed before one fails. */
static long left = -1;

static bool fails(void) {
    if (left < 0 || left-- != 0) return false;
    errno = ENOMEM;
    return true;
}

static void *trying_malloc(size_t bytes) { return fails() ? NULL : malloc(bytes); }
static void *trying_realloc(void *old, size_t bytes) { return fails() ? NULL : realloc(old, bytes); }
static char *trying_strdup(const char *text) { return fails() ? NULL : strdup(text); }
static char *trying_realpath(const char *path, char *out) { return fails() ? NULL : realpath(path, out); }

/* How many bytes the system takes or gives at a time. */
static const size_t FEW = 7;

/* Whether a signal comes before a read or a write, as it does each second time. */
static bool is_interrupted(void) {
    static bool is_next = false;
    is_next = !is_next;
    errno = EINTR;
    return is_next;
}

static ssize_t trying_read(int file, void *at, size_t bytes) { return is_interrupted() ? -1 : read(file, at, bytes < FEW ? bytes : FEW); }
static ssize_t trying_write(int file, const void *at, size_t bytes) { return is_interrupted() ? -1 : write(file, at, bytes < FEW ? bytes : FEW); }

#undef strdup
#define malloc trying_malloc
#define realloc trying_realloc
#define strdup trying_strdup
#define realpath trying_realpath
#define read trying_read
#define write trying_write
#include "lanes_file_driver.c"

/* Puts a table into the file, of which the allocation of this number fails. Answers what the driver answers. */
static uint8_t put(lanes_table *table, long number, uint64_t *came) {
    lanes_held held = LANES_NOT_HELD;
    lanes_place place = {7, 7};
    left = number;
    uint8_t refused = lanes_file_hold("t", &held, &place);
    if (!refused) refused = lanes_file_put(&held, table, came, &place);
    left = -1;
    lanes_file_let_go(&held);
    expect(place.first == 0 && place.second == 0, "there is no place");
    return refused;
}

/* Each allocation fails of a change, until none is left that can. Answers how many failed. */
static long try_all(lanes_table *table, bool is_there) {
    for (long number = 0;; number++) {
        uint64_t came;
        uint8_t refused = put(table, number, &came);
        if (!refused) return came == LANES_ON_DISK ? number : -1;
        expect(refused == LANES_MEMORY, "the lack of memory is told");
        expect(access(".t.lanes-lock", F_OK) == -1 && access("t", F_OK) == (is_there ? 0 : -1), "no lock is left, and the file is as it was");
    }
}

/* Whether the file is that of the table, and is read so. */
static bool is_file_of(lanes_table *table) {
    lanes_held held = LANES_NOT_HELD;
    lanes_place place;
    bytes file;
    TAKE(file, lanes_file(table, out, room, &length, &place));
    bool is_same = !lanes_file_hold("t", &held, &place) && held.length == file.length && memcmp(held.bytes, file.at, file.length) == 0;
    lanes_file_let_go(&held);
    free(file.at);
    return is_same;
}

int main(void) {
    lanes_table table = LANES_CLOSED;
    lanes_place place;
    uint64_t no_words = 0;
    bytes empty;
    TAKE(empty, lanes_create(text_of("T A BIGINT"), 10, out, room, &length, &place));
    if (lanes_open(empty.at, empty.length, &table, &place)) exit(3);
    expect(try_all(&table, false) == 6, "allocations of a change of a file that is not there");
    expect(is_file_of(&table), "the file is made");
    if (lanes_table_import(&table, text_of("1\n2\n"), 4, false, 1, 1, &no_words, 0, &place)) exit(3);
    expect(try_all(&table, true) == 5, "allocations of a change of a file");
    expect(is_file_of(&table), "the file is changed");
    lanes_close(&table);
    free(empty.at);
    return told_all("held_memory");
}
