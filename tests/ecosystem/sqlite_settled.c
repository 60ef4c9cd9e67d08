/* When the extension of SQLite takes a file for settled, so that what is open of it is shared while its times are the same: by a clock of this file.
 * It ends with the number of the line that is wrong, from 1, or with 0. */
#include <stddef.h>
#include <time.h>

static time_t now;
static int is_without_clock;

static int trying_clock_gettime(clockid_t kind, struct timespec *found) {
    (void)kind;
    *found = (struct timespec){now, 0};
    return is_without_clock ? -1 : 0;
}

#define clock_gettime trying_clock_gettime
#include "lanes_sqlite_states.c"

/* The clock, whether it fails, and whether a file is settled that was changed in second 100. */
static const struct {
    time_t now;
    int is_without_clock, is_settled;
} lines[] = {{99, 0, 0}, {100, 0, 0}, {101, 0, 0}, {102, 0, 1}, {1000, 0, 1}, {1000, 1, 0}};

int main(void) {
    struct stat found;
    memset(&found, 0, sizeof found);
    found.st_ctim = (struct timespec){100, 999999999};
    for (size_t i = 0; i < sizeof lines / sizeof *lines; i++) {
        now = lines[i].now;
        is_without_clock = lines[i].is_without_clock;
        if (is_settled(&found) != lines[i].is_settled) return (int)i + 1;
    }
    return 0;
}
