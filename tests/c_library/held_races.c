/* The driver of files, between whose calls other processes act: the lock that it has opened is renamed or removed before it is locked, or another one
 * has it for long. The others are made up: they act when the driver locks. So is the time. */
#define _DEFAULT_SOURCE
#include <dirent.h>
#include <fcntl.h>
#include <sys/file.h>
#include <time.h>
#include <unistd.h>

#include "told.h"

static const char NAME[] = ".t.lanes-lock";

/* What is done before the driver locks, by how often it did, from 1; and the lock that another process has, or -1. */
static void (*before_lock)(int count);
static int locks = 0, other = -1;

static int trying_flock(int file, int how) {
    if (before_lock) before_lock(++locks);
    return flock(file, how);
}

/* Whether ten seconds pass at each look at the clock. */
static bool is_late = false;

static int trying_clock_gettime(clockid_t kind, struct timespec *now) {
    static int looks = 0;
    int fault = clock_gettime(kind, now);
    if (is_late) now->tv_sec += 10 * ++looks;
    return fault;
}

#define flock trying_flock
#define clock_gettime trying_clock_gettime
#include "lanes_file_driver.c"
#undef clock_gettime
#undef flock

static void write_file(const char *path, const char *text) {
    FILE *file = fopen(path, "wb");
    if (!file || fputs(text, file) < 0 || fclose(file)) exit(3);
}

/* Another process makes a lock, and has it. */
static void other_locks(void) {
    other = open(NAME, O_WRONLY | O_CREAT | O_EXCL, 0666);
    if (other < 0 || flock(other, LOCK_EX | LOCK_NB)) exit(3);
}

/* Another process, which has the lock, replaces the file by it. */
static void other_replaces(const char *text) {
    if (write(other, text, strlen(text)) < 0 || rename(NAME, "t") || close(other)) exit(3);
    other = -1;
}

/* The new lock of the driver is taken for one that a killed process left: it is removed, and another process has its own. */
static void new_lock_is_removed(int count) {
    if (count == 1) {
        if (unlink(NAME)) exit(3);
        other_locks();
    }
    if (count == 3) other_replaces("of another");
}

/* The lock that the driver has opened was another process's. It becomes the file, and a third process has a lock of its own. */
static void opened_lock_becomes_the_file(int count) {
    if (count == 1) {
        other_replaces("of the second");
        other_locks();
    }
    if (count == 2) expect(access(NAME, F_OK) == 0, "the lock of the third process is still there");
    if (count == 3) other_replaces("of the third");
}

/* Holds the file while others act, and sees what it reads then. */
static void try_race(void (*others)(int), const char *wanted, const char *what) {
    lanes_held held = LANES_NOT_HELD;
    lanes_place place;
    before_lock = others;
    locks = 0;
    uint8_t number = lanes_file_hold("t", &held, &place);
    expect(number == 0 && other < 0 && held.length == strlen(wanted) && memcmp(held.bytes, wanted, held.length) == 0, what);
    lanes_file_let_go(&held);
    expect(access(NAME, F_OK) == -1, "no lock is left");
}

static int open_files(void) {
    int count = 0;
    DIR *listing = opendir("/proc/self/fd");
    if (!listing) exit(3);
    while (readdir(listing)) count++;
    closedir(listing);
    return count;
}

/* A caller that is told that another has the file has nothing to let go. */
static void try_busy(void) {
    lanes_place place;
    other_locks();
    before_lock = NULL;
    is_late = true;
    int before = open_files();
    for (int count = 0; count < 300; count++) {
        lanes_held held = LANES_NOT_HELD;
        if (lanes_file_hold("t", &held, &place) != LANES_BUSY) exit(3);
    }
    is_late = false;
    expect(open_files() == before, "nothing is left open");
    if (unlink(NAME) || close(other)) exit(3);
}

int main(void) {
    write_file("t", "first");
    try_race(new_lock_is_removed, "of another", "a lock that was removed is not had");
    other_locks();
    try_race(opened_lock_becomes_the_file, "of the third", "a lock that has become the file is not had");
    try_busy();
    return told_all("held_races");
}
