/* Replaces a file whole, under the lock that the program `lanes` takes too, by the same calls in the same order. C99 and C++17. */
#ifndef _DEFAULT_SOURCE
#define _DEFAULT_SOURCE
#endif
#include "lanes_file_driver.h"

#include <errno.h>
#include <fcntl.h>
#include <stdio.h>
#include <stdlib.h>
#include <string.h>
#include <sys/file.h>
#include <sys/stat.h>
#include <time.h>
#include <unistd.h>

/* How many seconds a lock is waited for, and how many milliseconds one sleep takes at most. */
enum { LONGEST_WAIT = 10, LONGEST_SLEEP = 10 };

/* What a try to have a lock came to. */
enum had { HAD, NOT_YET, UNMADE, IN_THE_WAY };

static void close_one(int *opened) {
    if (*opened >= 0) close(*opened);
    *opened = -1;
}

/* Closes the lock. A child that was forked meanwhile has it open too, and would keep a lock that is only closed. */
static void unlock(lanes_held *held) {
    if (held->lock >= 0) flock(held->lock, LOCK_UN);
    close_one(&held->lock);
}

/* A refusal by the system, for the reason of an errno. */
static uint8_t refused(int reason, lanes_place *place) {
    if (reason == ENOMEM) return LANES_MEMORY;
    place->first = (uint64_t)reason;
    return LANES_SYSTEM;
}

/* Keeps the name of a file and that of its lock. Answers 0, or an errno. */
static int keep_names(lanes_held *held, const char *name) {
    size_t room = strlen(name) + sizeof "..lanes-lock";
    held->name = strdup(name);
    held->lock_name = (char *)malloc(room);
    if (!held->name || !held->lock_name) return ENOMEM;
    snprintf(held->lock_name, room, ".%s.lanes-lock", name);
    return 0;
}

/* Whether the open lock has the lock's name, and no link has it: another process may have renamed or removed it meanwhile. */
static bool is_own(lanes_held *held) {
    struct stat opened, named;
    if (fstat(held->lock, &opened) || fstatat(held->folder, held->lock_name, &named, AT_SYMLINK_NOFOLLOW)) return false;
    return opened.st_dev == named.st_dev && opened.st_ino == named.st_ino;
}

/* The path of a file behind its links. A file that isn't there is taken by its path itself. free() frees it; null tells errno. */
static char *followed(const char *path) {
    struct stat found;
    char *whole = realpath(path, NULL);
    if (whole || errno != ENOENT) return whole;
    if (!lstat(path, &found)) {
        errno = ENOENT;
        return NULL;
    }
    return strdup(path);
}

/* Opens the folder of a path, and keeps the names in it. Answers 0, or an errno. */
static int open_folder(lanes_held *held, char *path) {
    char *slash = strrchr(path, '/'), *name = slash ? slash + 1 : path;
    if (!*name) return !strcmp(path, "/") ? EINVAL : ENOENT;
    if (keep_names(held, name)) return ENOMEM;
    *name = 0;
    held->folder = open(slash ? path : ".", O_RDONLY | O_DIRECTORY | O_CLOEXEC);
    return held->folder < 0 ? errno : 0;
}

/* Opens a lock's file that is there already. */
static enum had open_left(lanes_held *held) {
    struct stat found;
    const int how = O_NOFOLLOW | O_NONBLOCK | O_CLOEXEC;
    if (fstatat(held->folder, held->lock_name, &found, AT_SYMLINK_NOFOLLOW)) return errno == ENOENT ? NOT_YET : IN_THE_WAY;
    if (!S_ISREG(found.st_mode)) return IN_THE_WAY;
    held->lock = openat(held->folder, held->lock_name, O_WRONLY | how);
    if (held->lock < 0) held->lock = openat(held->folder, held->lock_name, O_RDONLY | how);
    return held->lock >= 0 ? HAD : errno == ENOENT ? NOT_YET : IN_THE_WAY;
}

/* Tries once to have a lock: makes or opens its file, locks that, and sees that the name is still its own. A file that was there already is
 * removed once it is locked, and the next try makes a new one: it may be a second name of the held file, or another user's. */
static enum had try_lock(lanes_held *held) {
    held->lock = openat(held->folder, held->lock_name, O_WRONLY | O_CREAT | O_EXCL | O_CLOEXEC, 0666);
    bool is_new = held->lock >= 0;
    if (!is_new && errno != EEXIST) return errno == EINTR ? NOT_YET : UNMADE;
    if (!is_new) {
        enum had had = open_left(held);
        if (had != HAD) return had;
    }
    if (flock(held->lock, LOCK_EX | LOCK_NB)) return errno == EWOULDBLOCK || errno == EINTR ? NOT_YET : UNMADE;
    if (!is_own(held)) return NOT_YET;
    if (is_new) return HAD;
    return unlinkat(held->folder, held->lock_name, 0) ? IN_THE_WAY : NOT_YET;
}

/* Waits until nobody else has the lock; each sleep is a little longer than the one before. Answers 0, an errno, or -1 once ten seconds are over. */
static int wait_for_lock(lanes_held *held) {
    struct timespec begun, now;
    clock_gettime(CLOCK_MONOTONIC, &begun);
    for (long pause = 1;; pause += pause < LONGEST_SLEEP) {
        enum had had = try_lock(held);
        int reason = errno;
        if (had == HAD) return 0;
        unlock(held);
        if (had != NOT_YET) return had == UNMADE ? reason : EEXIST;
        clock_gettime(CLOCK_MONOTONIC, &now);
        if (now.tv_sec - begun.tv_sec - (now.tv_nsec < begun.tv_nsec) >= LONGEST_WAIT) return -1;
        struct timespec sleep = {0, pause * 1000000};
        nanosleep(&sleep, NULL);
    }
}

/* Gives the lock's file the mode of the held file, if there is one. What is no regular file is refused. Answers 0, or an errno. */
static int take_mode(lanes_held *held) {
    struct stat found;
    if (fstatat(held->folder, held->name, &found, 0)) return errno == ENOENT ? 0 : errno;
    if (!S_ISREG(found.st_mode)) return EINVAL;
    return fchmod(held->lock, found.st_mode & 07777) ? errno : 0;
}

/* Reads an open file whole. Answers 0, or an errno. */
static int read_whole(lanes_held *held, int file) {
    struct stat found;
    if (fstat(file, &found)) return errno;
    for (size_t room = (size_t)found.st_size + 1;; room += room / 2 + 1) {
        uint8_t *more = (uint8_t *)realloc(held->bytes, room);
        if (!more) return ENOMEM;
        held->bytes = more;
        while (held->length < room) {
            ssize_t count = read(file, held->bytes + held->length, room - held->length);
            if (count < 0 && errno == EINTR) continue;
            if (count <= 0) return count ? errno : 0;
            held->length += (size_t)count;
        }
    }
}

/* Reads the held file, if there is one. Answers 0, or an errno. */
static int read_file(lanes_held *held) {
    int file = openat(held->folder, held->name, O_RDONLY | O_NONBLOCK | O_CLOEXEC);
    held->is_there = file >= 0;
    if (file < 0 && errno != ENOENT) return errno;
    if (file < 0) return (held->bytes = (uint8_t *)malloc(1)) ? 0 : ENOMEM;
    int reason = read_whole(held, file);
    close(file);
    return reason;
}

/* Sees that the held file may be written, if there is one: the folder may allow its replacement all the same. Answers 0, or an errno. */
static int try_writing(lanes_held *held) {
    int file = openat(held->folder, held->name, O_WRONLY | O_NONBLOCK | O_NOCTTY | O_CLOEXEC);
    int reason = file < 0 && errno != ENOENT ? errno : 0;
    close_one(&file);
    return reason;
}

/* Gives the lock back, if this process has it. It is removed unless it has become the file, or another process has removed it. */
static void give_lock_back(lanes_held *held) {
    if (held->lock < 0) return;
    if (is_own(held)) unlinkat(held->folder, held->lock_name, 0);
    unlock(held);
}

/* Takes the lock, with the mode of the file, and reads the file. Answers 0, an errno, or -1 if others have the lock. */
static int hold(const char *path, lanes_held *held) {
    char *whole = followed(path);
    int reason = whole ? open_folder(held, whole) : errno;
    free(whole);
    if (!reason) reason = wait_for_lock(held);
    if (!reason) reason = take_mode(held);
    if (!reason) reason = try_writing(held);
    return reason ? reason : read_file(held);
}

size_t lanes_file_sentence(uint8_t number, const lanes_place *place, uint8_t *sentence, size_t room) {
    char said[160];
    if (number == LANES_BUSY) snprintf(said, sizeof said, "another process has had the file for ten seconds");
    else if (number == LANES_SYSTEM) snprintf(said, sizeof said, "the system refused a call on the file: %s", strerror((int)place->first));
    else return lanes_sentence(number, place, sentence, room);
    size_t length = strlen(said);
    if (length <= room) memcpy(sentence, said, length);
    return length;
}

uint8_t lanes_file_hold(const char *path, lanes_held *held, lanes_place *place) {
    lanes_file_let_go(held);
    held->folder = held->lock = -1;
    place->first = place->second = 0;
    int reason = hold(path, held);
    if (reason) lanes_file_let_go(held);
    return reason < 0 ? LANES_BUSY : reason ? refused(reason, place) : 0;
}

/* Writes all bytes, in as many writes as it takes. Answers 0, or an errno. */
static int write_all(int file, const uint8_t *bytes, size_t length) {
    while (length) {
        ssize_t count = write(file, bytes, length);
        if (count < 0 && errno == EINTR) continue;
        if (count <= 0) return count ? errno : EIO;
        bytes += count;
        length -= (size_t)count;
    }
    return 0;
}

/* Syncs the held file as it is, and its folder. */
static bool sync_both(lanes_held *held) {
    int file = openat(held->folder, held->name, O_RDONLY | O_NONBLOCK | O_CLOEXEC);
    bool is_synced = file >= 0 && !fsync(file) && !fsync(held->folder);
    close_one(&file);
    return is_synced;
}

/* Writes the lock's file, and gives it the name of the held file. Answers 0, or an errno. */
static int exchange(lanes_held *held, const uint8_t *bytes, size_t length) {
    if (ftruncate(held->lock, 0)) return errno;
    int reason = write_all(held->lock, bytes, length);
    if (reason) return reason;
    if (fsync(held->lock)) return errno;
    return renameat(held->folder, held->lock_name, held->folder, held->name) ? errno : 0;
}

uint8_t lanes_file_replace(lanes_held *held, const uint8_t *bytes, size_t length, uint64_t *came, lanes_place *place) {
    place->first = place->second = 0;
    *came = 0;
    if (!held->name || held->lock < 0) return LANES_NOT_OPEN;
    bool is_same = held->is_there && length == held->length && !memcmp(bytes, held->bytes, length);
    int reason = is_same ? 0 : exchange(held, bytes, length);
    if (!reason) *came = (is_same ? sync_both(held) : !fsync(held->folder)) ? LANES_ON_DISK : LANES_UNSYNCED;
    give_lock_back(held);
    return reason ? refused(reason, place) : 0;
}

uint8_t lanes_file_put(lanes_held *held, lanes_table *table, uint64_t *came, lanes_place *place) {
    uint8_t *bytes, number;
    size_t length;
    place->first = place->second = 0;
    *came = 0;
    for (size_t room = held->length + held->length / 8 + 4096;; room = length) {
        bytes = (uint8_t *)malloc(room);
        number = bytes ? lanes_file(table, bytes, room, &length, place) : (uint8_t)LANES_MEMORY;
        if (number || length <= room) break;
        free(bytes);
    }
    if (!number) number = lanes_file_replace(held, bytes, length, came, place);
    free(bytes);
    return number;
}

void lanes_file_let_go(lanes_held *held) {
    if (held->name) {
        give_lock_back(held);
        close_one(&held->folder);
    }
    free(held->bytes);
    free(held->name);
    free(held->lock_name);
    held->bytes = NULL;
    held->name = held->lock_name = NULL;
    held->length = 0;
    held->is_there = false;
}
