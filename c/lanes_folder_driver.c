/* Makes the calls on a folder that lanes_folder_next asks for. */
#define _DEFAULT_SOURCE
#include "lanes_folder_driver.h"

#include <dirent.h>
#include <errno.h>
#include <fcntl.h>
#include <stdio.h>
#include <stdlib.h>
#include <string.h>
#include <sys/file.h>
#include <sys/stat.h>
#include <unistd.h>

/* How long a lock is waited for, or parts that come and go, in hundredths of a second. */
enum { LONGEST_WAIT = 1000 };

/* How much room there is for two names. */
enum { ROOM = 640 };

typedef struct {
    int folder, file, lock; /* -1 if it is not open */
    const uint8_t *part;
    size_t part_length;
    char temporary[64];
    char names[ROOM + 2]; /* those of the call, each with a byte 0 at its end */
    const char *second;
    uint8_t *found; /* what a read found */
    size_t found_length;
    lanes_part_names listed;
    int has_replaced; /* whether parts were removed, as by a pack */
    lanes_turn *turn;
} driver;

/* What is told of a call: an answer, and an error's number or how many bytes were written. */
typedef struct {
    uint8_t answer;
    uint64_t number;
} told;

static told told_as(uint8_t answer, uint64_t number) {
    told came = {answer, number};
    return came;
}

static told failed(void) { return told_as(LANES_FAILED, (uint64_t)errno); }

static told done_if(int is_done) { return is_done ? told_as(LANES_DONE, 0) : failed(); }

/* A file system without locks, or without hard links. Any other error of the call is a fault. */
static int has_no_locks(int error) { return error == ENOSYS || error == EOPNOTSUPP || error == ENOLCK; }

static int has_no_links(int error) { return error == EPERM || error == EOPNOTSUPP || error == EMLINK; }

/* A folder that this process could not sync once, and the error's number. A later sync may say that all is well, and what was not written then is
 * lost all the same: the system tells it once. The folder is held open, so that no other one gets its number. */
typedef struct unsynced {
    dev_t device;
    ino_t number;
    int error;
    struct unsynced *next;
} unsynced;

static unsynced *unsynced_folders;

/* The same of all folders, if there was no memory to say of which. */
static int unsynced_all;

/* The number of the error of a sync of this folder that failed before, or 0. */
static int why_unsynced(const struct stat *folder) {
    for (const unsynced *one = __atomic_load_n(&unsynced_folders, __ATOMIC_SEQ_CST); one; one = one->next)
        if (one->device == folder->st_dev && one->number == folder->st_ino) return one->error;
    return __atomic_load_n(&unsynced_all, __ATOMIC_SEQ_CST);
}

static void note_unsynced(int folder, const struct stat *found, int error) {
    unsynced *one = (unsynced *)malloc(sizeof *one);
    if (!one) {
        __atomic_store_n(&unsynced_all, error, __ATOMIC_SEQ_CST);
        return;
    }
    one->device = found->st_dev;
    one->number = found->st_ino;
    one->error = error;
    one->next = __atomic_load_n(&unsynced_folders, __ATOMIC_SEQ_CST);
    while (!__atomic_compare_exchange_n(&unsynced_folders, &one->next, one, 1, __ATOMIC_SEQ_CST, __ATOMIC_SEQ_CST)) {}
    if (fcntl(folder, F_DUPFD_CLOEXEC, 0) < 0) __atomic_store_n(&unsynced_all, error, __ATOMIC_SEQ_CST);
}

static void let_go(int *opened) {
    if (*opened >= 0) close(*opened);
    *opened = -1;
}

/* Closes what may be locked. A child that was forked meanwhile has it open too, and would keep a lock that is only closed. */
static void unlock(int *opened) {
    if (*opened >= 0) flock(*opened, LOCK_UN);
    let_go(opened);
}

static int is_part_name(const char *name) { return strlen(name) == LANES_PART_NAME - 1 && strspn(name, "0123456789abcdef") == 32 && !strcmp(name + 32, ".lanes"); }

/* Opens the folder to list it; null tells errno. */
static DIR *open_listing(const driver *d) {
    int again = openat(d->folder, ".", O_RDONLY | O_DIRECTORY | O_CLOEXEC);
    DIR *listing = again < 0 ? NULL : fdopendir(again);
    if (!listing && again >= 0) {
        int error = errno;
        close(again);
        errno = error;
    }
    return listing;
}

/* Finds the mode of the part of least name; 0 if there is no part. Answers 0, or an errno. */
static int find_mode(const driver *d, mode_t *mode) {
    lanes_part_named least = "";
    struct dirent *entry;
    struct stat found;
    DIR *listing = open_listing(d);
    *mode = 0;
    if (!listing) return errno;
    for (errno = 0; (entry = readdir(listing)); errno = 0) {
        if (!is_part_name(entry->d_name) || (*least && strcmp(entry->d_name, least) > 0)) continue;
        if (fstatat(d->folder, entry->d_name, &found, 0) || !S_ISREG(found.st_mode)) continue;
        memcpy(least, entry->d_name, sizeof least);
        *mode = found.st_mode & 07777;
    }
    int error = errno;
    closedir(listing);
    return error;
}

/* Gives the temporary the mode of the part of least name, whatever the process's umask: so who reads the parts that are there reads the new one too.
 * In a folder without parts the mode stays that of the umask. Answers 0, or an errno. */
static int take_mode(const driver *d) {
    struct stat made;
    mode_t mode;
    int error = find_mode(d, &mode);
    if (error || !mode) return error;
    if (fstat(d->file, &made)) return errno;
    return (made.st_mode & 07777) != mode && fchmod(d->file, mode) ? errno : 0;
}

/* Tries once to make the temporary, and to take its lock, so that no sweep removes it. If a sweep came first, the fault is EEXIST. */
static told try_make(driver *d) {
    struct stat opened, named;
    unlock(&d->file);
    d->file = openat(d->folder, d->names, O_WRONLY | O_CREAT | O_EXCL | O_CLOEXEC, 0666);
    if (d->file < 0) return failed();
    if (strlen(d->names) < sizeof d->temporary) memcpy(d->temporary, d->names, strlen(d->names) + 1);
    int is_locked = !flock(d->file, LOCK_EX | LOCK_NB);
    if (!is_locked && errno != EWOULDBLOCK && !has_no_locks(errno)) return failed();
    int is_swept = !is_locked && errno == EWOULDBLOCK;
    if (!is_swept && fstat(d->file, &opened)) return failed();
    if (!is_swept && fstatat(d->folder, d->names, &named, AT_SYMLINK_NOFOLLOW)) {
        if (errno != ENOENT) return failed();
        is_swept = 1;
    }
    return is_swept || opened.st_ino != named.st_ino ? told_as(LANES_FAILED, EEXIST) : told_as(LANES_DONE, 0);
}

/* Makes the temporary, anew if a sweep came before its lock. */
static told make(driver *d) {
    told came = try_make(d);
    for (int tried = 0; came.answer == LANES_FAILED && came.number == EEXIST && tried < LONGEST_WAIT; tried++) {
        usleep(1000);
        came = try_make(d);
    }
    int error = came.answer == LANES_DONE ? take_mode(d) : 0;
    return error ? told_as(LANES_FAILED, (uint64_t)error) : came;
}

static told write_some(driver *d, uint64_t from) {
    ssize_t count;
    do count = write(d->file, d->part + from, d->part_length - (size_t)from);
    while (count < 0 && errno == EINTR);
    return count < 0 ? failed() : told_as(LANES_WROTE, (uint64_t)count);
}

/* Gives the temporary the name of its part, by a rename if there are no hard links, if the name is free. */
static told link_names(driver *d) {
    struct stat found;
    if (!linkat(d->folder, d->names, d->folder, d->second, 0)) return told_as(LANES_DONE, 0);
    if (errno == EEXIST) return told_as(LANES_TAKEN, 0);
    if (!has_no_links(errno)) return failed();
    if (!fstatat(d->folder, d->second, &found, AT_SYMLINK_NOFOLLOW)) return told_as(LANES_TAKEN, 0);
    return done_if(errno == ENOENT && !renameat(d->folder, d->names, d->folder, d->second));
}

static told remove_name(driver *d) {
    told came = done_if(!unlinkat(d->folder, d->names, 0) || errno == ENOENT);
    if (!strcmp(d->names, d->temporary)) d->temporary[0] = 0;
    else d->has_replaced = 1;
    return came;
}

static told settle(driver *d) {
    struct stat found;
    if (fstat(d->folder, &found)) return failed();
    int error = why_unsynced(&found);
    if (error) return told_as(LANES_FAILED, (uint64_t)error);
    if (!fsync(d->folder)) return told_as(LANES_DONE, 0);
    told fault = failed();
    note_unsynced(d->folder, &found, (int)fault.number);
    return fault;
}

/* Waits for the folder's lock. A file system without locks has none, so that nothing is removed there. */
static told take_lock(driver *d, int kind) {
    d->lock = openat(d->folder, ".", O_RDONLY | O_DIRECTORY | O_CLOEXEC);
    if (d->lock < 0) return failed();
    for (int waited = 0; flock(d->lock, kind | LOCK_NB); waited++) {
        if (errno != EWOULDBLOCK) return kind == LOCK_SH && has_no_locks(errno) ? told_as(LANES_DONE, 0) : failed();
        if (waited == LONGEST_WAIT) return told_as(LANES_FAILED, EAGAIN);
        usleep(10000);
    }
    return told_as(LANES_DONE, 0);
}

static int by_name(const void *one, const void *other) { return strcmp(*(const lanes_part_named *)one, *(const lanes_part_named *)other); }

/* Adds the names of one listing. */
static int add_names(driver *d, DIR *open) {
    struct dirent *entry;
    rewinddir(open);
    for (errno = 0; (entry = readdir(open)); errno = 0) {
        struct stat found;
        if (!is_part_name(entry->d_name) || (!fstatat(d->folder, entry->d_name, &found, 0) && S_ISDIR(found.st_mode))) continue;
        if (!(d->listed.count & (d->listed.count - 1))) {
            lanes_part_named *more = (lanes_part_named *)realloc(d->listed.names, (d->listed.count ? 2 * d->listed.count : 1) * sizeof *more);
            if (!more) return 0;
            d->listed.names = more;
        }
        memcpy(d->listed.names[d->listed.count++], entry->d_name, LANES_PART_NAME);
    }
    return !errno;
}

/* Tells the names of two listings, in order and each once. */
static told list(driver *d) {
    lanes_place place;
    DIR *open = open_listing(d);
    d->listed.count = 0;
    int is_done = open && add_names(d, open) && add_names(d, open);
    told fault = failed();
    if (open) closedir(open);
    if (!is_done) return fault;
    size_t kept = 0;
    if (d->listed.count) qsort(d->listed.names, d->listed.count, sizeof *d->listed.names, by_name);
    for (size_t i = 0; i < d->listed.count; i++)
        if (!kept || strcmp(d->listed.names[i], d->listed.names[kept - 1])) memmove(d->listed.names[kept++], d->listed.names[i], LANES_PART_NAME);
    d->listed.count = kept;
    for (size_t i = 0; i < kept; i++)
        if (lanes_folder_name((const uint8_t *)d->listed.names[i], LANES_PART_NAME - 1, d->turn, &place)) return told_as(LANES_FAILED, ENOMEM);
    return told_as(LANES_LISTED, 0);
}

/* Opens a file and reads it whole; it is the open file then. */
static told read_file(driver *d) {
    struct stat found;
    let_go(&d->file);
    d->file = openat(d->folder, d->names, O_RDONLY | O_CLOEXEC | O_NONBLOCK);
    if (d->file < 0) return errno == ENOENT && fstatat(d->folder, d->names, &found, AT_SYMLINK_NOFOLLOW) ? told_as(LANES_NO_FILE, 0) : failed();
    if (fstat(d->file, &found)) return failed();
    if (!S_ISREG(found.st_mode)) return told_as(LANES_FAILED, EINVAL); /* a pipe, for one */
    free(d->found);
    d->found_length = 0;
    d->found = (uint8_t *)malloc((size_t)found.st_size + 1);
    if (!d->found) return told_as(LANES_FAILED, ENOMEM);
    for (;;) {
        ssize_t count = read(d->file, d->found + d->found_length, (size_t)found.st_size + 1 - d->found_length);
        if (count < 0 && errno == EINTR) continue;
        if (count < 0) return failed();
        d->found_length += (size_t)count;
        if (!count || d->found_length > (size_t)found.st_size) return told_as(LANES_FOUND, 0);
    }
}

/* Makes the call that is asked for. */
static told make_call(driver *d, lanes_call call) {
    switch (call.kind) {
    case LANES_CALL_MAKE: return make(d);
    case LANES_CALL_WRITE: return write_some(d, call.number);
    case LANES_CALL_SYNC: return done_if(!fsync(d->file));
    case LANES_CALL_LINK: return link_names(d);
    case LANES_CALL_REMOVE: return remove_name(d);
    case LANES_CALL_SETTLE: return settle(d);
    case LANES_CALL_LOCK: return take_lock(d, LOCK_EX);
    case LANES_CALL_LOCK_SHARED: return take_lock(d, LOCK_SH);
    case LANES_CALL_LIST: return list(d);
    case LANES_CALL_READ: return read_file(d);
    default: unlock(&d->lock); return told_as(LANES_DONE, 0);
    }
}

/* Puts the names of a call apart. */
static void part_names(driver *d, lanes_call call, size_t length) {
    size_t first = call.kind == LANES_CALL_LINK ? (size_t)call.number : length;
    memmove(d->names + first + 1, d->names + first, length - first);
    d->names[first] = d->names[length + 1] = 0;
    d->second = d->names + first + 1;
}

/* Makes one call after another. */
static uint8_t drive(driver *d, uint64_t *came, lanes_place *place) {
    static const uint8_t no_bytes = 0;
    told last = {LANES_NOTHING, 0};
    for (;;) {
        lanes_call call;
        size_t length;
        const uint8_t *bytes = last.answer == LANES_FOUND ? d->found : &no_bytes;
        uint8_t number = lanes_folder_next(d->turn, last.answer, last.number, bytes, last.answer == LANES_FOUND ? d->found_length : 0, &call,
                                           (uint8_t *)d->names, ROOM, &length, place);
        if (number) return number;
        *came = call.number;
        if (call.kind == LANES_ENDED) return 0;
        if (length > ROOM) return LANES_BAD_NAME;
        part_names(d, call, length);
        last = make_call(d, call);
    }
}

/* The system's reason why a call failed, as a refusal. */
static uint8_t refused_by_system(uint64_t reason, lanes_place *place) {
    place->first = reason == ENOMEM ? 0 : reason;
    place->second = 0;
    return reason == ENOMEM ? LANES_MEMORY : LANES_SYSTEM;
}

/* Sweeping. */

static int is_temporary_name(const char *name) { return strlen(name) == 22 && !strncmp(name, ".part-", 6) && strspn(name + 6, "0123456789abcdef") == 16; }

/* Removes a temporary, if its lock is to be had and it still has its name: what has it was killed. */
static void sweep_one(const driver *d, const char *name) {
    struct stat opened, named;
    if (fstatat(d->folder, name, &named, AT_SYMLINK_NOFOLLOW) || !S_ISREG(named.st_mode)) return;
    int file = openat(d->folder, name, O_RDONLY | O_NOFOLLOW | O_NONBLOCK | O_CLOEXEC);
    int is_had = file >= 0 && !flock(file, LOCK_EX | LOCK_NB) && !fstat(file, &opened) && !fstatat(d->folder, name, &named, AT_SYMLINK_NOFOLLOW);
    if (is_had && opened.st_ino == named.st_ino && opened.st_dev == named.st_dev) unlinkat(d->folder, name, 0);
    unlock(&file);
}

/* Removes the temporaries that no process has. Answers 0, or an errno. */
static int sweep(const driver *d) {
    struct dirent *entry;
    DIR *listing = open_listing(d);
    if (!listing) return errno;
    for (errno = 0; (entry = readdir(listing)); errno = 0)
        if (is_temporary_name(entry->d_name)) sweep_one(d, entry->d_name);
    int error = errno;
    closedir(listing);
    return error;
}

/* Opens the folder of a path, which is all that is open at first. */
static driver driver_in(const char *path) {
    driver d;
    memset(&d, 0, sizeof d);
    d.folder = open(path, O_RDONLY | O_DIRECTORY | O_CLOEXEC);
    d.file = d.lock = -1;
    return d;
}

uint8_t lanes_folder_draw(lanes_temporary name, lanes_place *place) {
    uint64_t number;
    int file = open("/dev/urandom", O_RDONLY | O_CLOEXEC);
    int is_drawn = file >= 0 && read(file, &number, sizeof number) == (ssize_t)sizeof number;
    let_go(&file);
    if (!is_drawn) return refused_by_system((uint64_t)errno, place);
    snprintf(name, sizeof(lanes_temporary), ".part-%016llx", (unsigned long long)number);
    return 0;
}

uint8_t lanes_folder_sweep(const char *path, lanes_place *place) {
    driver d = driver_in(path);
    int error = d.folder < 0 ? errno : sweep(&d);
    let_go(&d.folder);
    return error ? refused_by_system((uint64_t)error, place) : 0;
}

uint8_t lanes_folder_drive(const char *path, lanes_turn *turn, const uint8_t *part, size_t part_length, lanes_part_names *listed, uint64_t *came,
                           lanes_place *place) {
    driver d = driver_in(path);
    d.part = part;
    d.part_length = part_length;
    d.turn = turn;
    *came = 0;
    if (listed) *listed = d.listed;
    uint8_t number = d.folder < 0 ? refused_by_system((uint64_t)errno, place) : drive(&d, came, place);
    if (number == LANES_SYSTEM) number = refused_by_system(place->first, place);
    lanes_folder_end(turn);
    if (d.temporary[0]) unlinkat(d.folder, d.temporary, 0);
    if (d.has_replaced) sweep(&d);
    if (listed && !number) {
        *listed = d.listed;
        d.listed.names = NULL;
    }
    free(d.listed.names);
    free(d.found);
    unlock(&d.file);
    unlock(&d.lock);
    let_go(&d.folder);
    return number;
}

/* Adds names to a turn by a call, if there are any. */
static uint8_t give_names(const lanes_part_names *names, uint8_t (*add)(const uint8_t *, size_t, lanes_turn *, lanes_place *), lanes_turn *turn, lanes_place *place) {
    uint8_t number = 0;
    for (size_t i = 0; !number && names && i < names->count; i++) number = add((const uint8_t *)names->names[i], LANES_PART_NAME - 1, turn, place);
    return number;
}

uint8_t lanes_folder_follow_relying(const char *path, uint8_t command, const uint8_t *part, size_t part_length, const lanes_part_names *about,
                                    const lanes_part_names *relied, lanes_part_names *listed, uint64_t *came, lanes_place *place) {
    static const lanes_part_names none = {NULL, 0};
    lanes_turn turn = LANES_NO_TURN;
    lanes_temporary temporary;
    *came = 0;
    if (listed) *listed = none;
    uint8_t number = lanes_folder_draw(temporary, place);
    if (!number) number = lanes_folder_begin(command, (const uint8_t *)temporary, strlen(temporary), part, part_length, &turn, place);
    if (!number) number = give_names(about, lanes_folder_name, &turn, place);
    if (!number) number = give_names(relied, lanes_folder_relied, &turn, place);
    if (!number) return lanes_folder_drive(path, &turn, part, part_length, listed, came, place);
    lanes_folder_end(&turn);
    return number;
}

uint8_t lanes_folder_follow(const char *path, uint8_t command, const uint8_t *part, size_t part_length, const lanes_part_names *about,
                            lanes_part_names *listed, uint64_t *came, lanes_place *place) {
    return lanes_folder_follow_relying(path, command, part, part_length, about, NULL, listed, came, place);
}

uint8_t lanes_folder_take(const char *path, const lanes_part_names *names, lanes_parts *parts, int *is_gone, size_t *at, lanes_place *place) {
    driver d = driver_in(path);
    uint8_t number = d.folder < 0 ? refused_by_system((uint64_t)errno, place) : 0;
    *is_gone = 0;
    *at = number ? names->count : 0;
    for (size_t i = 0; !number && !*is_gone && i < names->count; i++) {
        *at = i;
        memcpy(d.names, names->names[i], LANES_PART_NAME);
        told found = read_file(&d);
        *is_gone = found.answer == LANES_NO_FILE;
        if (found.answer == LANES_FAILED) number = refused_by_system(found.number, place);
        if (found.answer == LANES_FOUND) number = lanes_parts_take(parts, (const uint8_t *)d.names, LANES_PART_NAME - 1, d.found, d.found_length, place);
    }
    if (number || *is_gone) lanes_parts_close(parts);
    free(d.found);
    let_go(&d.file);
    let_go(&d.folder);
    return number;
}

uint8_t lanes_folder_read(const char *path, lanes_parts *parts, lanes_part_names *names, size_t *at, lanes_place *place) {
    static const uint8_t none = 0;
    static const lanes_part_names no_names = {NULL, 0};
    for (int look = 0;; look++) {
        uint64_t came;
        int is_gone;
        *names = no_names;
        *at = 0;
        uint8_t number = lanes_folder_follow(path, LANES_FOLDER_LIST, &none, 0, NULL, names, &came, place);
        if (number) return number;
        number = lanes_folder_take(path, names, parts, &is_gone, at, place);
        if (number || !is_gone) return number;
        free(names->names);
        if (look == LONGEST_WAIT) break;
        usleep(10000);
    }
    *names = no_names;
    *at = 0;
    place->first = place->second = 0;
    return LANES_BUSY;
}
