/* The reader of folders of c/lanes_folder_driver.c, in what it seldom meets: a part that one listing misses or that goes while it is listed, a lock
 * that another has or that fails, a part that goes before it is read, reads that are short or fail, what is no file, and a lack of memory. The calls
 * of the system are those of this file, which count. It prints how many allocations failed. */
#define _DEFAULT_SOURCE
#include "lanes.h"

#include <dirent.h>
#include <errno.h>
#include <fcntl.h>
#include <stdarg.h>
#include <stdio.h>
#include <stdlib.h>
#include <string.h>
#include <sys/file.h>
#include <sys/stat.h>
#include <unistd.h>

/* What the calls do, and what they met. */
static struct {
    const char *missed;  /* the name that the first listing misses */
    const char *gone;    /* the part that goes before it is opened, as a pack comes */
    int goes_each_time;  /* whether a part is gone however often the folder is listed */
    int goes_in_listing; /* whether each part is gone when the listing looks at it, and there again later */
    int busy;            /* how often the lock is refused; -1 for ever */
    int lock_fault;      /* the error of the lock, or 0 */
    int short_reads;     /* whether a read gives 7 bytes, after one that was interrupted */
    int read_fault;      /* the error of a read, or 0 */
    int list_fault;      /* the error of a listing, or 0 */
    long allocations;    /* how many allocations succeed before one fails; -1: all */
    int listings, lock, was_unlocked, slept, reads;
} met;

static void begin(void) {
    memset(&met, 0, sizeof met);
    met.lock = met.allocations = -1;
}

static void wrong(const char *what) {
    printf("%s\n", what);
    exit(1);
}

static void expect(int holds, const char *what) {
    if (!holds) wrong(what);
}

static struct dirent *trying_readdir(DIR *open) {
    struct dirent *entry;
    if (met.lock < 0) met.was_unlocked = 1;
    if (met.list_fault) return errno = met.list_fault, NULL;
    while ((entry = readdir(open)) && met.missed && met.listings == 1 && !strcmp(entry->d_name, met.missed)) {}
    return entry;
}

static void trying_rewinddir(DIR *open) {
    met.listings++;
    rewinddir(open);
}

static int trying_flock(int file, int kind) {
    if (kind == LOCK_UN) return met.lock = -1, 0;
    expect(file >= 0 && kind == (LOCK_SH | LOCK_NB), "another lock is taken");
    if (met.lock_fault) return errno = met.lock_fault, -1;
    if (met.busy) {
        if (met.busy > 0) met.busy--;
        return errno = EWOULDBLOCK, -1;
    }
    met.lock = file;
    return 0;
}

static int trying_close(int file) {
    if (file == met.lock) met.lock = -1;
    return close(file);
}

static int trying_usleep(useconds_t time) {
    (void)time;
    return met.slept++, 0;
}

static void pack(int folder, const char *gone);

static int is_part(const char *path) { return strlen(path) == 38; }

static int trying_openat(int folder, const char *path, int flags, ...) {
    if (met.goes_each_time && is_part(path)) return errno = ENOENT, -1;
    if (met.gone && !strcmp(path, met.gone)) {
        pack(folder, met.gone);
        met.gone = NULL;
    }
    return openat(folder, path, flags);
}

static int trying_fstatat(int folder, const char *path, struct stat *found, int flags) {
    if (met.goes_each_time && flags) return errno = ENOENT, -1;
    if (met.goes_in_listing && !flags) return errno = ENOENT, -1;
    return fstatat(folder, path, found, flags);
}

static ssize_t trying_read(int file, void *out, size_t room) {
    if (room == 8) return read(file, out, room); /* random bytes */
    if (met.read_fault) return errno = met.read_fault, -1;
    if (!met.short_reads) return read(file, out, room);
    if (met.reads++ % 2 == 0) return errno = EINTR, -1;
    return read(file, out, room < 7 ? room : 7);
}

static int fails(void) { return met.allocations >= 0 && met.allocations-- == 0; }

static void *trying_malloc(size_t bytes) { return fails() ? (errno = ENOMEM, NULL) : malloc(bytes); }
static void *trying_realloc(void *held, size_t bytes) { return fails() ? (errno = ENOMEM, NULL) : realloc(held, bytes); }
static DIR *trying_fdopendir(int file) { return fails() ? (errno = ENOMEM, NULL) : fdopendir(file); }

#define readdir trying_readdir
#define rewinddir trying_rewinddir
#define flock trying_flock
#define close trying_close
#define usleep trying_usleep
#define openat trying_openat
#define fstatat trying_fstatat
#define read(file, out, room) trying_read(file, out, room)
#define malloc trying_malloc
#define realloc trying_realloc
#define fdopendir trying_fdopendir
#undef _DEFAULT_SOURCE
#include "lanes_folder_driver.c"
#undef readdir
#undef rewinddir
#undef flock
#undef close
#undef usleep
#undef openat
#undef fstatat
#undef read
#undef malloc
#undef realloc
#undef fdopendir

enum { PARTS = 5, MUCH = 1 << 16 };

static lanes_part_named names[PARTS];
static uint8_t whole[MUCH];
static size_t whole_length;

/* Writes a part under the name of its bytes. */
static void write_part(int folder, const uint8_t *bytes, size_t length, lanes_part_named name) {
    size_t found;
    lanes_place place;
    expect(!lanes_part_name(bytes, length, (uint8_t *)name, LANES_PART_NAME, &found, &place) && found == LANES_PART_NAME - 1, "a name");
    name[found] = 0;
    int file = openat(folder, name, O_WRONLY | O_CREAT, 0666);
    expect(file >= 0 && write(file, bytes, length) == (ssize_t)length && !close(file), "a part can't be written");
}

/* What a pack does: a part with all of them comes, and one goes. */
static void pack(int folder, const char *gone) {
    lanes_part_named name;
    write_part(folder, whole, whole_length, name);
    expect(!unlinkat(folder, gone, 0), "a part doesn't go");
}

/* Makes a folder of parts, and the file of what all of them hold. */
static void make_folder(const char *room) {
    static uint8_t part[MUCH], both[MUCH];
    static const char words[] = "T A INTEGER";
    uint8_t empty[256];
    size_t empty_length, length;
    lanes_place place;
    int folder = open(room, O_RDONLY | O_DIRECTORY);
    expect(folder >= 0 && !lanes_create((const uint8_t *)words, strlen(words), empty, sizeof empty, &empty_length, &place), "create");
    memcpy(whole, empty, empty_length);
    whole_length = empty_length;
    for (unsigned i = 0; i < PARTS; i++) {
        char csv[64];
        uint64_t none = 0;
        snprintf(csv, sizeof csv, "%u\n%u\n%u\n", i, i + 10, i * i);
        expect(!lanes_import(empty, empty_length, (const uint8_t *)csv, strlen(csv), false, 1, i + 1, &none, 0, part, MUCH, &length, &place) && length <= MUCH, "import");
        write_part(folder, part, length, names[i]);
        expect(!lanes_merge(whole, whole_length, part, length, both, MUCH, &whole_length, &place) && whole_length <= MUCH, "merge");
        memcpy(whole, both, whole_length);
    }
    qsort(names, PARTS, sizeof *names, by_name);
    int notes = openat(folder, "notes.txt", O_WRONLY | O_CREAT, 0666);
    expect(write(notes, "no part", 7) == 7 && !close(notes) && !close(folder), "notes");
}

static size_t open_files(void) {
    size_t count = 0;
    DIR *open = opendir("/proc/self/fd");
    expect(open != NULL, "/proc");
    while (readdir(open)) count++;
    closedir(open);
    return count;
}

/* How a folder was refused: the number, its place, and the name of the part, or nothing. */
static struct {
    uint8_t number;
    lanes_place place;
    lanes_part_named part;
} refused;

/* Whether a folder is read as what all parts hold. Nothing is left open, whatever comes of it. */
static int is_read(const char *room) {
    static uint8_t found[MUCH];
    lanes_parts parts = LANES_NO_PARTS;
    lanes_table table = LANES_CLOSED;
    lanes_part_names given;
    size_t at, length, before = open_files();
    lanes_place place;
    memset(&refused, 0, sizeof refused);
    refused.number = lanes_folder_read(room, &parts, &given, &at, &refused.place);
    if (at < given.count) memcpy(refused.part, given.names[at], sizeof refused.part);
    free(given.names);
    expect(open_files() == before, "a file is left open");
    expect(met.lock_fault || !met.was_unlocked, "the folder is listed without its lock");
    if (refused.number) return expect(!parts.read, "parts are left open"), 0;
    expect(!lanes_parts_open(&parts, &table, &place) && !lanes_file(&table, found, MUCH, &length, &place), "they can't be opened");
    lanes_close(&table);
    expect(length == whole_length && !memcmp(found, whole, length), "other bytes are read");
    return 1;
}

static int is_refused(const char *room, uint8_t number, uint64_t why, const char *part) {
    return !is_read(room) && refused.number == number && refused.place.first == why && !strcmp(refused.part, part);
}

static void try_listings(const char *room) {
    for (int i = 0; i < PARTS; i++) {
        begin();
        met.missed = names[i];
        expect(is_read(room), "a part that one listing misses");
    }
    begin();
    met.goes_in_listing = 1;
    expect(is_read(room), "a part that goes while it is listed makes no fault of the listing");
    begin();
    met.list_fault = EIO;
    expect(is_refused(room, LANES_SYSTEM, EIO, ""), "why a listing failed");
    begin();
    met.goes_each_time = 1;
    expect(is_refused(room, LANES_BUSY, 0, "") && met.slept == 1000, "parts that come and go");
}

static void try_locks(const char *room) {
    static const int none[] = {ENOSYS, EOPNOTSUPP, ENOLCK}, faults[] = {EIO, EBADF, EACCES};
    begin();
    met.busy = 20;
    expect(is_read(room) && met.slept == 20, "a lock that another has for a while");
    begin();
    met.busy = -1;
    expect(is_refused(room, LANES_BUSY, 0, "") && met.slept == 1000, "a lock that another has for long");
    for (int i = 0; i < 3; i++) {
        begin();
        met.lock_fault = none[i];
        expect(is_read(room) && met.slept == 0, "a file system without locks");
        begin();
        met.lock_fault = faults[i];
        expect(is_refused(room, LANES_SYSTEM, (uint64_t)faults[i], ""), "a lock that fails");
    }
}

static void try_reads(const char *room) {
    begin();
    met.short_reads = 1;
    expect(is_read(room), "short reads");
    begin();
    met.read_fault = EIO;
    expect(is_refused(room, LANES_SYSTEM, EIO, names[0]), "a read that fails");
}

/* Each part in turn has a bit that is flipped, or is a pipe: it is named, and no other. */
static void try_parts(const char *room) {
    int folder = open(room, O_RDONLY | O_DIRECTORY);
    for (int i = 0; i < PARTS; i++) {
        uint8_t last;
        int file = openat(folder, names[i], O_RDWR);
        off_t end = lseek(file, -1, SEEK_END);
        begin();
        expect(pread(file, &last, 1, end) == 1 && (last ^= 1, pwrite(file, &last, 1, end)) == 1, "a bit");
        expect(is_refused(room, LANES_DAMAGED, 0, names[i]), "a part with a flipped bit is named");
        expect((last ^= 1, pwrite(file, &last, 1, end)) == 1 && !close(file), "a bit");
        expect(!renameat(folder, names[i], folder, "kept") && !mkfifoat(folder, names[i], 0666), "a pipe");
        expect(is_refused(room, LANES_SYSTEM, EINVAL, names[i]), "a pipe is refused at once");
        expect(!unlinkat(folder, names[i], 0) && !symlinkat("nowhere", folder, names[i]), "a link");
        expect(is_refused(room, LANES_SYSTEM, ENOENT, names[i]), "a link that leads nowhere");
        expect(!unlinkat(folder, names[i], 0) && !renameat(folder, "kept", folder, names[i]), "a part");
    }
    expect(!close(folder) && is_read(room), "the parts as they were");
}

/* A part that is gone when it is read: the handle is closed, and nothing is taken. */
static void try_gone(const char *room) {
    lanes_parts parts = LANES_NO_PARTS;
    lanes_part_named two[] = {{0}, "ffffffffffffffffffffffffffffffff.lanes"};
    lanes_part_names about = {two, 2};
    lanes_place place;
    size_t at;
    int is_gone;
    begin();
    memcpy(two[0], names[0], sizeof two[0]);
    expect(!lanes_folder_take(room, &about, &parts, &is_gone, &at, &place) && is_gone && at == 1 && !parts.read, "a part that is gone");
    met.gone = names[2];
    expect(is_read(room) && met.listings == 4 && met.slept == 1, "a part that goes before it is read");
}

/* Each allocation fails in turn; how many there are. */
static long try_memory(const char *room) {
    for (long failed = 0;; failed++) {
        begin();
        met.allocations = failed;
        if (is_read(room)) return failed;
        expect(refused.number == LANES_MEMORY && refused.place.first == 0, "another fault than memory");
    }
}

int main(int count, char **words) {
    expect(count == 2, "a folder is wanted");
    make_folder(words[1]);
    begin();
    expect(is_read(words[1]) && met.listings == 2, "a folder");
    try_listings(words[1]);
    try_locks(words[1]);
    try_reads(words[1]);
    try_parts(words[1]);
    long failed = try_memory(words[1]);
    try_gone(words[1]);
    printf("%ld\n", failed);
    return failed > 8 ? 0 : 1;
}
