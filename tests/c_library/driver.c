/* The driver of folders, c/lanes_folder_driver.c, in what it seldom meets when it puts parts: a folder that could not be synced once, a sweep that comes
 * before the lock of a temporary, a child that is forked while a lock is held, and a file system without hard links. The calls of the system are those of this file. */
#define _DEFAULT_SOURCE
#include "bytes.h"

#include <dirent.h>
#include <errno.h>
#include <fcntl.h>
#include <signal.h>
#include <stdarg.h>
#include <stdio.h>
#include <stdlib.h>
#include <string.h>
#include <sys/file.h>
#include <sys/stat.h>
#include <sys/wait.h>
#include <unistd.h>

/* What the calls meet. */
static struct {
    int sync_fault;  /* the error of the next sync of a folder, or 0 */
    int link_fault;  /* the error of each link, or 0 */
    int swept;       /* how a sweep meets the next temporary: 1: has its lock, 2: has removed it, 3: and another file has its name; or 0 */
    int lock_fault;  /* the error of each lock of a file, or 0 */
    int lacks_memory;
    int interrupts; /* how many writes a signal interrupts */
    int stays;     /* whether a sweep that has a temporary does not end */
    int slept;     /* how often the driver has slept */
    int is_forked; /* whether a child is forked once a lock is had, which lives on */
} met;

/* The children that live. */
static pid_t children[64];
static int forked;

/* Forks a child, as another thread may at any moment. It has all descriptors, and does nothing. */
static void fork_one(void) {
    pid_t child = fork();
    if (!child) {
        alarm(60);
        for (;;) pause();
    }
    children[forked++] = child;
}

static void end_children(void) {
    while (forked) {
        kill(children[--forked], SIGKILL);
        waitpid(children[forked], NULL, 0);
    }
}

static char temporary_of[64];
static int folder_of_temporary, passed, not_passed;

static void expect(int holds, const char *what) {
    passed += holds;
    not_passed += !holds;
    if (!holds) printf("failed: %s\n", what);
}

static int is_folder(int file) {
    struct stat found;
    return !fstat(file, &found) && S_ISDIR(found.st_mode);
}

static int trying_fsync(int file) {
    int error = is_folder(file) ? met.sync_fault : 0;
    if (!error) return fsync(file);
    met.sync_fault = 0;
    return errno = error, -1;
}

static int trying_linkat(int from, const char *name, int to, const char *other, int flags) {
    return met.link_fault ? (errno = met.link_fault, -1) : linkat(from, name, to, other, flags);
}

static int trying_openat(int folder, const char *name, int flags, ...) {
    if (!(flags & O_CREAT)) return openat(folder, name, flags);
    va_list more;
    va_start(more, flags);
    int file = openat(folder, name, flags, va_arg(more, unsigned));
    va_end(more);
    snprintf(temporary_of, sizeof temporary_of, "%s", name);
    folder_of_temporary = folder;
    return file;
}

static int trying_flock(int file, int kind) {
    if (kind == LOCK_UN) return flock(file, kind);
    int swept = is_folder(file) ? 0 : met.swept;
    if (!is_folder(file) && met.lock_fault) return errno = met.lock_fault, -1;
    if (swept) met.swept = 0;
    if (swept == 1) return errno = EWOULDBLOCK, -1;
    if (swept) unlinkat(folder_of_temporary, temporary_of, 0);
    if (swept == 3) close(openat(folder_of_temporary, temporary_of, O_WRONLY | O_CREAT, 0666));
    int fault = flock(file, kind);
    if (!fault && met.is_forked) fork_one();
    return fault;
}

static ssize_t trying_write(int file, const void *bytes, size_t length) {
    if (met.interrupts && met.interrupts--) return errno = EINTR, -1;
    return write(file, bytes, length);
}

/* While the driver sleeps, a sweep removes what it has. */
static int trying_usleep(useconds_t time) {
    (void)time;
    met.slept++;
    if (!met.stays) unlinkat(folder_of_temporary, temporary_of, 0);
    return 0;
}

static void *trying_malloc(size_t size) { return met.lacks_memory ? NULL : malloc(size); }

#define fsync trying_fsync
#define linkat trying_linkat
#define flock trying_flock
#define malloc trying_malloc
#define openat trying_openat
#define usleep trying_usleep
#define write trying_write
#undef _DEFAULT_SOURCE
#include "lanes_folder_driver.c"
#undef fsync
#undef linkat
#undef flock
#undef malloc
#undef openat
#undef usleep
#undef write

/* Puts these bytes; what it came to, or the number of a refusal and 100, or and the error's 1000. */
static uint64_t put(const char *folder, const char *bytes) {
    uint64_t came;
    lanes_place place;
    uint8_t number = lanes_folder_follow(folder, LANES_FOLDER_PUT, text_of(bytes), strlen(bytes), NULL, NULL, &came, &place);
    return number == LANES_SYSTEM ? 1000 + place.first : number ? 100u + number : came;
}

/* The name of the part of these bytes. */
static const char *name_of(const char *bytes) {
    static lanes_part_named name;
    size_t length;
    lanes_place place;
    expect(!lanes_part_name(text_of(bytes), strlen(bytes), (uint8_t *)name, sizeof name, &length, &place) && length == sizeof name - 1, "a name");
    return name;
}

/* How many files a folder has. */
static int count_of(const char *folder) {
    int count = 0;
    DIR *open = opendir(folder);
    for (struct dirent *entry; (entry = readdir(open));) count += entry->d_name[0] != '.' || strlen(entry->d_name) > 2;
    closedir(open);
    return count;
}

static char room[4000];

static const char *new_folder(void) {
    static char path[4096];
    static int count;
    snprintf(path, sizeof path, "%s/%d", room, count++);
    expect(!mkdir(path, 0777), "a folder");
    return path;
}

/* A part that has these bytes is kept. */
static uint64_t keep(const char *folder, const char *bytes) {
    uint64_t came;
    lanes_place place;
    lanes_part_named name;
    lanes_part_names about = {&name, 1};
    memcpy(name, name_of(bytes), sizeof name);
    uint8_t number = lanes_folder_follow(folder, LANES_FOLDER_KEEP_ALL, text_of(""), 0, &about, NULL, &came, &place);
    return number == LANES_SYSTEM ? 1000 + place.first : number ? 100u + number : came;
}

static void a_folder_that_could_not_be_synced_once_stays_so(void) {
    for (int lacks = 0; lacks < 2; lacks++) {
        const char *folder = new_folder();
        expect(put(folder, "one") == LANES_ON_DISK, "a part is on the disk");
        met.sync_fault = EIO;
        met.lacks_memory = lacks;
        expect(put(folder, "two") == LANES_UNSYNCED, "a sync that fails is told");
        met.lacks_memory = 0;
        expect(put(folder, "two") == LANES_UNSYNCED && put(folder, "three") == LANES_UNSYNCED, "it is told of each later one");
        expect(keep(folder, "one") == 1000 + EIO, "nothing is kept there any more");
        expect(count_of(folder) == 3, "the parts are there");
        expect(!rename(folder, "moved") && put("moved", "four") == LANES_UNSYNCED, "and by another path");
        for (const char *name = "one"; name; name = !strcmp(name, "one") ? "two" : !strcmp(name, "two") ? "three" : !strcmp(name, "three") ? "four" : NULL) {
            char path[64];
            snprintf(path, sizeof path, "moved/%s", name_of(name));
            expect(!unlink(path), "a part");
        }
        expect(!rmdir("moved"), "the folder");
        expect(put(new_folder(), "one") == (lacks ? LANES_UNSYNCED : LANES_ON_DISK), "another folder is another one, if there was memory to tell");
    }
    __atomic_store_n(&unsynced_all, 0, __ATOMIC_SEQ_CST);
}

static void a_put_whose_temporary_was_swept_begins_anew(void) {
    static const char *const parts[] = {"one", "two", "three"};
    const char *folder = new_folder();
    for (int swept = 1; swept < 4; swept++) {
        met.swept = swept;
        met.slept = 0;
        expect(put(folder, parts[swept - 1]) == LANES_ON_DISK && met.slept == 1, "it is made anew");
        expect(count_of(folder) == swept, "the parts alone are there");
    }
    met.swept = met.stays = 1;
    met.slept = 0;
    expect(put(folder, "four") == 1000 + EEXIST && met.slept == 1000 && count_of(folder) == 3, "a sweep that does not end is told");
    met.stays = 0;
}

static void a_write_that_is_interrupted_is_made_again(void) {
    const char *folder = new_folder();
    met.interrupts = 3;
    expect(put(folder, "one") == LANES_ON_DISK && !met.interrupts && count_of(folder) == 1, "a part");
}

static const char *path_in(const char *folder, const char *name) {
    static char path[4200];
    snprintf(path, sizeof path, "%s/%s", folder, name);
    return path;
}

static unsigned mode_of(const char *path) {
    struct stat found;
    return stat(path, &found) ? 0 : found.st_mode & 07777u;
}

static void a_part_has_the_mode_of_the_part_of_least_name(void) {
    static const char *const parts[] = {"one", "two", "three", "four", "five"};
    const char *folder = new_folder(), *least = parts[0];
    mode_t before = umask(077);
    expect(put(folder, parts[0]) == LANES_ON_DISK && mode_of(path_in(folder, name_of(parts[0]))) == 0600, "with no part the mode is that of the umask");
    expect(!mkdir(path_in(folder, "00000000000000000000000000000000.lanes"), 0777), "a folder");
    expect(!mkfifo(path_in(folder, "00000000000000000000000000000001.lanes"), 0777), "a pipe");
    for (unsigned i = 1; i < 5; i++) {
        lanes_part_named kept;
        memcpy(kept, name_of(least), sizeof kept);
        expect(!chmod(path_in(folder, kept), 0640 + i % 4), "a mode");
        expect(put(folder, parts[i]) == LANES_ON_DISK && mode_of(path_in(folder, name_of(parts[i]))) == 0640 + i % 4, "the mode of the part of least name");
        if (strcmp(name_of(parts[i]), kept) < 0) least = parts[i];
    }
    umask(before);
}

/* A file that is open and locked, as that of a process that puts a part. */
static int held_file(const char *path) {
    int file = open(path, O_WRONLY | O_CREAT, 0666);
    expect(file >= 0 && !flock(file, LOCK_EX | LOCK_NB), "a file");
    return file;
}

static void a_sweep_removes_what_no_process_has(void) {
    static const char *const stay[] = {".part-0123456789abcde", ".part-0123456789abcdef0", ".part-0123456789abcdeg", "part-0123456789abcdef"};
    const char *folder = new_folder();
    lanes_place place;
    int held = held_file(path_in(folder, ".part-0000000000000001"));
    close(held_file(path_in(folder, ".part-0000000000000002")));
    for (int i = 0; i < 4; i++) close(held_file(path_in(folder, stay[i])));
    expect(!mkdir(path_in(folder, ".part-0000000000000003"), 0777) && !symlink(stay[0], path_in(folder, ".part-0000000000000004")), "a folder and a link");
    expect(put(folder, "one") == LANES_ON_DISK && count_of(folder) == 9, "a put sweeps nothing");
    expect(!lanes_folder_sweep(folder, &place) && count_of(folder) == 8 && access(path_in(folder, ".part-0000000000000002"), F_OK), "what nobody has goes");
    close(held);
    expect(!lanes_folder_sweep(folder, &place) && count_of(folder) == 7, "and what a process has once it ends");
    expect(lanes_folder_sweep("no folder", &place) == LANES_SYSTEM && place.first == ENOENT, "no folder");
}

static void names_are_none_if_a_listing_is_refused(void) {
    lanes_part_named name = "\xff";
    lanes_part_names names = {&name, 7}, about = {&name, 1};
    lanes_place place;
    uint64_t came;
    expect(lanes_folder_follow("no folder", LANES_FOLDER_LIST, text_of(""), 0, NULL, &names, &came, &place) == LANES_SYSTEM && !names.names && !names.count, "no folder");
    names = (lanes_part_names){&name, 7};
    expect(lanes_folder_follow(".", LANES_FOLDER_KEEP_ALL, text_of(""), 0, &about, &names, &came, &place) == LANES_SYNTAX && !names.names && !names.count, "a name that is no text");
}

static void a_lock_of_a_temporary_that_fails_is_told(void) {
    static const int none[] = {ENOSYS, EOPNOTSUPP, ENOLCK}, faults[] = {EIO, EBADF, EINVAL};
    const char *folder = new_folder();
    for (int i = 0; i < 3; i++) {
        met.lock_fault = faults[i];
        expect(put(folder, "one") == 1000u + (unsigned)faults[i] && count_of(folder) == 0, "a lock that fails");
    }
    for (int i = 0; i < 3; i++) {
        met.lock_fault = none[i];
        expect(put(folder, i ? i > 1 ? "three" : "two" : "one") == LANES_ON_DISK && count_of(folder) == i + 1, "a file system without locks");
    }
    met.lock_fault = 0;
}

/* Whether another process can have the lock of a path. */
static int is_free(const char *path) {
    int file = open(path, O_RDONLY);
    int is_had = file >= 0 && !flock(file, LOCK_EX | LOCK_NB);
    close(file);
    return is_had;
}

static void a_child_that_is_forked_meanwhile_keeps_no_lock(void) {
    const char *folder = new_folder();
    lanes_part_names names = {NULL, 0}, none = {NULL, 0};
    lanes_place place;
    uint64_t came;
    char path[4200];
    met.is_forked = 1;
    expect(!lanes_folder_follow(folder, LANES_FOLDER_PUT_JUDGED, text_of("one"), 3, &none, NULL, &came, &place) && came == LANES_ON_DISK, "a part is put");
    snprintf(path, sizeof path, "%s/%s", folder, name_of("one"));
    expect(forked == 2 && is_free(folder) && is_free(path), "of a put");
    expect(!lanes_folder_follow(folder, LANES_FOLDER_LIST, text_of(""), 0, NULL, &names, &came, &place) && names.count == 1, "a listing");
    expect(forked == 3 && is_free(folder), "of a listing");
    met.is_forked = 0;
    end_children();
    free(names.names);
}

static void a_part_is_renamed_if_there_are_no_hard_links(void) {
    static const int none[] = {EPERM, EOPNOTSUPP, EMLINK}, faults[] = {EIO, ENOSPC, EACCES, ENOENT};
    const char *folder = new_folder();
    for (int i = 0; i < 4; i++) {
        met.link_fault = faults[i];
        expect(put(folder, "one") == 1000u + (unsigned)faults[i] && count_of(folder) == 0, "a link that fails");
    }
    for (int i = 0; i < 3; i++) {
        char path[4200];
        struct stat before, after;
        const char *part = i ? i > 1 ? "three" : "two" : "one";
        met.link_fault = none[i];
        expect(put(folder, part) == LANES_ON_DISK && count_of(folder) == i + 1, "a part is renamed");
        snprintf(path, sizeof path, "%s/%s", folder, name_of(part));
        expect(!stat(path, &before) && put(folder, part) == LANES_ON_DISK && !stat(path, &after), "it comes again");
        expect(before.st_ino == after.st_ino && count_of(folder) == i + 1, "and is the one that was there");
        expect(!truncate(path, 1) && put(folder, part) == 100 + LANES_DAMAGED && !stat(path, &after), "other bytes");
        expect(before.st_ino == after.st_ino && after.st_size == 1 && count_of(folder) == i + 1, "are not replaced");
    }
    met.link_fault = 0;
}

int main(int count, char **words) {
    if (count == 2) snprintf(room, sizeof room, "%s", words[1]);
    if (count != 2 || chdir(room)) return 2;
    a_folder_that_could_not_be_synced_once_stays_so();
    a_put_whose_temporary_was_swept_begins_anew();
    a_write_that_is_interrupted_is_made_again();
    a_part_has_the_mode_of_the_part_of_least_name();
    a_sweep_removes_what_no_process_has();
    names_are_none_if_a_listing_is_refused();
    a_lock_of_a_temporary_that_fails_is_told();
    a_child_that_is_forked_meanwhile_keeps_no_lock();
    a_part_is_renamed_if_there_are_no_hard_links();
    printf("driver: %d passed, %d failed\n", passed, not_passed);
    return not_passed ? 1 : 0;
}
