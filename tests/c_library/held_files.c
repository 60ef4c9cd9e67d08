/* Files that are held and replaced by lanes_file_driver.h, in the folder that is the current one. */
#define _DEFAULT_SOURCE
#include "lanes_file_driver.h"

#include "told.h"

#include <errno.h>
#include <fcntl.h>
#include <signal.h>
#include <sys/file.h>
#include <sys/stat.h>
#include <sys/wait.h>
#include <unistd.h>

static const char LOCK[] = ".t.lanes-lock";

static bool is_there(const char *path) {
    struct stat found;
    return lstat(path, &found) == 0;
}

static void write_file(const char *path, const char *text) {
    FILE *file = fopen(path, "wb");
    if (!file || fputs(text, file) < 0 || fclose(file)) exit(3);
}

/* Whether a file has these bytes and no more. */
static bool has(const char *path, bytes wanted) {
    bytes found = {room_of(wanted.length + 1), 0};
    FILE *file = fopen(path, "rb");
    if (file) {
        found.length = fread(found.at, 1, wanted.length + 1, file);
        fclose(file);
    }
    bool is_same = file && are_same(found, wanted);
    free(found.at);
    return is_same;
}

static bool has_text(const char *path, const char *text) {
    bytes wanted = copy_of(text, strlen(text));
    bool is_same = has(path, wanted);
    free(wanted.at);
    return is_same;
}

static uint8_t replace(lanes_held *held, const char *text, uint64_t *came, lanes_place *place) {
    bytes copy = copy_of(text, strlen(text));
    uint8_t number = lanes_file_replace(held, copy.at, copy.length, came, place);
    free(copy.at);
    return number;
}

static uint64_t inode_of(const char *path) {
    struct stat found;
    return stat(path, &found) ? 0 : (uint64_t)found.st_ino;
}

/* A file is made, read, replaced and left as it is. */
static void try_turns(void) {
    lanes_held held = LANES_NOT_HELD;
    lanes_place place = {7, 7};
    uint64_t came = 77;
    lanes_file_let_go(&held);
    expect(replace(&held, "lost", &came, &place) == LANES_NOT_OPEN && came == 0 && !is_there("t"), "nothing is replaced that is not held");
    expect(lanes_file_hold("t", &held, &place) == 0 && place.first == 0 && place.second == 0 && !held.is_there && held.length == 0 && held.bytes, "a file that is not there is held");
    expect(is_there(LOCK) && !is_there("t"), "the lock is next to the file");
    lanes_file_let_go(&held);
    expect(!is_there(LOCK) && !is_there("t"), "a file that is let go is not made");
    expect(lanes_file_hold("t", &held, &place) == 0 && replace(&held, "", &came, &place) == 0 && came == LANES_ON_DISK && has_text("t", ""), "an empty file is made");
    expect(unlink("t") == 0 && lanes_file_hold("t", &held, &place) == 0 && replace(&held, "first", &came, &place) == 0 && came == LANES_ON_DISK, "a file is made");
    expect(has_text("t", "first") && !is_there(LOCK), "it has the bytes, and no lock is left");
    expect(replace(&held, "second", &came, &place) == LANES_NOT_OPEN && has_text("t", "first"), "a file is replaced once");
    expect(lanes_file_hold("t", &held, &place) == 0 && held.is_there && held.length == 5 && memcmp(held.bytes, "first", 5) == 0, "a file is read");
    uint64_t before = inode_of("t");
    expect(replace(&held, "first", &came, &place) == 0 && came == LANES_ON_DISK && inode_of("t") == before && !is_there(LOCK), "the same bytes leave the file as it is");
    expect(lanes_file_hold("t", &held, &place) == 0 && replace(&held, "", &came, &place) == 0 && has_text("t", ""), "a file may become empty");
    expect(lanes_file_hold("t", &held, &place) == 0 && held.is_there && held.length == 0 && replace(&held, "third", &came, &place) == 0, "an empty file is read");
    lanes_file_let_go(&held);
    lanes_file_let_go(&held);
    expect(has_text("t", "third") && !held.bytes && !held.is_there, "a file that was replaced is let go, also twice");
}

/* A handle that holds a file takes another one; two files are held at once. */
static void try_two(void) {
    lanes_held held = LANES_NOT_HELD, other = LANES_NOT_HELD;
    lanes_place place;
    uint64_t came;
    write_file("u", "of u");
    expect(lanes_file_hold("t", &held, &place) == 0 && lanes_file_hold("u", &other, &place) == 0 && is_there(LOCK) && is_there(".u.lanes-lock"), "two files are held");
    expect(replace(&other, "new of u", &came, &place) == 0 && is_there(LOCK), "one of them is replaced");
    expect(lanes_file_hold("u", &held, &place) == 0 && !is_there(LOCK) && held.length == 8, "a handle lets the first file go");
    expect(lanes_file_hold("none/t", &held, &place) == LANES_SYSTEM && place.first == ENOENT && !is_there(".u.lanes-lock") && !held.bytes, "also if the second one is refused");
    lanes_file_let_go(&held);
    lanes_file_let_go(&other);
    expect(has_text("t", "third") && has_text("u", "new of u"), "both have what was put");
}

/* What is no file, and what is in the way. */
static void try_refused(void) {
    static const struct {
        const char *path;
        uint64_t reason;
    } REFUSED[] = {{"", ENOENT}, {"/", EINVAL}, {".", EINVAL}, {"folder", EINVAL}, {"folder/", EINVAL}, {"none/t", ENOENT}, {"none/", ENOENT}, {"t/t", ENOTDIR}, {"nowhere", ENOENT}, {"round", ELOOP}, {"pipe", EINVAL}};
    lanes_held held = LANES_NOT_HELD;
    lanes_place place;
    if (mkdir("folder", 0755) || symlink("no file", "nowhere") || symlink("round", "round") || mkfifo("pipe", 0644)) exit(3);
    for (size_t at = 0; at < sizeof REFUSED / sizeof *REFUSED; at++) {
        place.second = 7;
        expect(lanes_file_hold(REFUSED[at].path, &held, &place) == LANES_SYSTEM && place.first == REFUSED[at].reason && place.second == 0, REFUSED[at].path);
    }
    expect(!is_there(".folder.lanes-lock") && !is_there(".pipe.lanes-lock"), "no lock is left");
    if (mkdir(LOCK, 0755)) exit(3);
    expect(lanes_file_hold("t", &held, &place) == LANES_SYSTEM && place.first == EEXIST, "a folder has the lock's name");
    if (rmdir(LOCK) || symlink("u", LOCK)) exit(3);
    expect(lanes_file_hold("t", &held, &place) == LANES_SYSTEM && place.first == EEXIST && has_text("u", "new of u"), "a link has the lock's name");
    if (unlink(LOCK)) exit(3);
    expect(has_text("t", "third"), "the file is as it was");
}

static bool says(uint8_t number, uint64_t first, const char *wanted) {
    uint8_t sentence[256];
    lanes_place place = {first, 0};
    size_t length = lanes_file_sentence(number, &place, sentence, sizeof sentence), again = lanes_file_sentence(number, &place, sentence, 0);
    return length == strlen(wanted) && again == length && memcmp(sentence, wanted, length) == 0;
}

/* What is said of a refusal speaks of the file, with the system's reason. */
static void try_sentences(void) {
    expect(says(LANES_SYSTEM, ENOENT, "the system refused a call on the file: No such file or directory"), "no folder");
    expect(says(LANES_SYSTEM, EACCES, "the system refused a call on the file: Permission denied"), "a file that may not be written");
    expect(says(LANES_BUSY, 0, "another process has had the file for ten seconds"), "a file that another has");
    expect(says(LANES_NOT_OPEN, 0, "no file is open in this handle"), "the others are the library's");
    expect(says(0, 0, ""), "no refusal");
}

/* A lock that a killed process left is taken, also if it is the file by a second name; a link is followed and stays; the mode is kept. */
static void try_left(void) {
    lanes_held held = LANES_NOT_HELD;
    lanes_place place;
    uint64_t came;
    struct stat found;
    write_file(LOCK, "what a killed process left");
    expect(lanes_file_hold("t", &held, &place) == 0 && replace(&held, "fourth", &came, &place) == 0 && has_text("t", "fourth") && !is_there(LOCK), "a lock that was left is taken");
    if (link("t", LOCK)) exit(3);
    expect(lanes_file_hold("t", &held, &place) == 0 && held.length == 6 && inode_of(LOCK) != inode_of("t"), "the lock is never the file itself");
    lanes_file_let_go(&held);
    if (symlink("../t", "folder/link") || chmod("t", 0640)) exit(3);
    expect(lanes_file_hold("folder/link", &held, &place) == 0 && is_there(LOCK) && replace(&held, "fifth", &came, &place) == 0, "a link is followed");
    expect(has_text("t", "fifth") && !lstat("folder/link", &found) && S_ISLNK(found.st_mode), "and stays one");
    expect(!stat("t", &found) && (found.st_mode & 07777) == 0640, "the mode is kept");
    lanes_file_let_go(&held);
}

/* Whether another process can have the lock of a path. */
static bool is_free(const char *path) {
    int file = open(path, O_RDONLY);
    bool is_had = file >= 0 && flock(file, LOCK_EX | LOCK_NB) == 0;
    close(file);
    return is_had;
}

/* A child that is forked while a file is held has the lock's descriptor too. It keeps no lock that was given back. */
static void try_fork(void) {
    lanes_held held = LANES_NOT_HELD;
    lanes_place place;
    uint64_t came;
    for (int turn = 0; turn < 2; turn++) {
        bool is_put = turn == 1;
        if (lanes_file_hold("t", &held, &place) || (is_put ? 0 : link(LOCK, "lock"))) exit(3);
        pid_t child = fork();
        if (!child) {
            alarm(60);
            for (;;) pause();
        }
        if (is_put && replace(&held, "sixth", &came, &place)) exit(3);
        lanes_file_let_go(&held);
        expect(is_free(is_put ? "t" : "lock"), is_put ? "a lock that became the file is free" : "a lock that was let go is free");
        kill(child, SIGKILL);
        waitpid(child, NULL, 0);
    }
    if (unlink("lock")) exit(3);
}

static const char LONG[] = "A,B\n";

/* Rows that no coding makes small. */
static bytes rows_of(size_t count) {
    bytes rows = {room_of(count * 48 + sizeof LONG), sizeof LONG - 1};
    memcpy(rows.at, LONG, rows.length);
    uint64_t drawn = 1;
    for (size_t at = 0; at < count; at++) {
        drawn = drawn * 6364136223846793005u + 1442695040888963407u;
        rows.length += (size_t)sprintf((char *)rows.at + rows.length, "%lld,%lld\n", (long long)(drawn >> 2), (long long)(drawn >> 3));
    }
    return rows;
}

/* The table of a handle is put: it is the file then. */
static void try_tables(void) {
    lanes_held held = LANES_NOT_HELD;
    lanes_table table = LANES_CLOSED;
    lanes_place place;
    uint64_t came, no_words = 0;
    bytes empty, rows = rows_of(20000);
    TAKE(empty, lanes_create(text_of("T A BIGINT B BIGINT"), 19, out, room, &length, &place));
    if (lanes_open(empty.at, empty.length, &table, &place) || unlink("t")) exit(3);
    expect(lanes_file_put(&held, &table, &came, &place) == LANES_NOT_OPEN && came == 0 && !is_there("t"), "no file is held");
    expect(lanes_file_hold("t", &held, &place) == 0 && lanes_file_put(&held, &table, &came, &place) == 0 && came == LANES_ON_DISK && has("t", empty), "a table is put");
    lanes_close(&table);
    expect(lanes_file_hold("t", &held, &place) == 0 && lanes_file_put(&held, &table, &came, &place) == LANES_NOT_OPEN && is_there(LOCK), "a closed handle leaves the file held");
    expect(lanes_open(held.bytes, held.length, &table, &place) == 0 && lanes_table_import(&table, rows.at, rows.length, true, 1, 1, &no_words, 0, &place) == 0, "rows are imported");
    expect(lanes_file_put(&held, &table, &came, &place) == 0 && came == LANES_ON_DISK && !is_there(LOCK), "a table that has grown is put");
    bytes file;
    TAKE(file, lanes_file(&table, out, room, &length, &place));
    expect(file.length > 200000 && has("t", file), "the file has it");
    expect(lanes_file_hold("t", &held, &place) == 0 && held.length == file.length && memcmp(held.bytes, file.at, file.length) == 0, "and is read whole");
    lanes_file_let_go(&held);
    lanes_close(&table);
    free(file.at);
    free(empty.at);
    free(rows.at);
}

int main(void) {
    try_turns();
    try_two();
    try_refused();
    try_sentences();
    try_left();
    try_fork();
    try_tables();
    return told_all("held_files");
}
