/* The extension of SQLite, of which each allocation fails in turn, once and for good: a statement has its rows or is told that memory ran out, and
 * once there is memory again the same statement has its rows. Allocations are those of this file, for SQLite, the extension and the library.
 *
 *     sqlite_memory EXTENSION FILE FOLDER      of tables T with columns A, B, C and D; prints how many allocations failed */
#define _GNU_SOURCE
#include <errno.h>
#include <sqlite3.h>
#include <stdbool.h>
#include <stdint.h>
#include <stdio.h>
#include <stdlib.h>
#include <string.h>

/* How many allocations succeed before one fails, or -1; whether all later ones fail too; and how many were asked for. */
static long left = -1, asked;
static bool is_for_good;

void *__libc_malloc(size_t size);
void *__libc_calloc(size_t count, size_t size);
void *__libc_realloc(void *old, size_t size);

static bool fails(void) {
    asked++;
    if (left < 0 || (left > 0 && left--)) return false;
    if (!is_for_good) left = -1;
    errno = ENOMEM;
    return true;
}

void *malloc(size_t size) { return fails() ? NULL : __libc_malloc(size); }
void *calloc(size_t count, size_t size) { return fails() ? NULL : __libc_calloc(count, size); }
void *realloc(void *old, size_t size) { return fails() ? NULL : __libc_realloc(old, size); }

/* A statement, what makes the tables that it is of, and what it comes to if there is memory. */
typedef struct {
    const char *before, *text;
    int code;
} statement;

#define X "CREATE VIRTUAL TABLE temp.x USING lanes('%s')"
#define G "CREATE VIRTUAL TABLE temp.g USING lanes('%s', 'SELECT A,COUNT(*) AS N,SUM(D) AS S,AVG(D) AS M FROM T GROUP BY A', sums='real')"
static const statement statements[] = {
    {"", X, SQLITE_OK},
    {X, "SELECT COUNT(*),SUM(A) FROM x WHERE B > 3 AND rowid > 5", SQLITE_OK},
    {X, "SELECT rowid,* FROM x WHERE A IN (1,2,3) ORDER BY rowid DESC LIMIT 5", SQLITE_OK},
    {X, "SELECT x.rowid,y.A FROM x JOIN x y ON x.A = y.B WHERE x.C > 1", SQLITE_OK},
    {X, "SELECT Z FROM x", SQLITE_ERROR},
    {X, "DROP TABLE x", SQLITE_OK},
    {"", G, SQLITE_OK},
    {G, "SELECT SUM(N),MAX(S),MIN(M) FROM g WHERE rowid BETWEEN 2 AND 5", SQLITE_OK},
};
enum { STATEMENTS = sizeof statements / sizeof *statements, ROOM = 1024 };

static const char *extension, *source;

/* What a statement has given: a sum of all that it said. */
static int add_row(void *sum, int count, char **fields, char **names) {
    (void)names;
    for (int i = 0; i < count; i++)
        for (const char *at = fields[i] ? fields[i] : "null"; *at; at++) *(uint64_t *)sum = 31 * *(uint64_t *)sum + (uint8_t)*at;
    return 0;
}

static int told(sqlite3 *base, const char *text, uint64_t *sum) {
    char words[ROOM];
    snprintf(words, sizeof words, text, source);
    *sum = 0;
    return sqlite3_exec(base, words, add_row, sum, NULL);
}

static void wrong(const statement *one, const char *what, int code) {
    printf("%s: %s, %d\n", one->text, what, code);
    exit(1);
}

/* Runs a statement whose allocation of this number fails. Answers how many were asked for. */
static long try_one(const statement *one, long number, bool for_good, uint64_t wanted, uint64_t *found) {
    sqlite3 *base;
    uint64_t nothing, again;
    if (sqlite3_open(":memory:", &base) || sqlite3_enable_load_extension(base, 1) || sqlite3_load_extension(base, extension, NULL, NULL)) wrong(one, "no base", 0);
    if (*one->before && told(base, one->before, &nothing)) wrong(one, "no table", 0);
    is_for_good = for_good;
    asked = 0;
    left = number;
    int code = told(base, one->text, found);
    long count = asked;
    left = -1;
    bool is_as_wanted = code == one->code && (number < 0 || *found == wanted);
    if (code != SQLITE_NOMEM && !is_as_wanted) wrong(one, "it is told otherwise", code);
    if (code == SQLITE_NOMEM && (told(base, one->text, &again) != one->code || again != wanted)) wrong(one, "it does not succeed afterwards", code);
    if (sqlite3_close(base)) wrong(one, "the base is in use", code);
    return count;
}

int main(int count, char **words) {
    if (count != 4) return 2;
    long failed = 0;
    extension = words[1];
    for (int i = 0; i < 2 * STATEMENTS; i++) {
        uint64_t wanted, found;
        const statement *one = statements + i % STATEMENTS;
        source = words[2 + i / STATEMENTS];
        long most = try_one(one, -1, false, 0, &wanted);
        for (long number = 0; number < most; number++, failed += 2) {
            try_one(one, number, false, wanted, &found);
            try_one(one, number, true, wanted, &found);
        }
    }
    printf("%ld\n", failed);
    return 0;
}
