/* What the files of the extension of SQLite share: tables, what they have open, and what reads it. lanes_sqlite.c says what the extension is. */
#ifndef LANES_SQLITE_H
#define LANES_SQLITE_H

#include <sqlite3ext.h>
SQLITE_EXTENSION_INIT3

#include "lanes.h"
#include "lanes_folder_driver.h"

#include <sys/stat.h>

#pragma GCC visibility push(hidden)

/* How many columns a table has at most. */
#define COLUMNS 32

/* How many rows a step is to have, and how many it has at most, unless one batch has more. */
#define ENOUGH 65536
#define MANY 262144

/* One comparison of a column with a number. */
typedef struct {
    int column;
    int comparison;
    sqlite3_int64 number;
} test;

/* Columns of some batches that were read: those whose bits are set in `used`, at the rows at which a condition is true. Cursors share it. */
typedef struct {
    int users;
    unsigned used;
    char *condition;
    size_t first, batches;
    size_t rows, stride;
    int64_t *values;
    uint8_t *valid;
    int at[COLUMNS]; /* which of the columns that were read a column is */
} block;

/* What a file or a folder holds. It stays open until another one is seen in its place, and while a statement sees it. */
typedef struct {
    int users;
    int file; /* is open so that no other file gets its number; -1 of a folder */
    struct stat found;
    int is_settled;         /* a later change of the file gives it another time */
    lanes_part_names names; /* the parts of a folder */
    lanes_table table;
    size_t batches;
    block *kept;        /* what was read last */
    size_t *live;       /* how many live rows come before each batch and after the last one, once that was asked for */
    char *answer;       /* the text of the answer, once it was asked for */
    const char **lines; /* the beginnings of its lines, from the first after the headings, and its end */
    size_t count;       /* how many such lines there are */
} state;

/* What a statement sees. */
typedef struct view {
    struct view *next;
    sqlite3_value **statement; /* SQLite gives all scans of a statement the same array of arguments, and no other statement has it */
    int users;
    state *seen;
} view;

/* What is given for a sum past 64 bits. */
enum { SUMS_REFUSED, SUMS_TEXT, SUMS_REAL, SUMS_UNREAD };

typedef struct {
    sqlite3_vtab base;
    char *path, *sql; /* sql is null if the table is of rows */
    int columns;
    char *names[COLUMNS];
    int sums;
    sqlite3_int64 live;
    state *opened; /* what was seen last */
    view *views;
} vtab;

typedef struct {
    sqlite3_vtab_cursor base;
    view *view;
    state *seen;
    int is_reversed; /* whether rows are given from the last one on */
    size_t at;       /* a row of the block, or a line of the answer; SIZE_MAX before the first one */
    /* rows */
    block *rows;
    int is_read; /* whether the scan has read a block */
    unsigned used;
    char *condition;
    size_t next, end;        /* the batches that are still to be read */
    size_t step;             /* how many of them at once */
    sqlite3_int64 low, high; /* which rows are asked for, or lines */
    int count;
    test *tests;
    size_t *places; /* of a block with a condition: which of its batches' live rows its rows are, once that was asked for */
    /* an answer */
    const char **fields; /* the beginnings of the fields of the line, and its end */
} cursor;

/* Sets a table's message; answers the code, or that there is no memory for the message. */
int fault(vtab *v, int code, char *message);

/* Says why the library refused a call. */
int refuse(vtab *v, const char *path, uint8_t number, const lanes_place *place);

/* Gives a block back, if there is one. */
void leave_block(block *b);

/* The columns that are used, of batches, at the rows at which a condition is true: what a cursor has, what was read last, or what is read now. The
 * block takes the place of the cursor's. It may have fewer batches. */
int read_block(vtab *v, state *s, unsigned used, const char *condition, size_t first, size_t batches, block **held);

/* Whether a cell is a value. */
static inline int is_value(const block *b, int column, size_t row) { return b->valid[(size_t)b->at[column] * b->stride + row / 8] >> row % 8 & 1; }

static inline int64_t value(const block *b, int column, size_t row) { return b->values[(size_t)b->at[column] * b->rows + row]; }

/* Asks for the answer, if it isn't there. */
int ask(vtab *v, state *s);

void close_state(state *s);

/* Sees to it that what is open is what the file or the folder holds now. */
int open_current(vtab *v);

/* Gives a cursor what its statement sees. */
int see(vtab *v, cursor *c, sqlite3_value **statement);

/* Takes that from a cursor. */
void look_away(vtab *v, cursor *c);

/* Finds how many live rows come before each batch, if that isn't known. */
int count_live(vtab *v, state *s);

/* The batch that has this live row. */
size_t batch_of(const state *s, size_t row);

#pragma GCC visibility pop

#endif
