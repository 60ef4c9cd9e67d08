/* lanes.h: a replicated column store for one table of nullable integer columns, over files in memory.
 *
 * Each call is given bytes and gives bytes. It reads and writes no file, opens nothing on a disk, and prints nothing. A call without a
 * handle keeps nothing once it has returned. So any number of threads may call at once.
 *
 * Who owns what. All memory is the caller's. A call changes its room, *length, *place and its handles, and nothing else. The memory that
 * it needs while it runs comes from malloc, and is freed when it returns. What lanes_open keeps comes from malloc too, and is freed when
 * the last handle of it is closed.
 *
 * Bytes that go in are a pointer and a length in bytes. With a length of 0 the pointer may be null. It may be the same as another one
 * that is only read, and must not overlap what the call writes. No call checks a length: so many bytes are there. What a failed call
 * answered, such as the -1 of read, is no length, and a program that passes it on reads past its memory.
 *
 * Bytes that come out: a call is given `out`, which has room for `room` bytes, and tells in *length how many bytes there are. If they
 * fit, they are at the start of `out`, and the rest of it is unchanged. If they don't fit (*length > room), nothing is
 * written, and the call is to be made again with more room. A room of 0 asks for the length alone; `out` may be null then.
 *
 * A pointer to a handle, and to what a call tells, such as `length` and `place`, is never null.
 *
 * What is answered: 0, or the number of a refusal. A refused call tells *length as 0, writes nothing into `out`, and tells in *place
 * the place of the refusal. With 0, *place is {0, 0}, and so it is if a refusal has no place. LANES_MEMORY may come in place of any
 * other refusal: it is one of the call, and not of the bytes. LANES_READ_FAULT is one of the program, of files that can't be read.
 *
 * A file is a canonical column file, as docs/FORMATS.md has it; the program `lanes` writes the same bytes. A text is UTF-8, without a
 * byte 0 at its end. Who keeps a file on a disk that other processes change too holds its lock from the reading to the writing, or loses what
 * they add: lanes_file_driver.h does that.
 *
 * Don't call from a signal handler, nor from the forked child of a process with threads.
 */
#ifndef LANES_H
#define LANES_H

#include <stdbool.h>
#include <stddef.h>
#include <stdint.h>

/* The version that this header is of. lanes_version answers that of the library that is loaded. */
#define LANES_VERSION "0.12.1"

/* The same as a number, for #if: 1,000,000 times the first number, 1,000 times the second, and the third, so that 0.12.1 is 12001. */
#define LANES_VERSION_NUMBER 12001

#ifdef __cplusplus
extern "C" {
#endif

/* The place at which a call was refused: one or two numbers, by the refusal's number. What isn't named here is 0.
 *
 *   LANES_CONFLICT, LANES_NOT_APART, LANES_MISSING
 *                       first: the batch's origin; second: its number
 *   LANES_WRONG_ARITY   first: the row, from 0
 *   LANES_OUT_OF_TYPE   first: the row, from 0; second: the column, from 0
 *   LANES_BAD_CSV       first: the line, from 1; second: its field, from 1, or 0 for a wrong number of fields. Of lanes_import_in
 *                       and lanes_table_import_in also first: 0; second: 1 for the separator, and 2 for the null's word
 *   LANES_LINE_TOO_LONG first: the line, from 1
 *   LANES_SYSTEM        first: the system's number for the reason, as errno has it, or 0
 *   each refusal of a query of lanes_queries
 *                       second: the query, from 0
 *   each refusal of a summary of lanes_finish_expected
 *                       second: the summary, from 1
 *   LANES_SYNTAX, LANES_NO_SUCH_COLUMN of the names of lanes_columns and lanes_dump_where, and LANES_NO_SUCH_COLUMN of the columns of
 *   lanes_import_in and lanes_table_import_in
 *                       second: 1
 *   LANES_TRUNCATED, LANES_BAD_ORDER, LANES_BAD_COUNT, LANES_BAD_WIDTH, LANES_BAD_TAG, LANES_BAD_MASK, LANES_BAD_DICTIONARY,
 *   LANES_BAD_CODE, LANES_BAD_RANGE, LANES_TRAILING_BYTES, LANES_NOT_CANONICAL, LANES_SYNTAX, LANES_NO_SUCH_COLUMN,
 *   LANES_NOT_GROUPED, LANES_NUMBER_TOO_LARGE
 *                       first: the byte of the file, the message or the text, from 0
 */
typedef struct lanes_place {
    uint64_t first;
    uint64_t second;
} lanes_place;

/* The numbers of refusals. docs/REFUSALS.md says of each what it means and what to do. */
enum {
    LANES_OK = 0,
    LANES_MEMORY = 1,
    LANES_CONFLICT = 2,
    LANES_FULL = 3,
    LANES_EMPTY_BATCH = 4,
    LANES_BATCH_TOO_LONG = 5,
    LANES_WRONG_ARITY = 6,
    LANES_OUT_OF_TYPE = 7,
    LANES_SCHEMA_DIFFERS = 8,
    LANES_NUMBERS_SPENT = 9,
    LANES_NO_SUCH_VECTOR = 10,
    LANES_BAD_NAME = 11,
    LANES_BAD_SCHEMA = 12,
    LANES_TRUNCATED = 13,
    LANES_BAD_MAGIC = 14,
    LANES_BAD_VERSION = 15,
    LANES_BAD_ORDER = 16,
    LANES_BAD_COUNT = 17,
    LANES_BAD_WIDTH = 18,
    LANES_BAD_TAG = 19,
    LANES_BAD_MASK = 20,
    LANES_BAD_DICTIONARY = 21,
    LANES_BAD_CODE = 22,
    LANES_BAD_RANGE = 23,
    LANES_TRAILING_BYTES = 24,
    LANES_NOT_CANONICAL = 25,
    LANES_SYNTAX = 26,
    LANES_NO_SUCH_TABLE = 27,
    LANES_NO_SUCH_COLUMN = 28,
    LANES_NOT_GROUPED = 29,
    LANES_NUMBER_TOO_LARGE = 30,
    LANES_TOO_DEEP = 31,
    LANES_LINE_TOO_LONG = 32,
    LANES_READ_FAULT = 33,
    LANES_WRITE_FAULT = 34,
    LANES_BAD_LINE = 35,
    LANES_NO_SUCH_REPLICA = 36,
    LANES_NO_SUCH_MESSAGE = 37,
    LANES_BAD_CSV = 38,
    LANES_NOT_OPEN = 39,
    LANES_NOT_APART = 40,
    LANES_QUERY_DIFFERS = 41,
    LANES_TOO_MANY = 42,
    LANES_MISSING = 43,
    LANES_BUSY = 44,
    LANES_DAMAGED = 45,
    LANES_SYSTEM = 46
};

/* Makes the file of an empty table. The words are the table's name and, column by column, the column's name and its type, with one
 * space between: "COUNTS SITE SMALLINT HITS INTEGER". A type is TINYINT, SMALLINT, INTEGER or BIGINT. Names are folded to upper case.
 *
 * Gives: the new file. Refused: LANES_BAD_SCHEMA. */
uint8_t lanes_create(const uint8_t *words, size_t words_length, uint8_t *out, size_t room, size_t *length, lanes_place *place);

/* Checks a file.
 *
 * Gives: the line "ok batches=B ranges=R" with its line feed: how many batches there are, and how many maximal ranges of deleted rows.
 * Refused: the file's first fault, LANES_BAD_SCHEMA, LANES_BAD_NAME and LANES_TRUNCATED to LANES_NOT_CANONICAL. Each call that is
 * given a file refuses the same of it. */
uint8_t lanes_check(const uint8_t *file, size_t file_length, uint8_t *out, size_t room, size_t *length, lanes_place *place);

/* Answers a query, of which docs/SQL.md has the grammar.
 *
 * Gives: the answer's text: a line of headings, and a line for each row, fields joined by commas. A null is NULL, a whole number has up to
 * 39 digits, and a mean six decimals.
 *
 * Groups and distinct values are found by a hash whose key is the same in each process. So whoever chooses the rows of the file can make
 * a query with GROUP BY or DISTINCT take hours (see lanes_hash_key). If rows come from others, call lanes_open, lanes_hash_key and then
 * lanes_ask in place of this call.
 *
 * Refused, in this order: LANES_SYNTAX at the first byte that is no UTF-8; the file's first fault; LANES_SYNTAX, LANES_NUMBER_TOO_LARGE,
 * LANES_TOO_DEEP; LANES_NO_SUCH_TABLE; LANES_NO_SUCH_COLUMN, LANES_NOT_GROUPED. Their places are bytes of the query. */
uint8_t lanes_query(const uint8_t *file, size_t file_length, const uint8_t *sql, size_t sql_length, uint8_t *out, size_t room,
                    size_t *length, lanes_place *place);

/* Answers several queries over a file that is opened once. `sqls` has a line feed between each two queries, and none at its end.
 *
 * Gives: the texts of the answers, one after another, each as lanes_query gives it. The answer of query i, from 0, ends in front of the
 * byte ends[i] of `out`, and the next one begins there. `ends` has room for ends_room numbers. It is written if there is room for
 * all of them, also if `out` has too little room; otherwise it is unchanged. It is never null, and overlaps nothing.
 *
 * The key of their hashes is that of lanes_query, the same in each process. If rows come from others, call lanes_open, lanes_hash_key and
 * then lanes_ask for each query, in place of this call.
 *
 * Refused, in this order: the file's first fault; the first query that lanes_query refuses, with what that refuses it as. place->second
 * says which query it is, from 0, and place->first is a byte of that query. */
uint8_t lanes_queries(const uint8_t *file, size_t file_length, const uint8_t *sqls, size_t sqls_length, uint8_t *out, size_t room,
                      size_t *ends, size_t ends_room, size_t *length, lanes_place *place);

/* Gives the live rows as comma-separated values, as lanes_import takes them: a line of the columns' names, and a line for each row, in
 * order of row name; a null is an empty field. With has_names the columns BATCH and ORDINAL, which name the row, come first.
 *
 * Refused: the file's first fault. */
uint8_t lanes_dump(const uint8_t *file, size_t file_length, bool has_names, uint8_t *out, size_t room, size_t *length,
                   lanes_place *place);

/* Gives some of the live rows as comma-separated values, as lanes_dump gives all of them.
 *
 * names: the columns' names with one space between, in the order that is wanted; of length 0: all, in the table's order.
 * condition: what follows WHERE; of length 0: every live row.
 *
 * Gives: a line of the columns' names, and a line for each row at which the condition is true. lanes_import takes it if all columns are
 * there, and lanes_import_in takes it with their names as `columns`.
 * Refused, in this order: the file's first fault; LANES_SYNTAX at the first byte of the names, and then of the condition, that is no
 * UTF-8; the condition's LANES_SYNTAX, LANES_NUMBER_TOO_LARGE, LANES_TOO_DEEP; LANES_NO_SUCH_COLUMN at a byte of the names;
 * LANES_NO_SUCH_COLUMN at a byte of the condition. place->second is 1 if the byte is one of the names, and otherwise 0. */
uint8_t lanes_dump_where(const uint8_t *file, size_t file_length, const uint8_t *names, size_t names_length, const uint8_t *condition,
                         size_t condition_length, bool has_names, uint8_t *out, size_t room, size_t *length, lanes_place *place);

/* Imports rows of comma-separated values. With has_heading the first line names all columns, in any order. A field is a whole number,
 * in double quotes or not; an empty one, NULL and \N are nulls. Rows become batches of 65,536 rows, the last one shorter.
 *
 * The batches have consecutive names; the first is origin.number. The same rows under the same name are there already, so an import may
 * be sent twice; other rows under a name that is held are LANES_CONFLICT. If origin and number are both 0, the name is drawn from
 * `words`, words_count random numbers of the caller: of the first of them from which all names are free. Four are plenty. Each has 64
 * random bits: the upper 32 are the origin, so a number below 2^32 gives no name. If a name is given, words_count may be 0.
 *
 * Gives: the new file; it is the given file if nothing was new.
 * Refused, in this order: the file's first fault; LANES_BAD_CSV, LANES_LINE_TOO_LONG; LANES_BAD_NAME if one of origin and number
 * is 0; LANES_NUMBERS_SPENT if names go past 4,294,967,295, or a name is to be drawn and no word gives a free one, so also if
 * words_count is 0; LANES_CONFLICT; LANES_FULL. */
uint8_t lanes_import(const uint8_t *file, size_t file_length, const uint8_t *csv, size_t csv_length, bool has_heading, uint32_t origin,
                     uint32_t number, const uint64_t *words, size_t words_count, uint8_t *out, size_t room, size_t *length,
                     lanes_place *place);

/* Imports rows of comma-separated values that are written otherwise, as lanes_import in all else.
 *
 * separator: the byte between two fields, in the heading too; 0 is a comma. It is a character of ASCII, but no letter, no digit, no end
 * of a line, and none of " - _ \.
 * null_word: a word that is a null too, in double quotes or not, as "NA"; of length 0: none. The usual nulls stay.
 * columns: what the fields of each line are, with a comma between each two words, as "SITE,-,HITS": the name of a column, or - for a field
 * that is passed over. A column without a field is null. With has_heading the first line is then any line that is no row. Of length 0: the
 * heading says it, or the fields are in the table's order.
 * needs_ends: whether a last line without a line feed at its end is refused, since it may be cut off.
 *
 * Gives: what lanes_import gives.
 * Refused, in this order: the file's first fault; LANES_BAD_CSV of line 0, which is of no line: place->second is 1 if the separator can't
 * be one, and 2 if the null's word is not UTF-8; LANES_NO_SUCH_COLUMN at the byte of the first word of the columns that is no column's name,
 * or one for the second time, and place->second is 1; LANES_BAD_CSV of a line, with place->second 0 if it is the last one and has no
 * end; and what lanes_import refuses after the file's first fault. */
uint8_t lanes_import_in(const uint8_t *file, size_t file_length, const uint8_t *csv, size_t csv_length, bool has_heading,
                        uint8_t separator, const uint8_t *null_word, size_t null_word_length, const uint8_t *columns,
                        size_t columns_length, bool needs_ends, uint32_t origin, uint32_t number, const uint64_t *words,
                        size_t words_count, uint8_t *out, size_t room, size_t *length, lanes_place *place);

/* Deletes the rows at which a condition is true: what comes after WHERE in a query.
 *
 * Gives: the new file; it is the given file if there was no such row.
 * Refused, in this order: LANES_SYNTAX at the first byte that is no UTF-8; the file's first fault; LANES_SYNTAX, LANES_NUMBER_TOO_LARGE,
 * LANES_TOO_DEEP; LANES_NO_SUCH_COLUMN. Their places are bytes of the condition. */
uint8_t lanes_delete(const uint8_t *file, size_t file_length, const uint8_t *condition, size_t condition_length, uint8_t *out,
                     size_t room, size_t *length, lanes_place *place);

/* Forgets: drops the batches whose rows are all deleted. Their deletions stay, so that these rows never come back, and no answer
 * changes. A name that was dropped stays used up; docs/COMMANDS.md, "Forgetting", says when to forget.
 *
 * Gives: the new file; it is the given file if there is no such batch.
 * Refused: the file's first fault. */
uint8_t lanes_forget(const uint8_t *file, size_t file_length, uint8_t *out, size_t room, size_t *length, lanes_place *place);

/* Gives the summary of a file: the names of its batches, by which another replica knows what it does not have.
 *
 * Refused: the file's first fault. */
uint8_t lanes_summary(const uint8_t *file, size_t file_length, uint8_t *out, size_t room, size_t *length, lanes_place *place);

/* Gives the offer of a file to another's summary: the batches that the other does not have, and all deletions.
 *
 * Refused, in this order: the summary's first fault, with its place in the summary; the file's; LANES_SCHEMA_DIFFERS. */
uint8_t lanes_offer(const uint8_t *file, size_t file_length, const uint8_t *summary, size_t summary_length, uint8_t *out, size_t room,
                    size_t *length, lanes_place *place);

/* Applies an offer to a file. A file is an offer too.
 *
 * Gives: the new file; it is the given file if the offer brings nothing.
 * Refused, in this order: the offer's first fault, with its place in the offer; the file's; LANES_SCHEMA_DIFFERS; LANES_CONFLICT with
 * the least name that has two lists of rows; LANES_FULL. */
uint8_t lanes_apply(const uint8_t *file, size_t file_length, const uint8_t *offer, size_t offer_length, uint8_t *out, size_t room,
                    size_t *length, lanes_place *place);

/* Merges two files. Whichever comes first, and however often, the bytes are the same.
 *
 * Gives: the file of what both hold.
 * Refused, in this order: the one file's first fault; the other's; LANES_SCHEMA_DIFFERS; LANES_CONFLICT with the least name that has two
 * lists of rows; LANES_FULL. */
uint8_t lanes_merge(const uint8_t *one, size_t one_length, const uint8_t *other, size_t other_length, uint8_t *out, size_t room,
                    size_t *length, lanes_place *place);

/* A handle of a file that stays open, so that many queries are answered of one opening. A handle is closed, or what lanes_open or
 * lanes_share made of it. A program must keep these rules:
 *
 *   - Set a handle to LANES_CLOSED before its first use. Change nothing in it after that.
 *   - Give one handle to one call at a time. Different handles, also those of one file, may be used by different threads at once.
 *   - Move a handle, but don't use a copy of it as well. A second handle comes from lanes_share. `table` and `other` of lanes_share are two
 *     different handles.
 *   - Hand a handle to another thread by the start or the end of a thread, by a lock, or by a sequentially consistent atomic.
 *   - Close each open handle once you are done with it. The order doesn't matter: what was opened is freed with the last handle of it.
 *   - Don't use a handle in the forked child of a process with threads, nor in a signal handler.
 */
typedef struct lanes_table {
    void *opened;
} lanes_table;

/* A closed handle: `lanes_table table = LANES_CLOSED;` or, later, `table = LANES_CLOSED;`, which closes nothing. A handle that is static
 * and has no initializer is closed. In C leave the initializer out there: GCC warns of LANES_CLOSED in it under -Wpedantic. So it is of each
 * handle below. */
#ifdef __cplusplus
#define LANES_CLOSED (lanes_table{})
#else
#define LANES_CLOSED ((lanes_table){NULL})
#endif

/* Opens a file. The file is checked once, and the handle keeps what it holds. The bytes of the file may be changed or freed then.
 *
 * A handle that was open before is closed, when 0 is answered; its key stays (lanes_hash_key). When the call is refused the handle is as it
 * was.
 * Refused: the file's first fault. */
uint8_t lanes_open(const uint8_t *file, size_t file_length, lanes_table *table, lanes_place *place);

/* Gives a second handle of what a first handle has, for another thread. Nothing is copied. What `other` had before is closed.
 *
 * Answers 0; LANES_NOT_OPEN when `table` is closed; or LANES_MEMORY. When it doesn't answer 0, `other` is as it was. */
uint8_t lanes_share(lanes_table *table, lanes_table *other);

/* Gives the key by which the queries of a handle find groups and distinct values: two words, which should be drawn at random once a
 * process. Handles that are shared from this one afterwards have it too, and so has the handle after a change of its table, and once
 * another one is opened in it by lanes_open, lanes_parts_open, lanes_skim_open or lanes_head. A handle that was closed has none. No answer
 * depends on it. Without this call the key is the same in each process, and so it is for lanes_query and lanes_queries: then whoever
 * chooses the rows of a table can choose them so that GROUP BY or DISTINCT takes time in proportion to the square of their number, which
 * is hours for a million rows. So call it if rows come from others.
 *
 * Answers 0, or LANES_NOT_OPEN when the handle is closed. */
uint8_t lanes_hash_key(lanes_table *table, uint64_t first, uint64_t second);

/* Answers a query over the file that a handle is of, without opening that file again.
 *
 * Gives: what lanes_query gives of that file.
 * Refused: LANES_NOT_OPEN when the handle is closed; else what lanes_query refuses of that file. */
uint8_t lanes_ask(lanes_table *table, const uint8_t *sql, size_t sql_length, uint8_t *out, size_t room, size_t *length,
                  lanes_place *place);

/* Gives what a file gives to the answer of a query over several files: a partial answer, in bytes. Those of files that share no batch
 * are combined by lanes_combine, in any order, and lanes_finish gives the answer: that of the query over all these files merged.
 *
 * Gives: the partial answer of the file that the handle is of. The program `lanes` writes and reads the same bytes; docs/FORMATS.md has
 * them.
 * Refused: LANES_NOT_OPEN when the handle is closed; else what lanes_ask refuses of the query. */
uint8_t lanes_partial(lanes_table *table, const uint8_t *sql, size_t sql_length, uint8_t *out, size_t room, size_t *length,
                      lanes_place *place);

/* Combines two partial answers. Whichever comes first, the bytes are the same.
 *
 * Gives: the partial answer of the files of both.
 * Refused, in this order: the first fault of the one partial answer, LANES_BAD_SCHEMA, LANES_BAD_NAME, LANES_SYNTAX and LANES_TRUNCATED to
 * LANES_TRAILING_BYTES; that of the other; LANES_SCHEMA_DIFFERS; LANES_QUERY_DIFFERS when their queries' texts differ; LANES_NOT_APART
 * with the least batch that both have, or of which one has rows and the file of the other deletes some; LANES_TOO_MANY when a count
 * takes more than 64 bits or a sum more than 128. */
uint8_t lanes_combine(const uint8_t *one, size_t one_length, const uint8_t *other, size_t other_length, uint8_t *out, size_t room,
                      size_t *length, lanes_place *place);

/* The forms of an answer. */
enum { LANES_TEXT = 0, LANES_CSV = 1, LANES_JSON = 2, LANES_TABLE = 3 };

/* Answers the query that a partial answer is of. The format is LANES_TEXT, LANES_CSV, LANES_JSON or LANES_TABLE; another number is taken
 * for LANES_TEXT.
 *
 * Gives: the answer's text; with LANES_TEXT that which lanes_query gives of one file that has all rows of the partial answer's files.
 * Refused: the partial answer's first fault; then a fault of a query's text, or LANES_QUERY_DIFFERS when the groups are not those of
 * the query, which the partial answers of lanes_partial and lanes_combine do not have; or LANES_TOO_MANY when a mean takes more than 128
 * bits, or DISTINCT more than 2^36 values. */
uint8_t lanes_finish(const uint8_t *partial, size_t partial_length, uint8_t format, uint8_t *out, size_t room, size_t *length,
                     lanes_place *place);

/* Answers the query that a partial answer is of, as lanes_finish, if each batch that one of some summaries names was counted. So a file
 * whose partial answer was lost is noticed. `summaries` has the summaries one after another, and lengths[i] is how many bytes summary i
 * has, from 0. docs/MANY-MACHINES.md says when to take the summaries.
 *
 * Refused, in this order: the partial answer's first fault; that of each summary in turn, with place->second the summary, from 1;
 * LANES_SCHEMA_DIFFERS when a summary is of another table; LANES_MISSING with the least batch that a summary names and that was not
 * counted: it may have been forgotten since; what lanes_finish refuses after the partial answer's first fault. */
uint8_t lanes_finish_expected(const uint8_t *partial, size_t partial_length, const uint8_t *summaries, size_t summaries_length,
                              const size_t *lengths, size_t lengths_count, uint8_t format, uint8_t *out, size_t room, size_t *length,
                              lanes_place *place);

/* Gives what the program's command `inspect` writes of a partial answer: its table, its query, how many groups it has, and which batches
 * were counted. The format is LANES_TEXT or LANES_JSON; another number is taken for LANES_TEXT.
 *
 * Refused: the partial answer's first fault. */
uint8_t lanes_inspect_partial(const uint8_t *partial, size_t partial_length, uint8_t format, uint8_t *out, size_t room, size_t *length,
                              lanes_place *place);

/* Gives what the program's command `inspect` writes of a summary: its table, and which batches it names. The format is LANES_TEXT or
 * LANES_JSON; another number is taken for LANES_TEXT.
 *
 * Refused: the summary's first fault. */
uint8_t lanes_inspect_summary(const uint8_t *summary, size_t summary_length, uint8_t format, uint8_t *out, size_t room, size_t *length,
                              lanes_place *place);

/* An answer that the library keeps, to be read by columns. It starts as LANES_NO_ANSWER, and is like a handle of a table: don't copy it, give
 * it to one call at a time, and close it. Leave it on its thread.
 *
 *     lanes_answer answer = LANES_NO_ANSWER;
 *     number = lanes_answer_ask(&table, sql, sql_length, &answer, &place);
 *     size_t rows = lanes_answer_rows(&answer), columns = lanes_answer_columns(&answer);
 *     for each column c, with room for as many numbers and marks as there are rows:
 *         if (!lanes_answer_numbers(&answer, c, numbers, rows, marks, rows)) lanes_answer_wide(&answer, c, wide, rows, marks, rows);
 *     lanes_answer_close(&answer); */
typedef struct lanes_answer {
    void *kept;
} lanes_answer;

/* A handle without an answer. */
#ifdef __cplusplus
#define LANES_NO_ANSWER (lanes_answer{})
#else
#define LANES_NO_ANSWER ((lanes_answer){NULL})
#endif

/* Answers a query over the file that a handle is of, and keeps the answer. What the answer's handle had is closed when 0 is answered;
 * otherwise it is as it was.
 *
 * Refused: what lanes_ask refuses. */
uint8_t lanes_answer_ask(lanes_table *table, const uint8_t *sql, size_t sql_length, lanes_answer *answer, lanes_place *place);

/* Answers the query that a partial answer is of, and keeps the answer, as lanes_answer_ask.
 *
 * Refused: what lanes_finish refuses. */
uint8_t lanes_answer_finish(const uint8_t *partial, size_t partial_length, lanes_answer *answer, lanes_place *place);

/* Answers how many columns an answer has, one for each item of the query's select list: 0 when the handle is closed. */
size_t lanes_answer_columns(lanes_answer *answer);

/* Answers how many rows an answer has: 0 when the handle is closed. They are in the order of lanes_ask. */
size_t lanes_answer_rows(lanes_answer *answer);

/* Gives the heading of a column, without a byte 0 at its end, and answers how many bytes it has: 0 when there is no such column, or the
 * handle is closed. It is written if it fits. Columns are counted from 0. */
size_t lanes_answer_heading(lanes_answer *answer, size_t column, uint8_t *out, size_t room);

/* The kinds of columns of answers. */
enum { LANES_NO_VALUE = 0, LANES_WHOLE = 1, LANES_MEANS = 2 };

/* Answers the kind of a column: LANES_WHOLE if it has whole numbers, LANES_MEANS if it has means, and LANES_NO_VALUE if all its fields are
 * null, if there is no such column, or if the handle is closed. */
uint8_t lanes_answer_kind(lanes_answer *answer, size_t column);

/* Gives the numbers of a column: of a whole number itself, of a mean its millionths, and 0 at a null. marks[i] is 1 if row i has a value, and
 * 0 if it is null. Both rooms are counted in numbers; the arrays are never null, and overlap nothing.
 *
 * Answers whether they are written: they are if both arrays have room for all rows, and if no number has more than 64 bits. The rest of
 * the arrays is unchanged. False when the handle is closed. */
bool lanes_answer_numbers(lanes_answer *answer, size_t column, int64_t *numbers, size_t numbers_room, uint8_t *marks, size_t marks_room);

/* A number of 128 bits in two words: 2^64 * high + low. */
typedef struct lanes_wide {
    uint64_t low;
    int64_t high;
} lanes_wide;

/* The same in two words, in which each number has room. So false means that an array is too short, or that the handle is closed. */
bool lanes_answer_wide(lanes_answer *answer, size_t column, lanes_wide *numbers, size_t numbers_room, uint8_t *marks, size_t marks_room);

/* Closes the handle of an answer. Closing a closed one does nothing. */
void lanes_answer_close(lanes_answer *answer);

/* Gives the cells of columns at the live rows at which a condition is true, in order of row name: the rows of lanes_dump.
 *
 * names: the columns' names with one space between, in the order that is wanted; of length 0: all, in the table's order.
 * condition: what follows WHERE; of length 0: every live row.
 *
 * Gives: *rows is how many rows there are. Column c's cells are values[c * rows] and on, 0 at a null. Its bits begin at
 * valid[c * stride], and stride is 64 * ((rows + 511) / 512): bit i % 8 of byte i / 8 is 1 if cell i is a value, and 0 if it is
 * null or past the last row. nulls[c] is how many nulls there are. The rooms are counted in numbers. If rows * columns >
 * values_room, or stride * columns > valid_room, or columns > nulls_room, nothing is written but *rows. So a call with rooms of 0 asks
 * for *rows alone. The three rooms are never null, and overlap nothing.
 * Refused, in this order: LANES_NOT_OPEN when the handle is closed; LANES_SYNTAX at the first byte of the names, and then of the
 * condition, that is no UTF-8; the condition's LANES_SYNTAX, LANES_NUMBER_TOO_LARGE, LANES_TOO_DEEP; LANES_NO_SUCH_COLUMN at a byte of
 * the names; LANES_NO_SUCH_COLUMN at a byte of the condition. place->second is 1 if the byte is one of the names, and otherwise 0. A
 * refused call tells *rows as 0. */
uint8_t lanes_columns(lanes_table *table, const uint8_t *names, size_t names_length, const uint8_t *condition, size_t condition_length,
                      int64_t *values, size_t values_room, uint8_t *valid, size_t valid_room, uint64_t *nulls, size_t nulls_room,
                      size_t *rows, lanes_place *place);

/* Answers how many batches the table of a handle has: 0 when the handle is closed. */
size_t lanes_batches(lanes_table *table);

/* Gives the cells of columns as lanes_columns does, but of some batches: those from `first` on, which counts from 0 in ascending order of
 * name, and at most `count` of them. So a table is read in pieces, and the first row costs a batch. A batch has at most 65,536 rows.
 * All pieces of the batches from 0 to lanes_batches, one after another, are the rows that lanes_columns gives.
 *
 * Gives and refused: as lanes_columns. When no batch is left, *rows is 0. */
uint8_t lanes_columns_between(lanes_table *table, size_t first, size_t count, const uint8_t *names, size_t names_length,
                              const uint8_t *condition, size_t condition_length, int64_t *values, size_t values_room, uint8_t *valid,
                              size_t valid_room, uint64_t *nulls, size_t nulls_room, size_t *rows, lanes_place *place);

/* Gives the words of which lanes_create makes the table: "VISITS SITE SMALLINT HITS INTEGER".
 *
 * Refused: LANES_NOT_OPEN when the handle is closed. */
uint8_t lanes_schema(lanes_table *table, uint8_t *out, size_t room, size_t *length, lanes_place *place);

/* Gives what the program's command `inspect` writes of the file of a handle's table: its counts, and a line for each column. The format
 * is LANES_TEXT or LANES_JSON; another number is taken for LANES_TEXT.
 *
 * Refused: LANES_NOT_OPEN when the handle is closed. */
uint8_t lanes_inspect(lanes_table *table, uint8_t format, uint8_t *out, size_t room, size_t *length, lanes_place *place);

/* Gives the file of a handle's table.
 *
 * Refused: LANES_NOT_OPEN when the handle is closed. */
uint8_t lanes_file(lanes_table *table, uint8_t *out, size_t room, size_t *length, lanes_place *place);

/* Gives the digest of what a handle's table holds: 32 hexadecimal digits in lower case, the first of the SHA-512 of its file. Tables that
 * hold the same batches and deletions have the same digest. If two digests are the same, then, but for a collision, the tables hold the
 * same: so replicas are compared without moving them.
 *
 * Refused: LANES_NOT_OPEN when the handle is closed. */
uint8_t lanes_digest(lanes_table *table, uint8_t *out, size_t room, size_t *length, lanes_place *place);

/* Gives what the program's command `inspect --batches --digest` writes of the file of a handle's table: of each batch its name, its rows,
 * its live rows and its digest, which is that of the table that has this batch alone, with all its rows and no deletions. So two replicas
 * that hold one name with other rows have two digests of it, whatever is deleted. The format is LANES_TEXT or LANES_JSON; another number
 * is taken for LANES_TEXT.
 *
 * Refused: LANES_NOT_OPEN when the handle is closed. */
uint8_t lanes_batch_digests(lanes_table *table, uint8_t format, uint8_t *out, size_t room, size_t *length, lanes_place *place);

/* Spreads the table of a handle over several files, its shares: as many as `ends` has room for. Each batch goes to one share, in runs of
 * names, with all deletions that name it. Deletions that name no batch of the table go to the first share. No share has more bytes than
 * an equal share and the largest batch, and none is without a batch when the table has as many batches as there are shares. The handle
 * keeps its table.
 *
 * Gives: the files of the shares, one after another. The file of share i, from 0, ends in front of the byte ends[i] of `out`. Merged they
 * are the table, and their partial answers are combined. `ends` is written also when the files don't fit into `out`.
 * Refused: LANES_NOT_OPEN when the handle is closed. A refused call leaves `ends` as it was. */
uint8_t lanes_spread(lanes_table *table, size_t *ends, size_t ends_room, uint8_t *out, size_t room, size_t *length, lanes_place *place);

/* The calls that begin with lanes_table_ change the table of a handle, and check no file again. With 0 the handle has the changed
 * table; lanes_file gives its file, which is that of the call without a handle. When a call is refused, the handle has the table that
 * it had. Another handle of the same table, which lanes_share gave, has what it had in both cases. So share a handle first to keep
 * the table as it is before a change.
 *
 * A change of the only handle of a table costs what the change brings, however large the table is. When another handle has the same table,
 * the first change copies the table; the handle is the only one of the copy, and its next changes copy nothing. */

/* Imports rows of comma-separated values, as lanes_import.
 *
 * Refused, in this order: LANES_NOT_OPEN when the handle is closed; what lanes_import refuses after the file's first fault. */
uint8_t lanes_table_import(lanes_table *table, const uint8_t *csv, size_t csv_length, bool has_heading, uint32_t origin, uint32_t number,
                           const uint64_t *words, size_t words_count, lanes_place *place);

/* Imports rows of comma-separated values that are written otherwise, as lanes_import_in.
 *
 * Refused, in this order: LANES_NOT_OPEN when the handle is closed; what lanes_import_in refuses after the file's first fault. */
uint8_t lanes_table_import_in(lanes_table *table, const uint8_t *csv, size_t csv_length, bool has_heading, uint8_t separator,
                              const uint8_t *null_word, size_t null_word_length, const uint8_t *columns, size_t columns_length,
                              bool needs_ends, uint32_t origin, uint32_t number, const uint64_t *words, size_t words_count,
                              lanes_place *place);

/* Imports rows of columns: the mirror of lanes_columns. So what that gives of all columns of a table is what this takes.
 *
 * Column c of the table, from 0, has its numbers from values[c * rows] on. Its bits begin at valid[c * stride], and stride is
 * 64 * ((rows + 511) / 512): bit i % 8 of byte i / 8 is 1 if cell i is a value, and 0 if it is null. A null's number, and the bits past
 * the last row, don't matter. With a valid_length of 0 each cell is a value. Rows become batches, and these get names, as of lanes_import.
 * `values` and `valid` are never null, also with a length of 0.
 *
 * Refused, in this order: LANES_NOT_OPEN when the handle is closed; LANES_FULL when there are more than 2^36 rows; LANES_WRONG_ARITY when
 * values_count isn't rows times the table's columns, or valid_length is neither 0 nor stride times these; LANES_OUT_OF_TYPE with the first
 * row that has a number outside its column's type, and the first such column of that row; LANES_BAD_NAME if one of origin and number is 0;
 * LANES_NUMBERS_SPENT; LANES_CONFLICT; LANES_FULL. */
uint8_t lanes_table_import_columns(lanes_table *table, size_t rows, const int64_t *values, size_t values_count, const uint8_t *valid,
                                   size_t valid_length, uint32_t origin, uint32_t number, const uint64_t *words, size_t words_count,
                                   lanes_place *place);

/* Deletes the rows at which a condition is true, as lanes_delete.
 *
 * Refused, in this order: LANES_NOT_OPEN when the handle is closed; LANES_SYNTAX at the first byte that is no UTF-8; LANES_SYNTAX,
 * LANES_NUMBER_TOO_LARGE, LANES_TOO_DEEP; LANES_NO_SUCH_COLUMN. */
uint8_t lanes_table_delete(lanes_table *table, const uint8_t *condition, size_t condition_length, lanes_place *place);

/* Deletes the rows of the batch origin.number from the ordinal `first` to `last`, both included. The batch may be one that isn't there:
 * its rows are deleted when it comes.
 *
 * Refused, in this order: LANES_NOT_OPEN when the handle is closed; LANES_BAD_NAME when origin or number is 0; LANES_BAD_RANGE when
 * last is less than first. */
uint8_t lanes_table_delete_rows(lanes_table *table, uint32_t origin, uint32_t number, uint16_t first, uint16_t last, lanes_place *place);

/* Deletes the same rows only when the table has the batch, and tells in *held whether it has: 1, or 0, and then nothing is deleted. So a
 * deletion can be sent to all shares of a table: the batch is in one of them.
 *
 * Refused: as lanes_table_delete_rows, also when the table doesn't have the batch. With 0, *held is 1 or 0. */
uint8_t lanes_table_delete_held_rows(lanes_table *table, uint32_t origin, uint32_t number, uint16_t first, uint16_t last, size_t *held,
                                     lanes_place *place);

/* Applies an offer, as lanes_apply. A file is an offer too.
 *
 * Refused, in this order: LANES_NOT_OPEN when the handle is closed; the offer's first fault, with its place in the offer;
 * LANES_SCHEMA_DIFFERS; LANES_CONFLICT with the least name that has two lists of rows; LANES_FULL. */
uint8_t lanes_table_apply(lanes_table *table, const uint8_t *offer, size_t offer_length, lanes_place *place);

/* Drops the batches of which every row is deleted, as lanes_forget.
 *
 * Refused: LANES_NOT_OPEN when the handle is closed. */
uint8_t lanes_table_forget(lanes_table *table, lanes_place *place);

/* Closes a handle. Closing a closed one does nothing. */
void lanes_close(lanes_table *table);

/* A folder of parts, as docs/FOLDERS.md has it: each part is a column file whose name is a digest of its bytes. Any number of processes may
 * change and read one folder at once, and each may be killed at any moment, also by a loss of power.
 *
 * The library makes no call on a folder. It says which call comes next, the program makes it, and tells what came of it. What is asked for
 * is proved to be in turn after what was told, so that nothing is lost that was once on the disk: docs/FOLDERS.md says what is meant.
 *
 *     lanes_turn turn = LANES_NO_TURN;
 *     number = lanes_folder_begin(LANES_FOLDER_PUT, temporary, temporary_length, part, part_length, &turn, &place);
 *     answer = LANES_NOTHING;
 *     while (!(number = lanes_folder_next(&turn, answer, told, bytes, bytes_length, &call, names, sizeof names, &length, &place))
 *            && call.kind != LANES_ENDED)
 *         answer = ...;                             the call that `call` asks for is made
 *     lanes_folder_end(&turn);
 *
 * c/lanes_folder_driver.c makes the calls by POSIX. A program that makes its own must keep these rules:
 *
 *   - Make the calls that are asked for, and no others, on this folder, and tell of each what came of it. A call that failed may have been
 *     done or not; both are told as LANES_FAILED.
 *   - Wait at most ten seconds for a lock. Then tell LANES_FAILED with EAGAIN.
 *   - A file is listed that was there when the listing began, unless it was removed meanwhile. List twice, and give the names of both.
 *   - A folder is locked by flock, and the lock is not shared with a call of another turn.
 *   - A turn that can't go on may be ended at any time. Remove its temporary then, if it was made.
 *
 * A handle of a turn is as one of a table: set it to LANES_NO_TURN before its first use, don't copy it, give it to one call at a time, and
 * end each turn. Leave it on its thread.
 */
typedef struct lanes_turn {
    void *begun;
} lanes_turn;

/* A handle without a turn. */
#ifdef __cplusplus
#define LANES_NO_TURN (lanes_turn{})
#else
#define LANES_NO_TURN ((lanes_turn){NULL})
#endif

/* The commands of lanes_folder_begin. */
enum {
    /* put a part */
    LANES_FOLDER_PUT = 1,
    /* have a part on the disk that is there with these bytes */
    LANES_FOLDER_KEEP = 2,
    /* put a part in the place of parts that were read and whose content it has: a pack, or a forget */
    LANES_FOLDER_REPLACE = 3,
    /* remove parts that were read and whose content the part has, if the part is there */
    LANES_FOLDER_REMOVE = 4,
    /* list the names of the parts */
    LANES_FOLDER_LIST = 5,
    /* have parts on the disk that are there; all of them are read, and kept until the turn is ended, so a turn for each is better */
    LANES_FOLDER_KEEP_ALL = 6,
    /* put a part that goes with the parts of the names of lanes_folder_name, if no others are there: a load under a given name */
    LANES_FOLDER_PUT_JUDGED = 7,
    /* put a part, once those of the names of lanes_folder_relied, on which it relies, are on the disk, or are gone; if one of them can't be synced
     * the command is refused, and nothing is put. All of them are read, and kept until the turn is ended */
    LANES_FOLDER_KEEP_AND_PUT = 8,
    /* the same of LANES_FOLDER_PUT_JUDGED */
    LANES_FOLDER_KEEP_AND_PUT_JUDGED = 9
};

/* What a call of lanes_folder_next asks for. */
enum {
    /* nothing: the command has come to its end, and number is one of those below */
    LANES_ENDED = 0,
    /* make a file of this name, which nothing has, and open it */
    LANES_CALL_MAKE = 1,
    /* add bytes of the part to the open file, from the byte `number` on: as many as the system takes */
    LANES_CALL_WRITE = 2,
    /* sync the open file */
    LANES_CALL_SYNC = 3,
    /* give the file of the first name the second one, unless something has that; `number` is the length of the first name */
    LANES_CALL_LINK = 4,
    /* remove the name; it is no failure if it is gone */
    LANES_CALL_REMOVE = 5,
    /* sync the folder; once that has failed, make no such call any more, and answer each that it failed: a later sync proves nothing */
    LANES_CALL_SETTLE = 6,
    /* take the folder's exclusive lock */
    LANES_CALL_LOCK = 7,
    /* take the folder's shared lock; if the file system has no locks, go without */
    LANES_CALL_LOCK_SHARED = 8,
    /* list the names in the folder, and tell those of parts by lanes_folder_name */
    LANES_CALL_LIST = 9,
    /* open the file of this name, and read it whole; it is the open file then */
    LANES_CALL_READ = 10,
    /* let the lock go */
    LANES_CALL_UNLOCK = 11
};

/* What is told of a call. */
enum {
    /* nothing: the same call is asked for again, or at first the first one */
    LANES_NOTHING = 0,
    LANES_DONE = 1,
    /* it failed, with `number` as errno has it, or 0 */
    LANES_FAILED = 2,
    /* something has the second name of LANES_CALL_LINK */
    LANES_TAKEN = 3,
    /* LANES_CALL_WRITE wrote `number` bytes */
    LANES_WROTE = 4,
    /* all names of LANES_CALL_LIST were told by lanes_folder_name */
    LANES_LISTED = 5,
    /* LANES_CALL_READ found no file */
    LANES_NO_FILE = 6,
    /* LANES_CALL_READ found `bytes` */
    LANES_FOUND = 7
};

/* What a command has come to. */
enum {
    /* names were listed, or parts are kept */
    LANES_FOLDER_DONE = 0,
    /* the part is on the disk; of LANES_FOLDER_REPLACE and LANES_FOLDER_REMOVE the others are removed */
    LANES_ON_DISK = 1,
    /* the part is there, and it or the folder could not be synced, so a loss of power may take it away; nothing was removed */
    LANES_UNSYNCED = 2,
    /* a part is gone that was there: another process has packed the folder. Nothing was removed; begin anew, from what is there now */
    LANES_GONE = 3,
    /* a part is there that a judged put was not told of; nothing was put. Look at it, and begin anew */
    LANES_UNSEEN = 4
};

/* A call on a folder. */
typedef struct lanes_call {
    uint64_t kind;
    uint64_t number;
} lanes_call;

/* Begins a turn. `temporary` is the name of a new temporary: ".part-" and 16 hexadecimal digits, drawn at random for each turn. `part` are
 * the bytes of the part, which are copied. A command that has no use for them may be given no bytes. A number that is no command's lists.
 *
 * A turn that the handle had is ended, when 0 is answered. When the call is refused the handle is as it was.
 * Refused: LANES_SYNTAX when the name is no text. */
uint8_t lanes_folder_begin(uint8_t command, const uint8_t *temporary, size_t temporary_length, const uint8_t *part, size_t part_length,
                           lanes_turn *turn, lanes_place *place);

/* Adds a name. Before the first call of lanes_folder_next it is that of a part which the command is about: one that is replaced, removed or
 * kept, or that was looked at before the part is put, best in ascending order. After that it is one that LANES_CALL_LIST gave.
 *
 * Refused: LANES_NOT_OPEN when there is no turn; LANES_SYNTAX when the name is no text, so that it is no part's. */
uint8_t lanes_folder_name(const uint8_t *name, size_t name_length, lanes_turn *turn, lanes_place *place);

/* Adds the name of a part on which the new part relies: it has something that the change brings, so the new part does without. Add all of them
 * before the first call of lanes_folder_next.
 *
 * Refused: as of lanes_folder_name. */
uint8_t lanes_folder_relied(const uint8_t *name, size_t name_length, lanes_turn *turn, lanes_place *place);

/* Gives the bytes of the part that a turn is about: of a turn of lanes_parts_pack or lanes_parts_forget they are what LANES_CALL_WRITE writes.
 *
 * Refused: LANES_NOT_OPEN when there is no turn. */
uint8_t lanes_folder_part(lanes_turn *turn, uint8_t *out, size_t room, size_t *length, lanes_place *place);

/* Tells what came of the call that was asked for, and asks for the next one: `call` has its kind and its number, and `out` its names, one
 * after the other. The names are the one of the temporary, that of the part, which has 38 bytes, and those of lanes_folder_name
 * and lanes_folder_relied. If they don't fit, call again with more room and LANES_NOTHING.
 *
 * Each call costs the time of all calls before it, as the protocol runs from its beginning over what was told. So a turn that removes many
 * parts is better split.
 * Refused: LANES_NOT_OPEN when there is no turn; LANES_BUSY when others have the folder's lock; LANES_DAMAGED when the file of the part's
 * name has other bytes; LANES_SYSTEM when another call failed, so that the command has. Then the command has come to its end. */
uint8_t lanes_folder_next(lanes_turn *turn, uint8_t answer, uint64_t number, const uint8_t *bytes, size_t bytes_length, lanes_call *call,
                          uint8_t *out, size_t room, size_t *length, lanes_place *place);

/* Ends a turn. Ending none does nothing. */
void lanes_folder_end(lanes_turn *turn);

/* Parts of a folder that the program has read: the library joins them, and what is made of them goes by their names. A handle of parts is as
 * one of a table: set it to LANES_NO_PARTS before its first use, don't copy it, give it to one call at a time, and close it. Leave it on its
 * thread.
 *
 *     lanes_parts parts = LANES_NO_PARTS;
 *     for each name that LANES_FOLDER_LIST gave: read the file of this name, and
 *         number = lanes_parts_take(&parts, name, name_length, bytes, bytes_length, &place);
 *     number = lanes_parts_pack(&parts, temporary, temporary_length, &turn, &place);
 *     follow the turn to its end
 *
 * If a file is gone meanwhile, or the turn comes to LANES_GONE, another process has packed the folder: close the handle and list the names
 * anew. A turn that is begun so is in turn, as lanes_folder_next has it, if each part that was taken was read under its name: the new part has
 * all that they have, and no other part is removed. */
typedef struct lanes_parts {
    void *read;
} lanes_parts;

/* A handle without parts. */
#ifdef __cplusplus
#define LANES_NO_PARTS (lanes_parts{})
#else
#define LANES_NO_PARTS ((lanes_parts){NULL})
#endif

/* Takes a part: its name, and the bytes of the file of this name. It is joined to those that were taken before; the bytes may go then.
 *
 * When the call is refused the handle is closed, and the parts are to be read anew, without this one or with a copy of it.
 * Refused, in this order: LANES_SYNTAX when the name is no text; LANES_DAMAGED when it is that of other bytes; the first fault of the
 * bytes; LANES_SCHEMA_DIFFERS, LANES_CONFLICT and LANES_FULL when it does not go with those before it. */
uint8_t lanes_parts_take(lanes_parts *parts, const uint8_t *name, size_t name_length, const uint8_t *bytes, size_t bytes_length,
                         lanes_place *place);

/* Opens what the parts hold together as a table, and closes the parts' handle. What the table's handle had is closed when 0 is answered.
 *
 * Refused: LANES_NOT_OPEN when no part was taken. */
uint8_t lanes_parts_open(lanes_parts *parts, lanes_table *table, lanes_place *place);

/* Begins a turn that packs the parts, and closes their handle. The file of what they hold together is put in their place: those that were
 * taken are removed, but for the file itself. `temporary` is the name of a new temporary, as of lanes_folder_begin. lanes_folder_part
 * gives the file.
 *
 * A turn that the handle had is ended, when 0 is answered. When the call is refused it is as it was.
 * Refused: LANES_NOT_OPEN when no part was taken; LANES_SYNTAX when the temporary's name is no text. */
uint8_t lanes_parts_pack(lanes_parts *parts, const uint8_t *temporary, size_t temporary_length, lanes_turn *turn, lanes_place *place);

/* Begins a turn that forgets, and closes the parts' handle: the file of what the parts hold together without the batches of which every row is
 * deleted is put in their place, as by lanes_parts_pack. *batches is how many batches are dropped. When there are none, no turn is begun, and
 * the turn's handle is as it was; the parts may then be kept by LANES_FOLDER_KEEP_ALL, one after another.
 *
 * Refused: as of lanes_parts_pack. */
uint8_t lanes_parts_forget(lanes_parts *parts, const uint8_t *temporary, size_t temporary_length, lanes_turn *turn, size_t *batches,
                           lanes_place *place);

/* Answers how many of a folder's parts are packed next, by their sizes in ascending order: the first ones, up to the greatest that has at most
 * a seventh of the bytes of those before it together. When it is fewer than two, nothing is to be packed. */
size_t lanes_packed_prefix(const uint64_t *sizes, size_t sizes_count);

/* Reads the head of a part: opens the empty table of its columns, and tells in *batches how many batches the part has. `bytes` are the front
 * of the part; the first 4,096 bytes have every head. What the table's handle had is closed when 0 is answered.
 *
 * Refused: LANES_TRUNCATED, LANES_BAD_MAGIC, LANES_BAD_VERSION, LANES_BAD_COUNT, LANES_BAD_SCHEMA. */
uint8_t lanes_head(const uint8_t *bytes, size_t bytes_length, lanes_table *table, size_t *batches, lanes_place *place);

/* Makes the part of a delete in what the parts of a folder hold together, which the table has: the file of the deletions alone of the rows at
 * which the condition is true. *rows is how many these are; when there are none, there is no part.
 *
 * Gives: the part, of no bytes if there isn't one.
 * Refused, in this order: LANES_NOT_OPEN, LANES_SYNTAX when the condition is no text, and the condition's first fault. */
uint8_t lanes_table_delete_part(lanes_table *table, const uint8_t *condition, size_t condition_length, uint64_t *rows, uint8_t *out, size_t room,
                                size_t *length, lanes_place *place);

/* Closes a handle of parts. Closing a closed one does nothing. */
void lanes_parts_close(lanes_parts *parts);

/* What a load under given names is answered from: of a part that has a batch of such a name all that it holds, and of any other its deletions
 * alone, whose values are passed over. So a load costs little even if the folder is large. A handle of it is as one of parts: set it to
 * LANES_NO_SKIM before its first use, don't copy it, give it to one call at a time, close it, and leave it on its thread.
 *
 *     lanes_skim skim = LANES_NO_SKIM;
 *     for each name that LANES_FOLDER_LIST gave: read the file of this name, and
 *         number = lanes_skim_take(&skim, origin, first, count, name, name_length, bytes, bytes_length, &place);
 *         if (lanes_table_meets(&load, bytes, bytes_length)) the load rests on this part
 *     number = lanes_skim_open(&skim, &table, &batches, &place);
 *     number = lanes_table_bring(&table, file, file_length, &fresh, out, room, &length, &place);     the load's file is an offer
 *     put what was given by LANES_FOLDER_KEEP_AND_PUT_JUDGED: give all names to lanes_folder_name, and those on which the load rests also to
 *         lanes_folder_relied */
typedef struct lanes_skim {
    void *read;
} lanes_skim;

/* A handle of nothing that was read. */
#ifdef __cplusplus
#define LANES_NO_SKIM (lanes_skim{})
#else
#define LANES_NO_SKIM ((lanes_skim){NULL})
#endif

/* Takes a part for a load of `count` batches under consecutive names, the first of which is `origin`.`number`: the part's name, and the bytes of
 * the file of this name, which may go then. Give each call for one handle the same three numbers.
 *
 * A part that has none of the names isn't compared with its own, and a fault of its values is not seen. When the call is refused the handle is
 * closed, as of lanes_parts_take.
 * Refused, in this order: LANES_SYNTAX when the name is no text; of a part that has one of the names, or that is no file, LANES_DAMAGED when its
 * own name is that of other bytes, and the first fault of the bytes; LANES_SCHEMA_DIFFERS, LANES_CONFLICT and LANES_FULL when it does not go
 * with those before it. */
uint8_t lanes_skim_take(lanes_skim *skim, uint32_t origin, uint32_t number, uint32_t count, const uint8_t *name, size_t name_length,
                        const uint8_t *bytes, size_t bytes_length, lanes_place *place);

/* Opens what was read as a table, and closes its handle. A load of these names is answered from it, by lanes_table_bring, as from all that the
 * parts hold together. *batches is how many batches the parts have; one that is in two parts counts twice. If they and those of the load are
 * more than 1,048,576, take the parts by lanes_parts_take instead. What the table's handle had is closed when 0 is answered.
 *
 * Refused: LANES_NOT_OPEN when no part was taken. */
uint8_t lanes_skim_open(lanes_skim *skim, lanes_table *table, uint64_t *batches, lanes_place *place);

/* Closes a handle of what was read. Closing a closed one does nothing. */
void lanes_skim_close(lanes_skim *skim);

/* Answers whether a part with these bytes may have a batch of a name that the table has; only the names of its batches are read. It has none if
 * false is answered. True is answered, too, when the bytes are no part, the handle is closed, or memory runs out. A change that brings the
 * table's batches rests on such parts: have them on the disk before its own part has its name. */
bool lanes_table_meets(lanes_table *table, const uint8_t *bytes, size_t bytes_length);

/* Makes the part of an offer, given what the parts of a folder hold together, which the table has: the file of those batches of the offer that the
 * table does not have, and of all deletions of the offer. A file is an offer too. *batches is how many batches these are.
 *
 * Gives: the part, of no bytes if the offer brings nothing new.
 * Refused, in this order: LANES_NOT_OPEN; the first fault of the offer; LANES_SCHEMA_DIFFERS; LANES_CONFLICT with the least batch that has two
 * lists of rows; LANES_FULL. */
uint8_t lanes_table_bring(lanes_table *table, const uint8_t *offer, size_t offer_length, uint64_t *batches, uint8_t *out, size_t room,
                          size_t *length, lanes_place *place);

/* Gives the name that a part with these bytes has: the first 32 hexadecimal digits of their SHA-512, and ".lanes". A file of another name
 * than its bytes have is damaged.
 *
 * Gives: 38 bytes.
 * Refused: nothing but LANES_MEMORY. */
uint8_t lanes_part_name(const uint8_t *part, size_t part_length, uint8_t *out, size_t room, size_t *length, lanes_place *place);

/* Gives the name of a refusal's number, as "NotCanonical", without a byte 0 at its end, and answers how many bytes it has: 0 if the
 * number has no name. It is written if it fits. No name has more than 32 bytes. */
size_t lanes_refusal(uint8_t number, uint8_t *out, size_t room);

/* Gives a sentence for a refusal's number and place, as "byte 7: syntax error here", without a byte 0 at
 * its end, and answers how many bytes it has: 0 if the number has no sentence, or if memory runs out. It is written if it fits. No sentence
 * has more than 256 bytes. */
size_t lanes_sentence(uint8_t number, const lanes_place *place, uint8_t *out, size_t room);

/* What the text is that lanes_explain is given: nothing; the query or the condition; the names of columns; the rows as comma-separated values;
 * the words of a table that is to be made, or that came in the place of another one; the file or the message, of which the first
 * 16 bytes are enough. */
enum {
    LANES_OF_NOTHING = 0,
    LANES_OF_QUERY = 1,
    LANES_OF_CONDITION = 2,
    LANES_OF_NAMES = 3,
    LANES_OF_ROWS = 4,
    LANES_OF_WORDS = 5,
    LANES_OF_INPUT = 6
};

/* A refusal, and what the text is that comes with it. */
typedef struct lanes_refused {
    lanes_place place;   /* as the call told it */
    uint8_t number;      /* as the call answered it */
    uint8_t given;       /* LANES_OF_NOTHING to LANES_OF_INPUT; another number is taken for LANES_OF_NOTHING */
    uint8_t separator;   /* the byte between two fields of rows, or between two names; 0 is a comma between fields and a space between names */
    uint8_t has_heading; /* of rows: 1 if the first line names the columns, and else 0 */
    uint8_t needs_ends;  /* of rows: 1 if a last line without its end is refused, and else 0 */
} lanes_refused;

/* Gives the sentence that the program gives of a refusal, without what it is said of, as "byte 40: equal is written =", without a byte 0 at
 * its end, and answers how many bytes it has: 0 if the number has no sentence, or if memory runs out. It is written if it fits. No sentence
 * has more than 1,024 bytes: a longer one is cut, and ends in "...". None has a control character, whatever the inputs are.
 *
 * `text` is what the refused call was given, as refused->given says. `table` are the words of the table, as lanes_schema gives them, or no
 * bytes if it isn't known. Of rows `null_word` is the word that is a null in addition to the usual ones, and `columns` says what the fields are,
 * as the program's --columns; each may be of no bytes. The rows are read once more, up to their first fault. Of LANES_SCHEMA_DIFFERS, with
 * LANES_OF_WORDS, `text` are the words of the table that came, `table` those of the one that is expected, and `columns` says what holds that
 * one: the sentence names both tables. If the text does not have the fault that the number and the place name, the sentence is that of
 * lanes_sentence. */
size_t lanes_explain(const lanes_refused *refused, const uint8_t *text, size_t text_length, const uint8_t *table, size_t table_length,
                     const uint8_t *null_word, size_t null_word_length, const uint8_t *columns, size_t columns_length, uint8_t *out, size_t room);

/* Gives the library's version, as "0.12.1", without a byte 0 at its end, and answers how many bytes it has. It is written if it
 * fits. */
size_t lanes_version(uint8_t *out, size_t room);

#ifdef __cplusplus
}
#endif

#endif
