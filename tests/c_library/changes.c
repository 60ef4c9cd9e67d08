/* Changes of the table of a handle, its file, its report, and its columns in pieces: the changed table has the file that the call without
 * a handle gives; a refused change leaves the handle; a second handle has what it had; pieces are the whole. */
#include "tables.h"

enum { CELLS = 4096, MARKER = 77 };

static const char TABLE[] = "COUNTS SITE SMALLINT HITS INTEGER";
static const uint64_t WORDS[] = {0x0000000900000004, 0x0000000b00000006};

static bytes empty_file(void) {
    bytes file;
    TAKE(file, lanes_create(text_of(TABLE), strlen(TABLE), out, room, &length, &place));
    return file;
}

/* A file with more rows, under this name. */
static bytes with_rows(bytes file, const char *rows, uint32_t origin, uint32_t number) {
    bytes next;
    TAKE(next, lanes_import(file.at, file.length, text_of(rows), strlen(rows), false, origin, number, WORDS, 0, out, room, &length, &place));
    return next;
}

static lanes_table opened(bytes file) {
    lanes_table table = LANES_CLOSED;
    lanes_place place;
    bytes copy = copy_of(file.at, file.length);
    uint8_t number = lanes_open(copy.at, copy.length, &table, &place);
    if (number != 0) end_at("lanes_open", number, place);
    free(copy.at);
    return table;
}

/* What a change answered. */
typedef struct answer {
    uint8_t number;
    lanes_place place;
} answer;

static bool is_done(answer given) { return given.number == 0 && given.place.first == 0 && given.place.second == 0; }

static bool is_refused(answer given, uint8_t number, uint64_t first, uint64_t second) {
    return given.number == number && given.place.first == first && given.place.second == second;
}

static answer imported(lanes_table *table, const char *csv, uint32_t origin, uint32_t number, size_t words) {
    answer given = {99, {7, 7}};
    bytes copy = copy_of(csv, strlen(csv));
    given.number = lanes_table_import(table, copy.at, copy.length, false, origin, number, WORDS, words, &given.place);
    free(copy.at);
    return given;
}

static answer deleted(lanes_table *table, const char *condition) {
    answer given = {99, {7, 7}};
    bytes copy = copy_of(condition, strlen(condition));
    given.number = lanes_table_delete(table, copy.at, copy.length, &given.place);
    free(copy.at);
    return given;
}

static answer deleted_rows(lanes_table *table, uint32_t origin, uint32_t number, uint16_t first, uint16_t last) {
    answer given = {99, {7, 7}};
    given.number = lanes_table_delete_rows(table, origin, number, first, last, &given.place);
    return given;
}

static answer applied(lanes_table *table, bytes offer) {
    answer given = {99, {7, 7}};
    bytes copy = copy_of(offer.at, offer.length);
    given.number = lanes_table_apply(table, copy.at, copy.length, &given.place);
    free(copy.at);
    return given;
}

static answer forgotten(lanes_table *table) {
    answer given = {99, {7, 7}};
    given.number = lanes_table_forget(table, &given.place);
    return given;
}

static void try_closed(bytes file) {
    static told seen;
    lanes_table table = LANES_CLOSED;
    expect(is_refused(imported(&table, "1,2\n", 1, 1, 0), LANES_NOT_OPEN, 0, 0), "an import into a closed handle");
    expect(is_refused(deleted(&table, "\xff"), LANES_NOT_OPEN, 0, 0), "a delete in a closed handle");
    expect(is_refused(deleted_rows(&table, 0, 0, 1, 0), LANES_NOT_OPEN, 0, 0), "a delete of rows in a closed handle");
    expect(is_refused(applied(&table, file), LANES_NOT_OPEN, 0, 0), "an offer to a closed handle");
    expect(is_refused(forgotten(&table), LANES_NOT_OPEN, 0, 0), "a forget in a closed handle");
    expect(lanes_batches(&table) == 0 && table.opened == NULL, "a closed handle has no batch, and stays closed");
    seen.number = lanes_file(&table, seen.out, ROOM, &seen.length, &seen.place);
    expect(seen.number == LANES_NOT_OPEN && seen.length == 0, "the file of a closed handle");
    seen.number = lanes_inspect(&table, LANES_TEXT, seen.out, ROOM, &seen.length, &seen.place);
    expect(seen.number == LANES_NOT_OPEN && seen.length == 0, "the report of a closed handle");
    seen.number = lanes_digest(&table, seen.out, ROOM, &seen.length, &seen.place);
    expect(seen.number == LANES_NOT_OPEN && seen.length == 0, "the digest of a closed handle");
    seen.number = lanes_batch_digests(&table, LANES_TEXT, seen.out, ROOM, &seen.length, &seen.place);
    expect(seen.number == LANES_NOT_OPEN && seen.length == 0, "the digests of batches of a closed handle");
}

/* Each change of a handle beside the call without one; a second handle has the table before. */
static void try_changes(bytes file) {
    static const char rows[] = "5,50\n6,\n", condition[] = "HITS < 10";
    bytes wanted, other = with_rows(file, "9,90\n", 4, 4);
    lanes_table table = opened(file), second = LANES_CLOSED;
    expect(lanes_share(&table, &second) == 0, "a second handle");

    expect(is_done(imported(&table, rows, 2, 1, 0)), "an import under a name");
    wanted = with_rows(file, rows, 2, 1);
    expect_file(&table, wanted, "the handle has the imported rows");
    expect_file(&second, file, "the second handle has what it had");
    expect(is_done(imported(&table, rows, 2, 1, 0)), "the same import again");
    expect_file(&table, wanted, "the same import again changes nothing");
    expect(lanes_batches(&table) == 3 && lanes_batches(&second) == 2, "how many batches there are");
    free(wanted.at);

    expect(is_done(deleted(&table, condition)), "a delete");
    bytes before = with_rows(file, rows, 2, 1);
    TAKE(wanted, lanes_delete(before.at, before.length, text_of(condition), strlen(condition), out, room, &length, &place));
    expect_file(&table, wanted, "the handle has the rows that are left");
    free(before.at);

    expect(is_done(applied(&table, other)), "an offer");
    before = wanted;
    TAKE(wanted, lanes_apply(before.at, before.length, other.at, other.length, out, room, &length, &place));
    expect_file(&table, wanted, "the handle has what the offer brings");
    free(before.at);
    free(wanted.at);

    expect(is_done(deleted_rows(&table, 4, 4, 0, 0)) && is_done(deleted_rows(&table, 3, 9, 2, 5)), "deletes of rows");
    before = file_of(&table);
    TAKE(wanted, lanes_forget(before.at, before.length, out, room, &length, &place));
    expect(!are_same(before, wanted), "a batch is dead");
    expect(is_done(forgotten(&table)), "a forget");
    expect_file(&table, wanted, "the dead batch is dropped");
    expect(is_done(forgotten(&table)), "a forget again");
    expect_file(&table, wanted, "a forget of nothing changes nothing");
    expect_file(&second, file, "the second handle still has what it had");
    free(before.at);
    free(wanted.at);
    free(other.at);
    lanes_close(&table);
    lanes_close(&second);
}

/* A name that is drawn is that of the call without a handle. */
static void try_drawn_names(bytes file) {
    bytes wanted;
    lanes_table table = opened(file);
    TAKE(wanted, lanes_import(file.at, file.length, text_of("7,70\n"), 5, false, 0, 0, WORDS, 2, out, room, &length, &place));
    expect(is_done(imported(&table, "7,70\n", 0, 0, 2)), "an import under a drawn name");
    expect_file(&table, wanted, "the name is drawn of the words");
    expect(is_refused(imported(&table, "8,80\n", 0, 0, 0), LANES_NUMBERS_SPENT, 0, 0), "no word to draw of");
    expect_file(&table, wanted, "the handle is as it was");
    free(wanted.at);
    lanes_close(&table);
}

/* A change that is refused: with the number and the place of the call without a handle, and the handle as it was. */
static void try_refusals(bytes file) {
    bytes visits, clash, empty = empty_file();
    lanes_table table = opened(file), second = LANES_CLOSED;
    TAKE(visits, lanes_create(text_of("VISITS A BIGINT"), 15, out, room, &length, &place));
    clash = with_rows(empty, "1,11\n", 1, 2);
    expect(lanes_share(&table, &second) == 0, "a second handle");
    struct {
        answer given, wanted;
        const char *what;
    } tried[] = {
        {imported(&table, "1,2\nx,3\n", 5, 5, 0), {LANES_BAD_CSV, {2, 1}}, "a text that is no number"},
        {imported(&table, "1\n", 5, 5, 0), {LANES_BAD_CSV, {1, 0}}, "a line of too few fields"},
        {imported(&table, "1,2\n", 5, 0, 0), {LANES_BAD_NAME, {0, 0}}, "a name with a 0"},
        {imported(&table, "1,2\n", 1, 1, 0), {LANES_CONFLICT, {1, 1}}, "other rows under a name that is held"},
        {deleted(&table, "HITS <"), {LANES_SYNTAX, {6, 0}}, "a condition that ends early"},
        {deleted(&table, "HITS = \xff"), {LANES_SYNTAX, {7, 0}}, "a condition that is no text"},
        {deleted(&table, "X = 1"), {LANES_NO_SUCH_COLUMN, {0, 0}}, "a column that there isn't"},
        {deleted_rows(&table, 0, 1, 0, 0), {LANES_BAD_NAME, {0, 0}}, "rows of no batch"},
        {deleted_rows(&table, 1, 1, 1, 0), {LANES_BAD_RANGE, {0, 0}}, "a range that ends before it begins"},
        {applied(&table, visits), {LANES_SCHEMA_DIFFERS, {0, 0}}, "an offer of another table"},
        {applied(&table, clash), {LANES_CONFLICT, {1, 2}}, "an offer with other rows under a name"},
        {applied(&table, (bytes){file.at, file.length - 1}), {LANES_TRUNCATED, {file.length - 1, 0}}, "an offer that is cut"},
    };
    for (size_t at = 0; at < sizeof tried / sizeof *tried; at++)
        expect(is_refused(tried[at].given, tried[at].wanted.number, tried[at].wanted.place.first, tried[at].wanted.place.second), tried[at].what);
    expect_file(&table, file, "a refused change leaves the handle");
    expect_file(&second, file, "and the second handle");
    expect(is_done(deleted(&table, "HITS IS NULL")), "a change after refusals");
    lanes_close(&second);
    lanes_close(&table);
    free(visits.at);
    free(clash.at);
    free(empty.at);
}

/* The digest of a table is that of its file, with which the file's name as a part begins; another handle of the same has the same one, and
 * a changed table another. */
static void try_digests(bytes file) {
    lanes_table table = opened(file), second = LANES_CLOSED;
    bytes first, named, again, lines, changed;
    expect(lanes_share(&table, &second) == LANES_OK, "a second handle");
    TAKE(first, lanes_digest(&table, out, room, &length, &place));
    TAKE(named, lanes_part_name(file.at, file.length, out, room, &length, &place));
    TAKE(again, lanes_digest(&second, out, room, &length, &place));
    expect(first.length == 32 && named.length == 38 && memcmp(first.at, named.at, 32) == 0, "the digest of a table");
    expect(again.length == 32 && memcmp(again.at, first.at, 32) == 0, "the digest of a second handle");
    TAKE(lines, lanes_batch_digests(&table, LANES_TEXT, out, room, &length, &place));
    expect(lines.length > 23 && memcmp(lines.at, "BATCH,ROWS,LIVE,DIGEST\n", 23) == 0 && lines.at[lines.length - 1] == '\n', "the digests of batches");
    expect(lanes_batches(&table) != 1 || memcmp(lines.at + lines.length - 33, first.at, 32) == 0, "the digest of a batch that is alone");
    expect(is_done(imported(&table, "1,100\n1,100\n", 7, 7, 0)), "an import before a digest");
    TAKE(changed, lanes_digest(&table, out, room, &length, &place));
    expect(changed.length == 32 && memcmp(changed.at, first.at, 32) != 0, "the digest of a changed table");
    lanes_close(&table);
    lanes_close(&second);
    free(first.at);
    free(named.at);
    free(again.at);
    free(lines.at);
    free(changed.at);
}

/* Reports in rooms of all sizes; after a change the report is that of the changed file. */
static void try_reports(bytes file) {
    static told seen, again;
    lanes_table table = opened(file), fresh;
    bytes changed, text, json;
    expect(is_done(imported(&table, "1,100\n1,100\n", 7, 7, 0)), "an import before a report");
    changed = file_of(&table);
    fresh = opened(changed);
    TAKE(text, lanes_inspect(&table, LANES_TEXT, out, room, &length, &place));
    TAKE(json, lanes_inspect(&fresh, LANES_JSON, out, room, &length, &place));
    expect(text.length > 40 && memcmp(text.at, "table COUNTS\nbatches 3\nrows 5\nlive 5\n", 37) == 0, "a report as a text");
    expect(json.length > 40 && memcmp(json.at, "{\"table\":\"COUNTS\",\"batches\":3,\"rows\":5,", 39) == 0, "a report as JSON");
    for (size_t room = 0; room <= text.length + 3 && room <= ROOM; room++) {
        memset(seen.out, FILLER, ROOM);
        memset(again.out, FILLER, ROOM);
        seen.number = lanes_inspect(&table, LANES_TEXT, seen.out, room, &seen.length, &seen.place);
        again.number = lanes_inspect(&fresh, 200, again.out, room, &again.length, &again.place);
        bool fits = text.length <= room;
        expect(seen.number == 0 && seen.length == text.length && (fits ? memcmp(seen.out, text.at, text.length) == 0 : seen.out[0] == FILLER), "a report in rooms of all sizes");
        expect(again.number == 0 && memcmp(seen.out, again.out, ROOM) == 0, "the report of the file, and a number that is no format");
    }
    free(changed.at);
    free(text.at);
    free(json.at);
    lanes_close(&table);
    lanes_close(&fresh);
}

/* Columns in rooms that the test owns. */
typedef struct block {
    uint8_t number;
    size_t rows;
    lanes_place place;
    int64_t values[CELLS];
    uint8_t valid[CELLS];
    uint64_t nulls[8];
} block;

static void read_between(block *seen, lanes_table *table, size_t first, size_t count, const char *names, const char *condition, size_t values_room) {
    for (size_t at = 0; at < CELLS; at++) seen->values[at] = MARKER;
    memset(seen->valid, FILLER, sizeof seen->valid);
    seen->rows = 999;
    seen->number = lanes_columns_between(table, first, count, text_of(names), strlen(names), text_of(condition), strlen(condition), seen->values, values_room, seen->valid, CELLS, seen->nulls, 8, &seen->rows, &seen->place);
}

static void read_all(block *seen, lanes_table *table, const char *names, const char *condition) {
    seen->number = lanes_columns(table, text_of(names), strlen(names), text_of(condition), strlen(condition), seen->values, CELLS, seen->valid, CELLS, seen->nulls, 8, &seen->rows, &seen->place);
}

static bool is_value(const block *seen, size_t column, size_t row) { return seen->valid[column * 64 * ((seen->rows + 511) / 512) + row / 8] >> row % 8 & 1; }

/* Whether the pieces of so many batches, one after another, are the whole. */
static bool are_pieces(lanes_table *table, const block *whole, size_t step, const char *condition) {
    static block piece;
    size_t row = 0;
    bool same = true;
    for (size_t first = 0; first < lanes_batches(table); first += step) {
        read_between(&piece, table, first, step, "HITS SITE", condition, CELLS);
        same = same && piece.number == 0 && row + piece.rows <= whole->rows;
        for (size_t at = 0; same && at < piece.rows; at++, row++)
            for (size_t column = 0; column < 2; column++)
                same = same && piece.values[column * piece.rows + at] == whole->values[column * whole->rows + row] && is_value(&piece, column, at) == is_value(whole, column, row);
    }
    return same && row == whole->rows;
}

static void try_pieces(void) {
    static block whole, piece;
    static const char *conditions[] = {"", "SITE > 1", "HITS IS NULL", "HITS > 1000"};
    char rows[64];
    bytes next, file = empty_file();
    for (uint32_t batch = 1; batch <= 9; batch++, file = next) {
        snprintf(rows, sizeof rows, "%u,%u\n%u,\n%u,7\n", (unsigned)(batch % 3), (unsigned)(10 * batch), (unsigned)(batch % 4), (unsigned)batch);
        next = with_rows(file, rows, 1 + batch % 2, batch);
        free(file.at);
    }
    lanes_table table = opened(file);
    expect(is_done(deleted(&table, "HITS = 30")) && is_done(deleted_rows(&table, 1, 4, 0, 2)), "some rows and a batch are deleted");
    expect(lanes_batches(&table) == 9, "nine batches");
    for (size_t at = 0; at < sizeof conditions / sizeof *conditions; at++) {
        read_all(&whole, &table, "HITS SITE", conditions[at]);
        expect(whole.number == 0, "all columns");
        for (size_t step = 1; step <= 10; step++) expect(are_pieces(&table, &whole, step, conditions[at]), "pieces are the whole");
    }
    read_between(&piece, &table, 9, 1, "SITE", "", CELLS);
    expect(piece.number == 0 && piece.rows == 0 && piece.values[0] == MARKER, "there is nothing past the last batch");
    read_between(&piece, &table, SIZE_MAX, SIZE_MAX, "SITE", "", CELLS);
    expect(piece.number == 0 && piece.rows == 0, "a place past all");
    read_between(&piece, &table, 1, SIZE_MAX, "SITE", "", CELLS);
    expect(piece.number == 0 && piece.rows > 15, "as many as there are");
    read_between(&piece, &table, 0, 0, "SITE", "", CELLS);
    expect(piece.number == 0 && piece.rows == 0, "no batch");
    read_between(&piece, &table, 0, 2, "SITE", "", 1);
    expect(piece.number == 0 && piece.rows > 1 && piece.values[0] == MARKER && piece.valid[0] == FILLER, "a room that is too small is left");
    read_between(&piece, &table, 0, 0, "SITE X", "", CELLS);
    expect(piece.number == LANES_NO_SUCH_COLUMN && piece.rows == 0 && piece.place.first == 5 && piece.place.second == 1, "a name that no column has");
    read_between(&piece, &table, 99, 1, "SITE", "X = 1", CELLS);
    expect(piece.number == LANES_NO_SUCH_COLUMN && piece.place.first == 0 && piece.place.second == 0, "a condition's name that no column has");
    lanes_close(&table);
    read_between(&piece, &table, 0, 1, "SITE", "", CELLS);
    expect(piece.number == LANES_NOT_OPEN && piece.rows == 0, "columns of a closed handle");
    free(file.at);
}

int main(void) {
    bytes empty = empty_file(), one = with_rows(empty, "1,10\n1,7\n", 1, 1), file = with_rows(one, "2,\n", 1, 2);
    try_closed(file);
    try_changes(file);
    try_drawn_names(file);
    try_refusals(file);
    try_digests(file);
    try_reports(file);
    try_pieces();
    free(empty.at);
    free(one.at);
    free(file.at);
    return told_all("changes");
}
