/* Imports in a dialect and dumps of some rows and columns: each option, by a file and by a handle, each refusal with its place, and hostile
 * bytes and lengths in the place of each option. */
#include "opened.h"
#include "tables.h"

static const char TABLE[] = "T A SMALLINT B INTEGER C BIGINT";
static const uint64_t WORDS[] = {0x0000000900000004, 0x0000000b00000006};

/* How rows are written, and the rows. */
typedef struct rows {
    const char *csv;
    bool has_heading;
    uint8_t separator;
    const char *null_word, *columns;
    bool needs_ends;
} rows;

static uint8_t imports(bytes file, rows from, uint8_t *out, size_t room, size_t *length, lanes_place *place) {
    return lanes_import_in(file.at, file.length, text_of(from.csv), strlen(from.csv), from.has_heading, from.separator, text_of(from.null_word),
                           strlen(from.null_word), text_of(from.columns), strlen(from.columns), from.needs_ends, 1, 1, WORDS, 0, out, room, length, place);
}

static uint8_t imports_into(lanes_table *table, rows from, lanes_place *place) {
    return lanes_table_import_in(table, text_of(from.csv), strlen(from.csv), from.has_heading, from.separator, text_of(from.null_word), strlen(from.null_word),
                                 text_of(from.columns), strlen(from.columns), from.needs_ends, 1, 1, WORDS, 0, place);
}

static bool is_at(lanes_place place, uint64_t first, uint64_t second) { return place.first == first && place.second == second; }

static bytes empty_file(void) {
    bytes file;
    TAKE(file, lanes_create(text_of(TABLE), strlen(TABLE), out, room, &length, &place));
    return file;
}

/* The file of the same rows in the usual dialect. */
static bytes usual_file(bytes empty, const char *csv) {
    bytes file;
    TAKE(file, lanes_import(empty.at, empty.length, text_of(csv), strlen(csv), true, 1, 1, WORDS, 0, out, room, &length, &place));
    return file;
}

/* An import in a dialect gives the file of the same rows in the usual one, by a file and by a handle. */
static void try_taken(bytes empty, rows from, const char *usual) {
    lanes_place place = {7, 7};
    lanes_table table = opened(empty);
    bytes wanted = usual_file(empty, usual), found;
    TAKE(found, imports(empty, from, out, room, &length, &place));
    expect(are_same(found, wanted), from.csv);
    expect(imports_into(&table, from, &place) == LANES_OK && is_at(place, 0, 0), from.csv);
    expect_file(&table, wanted, from.csv);
    lanes_close(&table);
    free(found.at);
    free(wanted.at);
}

/* An import in a dialect is refused, by a file and by a handle, which is as it was. */
static void try_refused(bytes empty, rows from, uint8_t number, uint64_t first, uint64_t second) {
    uint8_t out[1] = {FILLER};
    size_t length = 7;
    lanes_place place = {7, 7};
    lanes_table table = opened(empty);
    expect(imports(empty, from, out, sizeof out, &length, &place) == number && is_at(place, first, second), from.csv);
    expect(length == 0 && out[0] == FILLER, "a refused import writes nothing");
    place.first = place.second = 7;
    expect(imports_into(&table, from, &place) == number && is_at(place, first, second), from.csv);
    expect_file(&table, empty, "a refused import leaves the handle");
    lanes_close(&table);
}

static void try_options(bytes empty) {
    static const char usual[] = "A,B,C\n1,2,3\n,-5,\n", some[] = "A,B,C\n1,,3\n2,,\n";
    try_taken(empty, (rows){usual, true, 0, "", "", false}, usual);
    try_taken(empty, (rows){usual, true, ',', "", "", true}, usual);
    try_taken(empty, (rows){"A;B;C\n1;2;3\n;-5;\n", true, ';', "", "", false}, usual);
    try_taken(empty, (rows){"C\tA\tB\n3\t1\t2\n\t\t-5\n", true, '\t', "", "", true}, usual);
    try_taken(empty, (rows){"1 2 3\n -5 \n", false, ' ', "", "", true}, usual);
    try_taken(empty, (rows){"1\x01" "2\x01" "3\n\x01-5\x01\n", false, 1, "", "", true}, usual);
    try_taken(empty, (rows){"A,B,C\n1,2,3\nNA,-5,\"NA\"\n", true, 0, "NA", "", false}, usual);
    try_taken(empty, (rows){"1,2,3\n\xc3\xa9,-5,NULL\n", false, 0, "\xc3\xa9", "", false}, usual);
    try_taken(empty, (rows){"1,x,3\n2,y,\\N\n", false, 0, "", "A,-,C", false}, some);
    try_taken(empty, (rows){"c|-|a\n3|x|1\n|y|2\n", true, '|', "", "c,-,a", false}, some);
    try_taken(empty, (rows){"when,x,n\n3,x,1\n?,y,2", true, 0, "?", "C,-,A", false}, some);
    try_taken(empty, (rows){"", false, 0, "", "", true}, "A,B,C\n");
}

static void try_refusals(bytes empty) {
    static const char good[] = "1,2,3\n", taken[] = "\n\r\"-_\\09azAZ\x7f";
    char columns[] = "A,B,?";
    for (size_t at = 0; at + 2 < sizeof taken; at++)
        try_refused(empty, (rows){good, false, (uint8_t)taken[at], "", "", false}, LANES_BAD_CSV, 0, 1);
    for (unsigned byte = 128; byte < 256; byte++) try_refused(empty, (rows){good, false, (uint8_t)byte, "", "", false}, LANES_BAD_CSV, 0, 1);
    try_refused(empty, (rows){good, false, 0, "\xff", "", false}, LANES_BAD_CSV, 0, 2);
    try_refused(empty, (rows){good, false, 0, "NA\xe2\x82", "Z", false}, LANES_BAD_CSV, 0, 2);
    try_refused(empty, (rows){good, false, '-', "\xff", "Z", false}, LANES_BAD_CSV, 0, 1);
    try_refused(empty, (rows){good, false, 0, "", "Z", false}, LANES_NO_SUCH_COLUMN, 0, 1);
    try_refused(empty, (rows){good, false, 0, "", "A,-,Z", false}, LANES_NO_SUCH_COLUMN, 4, 1);
    try_refused(empty, (rows){good, false, 0, "", "A,b,B", false}, LANES_NO_SUCH_COLUMN, 4, 1);
    try_refused(empty, (rows){good, false, 0, "", "A,B,", false}, LANES_NO_SUCH_COLUMN, 4, 1);
    try_refused(empty, (rows){good, false, 0, "", ",", false}, LANES_NO_SUCH_COLUMN, 0, 1);
    try_refused(empty, (rows){good, false, 0, "", "-,-,--", false}, LANES_NO_SUCH_COLUMN, 4, 1);
    for (unsigned byte = 1; byte < 256; byte++) {
        columns[4] = (char)byte;
        if (byte != '-' && byte != 'C' && byte != 'c') try_refused(empty, (rows){good, false, 0, "", columns, false}, LANES_NO_SUCH_COLUMN, 4, 1);
    }
    try_refused(empty, (rows){"1,2,3\n4,5,6", false, 0, "", "", true}, LANES_BAD_CSV, 2, 0);
    try_refused(empty, (rows){"1,2,3\n4,x,6\n", false, 0, "", "", true}, LANES_BAD_CSV, 2, 2);
    try_refused(empty, (rows){"1,2,3\n", false, ';', "", "", false}, LANES_BAD_CSV, 1, 0);
    try_refused(empty, (rows){"1,2\n", false, 0, "", "A,B,C", false}, LANES_BAD_CSV, 1, 0);
    try_refused(empty, (rows){"1,70000,3\n", false, 0, "", "B,A,C", false}, LANES_BAD_CSV, 1, 2);
    try_refused(empty, (rows){"1,2,3\n", true, 0, "", "A,B,C", false}, LANES_BAD_CSV, 1, 0);
}

/* What else is refused, and in which order. */
static void try_order(bytes empty) {
    static const char csv[] = "1,2,3\n", other[] = "4,5,6\n";
    uint8_t out[1] = {FILLER};
    size_t length = 7;
    lanes_place place = {7, 7};
    lanes_table table = LANES_CLOSED;
    bytes cut = {empty.at, empty.length - 1};
    expect(imports(cut, (rows){csv, false, '-', "", "", false}, out, 1, &length, &place) == LANES_TRUNCATED, "the file's fault is the first");
    expect(imports_into(&table, (rows){csv, false, '-', "", "", false}, &place) == LANES_NOT_OPEN && is_at(place, 0, 0), "a closed handle is the first");
    table = opened(empty);
    expect(lanes_table_import_in(&table, text_of(csv), strlen(csv), false, 0, text_of(""), 0, text_of(""), 0, false, 1, 0, WORDS, 0, &place) == LANES_BAD_NAME, "a name that is none");
    expect(lanes_table_import_in(&table, text_of(csv), strlen(csv), false, 0, text_of(""), 0, text_of(""), 0, false, 0, 0, WORDS, 0, &place) == LANES_NUMBERS_SPENT, "no name to draw");
    expect(lanes_table_import_in(&table, text_of(csv), strlen(csv), false, 0, text_of(""), 0, text_of(""), 0, false, 0, 0, WORDS, 2, &place) == LANES_OK, "a name that is drawn");
    expect(imports_into(&table, (rows){csv, false, 0, "", "", false}, &place) == LANES_OK, "rows under a name");
    expect(imports_into(&table, (rows){other, false, 0, "", "", false}, &place) == LANES_CONFLICT && is_at(place, 1, 1), "other rows under the name");
    lanes_close(&table);
}

static void expect_dump(bytes file, const char *names, const char *condition, bool has_names, const char *wanted) {
    bytes found;
    TAKE(found, lanes_dump_where(file.at, file.length, text_of(names), strlen(names), text_of(condition), strlen(condition), has_names, out, room, &length, &place));
    expect(found.length == strlen(wanted) && memcmp(found.at, wanted, found.length) == 0, wanted);
    free(found.at);
}

static void expect_no_dump(bytes file, const char *names, const char *condition, uint8_t number, uint64_t first, uint64_t second) {
    uint8_t out[1] = {FILLER};
    size_t length = 7;
    lanes_place place = {7, 7};
    uint8_t told = lanes_dump_where(file.at, file.length, text_of(names), strlen(names), text_of(condition), strlen(condition), false, out, 1, &length, &place);
    expect(told == number && is_at(place, first, second) && length == 0 && out[0] == FILLER, names);
}

static void try_dumps(bytes empty) {
    bytes file = usual_file(empty, "A,B,C\n1,2,3\n2,,5\n3,7,\n"), whole, cut = {file.at, file.length - 1};
    for (int has_names = 0; has_names < 2; has_names++) {
        TAKE(whole, lanes_dump(file.at, file.length, has_names, out, room, &length, &place));
        whole.at = (uint8_t *)realloc(whole.at, whole.length + 1);
        if (whole.at == NULL) exit(3);
        whole.at[whole.length] = 0;
        expect_dump(file, "", "", has_names, (const char *)whole.at);
        expect_dump(file, "a B c", "A > 0 OR A <= 0", has_names, (const char *)whole.at);
        free(whole.at);
    }
    expect_dump(file, "C A", "", false, "C,A\n3,1\n5,2\n,3\n");
    expect_dump(file, "B B", "A >= 2", false, "B,B\n,\n7,7\n");
    expect_dump(file, "B", "B IS NULL", false, "B\n\n");
    expect_dump(file, "", "C IS NULL", true, "BATCH,ORDINAL,A,B,C\n1.1,2,3,7,\n");
    expect_dump(file, "A", "A > 3", false, "A\n");
    lanes_place at = {7, 7};
    size_t length = 7;
    uint8_t line[64];
    expect(lanes_check(cut.at, cut.length, line, sizeof line, &length, &at) == LANES_TRUNCATED, "a file that is cut off");
    expect_no_dump(cut, "Z", "(", LANES_TRUNCATED, at.first, at.second);
    expect_no_dump(file, "\xff", "\xff", LANES_SYNTAX, 0, 1);
    expect_no_dump(file, "A \xc3", "(", LANES_SYNTAX, 2, 1);
    expect_no_dump(file, "Z", "A \xff", LANES_SYNTAX, 2, 0);
    expect_no_dump(file, "Z", "A >", LANES_SYNTAX, 3, 0);
    expect_no_dump(file, "A Z", "Z > 1", LANES_NO_SUCH_COLUMN, 2, 1);
    expect_no_dump(file, "A ", "", LANES_NO_SUCH_COLUMN, 2, 1);
    expect_no_dump(file, "A,B", "", LANES_NO_SUCH_COLUMN, 0, 1);
    expect_no_dump(file, "A", "A > 1 AND Z > 1", LANES_NO_SUCH_COLUMN, 10, 0);
    free(file.at);
}

/* What is dumped in some columns goes in again with their names. */
static void try_again(bytes empty) {
    static const char names[] = "C A", columns[] = "C,A";
    bytes file = usual_file(empty, "A,B,C\n1,2,3\n2,,5\n3,7,\n"), wanted = usual_file(empty, "A,B,C\n1,,3\n2,,5\n3,,\n"), text, found;
    TAKE(text, lanes_dump_where(file.at, file.length, text_of(names), strlen(names), text_of(""), 0, false, out, room, &length, &place));
    TAKE(found, lanes_import_in(empty.at, empty.length, text.at, text.length, true, 0, text_of(""), 0, text_of(columns), strlen(columns), true, 1, 1, WORDS, 0, out, room, &length, &place));
    expect(are_same(found, wanted), "what is dumped goes in again");
    free(found.at);
    free(text.at);
    free(wanted.at);
    free(file.at);
}

/* Random bytes in the place of the text, the null's word and the columns: each call gives a file, or is refused with a name, and both calls
 * tell the same. */
static void try_noise(bytes empty) {
    static const char letters[] = "ABCabc123,;-\n\"NA \xff\xc3\xa9";
    uint64_t state = 88172645463325252u;
    for (int round = 0; round < 2000; round++) {
        char parts[3][24];
        uint8_t name[64], out[ROOM];
        size_t length = 7;
        lanes_place place = {7, 7}, again = {7, 7};
        lanes_table table = opened(empty);
        for (int part = 0; part < 3; part++) {
            state ^= state << 13, state ^= state >> 7, state ^= state << 17;
            size_t count = part == 0 ? state % 23 : state % 7, at = 0;
            for (uint64_t left = state >> 8; at < count; at++, left = left / 23 + state) parts[part][at] = letters[left % (sizeof letters - 1)];
            parts[part][at] = 0;
        }
        rows from = {parts[0], state >> 60 & 1, state >> 58 & 1 ? ';' : 0, parts[1], parts[2], state >> 59 & 1};
        uint8_t number = imports(empty, from, out, sizeof out, &length, &place), into = imports_into(&table, from, &again);
        expect(number == into && is_at(again, place.first, place.second), "both calls tell the same");
        expect(number == LANES_OK ? length > 0 && is_at(place, 0, 0) : length == 0 && lanes_refusal(number, name, sizeof name) > 0, "a file or a name");
        if (number == LANES_OK) expect_file(&table, (bytes){out, length}, "both calls make the same file");
        lanes_close(&table);
    }
}

int main(void) {
    bytes empty = empty_file();
    try_options(empty);
    try_refusals(empty);
    try_order(empty);
    try_dumps(empty);
    try_again(empty);
    try_noise(empty);
    free(empty.at);
    return told_all("dialects");
}
