/* Answers by columns: of random tables the columns that are given are the text that lanes_ask gives, also of partial answers; arrays of memory of
 * their own size; and handles that are closed, columns that aren't there, and rooms that are too small. */
#include "opened.h"
#include "told.h"

static const char TABLE[] = "T A TINYINT B BIGINT";
static const uint64_t WORDS[] = {0x0000000900000004, 0x0000000b00000006};

/* A number at random, by a small generator. */
static uint64_t seed = 7;

static uint32_t drawn(uint32_t below) {
    seed = seed * 6364136223846793005u + 1442695040888963407u;
    return (uint32_t)(seed >> 33) % below;
}

/* The file of a table of so many rows: nulls, small numbers, and the least and the greatest ones. */
static bytes file_of(size_t rows) {
    bytes empty, file, text = {room_of(rows * 32 + 1), 0};
    for (size_t row = 0; row < rows; row++) {
        long long cells[] = {(long long)drawn(5) - 2, (long long)drawn(1000) - 500};
        if (drawn(3) == 0) cells[1] = drawn(2) ? INT64_MAX : INT64_MIN;
        for (size_t at = 0; at < 2; at++) {
            if (drawn(4)) text.length += (size_t)sprintf((char *)text.at + text.length, "%lld", cells[at]);
            text.at[text.length++] = at ? '\n' : ',';
        }
    }
    TAKE(empty, lanes_create(text_of(TABLE), strlen(TABLE), out, room, &length, &place));
    TAKE(file, lanes_import(empty.at, empty.length, text.at, text.length, false, 1, 1, WORDS, 0, out, room, &length, &place));
    free(empty.at);
    free(text.at);
    return file;
}

/* Writes a whole number in decimal: the digits of two words, without their sign. */
static size_t put_digits(uint64_t high, uint64_t low, size_t least, char *out) {
    char digits[40];
    size_t count = 0;
    while (high || low || count < least) {
        uint64_t rest = 0, words[4] = {high >> 32, high & UINT32_MAX, low >> 32, low & UINT32_MAX};
        for (size_t at = 0; at < 4; at++) {
            words[at] |= rest << 32;
            rest = words[at] % 10;
            words[at] /= 10;
        }
        high = words[0] << 32 | words[1];
        low = words[2] << 32 | words[3];
        digits[count++] = (char)('0' + rest);
    }
    for (size_t at = 0; at < count; at++) out[at] = digits[count - 1 - at];
    return count;
}

/* Writes a field as a text has it. */
static size_t put_field(lanes_wide number, uint8_t mark, bool is_mean, char *out) {
    if (!mark) return (size_t)sprintf(out, "NULL");
    size_t at = 0;
    uint64_t high = (uint64_t)number.high, low = number.low;
    if (number.high < 0) {
        out[at++] = '-';
        low = 0 - low;
        high = ~high + (low == 0);
    }
    size_t count = put_digits(high, low, is_mean ? 7 : 1, out + at);
    if (is_mean) {
        memmove(out + at + count - 5, out + at + count - 6, 6);
        out[at + count - 6] = '.';
        count++;
    }
    return at + count;
}

/* The columns of an answer. */
typedef struct columns {
    size_t rows, count;
    lanes_wide *numbers;
    uint8_t *marks;
} columns;

/* Reads a column, whose numbers have 64 bits or not, into arrays of their own size. */
static void read_column(lanes_answer *answer, columns *into, size_t c) {
    size_t rows = into->rows;
    int64_t *numbers = (int64_t *)room_of(rows * sizeof *numbers);
    lanes_wide *wide = (lanes_wide *)room_of(rows * sizeof *wide);
    uint8_t *marks = room_of(rows), *again = room_of(rows);
    bool fits = true;
    expect(lanes_answer_wide(answer, c, wide, rows, marks, rows), "each number has room in two words");
    for (size_t row = 0; row < rows; row++) {
        fits &= wide[row].high == ((int64_t)wide[row].low < 0 ? -1 : 0);
        expect(marks[row] == 1 || (marks[row] == 0 && wide[row].low == 0 && wide[row].high == 0), "a null has the number 0");
    }
    memset(again, FILLER, rows);
    expect(lanes_answer_numbers(answer, c, numbers, rows, again, rows) == fits, "numbers are written if they have 64 bits");
    for (size_t row = 0; row < rows; row++) {
        if (fits) expect(numbers[row] == (int64_t)wide[row].low && again[row] == marks[row], "they are the same in one word");
        else expect(again[row] == FILLER, "nothing is written if one has more than 64 bits");
        into->numbers[c * rows + row] = wide[row];
        into->marks[c * rows + row] = marks[row];
    }
    free(numbers);
    free(wide);
    free(marks);
    free(again);
}

/* The text of an answer, by its columns. */
static bytes text_of_answer(lanes_answer *answer) {
    columns all = {lanes_answer_rows(answer), lanes_answer_columns(answer), NULL, NULL};
    all.numbers = (lanes_wide *)room_of(all.rows * all.count * sizeof *all.numbers);
    all.marks = room_of(all.rows * all.count);
    for (size_t c = 0; c < all.count; c++) read_column(answer, &all, c);
    bytes text = {room_of((all.rows + 1) * all.count * 80), 0};
    for (size_t c = 0; c < all.count; c++) {
        text.length += lanes_answer_heading(answer, c, text.at + text.length, 80);
        text.at[text.length++] = c + 1 < all.count ? ',' : '\n';
    }
    for (size_t row = 0; row < all.rows; row++)
        for (size_t c = 0; c < all.count; c++) {
            bool is_mean = lanes_answer_kind(answer, c) == LANES_MEANS;
            text.length += put_field(all.numbers[c * all.rows + row], all.marks[c * all.rows + row], is_mean, (char *)text.at + text.length);
            text.at[text.length++] = c + 1 < all.count ? ',' : '\n';
        }
    free(all.numbers);
    free(all.marks);
    return text;
}

static const char *const QUERIES[] = {
    "SELECT COUNT(*) FROM T",
    "SELECT A,COUNT(*),SUM(B) AS S,AVG(B),MIN(B),MAX(A) FROM T GROUP BY A",
    "SELECT B,AVG(A) AS MEAN,COUNT(DISTINCT A),SUM(DISTINCT B) FROM T GROUP BY B",
    "SELECT A,B,SUM(B) FROM T WHERE A > 0 OR B IS NULL GROUP BY A,B HAVING COUNT(*) > 1",
    "SELECT SUM(B),AVG(B) FROM T WHERE A > 5",
};

static void columns_are_those_of_the_text(size_t rows) {
    bytes file = file_of(rows), text, found, partial;
    lanes_table table = opened(file);
    lanes_answer answer = LANES_NO_ANSWER;
    lanes_place place = {7, 7};
    for (size_t at = 0; at < sizeof QUERIES / sizeof *QUERIES; at++) {
        const uint8_t *sql = text_of(QUERIES[at]);
        const size_t sql_length = strlen(QUERIES[at]);
        TAKE(text, lanes_ask(&table, sql, sql_length, out, room, &length, &place));
        TAKE(partial, lanes_partial(&table, sql, sql_length, out, room, &length, &place));
        expect(lanes_answer_ask(&table, sql, sql_length, &answer, &place) == 0 && place.first == 0 && place.second == 0, "an answer is kept");
        found = text_of_answer(&answer);
        expect(are_same(found, text), QUERIES[at]);
        free(found.at);
        expect(lanes_answer_finish(partial.at, partial.length, &answer, &place) == 0, "that of a partial answer is");
        found = text_of_answer(&answer);
        expect(are_same(found, text), "it is the same");
        free(found.at);
        free(text.at);
        free(partial.at);
    }
    lanes_answer_close(&answer);
    lanes_close(&table);
    free(file.at);
}

static void rooms_that_are_too_small_are_left(void) {
    bytes file = file_of(50);
    lanes_table table = opened(file);
    lanes_answer answer = LANES_NO_ANSWER;
    lanes_place place;
    static const char sql[] = "SELECT A,COUNT(*) AS NUMBER_OF_ROWS FROM T GROUP BY A";
    expect(lanes_answer_ask(&table, text_of(sql), strlen(sql), &answer, &place) == 0, "an answer is kept");
    lanes_close(&table); /* the answer stays */
    const size_t rows = lanes_answer_rows(&answer);
    int64_t numbers[64];
    lanes_wide wide[64];
    uint8_t marks[64], heading[64];
    memset(numbers, FILLER, sizeof numbers);
    memset(wide, FILLER, sizeof wide);
    memset(marks, FILLER, sizeof marks);
    memset(heading, FILLER, sizeof heading);
    expect(rows > 1 && rows < 64, "there are some rows");
    for (size_t at = 0; at < 2; at++) {
        const size_t more = at ? rows : rows - 1, fewer = at ? rows - 1 : rows;
        expect(!lanes_answer_numbers(&answer, 1, numbers, more, marks, fewer) && !lanes_answer_wide(&answer, 1, wide, more, marks, fewer), "a room is too small");
    }
    for (size_t at = 0; at < 64; at++) expect(marks[at] == FILLER && ((uint8_t *)numbers)[at] == FILLER && ((uint8_t *)wide)[at] == FILLER, "it is left");
    expect(lanes_answer_heading(&answer, 1, heading, 13) == 14 && heading[0] == FILLER, "a heading does not fit");
    expect(lanes_answer_heading(&answer, 1, heading, 14) == 14 && !memcmp(heading, "NUMBER_OF_ROWS", 14) && heading[14] == FILLER, "it just fits");
    expect(lanes_answer_numbers(&answer, 1, numbers, 64, marks, 64) && marks[rows] == FILLER && ((uint8_t *)(numbers + rows))[0] == FILLER, "the rest is left");
    expect(lanes_answer_kind(&answer, 2) == LANES_NO_VALUE && lanes_answer_kind(&answer, SIZE_MAX) == LANES_NO_VALUE, "a column that isn't there has no kind");
    expect(lanes_answer_heading(&answer, 2, heading, 64) == 0 && lanes_answer_heading(&answer, SIZE_MAX, heading, 64) == 0, "and no heading");
    expect(lanes_answer_numbers(&answer, SIZE_MAX, numbers, 64, marks, 64) && marks[0] == 0 && numbers[0] == 0, "and nulls");
    lanes_answer_close(&answer);
    lanes_answer_close(&answer);
    free(file.at);
}

static void a_closed_handle_has_nothing(void) {
    lanes_table table = LANES_CLOSED;
    lanes_answer answer = LANES_NO_ANSWER;
    lanes_place place = {7, 7};
    int64_t number = 5;
    lanes_wide wide = {5, 5};
    uint8_t mark = FILLER;
    expect(lanes_answer_ask(&table, text_of("SELECT"), 6, &answer, &place) == LANES_NOT_OPEN && answer.kept == NULL, "a closed table is told");
    expect(lanes_answer_finish(text_of("no partial answer"), 17, &answer, &place) == LANES_BAD_MAGIC, "bytes that are no partial answer are told");
    expect(lanes_answer_rows(&answer) == 0 && lanes_answer_columns(&answer) == 0, "there are no rows");
    expect(lanes_answer_kind(&answer, 0) == LANES_NO_VALUE && lanes_answer_heading(&answer, 0, &mark, 1) == 0, "there is no column");
    expect(!lanes_answer_numbers(&answer, 0, &number, 1, &mark, 1) && !lanes_answer_wide(&answer, 0, &wide, 1, &mark, 1), "nothing is written");
    expect(number == 5 && wide.low == 5 && mark == FILLER, "and nothing is");
    bytes file = file_of(3);
    table = opened(file);
    expect(lanes_answer_ask(&table, text_of("SELECT COUNT(*) FROM T"), 22, &answer, &place) == 0, "an answer is kept");
    void *kept = answer.kept;
    expect(lanes_answer_ask(&table, text_of("SELECT X FROM T"), 15, &answer, &place) == LANES_NO_SUCH_COLUMN && place.first == 7, "a query is refused");
    expect(lanes_answer_ask(&table, text_of("SELECT \xff"), 8, &answer, &place) == LANES_SYNTAX && place.first == 7, "and one that is no text");
    expect(answer.kept == kept && lanes_answer_rows(&answer) == 1, "the handle is as it was");
    lanes_answer_close(&answer);
    expect(answer.kept == NULL, "it is closed");
    lanes_close(&table);
    free(file.at);
}

int main(void) {
    static const size_t sizes[] = {0, 1, 2, 3, 7, 8, 9, 40, 200};
    for (size_t at = 0; at < sizeof sizes / sizeof *sizes; at++) columns_are_those_of_the_text(sizes[at]);
    rooms_that_are_too_small_are_left();
    a_closed_handle_has_nothing();
    return told_all("answers");
}
