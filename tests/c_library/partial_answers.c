/* Partial answers: combined in either order they are the same and give the answer over the merged file; hostile ones, a closed handle
 * and rooms of each size are met as lanes.h has it. */
#include "opened.h"
#include "tables.h"

static told cleared(void) {
    told seen;
    memset(&seen, FILLER, sizeof seen);
    return seen;
}

static bool is_untouched(const told *seen, size_t from) {
    for (size_t at = from; at < ROOM; at++)
        if (seen->out[at] != FILLER) return false;
    return true;
}

/* Whether what was told is as lanes.h has it: a refusal writes nothing, and an answer nothing but itself, where it fits. */
static bool is_as_promised(const told *seen, size_t room) {
    if (seen->number != 0) return seen->number <= LANES_MISSING && seen->length == 0 && is_untouched(seen, 0);
    if (seen->place.first != 0 || seen->place.second != 0) return false;
    return is_untouched(seen, seen->length <= room ? seen->length : 0);
}

static bool is_refused(const told *seen, uint8_t number, uint64_t first, uint64_t second) {
    return seen->number == number && seen->place.first == first && seen->place.second == second && is_as_promised(seen, ROOM);
}

/* Inputs are copies in blocks of their own, so that valgrind sees a read past them. */
static told combined(bytes one, bytes other, size_t room) {
    told seen = cleared();
    bytes first = copy_of(one.at, one.length), second = copy_of(other.at, other.length);
    seen.number = lanes_combine(first.at, first.length, second.at, second.length, seen.out, room, &seen.length, &seen.place);
    free(first.at);
    free(second.at);
    return seen;
}

static told finished(bytes partial, uint8_t format, size_t room) {
    told seen = cleared();
    bytes copy = copy_of(partial.at, partial.length);
    seen.number = lanes_finish(copy.at, copy.length, format, seen.out, room, &seen.length, &seen.place);
    free(copy.at);
    return seen;
}

static bytes loaded(bytes empty, const char *rows, uint32_t origin) {
    bytes made;
    uint64_t no_words = 0;
    TAKE(made, lanes_import(empty.at, empty.length, text_of(rows), strlen(rows), false, origin, 1, &no_words, 0, out, room, &length, &place));
    return made;
}

static bytes partial_answer_of(bytes file, const char *sql) {
    bytes made;
    lanes_table table = opened(file);
    TAKE(made, lanes_partial(&table, text_of(sql), strlen(sql), out, room, &length, &place));
    lanes_close(&table);
    return made;
}

static const char SQL[] = "SELECT A,COUNT(*),SUM(B),AVG(B),MIN(B),COUNT(DISTINCT B) FROM T GROUP BY A HAVING COUNT(*) > 1";

/* The partial answers of two files give what a query gives over both merged, in each order and format, and in rooms of each size. */
static void try_answers(bytes one, bytes other, bytes first, bytes second) {
    static const char *const WANTED[] = {"A,COUNT(*)", "A,COUNT(*)", "{\"A\":", "   A  COUNT(*)", "A,COUNT(*)"};
    bytes both, whole, answer;
    TAKE(both, lanes_combine(first.at, first.length, second.at, second.length, out, room, &length, &place));
    TAKE(whole, lanes_merge(one.at, one.length, other.at, other.length, out, room, &length, &place));
    TAKE(answer, lanes_query(whole.at, whole.length, text_of(SQL), strlen(SQL), out, room, &length, &place));
    told swapped = combined(second, first, ROOM);
    expect(swapped.number == 0 && swapped.length == both.length && memcmp(swapped.out, both.at, both.length) == 0, "the order of partial answers");
    bytes direct = partial_answer_of(whole, SQL);
    expect(are_same(direct, both), "the partial answer of the merged file");
    for (uint8_t format = 0; format < 5; format++) {
        told seen = finished(both, format, ROOM);
        expect(seen.number == 0 && is_as_promised(&seen, ROOM) && memcmp(seen.out, WANTED[format], strlen(WANTED[format])) == 0, "a format");
        if (format % 4 == 0) expect(seen.length == answer.length && memcmp(seen.out, answer.at, answer.length) == 0, "the answer over the merged file");
    }
    size_t rooms[] = {both.length, both.length - 1, 0};
    for (size_t at = 0; at < 3; at++) {
        told seen = combined(first, second, rooms[at]);
        expect(seen.number == 0 && seen.length == both.length && is_as_promised(&seen, rooms[at]), "a room for a partial answer");
        seen = finished(both, LANES_TEXT, at == 0 ? answer.length : at == 1 ? answer.length - 1 : 0);
        expect(seen.number == 0 && seen.length == answer.length && is_untouched(&seen, at == 0 ? answer.length : 0), "a room for an answer");
    }
    free(both.at);
    free(whole.at);
    free(answer.at);
    free(direct.at);
}

/* Partial answers that don't go together. */
static void try_pairs(bytes one, bytes first, bytes second) {
    static const char other_sql[] = "SELECT COUNT(*) FROM T";
    bytes wider = table_of("T A SMALLINT B INTEGER"), other_table = partial_answer_of(wider, SQL), other_query = partial_answer_of(one, other_sql);
    bytes stray, strange;
    told seen = combined(first, first, ROOM);
    expect(is_refused(&seen, LANES_NOT_APART, 1, 1), "a partial answer that comes twice");
    seen = combined(first, other_table, ROOM);
    expect(is_refused(&seen, LANES_SCHEMA_DIFFERS, 0, 0), "a partial answer of another table");
    seen = combined(other_query, second, ROOM);
    expect(is_refused(&seen, LANES_QUERY_DIFFERS, 0, 0), "a partial answer of another query");
    free(wider.at);
    free(other_table.at);
    free(other_query.at);

    /* A deletion of row 0 of batch 2.1, as an offer has it. */
    bytes empty = table_of("T A SMALLINT B BIGINT");
    bytes longer = {room_of(empty.length + 12), empty.length + 12};
    memcpy(longer.at, empty.at, empty.length);
    longer.at[empty.length - 8] = 1;
    static const uint8_t range[12] = {2, 0, 0, 0, 1, 0, 0, 0, 0, 0, 0, 0};
    memcpy(longer.at + empty.length, range, 12);
    TAKE(strange, lanes_apply(one.at, one.length, longer.at, longer.length, out, room, &length, &place));
    stray = partial_answer_of(strange, SQL);
    seen = combined(second, stray, ROOM);
    expect(is_refused(&seen, LANES_NOT_APART, 2, 1), "a partial answer whose file deletes rows of the other");
    free(empty.at);
    free(longer.at);
    free(strange.at);
    free(stray.at);
}

/* Every front of a partial answer, a partial answer with one byte more, and a partial answer with each byte changed in turn. */
static void try_bad_partial_answers(bytes first, bytes second) {
    bytes noise = {(uint8_t *)(uintptr_t)"\xff\xfe no partial answer", 10}, longer = {room_of(first.length + 1), first.length + 1};
    told seen = finished(noise, 0, ROOM);
    expect(is_refused(&seen, LANES_BAD_MAGIC, 0, 0), "no partial answer");
    memcpy(longer.at, first.at, first.length);
    longer.at[first.length] = 0;
    seen = combined(second, longer, ROOM);
    expect(is_refused(&seen, LANES_TRAILING_BYTES, first.length, 0), "a byte after a partial answer");
    free(longer.at);
    for (size_t length = 0; length < first.length; length++) {
        bytes front = {first.at, length};
        seen = finished(front, 0, ROOM);
        expect(seen.number != 0 && is_as_promised(&seen, ROOM), "a front of a partial answer is not finished");
        seen = combined(second, front, ROOM);
        expect(seen.number != 0 && is_as_promised(&seen, ROOM), "a front of a partial answer is not combined");
    }
    for (size_t at = 0; at < first.length; at++) {
        bytes changed = copy_of(first.at, first.length);
        changed.at[at] ^= 0x41;
        seen = finished(changed, 0, ROOM);
        expect(is_as_promised(&seen, ROOM), "a partial answer with a changed byte is finished or not");
        seen = combined(changed, second, ROOM);
        expect(is_as_promised(&seen, ROOM), "a partial answer with a changed byte is combined or not");
        free(changed.at);
    }
}

/* A partial answer is refused what a query is, and of a closed handle. */
static void try_asked(bytes one) {
    static const char *const BAD[] = {"", "SELECT \xff FROM T", "SELECT C FROM T", "SELECT A FROM U", "SELECT A FROM T"};
    lanes_table table = LANES_CLOSED;
    told seen = cleared(), wanted = cleared();
    seen.number = lanes_partial(&table, text_of(SQL), strlen(SQL), seen.out, ROOM, &seen.length, &seen.place);
    expect(is_refused(&seen, LANES_NOT_OPEN, 0, 0), "a closed handle");
    table = opened(one);
    for (size_t at = 0; at < sizeof BAD / sizeof *BAD; at++) {
        seen = wanted = cleared();
        seen.number = lanes_partial(&table, text_of(BAD[at]), strlen(BAD[at]), seen.out, ROOM, &seen.length, &seen.place);
        wanted.number = lanes_ask(&table, text_of(BAD[at]), strlen(BAD[at]), wanted.out, ROOM, &wanted.length, &wanted.place);
        expect(wanted.number != 0 && is_refused(&seen, wanted.number, wanted.place.first, wanted.place.second), BAD[at]);
    }
    lanes_close(&table);
}

int main(void) {
    bytes empty = table_of("T A SMALLINT B BIGINT");
    bytes one = loaded(empty, "1,10\n2,\n3,-9223372036854775808\n,4\n", 1), other = loaded(empty, "1,10\n3,-9223372036854775808\n,5\n2,7\n", 2);
    bytes first = partial_answer_of(one, SQL), second = partial_answer_of(other, SQL);
    try_answers(one, other, first, second);
    try_pairs(one, first, second);
    try_bad_partial_answers(first, second);
    try_asked(one);
    free(empty.at);
    free(one.at);
    free(other.at);
    free(first.at);
    free(second.at);
    return told_all("partial_answers");
}
