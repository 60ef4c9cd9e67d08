/* A table on many machines: spread over files that are the table when they are merged; what partial answers and summaries cover; an answer
 * only if each batch that summaries name was counted; and a deletion only where its batch is. */
#include "opened.h"
#include "told.h"

enum { MOST_SHARES = 12, BATCHES = 7 };

static const char SQL[] = "SELECT A,COUNT(*),SUM(B)\nFROM T GROUP BY A";

static told cleared(void) {
    told seen;
    memset(&seen, FILLER, sizeof seen);
    return seen;
}

static bool is_refused(const told *seen, uint8_t number, uint64_t first, uint64_t second) {
    for (size_t at = 0; at < ROOM; at++)
        if (seen->out[at] != FILLER) return false;
    return seen->number == number && seen->length == 0 && seen->place.first == first && seen->place.second == second;
}

static bool is_text(const told *seen, const char *text) {
    return seen->number == 0 && seen->length == strlen(text) && memcmp(seen->out, text, seen->length) == 0 && seen->out[seen->length] == FILLER;
}

static bytes table_of(const char *words) {
    bytes made;
    TAKE(made, lanes_create(text_of(words), strlen(words), out, room, &length, &place));
    return made;
}

static bytes loaded(bytes file, const char *rows, uint32_t origin, uint32_t number) {
    bytes made;
    uint64_t no_words = 0;
    TAKE(made, lanes_import(file.at, file.length, text_of(rows), strlen(rows), false, origin, number, &no_words, 0, out, room, &length, &place));
    return made;
}

static bytes partial_answer_of(bytes file) {
    bytes made;
    lanes_table table = opened(file);
    TAKE(made, lanes_partial(&table, text_of(SQL), strlen(SQL), out, room, &length, &place));
    lanes_close(&table);
    return made;
}

static bytes summary_of(bytes file) {
    bytes made;
    TAKE(made, lanes_summary(file.at, file.length, out, room, &length, &place));
    return made;
}

/* ---- coverage */

typedef uint8_t (*inspects)(const uint8_t *given, size_t given_length, uint8_t format, uint8_t *out, size_t room, size_t *length, lanes_place *place);

/* The report of bytes in a block of their own, so that valgrind sees a read past them. */
static told report(inspects inspect, bytes given, uint8_t format, size_t room) {
    told seen = cleared();
    bytes copy = copy_of(given.at, given.length);
    seen.number = inspect(copy.at, copy.length, format, seen.out, room, &seen.length, &seen.place);
    free(copy.at);
    return seen;
}

/* Every front of the bytes, one byte more, and each byte changed: refused, or a report, and nothing else is written. */
static void try_bad(inspects inspect, bytes good) {
    bytes longer = {room_of(good.length + 1), good.length + 1};
    memcpy(longer.at, good.at, good.length);
    longer.at[good.length] = 0;
    told seen = report(inspect, longer, LANES_TEXT, ROOM);
    expect(is_refused(&seen, LANES_TRAILING_BYTES, good.length, 0), "a byte after the end");
    free(longer.at);
    for (size_t at = 0; at < good.length; at++) {
        seen = report(inspect, (bytes){good.at, at}, LANES_JSON, ROOM);
        expect(seen.number != 0 && is_refused(&seen, seen.number, seen.place.first, 0), "a front");
        bytes changed = copy_of(good.at, good.length);
        changed.at[at] ^= 0x41;
        seen = report(inspect, changed, LANES_JSON, ROOM);
        expect(seen.number == 0 || is_refused(&seen, seen.number, seen.place.first, 0), "a changed byte");
        free(changed.at);
    }
}

static void try_coverage(bytes first, bytes one) {
    static const char partial_text[] = "table T\nquery SELECT A,COUNT(*),SUM(B) FROM T GROUP BY A\ngroups 3\nbatches 3\nrun 1.1 1.2\nrun 4.9 4.9\n";
    static const char partial_json[] = "{\"table\":\"T\",\"query\":\"SELECT A,COUNT(*),SUM(B)\\u000aFROM T GROUP BY A\",\"groups\":3,\"batches\":3,\"runs\":[[\"1.1\",\"1.2\"],[\"4.9\",\"4.9\"]],\"strays\":[[\"3.5\",\"3.5\"]]}\n";
    static const char summary_text[] = "table T\nbatches 3\nrun 1.1 1.2\nrun 4.9 4.9\n";
    static const char summary_json[] = "{\"table\":\"T\",\"batches\":3,\"runs\":[[\"1.1\",\"1.2\"],[\"4.9\",\"4.9\"]]}\n";
    bytes summary = summary_of(one);
    struct {
        inspects inspect;
        bytes given;
        uint8_t format;
        const char *wanted;
    } tried[] = {
        {lanes_inspect_partial, first, LANES_TEXT, partial_text}, {lanes_inspect_partial, first, LANES_JSON, partial_json}, {lanes_inspect_partial, first, 200, partial_text},
        {lanes_inspect_summary, summary, LANES_TEXT, summary_text}, {lanes_inspect_summary, summary, LANES_JSON, summary_json}, {lanes_inspect_summary, summary, LANES_TABLE, summary_text},
    };
    for (size_t at = 0; at < sizeof tried / sizeof *tried; at++) {
        size_t length = strlen(tried[at].wanted);
        told seen = report(tried[at].inspect, tried[at].given, tried[at].format, ROOM);
        expect(is_text(&seen, tried[at].wanted), tried[at].wanted);
        seen = report(tried[at].inspect, tried[at].given, tried[at].format, length - 1);
        expect(seen.number == 0 && seen.length == length && seen.out[0] == FILLER, "a room that is too small");
    }
    told seen = report(lanes_inspect_partial, summary, LANES_TEXT, ROOM);
    expect(is_refused(&seen, LANES_BAD_MAGIC, 0, 0), "a summary is no partial answer");
    seen = report(lanes_inspect_summary, first, LANES_TEXT, ROOM);
    expect(is_refused(&seen, LANES_BAD_MAGIC, 0, 0), "a partial answer is no summary");
    try_bad(lanes_inspect_partial, first);
    try_bad(lanes_inspect_summary, summary);
    free(summary.at);
}

/* ---- what is expected */

/* The answer of a partial answer under an expectation, of so many summaries with these lengths. */
static told expected(bytes partial, bytes summaries, const size_t *lengths, size_t count, size_t room) {
    told seen = cleared();
    bytes first = copy_of(partial.at, partial.length), second = copy_of(summaries.at, summaries.length);
    bytes third = copy_of(lengths, count * sizeof *lengths);
    seen.number = lanes_finish_expected(first.at, first.length, second.at, second.length, (const size_t *)(const void *)third.at, count, LANES_TEXT, seen.out, room, &seen.length, &seen.place);
    free(first.at);
    free(second.at);
    free(third.at);
    return seen;
}

static bytes joined(bytes one, bytes other) {
    bytes both = {room_of(one.length + other.length), one.length + other.length};
    memcpy(both.at, one.at, one.length);
    memcpy(both.at + one.length, other.at, other.length);
    return both;
}

static void try_expected(bytes one, bytes other, bytes first, bytes second) {
    bytes both, answer, empty = table_of("U A BIGINT");
    bytes of_one = summary_of(one), of_other = summary_of(other), of_empty = summary_of(empty), pair = joined(of_one, of_other), strange = joined(pair, of_empty), spoilt = copy_of(pair.at, pair.length);
    size_t lengths[] = {of_one.length, of_other.length, of_empty.length, SIZE_MAX};
    TAKE(both, lanes_combine(first.at, first.length, second.at, second.length, out, room, &length, &place));
    TAKE(answer, lanes_finish(both.at, both.length, LANES_TEXT, out, room, &length, &place));

    told seen = expected(both, pair, lengths, 2, ROOM);
    expect(seen.number == 0 && seen.length == answer.length && memcmp(seen.out, answer.at, answer.length) == 0 && seen.out[answer.length] == FILLER, "all are counted");
    seen = expected(both, pair, lengths, 2, answer.length - 1);
    expect(seen.number == 0 && seen.length == answer.length && seen.out[0] == FILLER, "a room that is too small");
    seen = expected(both, pair, lengths, 0, ROOM);
    expect(seen.number == 0 && seen.length == answer.length, "nothing is expected");
    seen = expected(first, pair, lengths, 2, ROOM);
    expect(is_refused(&seen, LANES_MISSING, 2, 1), "a batch of the second summary is missing");
    seen = expected(second, pair, lengths, 2, ROOM);
    expect(is_refused(&seen, LANES_MISSING, 1, 1), "the least batch is told");
    seen = expected(both, strange, lengths, 3, ROOM);
    expect(is_refused(&seen, LANES_SCHEMA_DIFFERS, 0, 0), "a summary of another table");
    seen = expected(first, strange, lengths, 3, ROOM);
    expect(is_refused(&seen, LANES_SCHEMA_DIFFERS, 0, 0), "another table comes before a missing batch");

    /* The faults of summaries, each with its number. */
    seen = expected(first, pair, lengths + 1, 1, ROOM);
    expect(seen.number != 0 && seen.number != LANES_MISSING && seen.place.second == 1, "a length that is another's");
    spoilt.at[of_one.length] ^= 0xff;
    seen = expected(first, spoilt, lengths, 2, ROOM);
    expect(is_refused(&seen, LANES_BAD_MAGIC, 0, 2), "the second summary is at fault");
    seen = expected(first, (bytes){pair.at, pair.length - 1}, lengths, 2, ROOM);
    expect(is_refused(&seen, LANES_TRUNCATED, of_other.length - 1, 2), "lengths past the end");
    seen = expected(first, pair, lengths + 2, 2, ROOM);
    expect(seen.number != 0 && seen.place.second == 1, "the first that is at fault is told");
    seen = expected(both, strange, lengths, 4, ROOM);
    expect(is_refused(&seen, LANES_TRUNCATED, 0, 4), "a length past all memory");
    seen = expected(of_one, spoilt, lengths, 2, ROOM);
    expect(is_refused(&seen, LANES_BAD_MAGIC, 0, 0), "the partial answer comes before the summaries");
    bytes all[] = {both, answer, empty, of_one, of_other, of_empty, pair, strange, spoilt};
    for (size_t at = 0; at < sizeof all / sizeof *all; at++) free(all[at].at);
}

/* ---- shares */

/* Whether shares are the table: merged its file, and their partial answers combined its partial answer. */
static bool are_whole(bytes file, const uint8_t *files, const size_t *ends, size_t count) {
    bytes merged = copy_of(files, ends[0]), partial = partial_answer_of(merged), wanted = partial_answer_of(file), next;
    for (size_t at = 1; at < count; at++) {
        bytes share = {(uint8_t *)(uintptr_t)files + ends[at - 1], ends[at] - ends[at - 1]}, given = partial_answer_of(share);
        TAKE(next, lanes_merge(merged.at, merged.length, share.at, share.length, out, room, &length, &place));
        free(merged.at);
        merged = next;
        TAKE(next, lanes_combine(partial.at, partial.length, given.at, given.length, out, room, &length, &place));
        free(partial.at);
        free(given.at);
        partial = next;
    }
    bool same = are_same(merged, file) && are_same(partial, wanted);
    free(merged.at);
    free(partial.at);
    free(wanted.at);
    return same;
}

static void try_spread(void) {
    static told seen;
    char rows[32];
    size_t ends[MOST_SHARES];
    bytes file = table_of("T A SMALLINT B BIGINT"), next, less;
    for (uint32_t batch = 1; batch <= BATCHES; batch++, file = next) {
        snprintf(rows, sizeof rows, "%u,%u\n%u,\n", (unsigned)(batch % 3), (unsigned)(10 * batch), (unsigned)batch);
        next = loaded(file, rows, 1 + batch % 2, batch);
        free(file.at);
    }
    lanes_table table = opened(file);
    lanes_place place;
    expect(lanes_table_delete_rows(&table, 1, 4, 0, 3, &place) == 0 && lanes_table_delete_rows(&table, 9, 9, 0, 3, &place) == 0, "deletions, also of no batch");
    TAKE(less, lanes_file(&table, out, room, &length, &place));
    free(file.at);
    for (size_t count = 1; count <= MOST_SHARES; count++) {
        seen = cleared();
        memset(ends, FILLER, sizeof ends);
        seen.number = lanes_spread(&table, ends, count, seen.out, ROOM, &seen.length, &seen.place);
        expect(seen.number == 0 && seen.place.first == 0 && seen.length == ends[count - 1] && seen.out[seen.length] == FILLER, "a spread");
        expect(are_whole(less, seen.out, ends, count), "shares are the table");
        size_t length = seen.length, same[MOST_SHARES];
        seen = cleared();
        seen.number = lanes_spread(&table, same, count, seen.out, length - 1, &seen.length, &seen.place);
        expect(seen.number == 0 && seen.length == length && seen.out[0] == FILLER && memcmp(same, ends, count * sizeof *ends) == 0, "a room that is too small");
    }
    seen = cleared();
    seen.number = lanes_spread(&table, ends, 0, seen.out, ROOM, &seen.length, &seen.place);
    expect(seen.number == 0 && seen.length == 0 && seen.out[0] == FILLER, "no share");
    TAKE(next, lanes_file(&table, out, room, &length, &place));
    expect(are_same(next, less), "the handle keeps its table");
    free(next.at);
    lanes_close(&table);
    seen = cleared();
    ends[0] = 77;
    seen.number = lanes_spread(&table, ends, 1, seen.out, ROOM, &seen.length, &seen.place);
    expect(is_refused(&seen, LANES_NOT_OPEN, 0, 0) && ends[0] == 77, "a closed handle");
    free(less.at);
}

/* ---- deletions where their batch is */

static void try_held(bytes one) {
    lanes_table table = opened(one), beside = opened(one);
    lanes_place place = {7, 7};
    bytes found, wanted;
    size_t held = 77;
    expect(lanes_table_delete_held_rows(&table, 2, 1, 0, 5, &held, &place) == 0 && held == 0 && place.first == 0, "a batch that is elsewhere");
    TAKE(found, lanes_file(&table, out, room, &length, &place));
    expect(are_same(found, one), "nothing is deleted");
    free(found.at);
    expect(lanes_table_delete_held_rows(&table, 1, 2, 0, 0, &held, &place) == 0 && held == 1, "a batch that is here");
    expect(lanes_table_delete_rows(&beside, 1, 2, 0, 0, &place) == 0, "the same without a look");
    TAKE(found, lanes_file(&table, out, room, &length, &place));
    TAKE(wanted, lanes_file(&beside, out, room, &length, &place));
    expect(are_same(found, wanted) && !are_same(found, one), "the rows are deleted");
    expect(lanes_table_delete_held_rows(&table, 1, 2, 0, 0, &held, &place) == 0 && held == 1, "the same again");
    expect(lanes_table_delete_held_rows(&table, 3, 5, 0, 0, &held, &place) == 0 && held == 0, "a batch of which rows are deleted, and that isn't here");
    expect(lanes_table_delete_held_rows(&table, 0, 1, 0, 0, &held, &place) == LANES_BAD_NAME, "no name");
    expect(lanes_table_delete_held_rows(&table, 2, 1, 1, 0, &held, &place) == LANES_BAD_RANGE, "a range that ends before it begins, of a batch that isn't here");
    lanes_close(&table);
    expect(lanes_table_delete_held_rows(&table, 1, 1, 0, 0, &held, &place) == LANES_NOT_OPEN && held == 0, "a closed handle");
    lanes_close(&beside);
    free(found.at);
    free(wanted.at);
}

int main(void) {
    bytes empty = table_of("T A SMALLINT B BIGINT"), start = loaded(empty, "1,10\n2,\n", 1, 1), more = loaded(start, "3,7\n", 1, 2), plain = loaded(more, "1,4\n", 4, 9), other = loaded(empty, "1,10\n,5\n", 2, 1), one;
    lanes_table table = opened(plain);
    lanes_place place;
    expect(lanes_table_delete_rows(&table, 3, 5, 0, 9, &place) == 0, "a deletion of a batch that isn't here");
    TAKE(one, lanes_file(&table, out, room, &length, &place));
    lanes_close(&table);
    bytes first = partial_answer_of(one), second = partial_answer_of(other);
    try_coverage(first, one);
    try_expected(one, other, first, second);
    try_spread();
    try_held(one);
    bytes all[] = {empty, start, more, plain, other, one, first, second};
    for (size_t at = 0; at < sizeof all / sizeof *all; at++) free(all[at].at);
    return told_all("machines");
}
