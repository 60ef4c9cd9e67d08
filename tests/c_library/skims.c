/* What a load under given names is answered from, by parts of which the others' values are passed over; and the part that an offer brings. */
#include "opened.h"
#include "part_files.h"

/* The file without the rows at which a condition is true. */
static bytes without(part of, const char *condition) {
    bytes file;
    TAKE(file, lanes_delete(of.file.at, of.file.length, text_of(condition), strlen(condition), out, room, &length, &place));
    return file;
}

static bytes merged_of(bytes one, bytes other) {
    bytes merged;
    TAKE(merged, lanes_merge(one.at, one.length, other.at, other.length, out, room, &length, &place));
    return merged;
}

static uint8_t take(lanes_skim *skim, uint32_t first, uint32_t count, part of, lanes_place *place) {
    return lanes_skim_take(skim, 1, first, count, of.name, NAME, of.file.at, of.file.length, place);
}

/* What answers a load of so many batches from 1.first on, of two parts. */
static lanes_table skimmed(const part *of, uint32_t first, uint32_t count) {
    lanes_skim skim = LANES_NO_SKIM;
    lanes_table table = LANES_CLOSED;
    lanes_place place;
    uint64_t batches = 7;
    for (int i = 0; i < 2; i++) expect(take(&skim, first, count, of[i], &place) == 0 && skim.read, "a part is taken");
    expect(lanes_skim_open(&skim, &table, &batches, &place) == 0 && batches == 2 && !skim.read, "what was read is opened");
    return table;
}

/* Of a part that has none of the names the deletions alone are there, and all of one that has. */
static void try_open(const part *of) {
    bytes empty = table_of("T A INTEGER"), deleted = without(of[1], "A = 3"), alone;
    part half[2] = {of[0], part_with(deleted)};
    lanes_table table = skimmed(of, 9, 1), whole = LANES_CLOSED;
    lanes_place place;
    expect_file(&table, empty, "no batch has the name");
    lanes_close(&table);
    table = skimmed(of, 2, 4294967295u);
    expect_file(&table, of[1].file, "the second part has one of the names");
    lanes_close(&table);
    table = skimmed(half, 1, 1);
    alone = merged_of(of[0].file, empty);
    expect(lanes_batches(&table) == 1, "the first part has the batch");
    whole = opened(alone);
    expect(lanes_table_delete_rows(&whole, 1, 2, 0, 0, &place) == 0, "a row of a batch that is not there is deleted");
    bytes wanted = file_of(&whole);
    expect_file(&table, wanted, "and the deletions of both are there");
    lanes_close(&table);
    lanes_close(&whole);
    free(empty.at);
    free(deleted.at);
    free(alone.at);
    free(wanted.at);
}

/* A fault of what is passed over is not seen, and any other is. */
static void try_refusals(part one, part two) {
    part wrong = one, other = part_with(table_of("U A INTEGER")), twin = part_of("A\n7\n", 1), none = part_with(copy_of("FLCF", 4));
    lanes_skim skim = LANES_NO_SKIM;
    lanes_table table = opened(two.file);
    lanes_place place;
    uint64_t batches = 7;
    memcpy(wrong.name, two.name, NAME);
    expect(take(&skim, 9, 1, wrong, &place) == 0, "the name of other bytes is not seen where no name is wanted");
    expect(take(&skim, 1, 1, wrong, &place) == LANES_DAMAGED && !skim.read, "and is where one is");
    expect(lanes_skim_take(&skim, 1, 1, 1, text_of("a\xff"), 2, one.file.at, one.file.length, &place) == LANES_SYNTAX && place.first == 1 && !skim.read, "a name that is no text");
    expect(take(&skim, 1, 1, none, &place) == LANES_TRUNCATED && !skim.read, "bytes that are no file");
    expect(take(&skim, 1, 1, one, &place) == 0 && take(&skim, 1, 1, other, &place) == LANES_SCHEMA_DIFFERS && !skim.read, "a part of another table");
    expect(take(&skim, 1, 1, one, &place) == 0 && take(&skim, 1, 1, twin, &place) == LANES_CONFLICT && place.first == 1 && place.second == 1, "other rows of the same name");
    expect(lanes_skim_open(&skim, &table, &batches, &place) == LANES_NOT_OPEN && batches == 0, "nothing was read");
    expect_file(&table, two.file, "the table is as it was");
    lanes_skim_close(&skim);
    expect(take(&skim, 0, 0, one, &place) == 0 && skim.read, "a load of no batch");
    lanes_skim_close(&skim);
    expect(!skim.read, "the handle is closed");
    lanes_close(&table);
    free(other.file.at);
    free(twin.file.at);
    free(none.file.at);
}

/* A part meets a table if it has one of its batches; what is no part, and no table, may. */
static void try_meets(part one, part two) {
    bytes both = merged_of(one.file, two.file);
    lanes_table table = opened(one.file);
    expect(lanes_table_meets(&table, one.file.at, one.file.length) && lanes_table_meets(&table, both.at, both.length), "the batch is there");
    expect(!lanes_table_meets(&table, two.file.at, two.file.length), "another batch");
    expect(lanes_table_meets(&table, two.file.at, two.file.length - 1), "bytes that are no part");
    expect_file(&table, one.file, "the table is as it was");
    lanes_close(&table);
    expect(lanes_table_meets(&table, two.file.at, two.file.length), "no table");
    free(both.at);
}

static void expect_brought(lanes_table *table, bytes offer, uint64_t wanted, bytes part) {
    bytes found;
    uint64_t batches = 7;
    TAKE(found, lanes_table_bring(table, offer.at, offer.length, &batches, out, room, &length, &place));
    expect(batches == wanted && are_same(found, part), "what an offer brings");
    free(found.at);
}

/* An offer brings the batches that aren't there, and its deletions; and nothing if there is no more. */
static void try_bring(part one, part two) {
    bytes both = merged_of(one.file, two.file), deleted = without(two, "A = 3"), nothing = {both.at, 0};
    part twin = part_of("A\n7\n", 1);
    lanes_table table = opened(one.file);
    lanes_place place;
    uint64_t batches = 7;
    size_t length = 7;
    uint8_t none = 0;
    expect_brought(&table, both, 1, two.file);
    expect_brought(&table, deleted, 1, deleted);
    expect_brought(&table, one.file, 0, nothing);
    expect(lanes_table_bring(&table, twin.file.at, twin.file.length, &batches, &none, 0, &length, &place) == LANES_CONFLICT && batches == 0 && length == 0, "other rows");
    expect(place.first == 1 && place.second == 1, "of this batch");
    expect(lanes_table_bring(&table, both.at, 3, &batches, &none, 0, &length, &place) == LANES_TRUNCATED && place.first == 3, "an offer that is cut off");
    expect_file(&table, one.file, "the table is as it was");
    lanes_close(&table);
    expect(lanes_table_bring(&table, both.at, both.length, &batches, &none, 0, &length, &place) == LANES_NOT_OPEN && batches == 0, "no table");
    free(both.at);
    free(deleted.at);
    free(twin.file.at);
}

int main(void) {
    part one = part_of("A\n1\n2\n", 1), two = part_of("A\n3\n", 2), pair[2] = {one, two};
    try_open(pair);
    try_refusals(one, two);
    try_meets(one, two);
    try_bring(one, two);
    free(one.file.at);
    free(two.file.at);
    return told_all("skims");
}
