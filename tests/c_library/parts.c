/* Parts of a folder that a program has read: their join, and the turns of a pack and a forget of them. */
#include "opened.h"
#include "part_files.h"

#define TEMPORARY ".part-0123456789abcdef"

/* The part of which the rows at which a condition is true are deleted. */
static part without(part of, const char *condition) {
    bytes file;
    TAKE(file, lanes_delete(of.file.at, of.file.length, text_of(condition), strlen(condition), out, room, &length, &place));
    return part_with(file);
}

static uint8_t take(lanes_parts *parts, part of, lanes_place *place) { return lanes_parts_take(parts, of.name, NAME, of.file.at, of.file.length, place); }

static lanes_parts taken(const part *of, size_t count) {
    lanes_parts parts = LANES_NO_PARTS;
    lanes_place place;
    for (size_t i = 0; i < count; i++) expect(take(&parts, of[i], &place) == 0 && parts.read, "a part is taken");
    return parts;
}

/* Takes that are refused close the handle. */
static void try_refusals(part one, part two) {
    static const char NO_TEXT[] = "a\xff";
    part other = part_with(table_of("U A INTEGER")), twin = part_of("A\n7\n", 1), wrong = one, none = part_with(copy_of("FLCF", 4));
    lanes_parts parts = taken(&one, 1);
    lanes_place place;
    memcpy(wrong.name, two.name, NAME);
    expect(take(&parts, wrong, &place) == LANES_DAMAGED && !parts.read, "the name of other bytes");
    parts = taken(&one, 1);
    expect(lanes_parts_take(&parts, text_of(NO_TEXT), 2, one.file.at, one.file.length, &place) == LANES_SYNTAX && place.first == 1 && !parts.read, "a name that is no text");
    expect(take(&parts, none, &place) == LANES_TRUNCATED && !parts.read, "bytes that are no file");
    parts = taken(&one, 1);
    expect(take(&parts, other, &place) == LANES_SCHEMA_DIFFERS && !parts.read, "a part of another table");
    parts = taken(&one, 1);
    expect(take(&parts, twin, &place) == LANES_CONFLICT && place.first == 1 && place.second == 1 && !parts.read, "a part with other rows of the same name");
    free(other.file.at);
    free(twin.file.at);
    free(none.file.at);
}

/* A handle without parts has no table, no pack and no forget; what the other handles have stays. */
static void try_closed(part one) {
    lanes_parts parts = LANES_NO_PARTS;
    lanes_table table = opened(one.file);
    lanes_turn turn = LANES_NO_TURN;
    lanes_place place;
    size_t batches = 7, length = 7;
    uint8_t none = 0;
    lanes_parts_close(&parts);
    expect(lanes_parts_open(&parts, &table, &place) == LANES_NOT_OPEN, "no parts to open");
    expect_file(&table, one.file, "the table is as it was");
    expect(lanes_parts_pack(&parts, text_of(TEMPORARY), strlen(TEMPORARY), &turn, &place) == LANES_NOT_OPEN && !turn.begun, "no parts to pack");
    expect(lanes_parts_forget(&parts, text_of(TEMPORARY), strlen(TEMPORARY), &turn, &batches, &place) == LANES_NOT_OPEN && !turn.begun && batches == 0, "no parts to forget in");
    expect(lanes_folder_part(&turn, &none, 0, &length, &place) == LANES_NOT_OPEN && length == 0, "no turn, and no part");
    parts = taken(&one, 1);
    expect(lanes_parts_pack(&parts, text_of("\xff"), 1, &turn, &place) == LANES_SYNTAX && !turn.begun && !parts.read, "a temporary whose name is no text");
    lanes_close(&table);
}

/* The table of the parts is that of their files merged. */
static void try_open(const part *of, bytes merged) {
    lanes_parts parts = taken(of, 2);
    lanes_table table = opened(of[0].file);
    lanes_place place;
    expect(lanes_parts_open(&parts, &table, &place) == 0 && !parts.read, "the parts are opened");
    expect_file(&table, merged, "and are a table");
    lanes_close(&table);
}

/* What is told of a call of a turn that puts a file in the place of two parts. */
static uint8_t answer_to(lanes_call call, lanes_turn *turn, const part *of, bytes file, uint64_t *number) {
    lanes_place place;
    *number = 0;
    switch (call.kind) {
    case LANES_CALL_WRITE: *number = file.length - call.number; return LANES_WROTE;
    case LANES_CALL_READ: return LANES_FOUND;
    case LANES_CALL_LIST:
        for (int i = 0; i < 2; i++) expect(lanes_folder_name(of[i].name, NAME, turn, &place) == 0, "a name is listed");
        return LANES_LISTED;
    default: return LANES_DONE;
    }
}

/* A turn puts the file, by its name, and removes those of the parts that have another one. */
static void follow(lanes_turn *turn, const part *of, bytes file, int others) {
    part put = part_with(file);
    uint8_t answer = LANES_NOTHING, names[ROOM];
    int linked = 0, removed = 0;
    for (uint64_t number = 0;;) {
        lanes_call call;
        lanes_place place;
        size_t length;
        bool is_read = answer == LANES_FOUND;
        uint8_t refused = lanes_folder_next(turn, answer, number, is_read ? file.at : text_of(""), is_read ? file.length : 0, &call, names, sizeof names, &length, &place);
        if (refused) end_at("lanes_folder_next", refused, place);
        if (call.kind == LANES_ENDED) {
            expect(call.number == LANES_ON_DISK, "the part is on the disk");
            break;
        }
        if (call.kind == LANES_CALL_LINK) linked += !memcmp(names + call.number, put.name, NAME);
        if (call.kind == LANES_CALL_REMOVE && length == NAME) {
            expect(memcmp(names, put.name, NAME), "the part itself is not removed");
            removed += !memcmp(names, of[0].name, NAME) || !memcmp(names, of[1].name, NAME);
        }
        answer = answer_to(call, turn, of, file, &number);
    }
    expect(linked == 1 && removed == others, "one name is given, and the others are removed");
    lanes_folder_end(turn);
}

static void expect_part(lanes_turn *turn, bytes wanted, const char *what) {
    bytes found;
    TAKE(found, lanes_folder_part(turn, out, room, &length, &place));
    expect(are_same(found, wanted), what);
    free(found.at);
}

static void try_pack(const part *of, size_t count, bytes merged, int others) {
    lanes_parts parts = taken(of, count);
    lanes_turn turn = LANES_NO_TURN;
    lanes_place place;
    expect(lanes_parts_pack(&parts, text_of(TEMPORARY), strlen(TEMPORARY), &turn, &place) == 0 && !parts.read, "the parts are packed");
    expect_part(&turn, merged, "their file is put");
    follow(&turn, of, merged, others);
}

static void try_forget(const part *of, size_t wanted, bytes left) {
    lanes_parts parts = taken(of, 2);
    lanes_turn turn = LANES_NO_TURN;
    lanes_place place;
    size_t batches = 7;
    expect(lanes_parts_forget(&parts, text_of(TEMPORARY), strlen(TEMPORARY), &turn, &batches, &place) == 0 && !parts.read, "a forget");
    expect(batches == wanted && !turn.begun == !wanted, "a turn is begun if batches are dropped");
    if (wanted) {
        expect_part(&turn, left, "what is left is put");
        follow(&turn, of, left, 2);
    }
}

/* What is packed next, by sizes; and what a head says, of which the front of a part is enough. */
static void try_plans(part one, bytes empty) {
    static const uint64_t sizes[] = {7, 7, 2, 100, 16, 900};
    lanes_table table = LANES_CLOSED;
    lanes_place place;
    size_t batches = 7;
    expect(lanes_packed_prefix(sizes, 0) == 0 && lanes_packed_prefix(sizes, 2) == 0 && lanes_packed_prefix(sizes, 3) == 3, "the first parts");
    expect(lanes_packed_prefix(sizes, 4) == 3 && lanes_packed_prefix(sizes, 5) == 5 && lanes_packed_prefix(sizes, 6) == 5, "up to the greatest small one");
    expect(lanes_head(one.file.at, 64, &table, &batches, &place) == 0 && batches == 1, "a head");
    expect_file(&table, empty, "says the columns");
    expect(lanes_head(one.file.at, 8, &table, &batches, &place) == LANES_TRUNCATED && batches == 0 && place.first == 8, "a head that is cut off");
    expect_file(&table, empty, "the table is as it was");
    lanes_close(&table);
}

/* The part of a delete has its deletions alone. */
static void try_delete_part(part one, part dead, bytes empty) {
    lanes_table table = opened(one.file), deleted = opened(empty);
    lanes_place place;
    bytes made;
    uint64_t rows = 7;
    size_t none = 7;
    uint8_t nothing = 0;
    expect(lanes_table_delete_part(&table, text_of("A = 9"), 5, &rows, &nothing, 0, &none, &place) == 0 && rows == 0 && none == 0, "no row is found");
    expect(lanes_table_delete_part(&table, text_of("B = 9"), 5, &rows, &nothing, 0, &none, &place) == LANES_NO_SUCH_COLUMN && rows == 0, "a condition that is refused");
    TAKE(made, lanes_table_delete_part(&table, text_of("A = 3"), 5, &rows, out, room, &length, &place));
    expect(rows == 1, "a row is found");
    expect(lanes_table_apply(&deleted, made.at, made.length, &place) == 0 && lanes_batches(&deleted) == 0, "the part has no batch");
    expect_file(&table, one.file, "the table is as it was");
    expect(lanes_table_apply(&table, made.at, made.length, &place) == 0, "the part is applied");
    expect_file(&table, dead.file, "and the row is deleted");
    lanes_close(&table);
    expect(lanes_table_delete_part(&table, text_of("A = 3"), 5, &rows, &nothing, 0, &none, &place) == LANES_NOT_OPEN && rows == 0, "no table");
    lanes_close(&deleted);
    free(made.at);
}

static bytes merged_of(const part *of) {
    bytes merged;
    TAKE(merged, lanes_merge(of[0].file.at, of[0].file.length, of[1].file.at, of[1].file.length, out, room, &length, &place));
    return merged;
}

int main(void) {
    part one = part_of("A\n1\n2\n", 1), two = part_of("A\n3\n", 2), dead = without(two, "A = 3"), pair[2] = {one, two}, half_dead[2] = {one, dead}, packed[2];
    bytes empty = table_of("T A INTEGER"), merged = merged_of(pair), mixed = merged_of(half_dead), left;
    TAKE(left, lanes_forget(mixed.at, mixed.length, out, room, &length, &place));
    packed[0] = part_with(merged);
    packed[1] = two;
    try_refusals(one, two);
    try_closed(one);
    try_open(pair, merged);
    try_pack(pair, 2, merged, 2);
    try_pack(packed, 2, merged, 1);
    try_forget(pair, 0, merged);
    try_forget(half_dead, 1, left);
    try_plans(one, empty);
    try_delete_part(two, dead, empty);
    free(empty.at);
    free(one.file.at);
    free(two.file.at);
    free(dead.file.at);
    free(merged.at);
    free(mixed.at);
    free(left.at);
    return told_all("parts");
}
