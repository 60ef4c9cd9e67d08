/* Keeps a folder of parts, as an example of lanes_folder_driver.h:
 *
 *     keeps_folder FOLDER make WORDS      puts the empty table of these words into an empty folder
 *     keeps_folder FOLDER import CSV      adds rows of comma-separated values, given as a text with a heading
 *     keeps_folder FOLDER load NUMBER CSV the same as batch 1.NUMBER; sent again it adds no rows, and other rows of that name are refused
 *     keeps_folder FOLDER query SQL       answers a query over all parts
 *     keeps_folder FOLDER pack            joins all parts into one
 */
#define _DEFAULT_SOURCE
#include "lanes_folder_driver.h"

#include <stdio.h>
#include <stdlib.h>
#include <string.h>

/* How often a command is begun anew, since another process packs. */
enum { TRIES = 100 };

/* Bytes that free() frees. */
typedef struct {
    uint8_t *at;
    size_t length;
} bytes;

static void *room_for(size_t size) {
    void *at = malloc(size + 1);
    if (!at) exit(3);
    return at;
}

/* Draws random numbers. */
static void draw(uint64_t *drawn, size_t count) {
    FILE *random = fopen("/dev/urandom", "rb");
    if (!random || fread(drawn, sizeof *drawn, count, random) != count) exit(2);
    fclose(random);
}

/* The words of the folder's table, once they are known. */
static uint8_t words[4096];
static size_t words_length;

/* Tells the name of a refusal and its sentence, which goes by the text that the call was given. */
static void tell(uint8_t number, lanes_place place, uint8_t given, const void *text, size_t text_length) {
    uint8_t name[32], sentence[1024];
    lanes_refused refused = {place, number, given, 0, 1, 0};
    size_t name_length = lanes_refusal(number, name, sizeof name);
    size_t length = lanes_explain(&refused, text, text_length, words, words_length, words, 0, words, 0, sentence, sizeof sentence);
    fprintf(stderr, "refused %.*s: %.*s\n", (int)name_length, (const char *)name, (int)length, (const char *)sentence);
    if (number == LANES_SYSTEM) fprintf(stderr, "%s\n", strerror((int)place.first));
}

/* Ends the program if a call was refused that was given a text. */
static void expect_of(uint8_t number, lanes_place place, uint8_t given, const void *text, size_t text_length) {
    if (!number) return;
    tell(number, place, given, text, text_length);
    exit(1);
}

/* Ends the program if a call was refused. */
static void expect(uint8_t number, lanes_place place) { expect_of(number, place, LANES_OF_NOTHING, words, 0); }

/* Ends the program if what a command came to is not that its part is there. */
static int is_there(uint64_t came) {
    if (came == LANES_UNSYNCED) fprintf(stderr, "this is there, but it could not be synced: a loss of power may take it away\n");
    return came == LANES_ON_DISK || came == LANES_UNSYNCED;
}

/* The parts of a folder, read and joined, and their names. */
static lanes_parts taken(const char *folder, lanes_part_names *names) {
    lanes_parts parts = LANES_NO_PARTS;
    lanes_place place;
    size_t at;
    uint8_t number = lanes_folder_read(folder, &parts, names, &at, &place);
    if (!number) return parts;
    tell(number, place, LANES_OF_NOTHING, words, 0);
    fprintf(stderr, "%s%s%s\n", folder, at < names->count ? "/" : "", at < names->count ? names->names[at] : "");
    exit(1);
}

/* What all parts hold, as a table, whose words are known then. */
static lanes_table opened(const char *folder, lanes_part_names *names) {
    lanes_table table = LANES_CLOSED;
    lanes_place place;
    lanes_parts parts = taken(folder, names);
    expect(lanes_parts_open(&parts, &table, &place), place);
    expect(lanes_schema(&table, words, sizeof words, &words_length, &place), place);
    return table;
}

/* Puts a part, again if what had its name is gone meanwhile. */
static void put(const char *folder, bytes part) {
    lanes_place place;
    uint64_t came = LANES_GONE;
    for (int tried = 0; came == LANES_GONE && tried < TRIES; tried++)
        expect(lanes_folder_follow(folder, LANES_FOLDER_PUT, part.at, part.length, NULL, NULL, &came, &place), place);
    if (!is_there(came)) exit(2);
    free(part.at);
}

static bytes created(const uint8_t *table, size_t length) {
    lanes_place place;
    bytes file = {room_for(4096), 0};
    expect_of(lanes_create(table, length, file.at, 4096, &file.length, &place), place, LANES_OF_WORDS, table, length);
    return file;
}

/* The file of the rows of a text, as the batch 1.number, or, if that is 0, under a name that is drawn. */
static bytes loaded(bytes empty, const char *csv, uint32_t number) {
    lanes_place place;
    uint64_t drawn[4];
    bytes load = {NULL, 0};
    draw(drawn, 4);
    for (size_t room = 0; !load.at || load.length > room;) {
        free(load.at);
        room = load.length;
        load.at = room_for(room);
        uint8_t refused = lanes_import(empty.at, empty.length, (const uint8_t *)csv, strlen(csv), true, number ? 1 : 0, number, drawn, 4, load.at, room, &load.length, &place);
        expect_of(refused, place, LANES_OF_ROWS, csv, strlen(csv));
    }
    free(empty.at);
    return load;
}

static void import(const char *folder, const char *csv) {
    lanes_part_names names;
    lanes_table table = opened(folder, &names);
    put(folder, loaded(created(words, words_length), csv, 0));
    lanes_close(&table);
    free(names.names);
}

/* Puts a batch of a given name, which goes with all parts that are there; it is looked at them again if another one came meanwhile. */
static void load(const char *folder, uint32_t number, const char *csv) {
    for (int tried = 0; tried < TRIES; tried++) {
        lanes_part_names names;
        lanes_place place;
        uint64_t came;
        lanes_table table = opened(folder, &names);
        bytes batch = loaded(created(words, words_length), csv, number);
        expect_of(lanes_table_apply(&table, batch.at, batch.length, &place), place, LANES_OF_INPUT, batch.at, batch.length);
        expect(lanes_folder_follow(folder, LANES_FOLDER_PUT_JUDGED, batch.at, batch.length, &names, NULL, &came, &place), place);
        lanes_close(&table);
        free(batch.at);
        free(names.names);
        if (is_there(came)) return;
    }
    exit(2);
}

/* The answer of a query. If the likely room is too small, it is asked again with as much as it told. */
static bytes answered(lanes_table *table, const char *sql) {
    lanes_place place;
    bytes answer = {NULL, 1 << 16};
    for (size_t room = 0; answer.length > room;) {
        free(answer.at);
        room = answer.length;
        answer.at = room_for(room);
        expect_of(lanes_ask(table, (const uint8_t *)sql, strlen(sql), answer.at, room, &answer.length, &place), place, LANES_OF_QUERY, sql, strlen(sql));
    }
    return answer;
}

/* Prints the answer of a query. The table has a key that nobody knows, so nobody can choose rows that make the query slow. */
static void query(const char *folder, const char *sql) {
    lanes_part_names names;
    uint64_t key[2];
    lanes_table table = opened(folder, &names);
    draw(key, 2);
    lanes_hash_key(&table, key[0], key[1]);
    bytes answer = answered(&table, sql);
    fwrite(answer.at, 1, answer.length, stdout);
    free(answer.at);
    lanes_close(&table);
    free(names.names);
}

/* The part of a turn. */
static bytes part_of(lanes_turn *turn) {
    static uint8_t none;
    lanes_place place;
    bytes part;
    expect(lanes_folder_part(turn, &none, 0, &part.length, &place), place);
    part.at = room_for(part.length);
    expect(lanes_folder_part(turn, part.at, part.length, &part.length, &place), place);
    return part;
}

/* Joins all parts into one, which comes in their place; again if another process was there meanwhile. */
static void pack(const char *folder) {
    for (int tried = 0; tried < TRIES; tried++) {
        lanes_part_names names;
        lanes_turn turn = LANES_NO_TURN;
        lanes_temporary temporary;
        lanes_place place;
        uint64_t came;
        lanes_parts parts = taken(folder, &names);
        free(names.names);
        expect(lanes_folder_draw(temporary, &place), place);
        expect(lanes_parts_pack(&parts, (const uint8_t *)temporary, strlen(temporary), &turn, &place), place);
        bytes part = part_of(&turn);
        expect(lanes_folder_drive(folder, &turn, part.at, part.length, NULL, &came, &place), place);
        free(part.at);
        if (is_there(came)) return;
    }
    exit(2);
}

int main(int count, char **given) {
    const char *act = count > 2 ? given[2] : "";
    if (count == 4 && !strcmp(act, "make")) put(given[1], created((const uint8_t *)given[3], strlen(given[3])));
    else if (count == 4 && !strcmp(act, "import")) import(given[1], given[3]);
    else if (count == 5 && !strcmp(act, "load")) load(given[1], (uint32_t)strtoul(given[3], NULL, 10), given[4]);
    else if (count == 4 && !strcmp(act, "query")) query(given[1], given[3]);
    else if (count == 3 && !strcmp(act, "pack")) pack(given[1]);
    else {
        fprintf(stderr, "keeps_folder FOLDER make WORDS | import CSV | load NUMBER CSV | query SQL | pack\n");
        return 2;
    }
    return 0;
}
