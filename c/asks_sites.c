/* One query over the files of three sites that are not brought together, as an example of partial answers. Each site asks its own file, and only
 * the partial answers travel. The summaries say which batches are expected, so that a site whose partial answer is lost is noticed. It prints
 *
 *     refused Missing 3.1
 *     SITE,COUNT(*),AVG(HITS)
 *     1,3,12.000000
 *     2,2,20.000000
 */
#include "lanes.h"

#include <stdio.h>
#include <stdlib.h>
#include <string.h>

static const char SQL[] = "SELECT SITE,COUNT(*),AVG(HITS) FROM COUNTS GROUP BY SITE";

/* The rows of each site; site i, from 0, loads them as batch i+1.1. */
static const char *const ROWS[] = {"SITE,HITS\n1,10\n1,7\n", "SITE,HITS\n2,20\n1,19\n", "SITE,HITS\n2,\n"};

enum { SITES = 3, LIKELY = 4096 };

/* Bytes that free() frees. */
typedef struct {
    uint8_t *at;
    size_t length;
} bytes;

static const uint8_t *text_of(const char *text) { return (const uint8_t *)text; }

static uint8_t *room_for(size_t length) {
    uint8_t *room = (uint8_t *)malloc(length + 1);
    if (!room) exit(3);
    return room;
}

/* Ends the program if a call was refused. */
static void expect(uint8_t number, lanes_place place) {
    uint8_t sentence[256];
    if (!number) return;
    size_t length = lanes_sentence(number, &place, sentence, sizeof sentence);
    fprintf(stderr, "%.*s\n", (int)length, (const char *)sentence);
    exit(1);
}

/* The file of a site, and its summary. Both are far shorter than the likely room. */
static void make_site(size_t site, bytes *file, bytes *summary) {
    uint8_t empty[LIKELY];
    size_t length;
    uint64_t no_words = 0;
    lanes_place place;
    file->at = room_for(LIKELY);
    summary->at = room_for(LIKELY);
    expect(lanes_create(text_of("COUNTS SITE SMALLINT HITS INTEGER"), 33, empty, sizeof empty, &length, &place), place);
    expect(lanes_import(empty, length, text_of(ROWS[site]), strlen(ROWS[site]), true, (uint32_t)site + 1, 1, &no_words, 0, file->at, LIKELY, &file->length, &place), place);
    expect(lanes_summary(file->at, file->length, summary->at, LIKELY, &summary->length, &place), place);
}

/* Gives a table a key that nobody knows, drawn once, so nobody can choose rows that make a query slow. */
static void give_key(lanes_table *table) {
    static uint64_t key[2];
    static bool is_drawn = false;
    FILE *random = is_drawn ? NULL : fopen("/dev/urandom", "rb");
    is_drawn = is_drawn || (random && fread(key, sizeof *key, 2, random) == 2);
    if (random) fclose(random);
    if (!is_drawn || lanes_hash_key(table, key[0], key[1])) exit(2);
}

/* What a site's file gives to the answer. If the likely room is too small, the call is made again with as much as it told. */
static bytes partial_of(bytes file) {
    lanes_table table = LANES_CLOSED;
    lanes_place place;
    bytes partial = {NULL, LIKELY};
    expect(lanes_open(file.at, file.length, &table, &place), place);
    give_key(&table);
    for (size_t room = 0; partial.length > room;) {
        free(partial.at);
        room = partial.length;
        partial.at = room_for(room);
        expect(lanes_partial(&table, text_of(SQL), strlen(SQL), partial.at, room, &partial.length, &place), place);
    }
    lanes_close(&table);
    return partial;
}

/* The partial answer of all files that two are of, which are freed. */
static bytes combined(bytes one, bytes other) {
    lanes_place place;
    bytes both = {NULL, one.length + other.length};
    for (size_t room = 0; both.length > room;) {
        free(both.at);
        room = both.length;
        both.at = room_for(room);
        expect(lanes_combine(one.at, one.length, other.at, other.length, both.at, room, &both.length, &place), place);
    }
    free(one.at);
    free(other.at);
    return both;
}

/* Prints the answer, if each batch was counted that a summary names; else the first one that is missing. */
static void finish(bytes partial, bytes summaries, const size_t *lengths) {
    uint8_t answer[LIKELY];
    size_t length;
    lanes_place place;
    uint8_t number = lanes_finish_expected(partial.at, partial.length, summaries.at, summaries.length, lengths, SITES, LANES_TEXT, answer, sizeof answer, &length, &place);
    if (number == LANES_MISSING) {
        printf("refused Missing %u.%u\n", (unsigned)place.first, (unsigned)place.second);
        return;
    }
    expect(number, place);
    if (length > sizeof answer) exit(3);
    printf("%.*s", (int)length, (const char *)answer);
}

int main(void) {
    bytes partials[SITES], summaries = {room_for(SITES * LIKELY), 0};
    size_t lengths[SITES];
    for (size_t site = 0; site < SITES; site++) {
        bytes file, summary;
        make_site(site, &file, &summary);
        partials[site] = partial_of(file);
        memcpy(summaries.at + summaries.length, summary.at, summary.length);
        summaries.length += lengths[site] = summary.length;
        free(file.at);
        free(summary.at);
    }
    bytes partial = combined(partials[1], partials[0]); /* in any order */
    finish(partial, summaries, lengths);
    partial = combined(partial, partials[2]);
    finish(partial, summaries, lengths);
    free(partial.at);
    free(summaries.at);
    return 0;
}
