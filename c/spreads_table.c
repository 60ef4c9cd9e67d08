/* A table that is spread over three files, as an example of lanes_spread: each goes to a machine of its own. A query is asked of all of them, a
 * deletion is sent to all of them, and one has the batch. It prints
 *
 *     share 0: 2 batches
 *     share 1: 1 batches
 *     share 2: 1 batches
 *     COUNT(*),SUM(HITS)
 *     8,360
 *     share 1 had batch 1.3
 *     COUNT(*),SUM(HITS)
 *     7,310
 */
#include "lanes.h"

#include <stdio.h>
#include <stdlib.h>
#include <string.h>

static const char SQL[] = "SELECT COUNT(*),SUM(HITS) FROM COUNTS";

enum { SHARES = 3, LIKELY = 4096 };

static const uint8_t *text_of(const char *text) { return (const uint8_t *)text; }

/* Ends the program if a call was refused. */
static void expect(uint8_t number, lanes_place place) {
    uint8_t sentence[256];
    if (!number) return;
    size_t length = lanes_sentence(number, &place, sentence, sizeof sentence);
    fprintf(stderr, "%.*s\n", (int)length, (const char *)sentence);
    exit(1);
}

/* Ends the program if an answer has more bytes than there is room for. Another program would call again with more room. */
static void fits(size_t length, size_t room) {
    if (length > room) exit(3);
}

/* Opens a table of the batches 1.1 to 1.4, each of two rows. */
static void open_table(lanes_table *table) {
    static const char *const ROWS[] = {"1,10\n1,20\n", "2,30\n2,40\n", "3,50\n3,60\n", "4,70\n4,80\n"};
    uint8_t file[LIKELY];
    size_t length;
    uint64_t no_words = 0;
    lanes_place place;
    expect(lanes_create(text_of("COUNTS SITE SMALLINT HITS INTEGER"), 33, file, sizeof file, &length, &place), place);
    expect(lanes_open(file, length, table, &place), place);
    for (uint32_t batch = 0; batch < 4; batch++)
        expect(lanes_table_import(table, text_of(ROWS[batch]), strlen(ROWS[batch]), false, 1, batch + 1, &no_words, 0, &place), place);
}

/* Gives a table a key that nobody knows, drawn once, so nobody can choose rows that make a query slow. */
static void give_key(lanes_table *table) {
    static uint64_t key[2];
    static bool is_drawn = false;
    FILE *random = is_drawn ? NULL : fopen("/dev/urandom", "rb");
    is_drawn = is_drawn || (random && fread(key, sizeof *key, 2, random) == 2);
    if (random) fclose(random);
    if (!is_drawn || lanes_hash_key(table, key[0], key[1])) exit(2);
}

/* Spreads a table, and opens each share. A program would write each of these files on a machine of its own. */
static void open_shares(lanes_table *table, lanes_table *shares) {
    uint8_t files[SHARES * LIKELY];
    size_t ends[SHARES], length, begin = 0;
    lanes_place place;
    expect(lanes_spread(table, ends, SHARES, files, sizeof files, &length, &place), place);
    fits(length, sizeof files);
    for (size_t share = 0; share < SHARES; begin = ends[share++]) {
        expect(lanes_open(files + begin, ends[share] - begin, &shares[share], &place), place);
        give_key(&shares[share]);
        printf("share %u: %u batches\n", (unsigned)share, (unsigned)lanes_batches(&shares[share]));
    }
}

/* Asks all shares, combines what they give, and prints the answer. */
static void ask(lanes_table *shares) {
    uint8_t all[LIKELY], one[LIKELY], both[LIKELY];
    size_t all_length, one_length, length;
    lanes_place place;
    expect(lanes_partial(&shares[0], text_of(SQL), strlen(SQL), all, sizeof all, &all_length, &place), place);
    fits(all_length, sizeof all);
    for (size_t share = 1; share < SHARES; share++) {
        expect(lanes_partial(&shares[share], text_of(SQL), strlen(SQL), one, sizeof one, &one_length, &place), place);
        fits(one_length, sizeof one);
        expect(lanes_combine(all, all_length, one, one_length, both, sizeof both, &length, &place), place);
        fits(length, sizeof both);
        memcpy(all, both, all_length = length);
    }
    expect(lanes_finish(all, all_length, LANES_TEXT, both, sizeof both, &length, &place), place);
    fits(length, sizeof both);
    printf("%.*s", (int)length, (const char *)both);
}

/* Deletes row 0 of batch 1.3 in the share that has the batch. */
static void delete_row(lanes_table *shares) {
    lanes_place place;
    for (size_t share = 0; share < SHARES; share++) {
        size_t is_held;
        expect(lanes_table_delete_held_rows(&shares[share], 1, 3, 0, 0, &is_held, &place), place);
        if (is_held) printf("share %u had batch 1.3\n", (unsigned)share);
    }
}

int main(void) {
    lanes_table table = LANES_CLOSED, shares[SHARES] = {LANES_CLOSED, LANES_CLOSED, LANES_CLOSED};
    open_table(&table);
    open_shares(&table, shares);
    lanes_close(&table);
    ask(shares);
    delete_row(shares);
    ask(shares);
    for (size_t share = 0; share < SHARES; share++) lanes_close(&shares[share]);
    return 0;
}
