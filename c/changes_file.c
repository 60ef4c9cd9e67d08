/* Changes a file while other programs may change it too, as an example of lanes_file_driver.h:
 *
 *     changes_file FILE make WORDS        makes the file of the empty table of these words, unless there is a file
 *     changes_file FILE import CSV        adds rows of comma-separated values, given as a text with a heading, under a name that is drawn
 *     changes_file FILE load NUMBER CSV   the same as batch 1.NUMBER; sent again it adds no rows, and other rows of that name are refused
 *     changes_file FILE delete CONDITION  deletes the rows at which the condition is true
 */
#include "lanes_file_driver.h"

#include <errno.h>
#include <stdio.h>
#include <stdlib.h>
#include <string.h>

static const uint8_t *text_of(const char *text) { return (const uint8_t *)text; }

/* Tells the name of a refusal and its sentence. */
static void tell(uint8_t number, lanes_place place) {
    uint8_t name[32], sentence[256];
    size_t name_length = lanes_refusal(number, name, sizeof name), length = lanes_file_sentence(number, &place, sentence, sizeof sentence);
    fprintf(stderr, "refused %.*s: %.*s\n", (int)name_length, (const char *)name, (int)length, (const char *)sentence);
}

/* Draws random numbers, of which the library draws a name. */
static bool draw(uint64_t *words, size_t count) {
    FILE *random = fopen("/dev/urandom", "rb");
    bool is_drawn = random && fread(words, sizeof *words, count, random) == count;
    if (random) fclose(random);
    return is_drawn;
}

/* Imports rows: under the name 1.number, or, if that is 0, under one that is drawn. */
static uint8_t import(lanes_table *table, uint32_t number, const char *csv, lanes_place *place) {
    uint64_t words[4];
    if (!draw(words, 4)) {
        place->first = (uint64_t)errno;
        return LANES_SYSTEM;
    }
    return lanes_table_import(table, text_of(csv), strlen(csv), true, number ? 1 : 0, number, words, 4, place);
}

/* Opens the table of a held file; of a file that isn't there, the table of these words. */
static uint8_t open_table(const lanes_held *held, const char *words, lanes_table *table, lanes_place *place) {
    uint8_t empty[4096];
    size_t length;
    if (held->is_there) return lanes_open(held->bytes, held->length, table, place);
    uint8_t number = lanes_create(text_of(words), strlen(words), empty, sizeof empty, &length, place);
    return number ? number : lanes_open(empty, length, table, place);
}

/* Changes the table that is open. */
static uint8_t change(lanes_table *table, char **words, lanes_place *place) {
    if (!strcmp(words[0], "import")) return import(table, 0, words[1], place);
    if (!strcmp(words[0], "load")) return import(table, (uint32_t)strtoul(words[1], NULL, 10), words[2], place);
    if (!strcmp(words[0], "delete")) return lanes_table_delete(table, text_of(words[1]), strlen(words[1]), place);
    return 0;
}

/* Reads the file, changes it and writes it, under its lock. A file that isn't there is made by `make` alone. */
static int run(const char *path, char **words) {
    lanes_held held = LANES_NOT_HELD;
    lanes_table table = LANES_CLOSED;
    lanes_place place = {0, 0};
    uint64_t came = LANES_ON_DISK;
    uint8_t number = lanes_file_hold(path, &held, &place);
    bool is_made = !strcmp(words[0], "make"), is_right = number || held.is_there != is_made;
    if (!number && is_right) number = open_table(&held, words[1], &table, &place);
    if (!number && is_right) number = change(&table, words, &place);
    if (!number && is_right) number = lanes_file_put(&held, &table, &came, &place);
    lanes_file_let_go(&held);
    lanes_close(&table);
    if (!is_right) fprintf(stderr, is_made ? "%s: there is a file of this name already\n" : "%s: there is no such file\n", path);
    if (number) tell(number, place);
    if (came == LANES_UNSYNCED) fprintf(stderr, "%s: this is there, but it could not be synced: a loss of power may bring an older file back\n", path);
    if (!is_right || number) return 1;
    if (puts("ok") >= 0 && !fflush(stdout)) return 0;
    perror("standard output");
    return 1;
}

int main(int count, char **words) {
    const char *act = count > 2 ? words[2] : "";
    bool is_one = !strcmp(act, "make") || !strcmp(act, "import") || !strcmp(act, "delete");
    if ((count == 4 && is_one) || (count == 5 && !strcmp(act, "load"))) return run(words[1], words + 2);
    fprintf(stderr, "changes_file FILE make WORDS | import CSV | load NUMBER CSV | delete CONDITION\n");
    return 2;
}
