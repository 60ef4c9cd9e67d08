/* Puts a part that relies on all parts of a folder:
 *
 *     relying FOLDER CSV      rows of the folder's table, given as a text with a heading, under a name that is drawn */
#define main example_main
#include "keeps_folder.c"
#undef main

int main(int count, char **given) {
    if (count != 3) return 2;
    lanes_part_names names;
    lanes_place place;
    uint64_t came;
    lanes_table table = opened(given[1], &names);
    lanes_close(&table);
    bytes part = loaded(created(words, words_length), given[2], 0);
    expect(lanes_folder_follow_relying(given[1], LANES_FOLDER_KEEP_AND_PUT, part.at, part.length, NULL, &names, NULL, &came, &place), place);
    free(part.at);
    free(names.names);
    return is_there(came) ? 0 : 2;
}
