/* What a table of SQLite has open: a file or a folder, which is opened anew once it has changed, the columns of its batches and the answer of a
 * query. */
#include "lanes_sqlite.h"

#include <errno.h>
#include <fcntl.h>
#include <stdlib.h>
#include <string.h>
#include <sys/stat.h>
#include <time.h>
#include <unistd.h>

/* Sets a table's message. */
int fault(vtab *v, int code, char *message) {
    sqlite3_free(v->base.zErrMsg);
    v->base.zErrMsg = message;
    return message ? code : SQLITE_NOMEM;
}

int refuse(vtab *v, const char *path, uint8_t number, const lanes_place *place) {
    uint8_t name[32], sentence[256];
    if (number == LANES_MEMORY) return SQLITE_NOMEM;
    int names = (int)lanes_refusal(number, name, sizeof name), letters = (int)lanes_sentence(number, place, sentence, sizeof sentence);
    return fault(v, SQLITE_ERROR, sqlite3_mprintf("lanes: %s: %.*s: %.*s", path, names, name, letters, sentence));
}

/* The same of a text: a query, or the bytes of a file. The table may be closed. */
static int refuse_text(vtab *v, uint8_t number, const lanes_place *place, uint8_t given, const void *text, size_t length, lanes_table *table) {
    uint8_t name[32], sentence[1024], words[4096];
    size_t words_length;
    lanes_place nowhere;
    lanes_refused refused = {*place, number, given, 0, 0, 0};
    if (number == LANES_MEMORY) return SQLITE_NOMEM;
    if (lanes_schema(table, words, sizeof words, &words_length, &nowhere) || words_length > sizeof words) words_length = 0;
    int names = (int)lanes_refusal(number, name, sizeof name);
    int letters = (int)lanes_explain(&refused, text, length, words, words_length, words, 0, words, 0, sentence, sizeof sentence);
    return fault(v, SQLITE_ERROR, sqlite3_mprintf("lanes: %s: %.*s: %.*s", v->path, names, name, letters, sentence));
}

static int unreadable(vtab *v, const char *why) { return fault(v, SQLITE_CANTOPEN, sqlite3_mprintf("lanes: %s can't be read: %s", v->path, why)); }

/* Blocks. */

void leave_block(block *b) {
    if (!b || --b->users) return;
    sqlite3_free(b->condition);
    free(b->values);
    free(b->valid);
    free(b);
}

/* The names of columns with one space between. */
static char *names_of(const vtab *v, unsigned used) {
    sqlite3_str *text = sqlite3_str_new(NULL);
    for (int c = 0; c < v->columns; c++)
        if (used >> c & 1) sqlite3_str_appendf(text, "%s%s", sqlite3_str_length(text) ? " " : "", v->names[c]);
    return sqlite3_str_finish(text);
}

/* Reads columns into a block that has its condition and its batches; of fewer batches, if they have many rows. */
static int fill_block(vtab *v, state *s, block *b) {
    lanes_place place;
    uint64_t nulls[COLUMNS];
    int64_t no_value;
    uint8_t no_bits;
    size_t columns = 0;
    const uint8_t *condition = (const uint8_t *)b->condition;
    size_t length = strlen(b->condition);
    for (int c = 0; c < v->columns; c++)
        if (b->used >> c & 1) b->at[c] = (int)columns++;
    char *names = columns ? names_of(v, b->used) : sqlite3_mprintf("%s", v->names[0]);
    if (!names) return SQLITE_NOMEM;
    const uint8_t *list = (const uint8_t *)names;
    uint8_t number;
    for (;; b->batches /= 2) {
        number = lanes_columns_between(&s->table, b->first, b->batches, list, strlen(names), condition, length, &no_value, 0, &no_bits, 0, nulls, 0, &b->rows, &place);
        if (number || b->rows <= MANY || b->batches < 2) break;
    }
    if (!number && columns && b->rows) {
        b->stride = 64 * ((b->rows + 511) / 512);
        b->values = malloc(b->rows * columns * sizeof *b->values);
        b->valid = malloc(b->stride * columns);
        if (b->values && b->valid)
            number = lanes_columns_between(&s->table, b->first, b->batches, list, strlen(names), condition, length, b->values, b->rows * columns, b->valid, b->stride * columns, nulls, columns, &b->rows, &place);
        else
            number = LANES_MEMORY;
    }
    int code = SQLITE_OK;
    if (number && place.second) code = refuse_text(v, number, &place, LANES_OF_NAMES, names, strlen(names), &s->table);
    else if (number) code = refuse_text(v, number, &place, LANES_OF_CONDITION, condition, length, &s->table);
    sqlite3_free(names);
    return code;
}

/* Whether a block has what is wanted. It may have fewer batches. */
static int has(const block *b, unsigned used, const char *condition, size_t first, size_t batches) {
    return b && (b->used & used) == used && b->first == first && b->batches <= batches && !strcmp(b->condition, condition);
}

/* The columns that are used, of batches, at the rows at which a condition is true: what a cursor has, what was read last, or what is
 * read now. The block takes the place of the cursor's. */
int read_block(vtab *v, state *s, unsigned used, const char *condition, size_t first, size_t batches, block **held) {
    if (has(*held, used, condition, first, batches)) return SQLITE_OK;
    if (!has(s->kept, used, condition, first, batches)) {
        block *b = calloc(1, sizeof *b);
        if (!b) return SQLITE_NOMEM;
        *b = (block){.users = 1, .used = used, .condition = sqlite3_mprintf("%s", condition), .first = first, .batches = batches};
        int code = b->condition ? fill_block(v, s, b) : SQLITE_NOMEM;
        if (code) {
            leave_block(b);
            return code;
        }
        leave_block(s->kept);
        s->kept = b;
    }
    s->kept->users++;
    leave_block(*held);
    *held = s->kept;
    return SQLITE_OK;
}

/* Answers. */

/* Finds the lines of the answer behind its headings. */
static int find_lines(state *s) {
    const char *first = strchr(s->answer, '\n') + 1;
    size_t count = 0;
    for (const char *at = first; (at = strchr(at, '\n')); at++) count++;
    s->lines = malloc((count + 1) * sizeof *s->lines);
    if (!s->lines) return SQLITE_NOMEM;
    for (s->count = 0; s->count < count; s->count++, first = strchr(first, '\n') + 1) s->lines[s->count] = first;
    s->lines[count] = first;
    return SQLITE_OK;
}

/* Asks for the answer, if it isn't there. */
int ask(vtab *v, state *s) {
    size_t room = 1 << 20, length;
    lanes_place place;
    while (!s->answer) {
        char *text = malloc(room + 1);
        if (!text) return SQLITE_NOMEM;
        uint8_t number = lanes_ask(&s->table, (const uint8_t *)v->sql, strlen(v->sql), (uint8_t *)text, room, &length, &place);
        if (!number && length <= room) {
            text[length] = 0;
            s->answer = text;
            return find_lines(s);
        }
        free(text);
        if (number) return refuse_text(v, number, &place, LANES_OF_QUERY, v->sql, strlen(v->sql), &s->table);
        room = length;
    }
    return SQLITE_OK;
}

/* States. */

void close_state(state *s) {
    if (!s || --s->users) return;
    leave_block(s->kept);
    free(s->names.names);
    free(s->live);
    free(s->answer);
    free(s->lines);
    lanes_close(&s->table);
    if (s->file >= 0) close(s->file);
    free(s);
}

static int open_bytes(vtab *v, const void *bytes, size_t length, state *s) {
    lanes_place place;
    uint8_t number = lanes_open(bytes, length, &s->table, &place);
    return number ? refuse_text(v, number, &place, LANES_OF_INPUT, bytes, length, &s->table) : SQLITE_OK;
}

/* Says why a folder, or a part of it, isn't read. */
static int refuse_folder(vtab *v, const char *name, uint8_t number, const lanes_place *place) {
    char *path = sqlite3_mprintf("%s%s%s", v->path, *name ? "/" : "", name);
    if (!path) return SQLITE_NOMEM;
    int code;
    if (number == LANES_BUSY) code = fault(v, SQLITE_BUSY, sqlite3_mprintf("lanes: %s: Busy: others have the folder, or parts come and go", path));
    else if (number == LANES_SYSTEM) code = fault(v, SQLITE_CANTOPEN, sqlite3_mprintf("lanes: %s can't be read: %s", path, strerror((int)place->first)));
    else code = refuse(v, path, number, place);
    sqlite3_free(path);
    return code;
}

/* Opens what the parts of a folder hold together. */
static int open_folder(vtab *v, state *s) {
    lanes_parts parts = LANES_NO_PARTS;
    lanes_place place;
    size_t at;
    uint8_t number = lanes_folder_read(v->path, &parts, &s->names, &at, &place);
    const char *name = number && at < s->names.count ? s->names.names[at] : "";
    if (!number && s->names.count) number = lanes_parts_open(&parts, &s->table, &place);
    if (number) return refuse_folder(v, name, number, &place);
    return s->names.count ? SQLITE_OK : fault(v, SQLITE_CANTOPEN, sqlite3_mprintf("lanes: %s has no part, so it is no replica", v->path));
}

/* Whether two files are one, which was not written to meanwhile. */
static int is_same_file(const struct stat *a, const struct stat *b) {
    return a->st_dev == b->st_dev && a->st_ino == b->st_ino && a->st_size == b->st_size && a->st_mtim.tv_sec == b->st_mtim.tv_sec && a->st_mtim.tv_nsec == b->st_mtim.tv_nsec && a->st_ctim.tv_sec == b->st_ctim.tv_sec && a->st_ctim.tv_nsec == b->st_ctim.tv_nsec;
}

/* Whether a file was last changed so long ago that another change gives it another time: file systems count in ticks. */
static int is_settled(const struct stat *found) {
    struct timespec now;
    return !clock_gettime(CLOCK_REALTIME, &now) && found->st_ctim.tv_sec + 1 < now.tv_sec;
}

/* Reads the file as it is into memory that free() frees. Answers how many bytes there are, or -1 with errno. */
static ssize_t read_whole(int file, size_t room, uint8_t **bytes) {
    size_t length = 0;
    *bytes = malloc(room + 1);
    while (*bytes && length < room) {
        ssize_t count = pread(file, *bytes + length, room - length, (off_t)length);
        if (count < 0 && errno == EINTR) continue;
        if (count < 0) return -1;
        if (!count) break;
        length += (size_t)count;
    }
    return *bytes ? (ssize_t)length : -1;
}

/* Opens the file as it is. It is read: a mapping would end the process if another one cuts the file meanwhile. */
static int open_file(vtab *v, state *s) {
    uint8_t *bytes;
    ssize_t length = read_whole(s->file, (size_t)s->found.st_size, &bytes);
    int code = length >= 0 ? open_bytes(v, bytes, (size_t)length, s) : bytes ? unreadable(v, strerror(errno)) : SQLITE_NOMEM;
    free(bytes);
    return code;
}

/* Opens a state that is zero: what the file, or the folder, holds now. */
static int open_state(vtab *v, state *s) {
    s->file = open(v->path, O_RDONLY | O_CLOEXEC | O_NONBLOCK);
    if (s->file < 0 || fstat(s->file, &s->found)) return unreadable(v, strerror(errno));
    s->is_settled = is_settled(&s->found);
    int code = SQLITE_OK;
    if (S_ISDIR(s->found.st_mode)) {
        close(s->file);
        s->file = -1;
        code = open_folder(v, s);
    } else {
        code = S_ISREG(s->found.st_mode) ? open_file(v, s) : unreadable(v, "it is neither a regular file nor a folder");
    }
    uint64_t key[2]; /* so that nobody can choose rows that make a query slow */
    sqlite3_randomness(sizeof key, key);
    lanes_hash_key(&s->table, key[0], key[1]);
    s->batches = lanes_batches(&s->table);
    return code;
}

/* Whether the file has the columns that were declared, as another one in its place may not. */
static int has_columns(vtab *v, state *s) {
    block none = {.users = 1, .used = v->columns < COLUMNS ? (1u << v->columns) - 1 : ~0u, .condition = ""};
    return v->sql || !v->columns ? SQLITE_OK : fill_block(v, s, &none);
}

static int compare_names(const void *one, const void *other) { return memcmp(one, other, LANES_PART_NAME); }

/* Whether two lists have the same names of parts. They are sorted. */
static int are_same_names(lanes_part_names *one, lanes_part_names *other) {
    if (one->count != other->count) return 0;
    qsort(one->names, one->count, LANES_PART_NAME, compare_names);
    qsort(other->names, other->count, LANES_PART_NAME, compare_names);
    return !memcmp(one->names, other->names, one->count * LANES_PART_NAME);
}

/* Tells whether a state is what the file or the folder holds now: a part's bytes are those of its name. */
static int look(vtab *v, state *s, int *is_current) {
    static const uint8_t none = 0;
    lanes_part_names names = {NULL, 0};
    struct stat now;
    lanes_place place;
    uint64_t came;
    *is_current = 0;
    if (!s || stat(v->path, &now)) return SQLITE_OK;
    if (s->file >= 0) {
        *is_current = s->is_settled && is_same_file(&now, &s->found);
        return SQLITE_OK;
    }
    if (!S_ISDIR(now.st_mode)) return SQLITE_OK;
    uint8_t number = lanes_folder_follow(v->path, LANES_FOLDER_LIST, &none, 0, NULL, &names, &came, &place);
    *is_current = !number && names.count && are_same_names(&names, &s->names);
    free(names.names);
    return number ? refuse_folder(v, "", number, &place) : SQLITE_OK;
}

/* Sees to it that what is open is what the file or the folder holds now. */
int open_current(vtab *v) {
    int is_current, code = look(v, v->opened, &is_current);
    if (code || is_current) return code;
    state *s = calloc(1, sizeof *s);
    if (!s) return SQLITE_NOMEM;
    s->users = 1;
    s->file = -1;
    code = open_state(v, s);
    if (!code) code = has_columns(v, s);
    if (code) {
        close_state(s);
        return code;
    }
    close_state(v->opened);
    v->opened = s;
    return SQLITE_OK;
}

/* Gives a cursor what its statement sees. */
int see(vtab *v, cursor *c, sqlite3_value **statement) {
    if (c->seen) return SQLITE_OK;
    view *found = v->views;
    while (found && found->statement != statement) found = found->next;
    if (!found) {
        int code = open_current(v);
        if (code) return code;
        found = calloc(1, sizeof *found);
        if (!found) return SQLITE_NOMEM;
        *found = (view){v->views, statement, 0, v->opened};
        v->opened->users++;
        v->views = found;
    }
    found->users++;
    c->view = found;
    c->seen = found->seen;
    return SQLITE_OK;
}

/* Takes that from a cursor. A large block goes with the last one of its statement. */
void look_away(vtab *v, cursor *c) {
    if (!c->seen || --c->view->users) return;
    view **at = &v->views;
    while (*at != c->view) at = &(*at)->next;
    *at = c->view->next;
    free(c->view);
    if (c->seen->kept && c->seen->kept->rows > ENOUGH) {
        leave_block(c->seen->kept);
        c->seen->kept = NULL;
    }
    close_state(c->seen);
}

/* Finds how many live rows come before each batch, if that isn't known. */
int count_live(vtab *v, state *s) {
    if (s->live) return SQLITE_OK;
    block one = {.users = 1, .condition = ""};
    size_t *live = malloc((s->batches + 1) * sizeof *live);
    if (!live) return SQLITE_NOMEM;
    live[0] = 0;
    for (one.first = 0; one.first < s->batches; one.first++) {
        one.batches = 1;
        int code = fill_block(v, s, &one);
        if (code) {
            free(live);
            return code;
        }
        live[one.first + 1] = live[one.first] + one.rows;
    }
    s->live = live;
    return SQLITE_OK;
}

/* The batch that has this live row. */
size_t batch_of(const state *s, size_t row) {
    size_t low = 0, high = s->batches;
    while (high - low > 1) {
        size_t middle = low + (high - low) / 2;
        if (s->live[middle] <= row) low = middle;
        else high = middle;
    }
    return low;
}
