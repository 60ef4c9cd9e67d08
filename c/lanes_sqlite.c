/* A loadable extension of SQLite: the rows of a file or a folder of lanes, or the answer of a query over it, as a table.
 *
 *     .load ./lanes_sqlite
 *     CREATE VIRTUAL TABLE temp.visits  USING lanes('visits.lanes');
 *     CREATE VIRTUAL TABLE temp.by_site USING lanes('visits.lanes', 'SELECT SITE,SUM(HITS) AS HITS FROM VISITS GROUP BY SITE');
 *     SELECT name, hits FROM by_site JOIN sites ON sites.id = by_site.site ORDER BY hits DESC;
 *
 * Tables are read only. A statement looks at the file at its first scan of the table. If it is the one that is open, unchanged, that is
 * asked, and otherwise it is opened anew. So all scans of a statement see one state, whatever other statements do meanwhile, and name a row
 * by the same rowid: its place among the live rows. Of rows, columns that a statement doesn't use aren't read. Comparisons of a column with
 * an integer go down as a condition, those of the rowid as the rows that are given, and ORDER BY rowid as the order; SQLite judges the
 * comparisons once more.
 *
 * A sum of an answer may have more than 64 bits, which SQLite has no number for. A statement that reads one is refused, unless a last
 * argument of the table says what is given for it: sums='text' gives its digits, and sums='real' the nearest float.
 *
 * c/build makes it, with the library inside. */
#include "lanes_sqlite.h"
SQLITE_EXTENSION_INIT1

#include <stdlib.h>
#include <string.h>

/* The comparisons that go down, by the digit that stands for one in a plan, and by what number the rows are likely to be divided. */
enum { EQUAL, OTHER, LESS, LESS_OR_EQUAL, GREATER, GREATER_OR_EQUAL, COMPARISONS };
static const struct {
    int op;
    const char *text;
    double part;
} comparisons[COMPARISONS] = {
    [EQUAL] = {SQLITE_INDEX_CONSTRAINT_EQ, "=", 100},        [OTHER] = {SQLITE_INDEX_CONSTRAINT_NE, "<>", 1.1},
    [LESS] = {SQLITE_INDEX_CONSTRAINT_LT, "<", 3},           [LESS_OR_EQUAL] = {SQLITE_INDEX_CONSTRAINT_LE, "<=", 3},
    [GREATER] = {SQLITE_INDEX_CONSTRAINT_GT, ">", 3},        [GREATER_OR_EQUAL] = {SQLITE_INDEX_CONSTRAINT_GE, ">=", 3},
};

/* Tables. */

/* A word as CREATE VIRTUAL TABLE has it, without its quotes. */
static char *unquoted(const char *word) {
    size_t length = strlen(word);
    char *text = sqlite3_malloc64(length + 1), *out = text;
    if (!text) return NULL;
    if (length > 1 && (*word == '\'' || *word == '"') && word[length - 1] == *word) {
        for (size_t i = 1; i + 1 < length; i++) {
            *out++ = word[i];
            if (word[i] == *word && word[i + 1] == *word) i++;
        }
    } else {
        memcpy(out, word, length);
        out += length;
    }
    *out = 0;
    return text;
}

static int disconnect(sqlite3_vtab *base) {
    vtab *v = (vtab *)base;
    close_state(v->opened);
    for (int c = 0; c < COLUMNS; c++) sqlite3_free(v->names[c]);
    sqlite3_free(v->path);
    sqlite3_free(v->sql);
    sqlite3_free(v);
    return SQLITE_OK;
}

/* Declares the columns of an answer by its headings. */
static int declare_answer(vtab *v, state *s, sqlite3_str *text) {
    int code = ask(v, s);
    if (code) return code;
    const char *at = s->answer;
    do {
        size_t length = strcspn(at, ",\n");
        sqlite3_str_appendf(text, "%s\"%.*w\" NUMERIC", v->columns++ ? "," : "", (int)length, at);
        at += length;
    } while (*at++ == ',');
    v->live = (sqlite3_int64)s->count;
    return SQLITE_OK;
}

/* The words of the file's schema: the table's name, and of each column its name and its type. */
static int declare_rows(vtab *v, state *s, sqlite3_str *text) {
    char schema[4096], *at = schema;
    size_t length, rows;
    int64_t no_value;
    uint8_t no_bits;
    uint64_t no_count;
    lanes_place place;
    uint8_t number = lanes_schema(&s->table, (uint8_t *)schema, sizeof schema - 1, &length, &place);
    if (number) return refuse(v, v->path, number, &place);
    schema[length] = 0;
    while ((at = strchr(at, ' '))) {
        char *kind = strchr(++at, ' ');
        char *name = sqlite3_mprintf("%.*s", (int)(kind - at), at);
        if (!name) return SQLITE_NOMEM;
        v->names[v->columns++] = name;
        sqlite3_str_appendf(text, "%s\"%w\" INTEGER", v->columns > 1 ? "," : "", name);
        at = kind + 1;
    }
    number = lanes_columns(&s->table, (const uint8_t *)"", 0, (const uint8_t *)"", 0, &no_value, 0, &no_bits, 0, &no_count, 0, &rows, &place);
    v->live = (sqlite3_int64)rows;
    return number ? refuse(v, v->path, number, &place) : SQLITE_OK;
}

static int declare(sqlite3 *db, vtab *v) {
    sqlite3_str *text = sqlite3_str_new(db);
    sqlite3_str_appendall(text, "CREATE TABLE x(");
    int code = open_current(v);
    if (!code) code = v->sql ? declare_answer(v, v->opened, text) : declare_rows(v, v->opened, text);
    sqlite3_str_appendall(text, ")");
    char *declaration = sqlite3_str_finish(text);
    if (!code) code = declaration ? sqlite3_declare_vtab(db, declaration) : SQLITE_NOMEM;
    sqlite3_free(declaration);
    return code;
}

/* What an argument says that is given for a sum past 64 bits; -1 if it says nothing of it, and SUMS_UNREAD if there is no memory to read it. */
static int sums_of(const char *word) {
    static const char *const words[] = {[SUMS_TEXT] = "text", [SUMS_REAL] = "real"};
    if (sqlite3_strnicmp(word, "sums", 4)) return -1;
    for (word += 4; *word == ' '; word++) {}
    if (*word++ != '=') return -1;
    while (*word == ' ') word++;
    char *said = unquoted(word);
    int found = said ? SUMS_REFUSED : SUMS_UNREAD;
    for (int i = SUMS_TEXT; said && i <= SUMS_REAL; i++)
        if (!sqlite3_stricmp(said, words[i])) found = i;
    sqlite3_free(said);
    return found;
}

static int connect(sqlite3 *db, void *with, int count, const char *const *words, sqlite3_vtab **out, char **message) {
    (void)with;
    int sums = count > 5 ? sums_of(words[count - 1]) : SUMS_REFUSED;
    if (sums == SUMS_UNREAD) return SQLITE_NOMEM;
    if (sums > SUMS_REFUSED) count--;
    if (count < 4 || count > 5) {
        *message = sqlite3_mprintf("lanes: a file is wanted, and then a query or nothing: USING lanes('FILE', 'SELECT ..'), and after a query sums='text' or sums='real'");
        return SQLITE_ERROR;
    }
    vtab *v = sqlite3_malloc64(sizeof *v);
    if (!v) return SQLITE_NOMEM;
    memset(v, 0, sizeof *v);
    v->sums = sums;
    v->path = unquoted(words[3]);
    if (count == 5) v->sql = unquoted(words[4]);
    int code = v->path && (count == 4 || v->sql) ? declare(db, v) : SQLITE_NOMEM;
    if (code) {
        *message = v->base.zErrMsg ? v->base.zErrMsg : sqlite3_mprintf("%s", code == SQLITE_NOMEM ? "out of memory" : sqlite3_errmsg(db));
        disconnect(&v->base);
        return code;
    }
    *out = &v->base;
    return SQLITE_OK;
}

/* Another function than connect: if both were one, there would be a table `lanes` without a file. */
static int create(sqlite3 *db, void *with, int count, const char *const *words, sqlite3_vtab **out, char **message) {
    return connect(db, with, count, words, out, message);
}

/* Plans. idxNum has the columns that are used, a bit each. idxStr begins with < if the last row comes first, and otherwise with >, and has of
 * each comparison that goes down a letter for its column, from '@', and a digit. The rowid's letter is the one before. */
#define ROWID (-1)

static int best_index(sqlite3_vtab *base, sqlite3_index_info *info) {
    vtab *v = (vtab *)base;
    double rows = (double)v->live, read = (double)v->live;
    int taken = 0;
    int is_ordered = info->nOrderBy == 1 && info->aOrderBy[0].iColumn == ROWID;
    sqlite3_str *plan = sqlite3_str_new(NULL);
    sqlite3_str_appendall(plan, is_ordered && info->aOrderBy[0].desc ? "<" : ">");
    for (int k = 0; k < info->nConstraint; k++) {
        int column = info->aConstraint[k].iColumn;
        if (!info->aConstraint[k].usable || (v->sql && column != ROWID)) continue;
        for (int i = 0; i < COMPARISONS; i++) {
            if (info->aConstraint[k].op != comparisons[i].op) continue;
            info->aConstraintUsage[k].argvIndex = ++taken;
            sqlite3_str_appendf(plan, "%c%c", '@' + column, '0' + i);
            rows /= comparisons[i].part;
            if (column != ROWID) continue;
            read /= comparisons[i].part;
            if (i != EQUAL) continue;
            rows = 1;
            read = 100;
            info->idxFlags = SQLITE_INDEX_SCAN_UNIQUE;
        }
    }
    info->orderByConsumed = is_ordered;
    info->idxNum = (int)(unsigned)info->colUsed;
    info->idxStr = sqlite3_str_finish(plan);
    info->needToFreeIdxStr = 1;
    if (!info->idxStr) return SQLITE_NOMEM;
    info->estimatedRows = rows < 1 ? 1 : (sqlite3_int64)rows;
    info->estimatedCost = read + 10 * rows;
    return SQLITE_OK;
}

/* Cursors. */

static int open_cursor(sqlite3_vtab *base, sqlite3_vtab_cursor **out) {
    vtab *v = (vtab *)base;
    cursor *c = calloc(1, sizeof *c);
    const char **fields = calloc((size_t)v->columns + 1, sizeof *fields);
    if (!c || !fields) {
        free(c);
        free(fields);
        return SQLITE_NOMEM;
    }
    c->fields = fields;
    *out = &c->base;
    return SQLITE_OK;
}

static int close_cursor(sqlite3_vtab_cursor *base) {
    cursor *c = (cursor *)base;
    leave_block(c->rows);
    look_away((vtab *)base->pVtab, c);
    free(c->places);
    free(c->tests);
    sqlite3_free(c->condition);
    free(c->fields);
    free(c);
    return SQLITE_OK;
}

/* The condition of a cursor's comparisons. */
static char *condition_of(const vtab *v, const cursor *c) {
    if (!c->count) return sqlite3_mprintf("");
    sqlite3_str *text = sqlite3_str_new(NULL);
    for (int k = 0; k < c->count; k++)
        sqlite3_str_appendf(text, "%s%s %s %lld", k ? " AND " : "", v->names[c->tests[k].column], comparisons[c->tests[k].comparison].text, c->tests[k].number);
    return sqlite3_str_finish(text);
}

/* Finds the fields of the cursor's line. */
static void find_fields(cursor *c) {
    int columns = ((vtab *)c->base.pVtab)->columns, field = 0;
    if (c->at >= c->seen->count) return;
    const char *line = c->seen->lines[c->at];
    c->fields[0] = line;
    for (; *line != '\n'; line++)
        if (*line == ',' && field + 1 < columns) c->fields[++field] = line + 1;
    c->fields[columns] = line + 1;
}

/* Narrows a range of rows by a comparison of the rowid. */
static void narrow(cursor *c, int comparison, sqlite3_int64 number) {
    sqlite3_int64 low = 0, high = INT64_MAX;
    if (comparison == EQUAL || comparison == GREATER_OR_EQUAL) low = number;
    if (comparison == GREATER) low = number == INT64_MAX ? number : number + 1;
    if (comparison == EQUAL || comparison == LESS_OR_EQUAL) high = number;
    if (comparison == LESS) high = number <= 0 ? -1 : number - 1;
    if (low > c->low) c->low = low;
    if (high < c->high) c->high = high;
}

/* Takes the comparisons of a plan. An argument that is no integer is left to SQLite. */
static int take_tests(cursor *c, const char *plan, int count, sqlite3_value **arguments) {
    test *tests = realloc(c->tests, ((size_t)count + 1) * sizeof *tests);
    if (!tests) return SQLITE_NOMEM;
    c->tests = tests;
    c->count = 0;
    c->low = 0;
    c->high = INT64_MAX;
    for (int k = 0; k < count; k++) {
        int column = plan[2 * k] - '@', comparison = plan[2 * k + 1] - '0';
        if (sqlite3_value_type(arguments[k]) != SQLITE_INTEGER) continue;
        sqlite3_int64 number = sqlite3_value_int64(arguments[k]);
        if (column == ROWID) narrow(c, comparison, number);
        else c->tests[c->count++] = (test){column, comparison, number};
    }
    if (c->low == c->high) c->count = 0; /* one row is looked at, and scans of others find the same block */
    return SQLITE_OK;
}

/* Reads on until there is a row, or no batch is left. */
static int read_on(cursor *c) {
    vtab *v = (vtab *)c->base.pVtab;
    while (c->at >= (c->is_read ? c->rows->rows : 0) && c->next < c->end) {
        size_t most = c->end - c->next < c->step ? c->end - c->next : c->step;
        int code = read_block(v, c->seen, c->used, c->condition, c->next, most, &c->rows);
        if (code) return code;
        c->is_read = 1;
        c->at = 0;
        c->next += c->rows->batches;
        if (c->rows->rows < ENOUGH) c->step *= 2;
        free(c->places);
        c->places = NULL;
    }
    return SQLITE_OK;
}

/* Reads back until there is a row, or no batch is left. */
static int read_back(cursor *c) {
    vtab *v = (vtab *)c->base.pVtab;
    while (c->at >= (c->is_read ? c->rows->rows : 0) && c->next < c->end) {
        size_t most = c->end - c->next < c->step ? c->end - c->next : c->step;
        int code = read_block(v, c->seen, c->used, c->condition, c->end - most, most, &c->rows);
        if (code) return code;
        c->at = SIZE_MAX;
        c->is_read = 1;
        free(c->places);
        c->places = NULL;
        if (c->rows->batches < most) { /* they have many rows: fewer batches are read, up to the same end */
            c->step = c->rows->batches;
            continue;
        }
        c->at = c->rows->rows - 1;
        c->end -= most;
        if (c->rows->rows < ENOUGH) c->step *= 2;
    }
    return SQLITE_OK;
}

/* Begins a scan of rows. */
static int scan(cursor *c) {
    vtab *v = (vtab *)c->base.pVtab;
    state *s = c->seen;
    c->is_read = 0;
    c->at = 0;
    c->next = 0;
    c->end = c->low > c->high ? 0 : s->batches;
    c->step = v->live <= ENOUGH ? s->batches + 1 : 1;
    sqlite3_free(c->condition);
    c->condition = condition_of(v, c);
    if (!c->condition) return SQLITE_NOMEM;
    if (c->low <= 0 && c->high == INT64_MAX) return c->is_reversed ? read_back(c) : read_on(c);
    int code = count_live(v, s);
    if (code) return code;
    size_t rows = s->live[s->batches];
    if (c->low > c->high || (size_t)c->low >= rows) c->end = 0;
    if (!c->end) return SQLITE_OK;
    c->next = batch_of(s, (size_t)c->low);
    c->end = batch_of(s, (size_t)c->high < rows ? (size_t)c->high : rows - 1) + 1;
    c->step = 1;
    code = c->is_reversed ? read_back(c) : read_on(c);
    if (code || c->count) return code;
    if (!c->is_reversed) c->at = (size_t)c->low - s->live[c->rows->first];
    else if ((size_t)c->high < rows) c->at = (size_t)c->high - s->live[c->rows->first];
    return SQLITE_OK;
}

static int filter(sqlite3_vtab_cursor *base, int used, const char *plan, int count, sqlite3_value **arguments) {
    cursor *c = (cursor *)base;
    vtab *v = (vtab *)base->pVtab;
    int code = see(v, c, arguments);
    if (!code) code = take_tests(c, plan + 1, count, arguments);
    if (code) return code;
    c->is_reversed = *plan == '<';
    c->used = (unsigned)used;
    if (!v->sql) return scan(c);
    code = ask(v, c->seen);
    if (code) return code;
    size_t lines = c->seen->count;
    c->at = c->low > c->high || (size_t)c->low > lines ? lines : (size_t)c->low;
    if (c->is_reversed && c->at < lines) c->at = (size_t)c->high < lines ? (size_t)c->high : lines - 1;
    find_fields(c);
    return SQLITE_OK;
}

static int next(sqlite3_vtab_cursor *base) {
    cursor *c = (cursor *)base;
    c->at += c->is_reversed ? SIZE_MAX : 1;
    if (!((vtab *)base->pVtab)->sql) return c->is_reversed ? read_back(c) : read_on(c);
    find_fields(c);
    return SQLITE_OK;
}

static int is_at_end(sqlite3_vtab_cursor *base) {
    cursor *c = (cursor *)base;
    if (((vtab *)base->pVtab)->sql) return c->at >= c->seen->count || (sqlite3_int64)c->at > c->high || (sqlite3_int64)c->at < c->low;
    if (!c->is_read || c->at >= c->rows->rows) return 1;
    if (c->count || (c->low <= 0 && c->high == INT64_MAX)) return 0;
    sqlite3_int64 row = (sqlite3_int64)(c->seen->live[c->rows->first] + c->at);
    return row > c->high || row < c->low;
}

/* What is said of a sum past 64 bits. */
static int refuse_sum(vtab *v, const char *field, const char *end) {
    char *words = sqlite3_mprintf("lanes: %.*s has more than 64 bits, which SQLite has no number for: USING lanes('FILE', 'SELECT ..', sums='text') gives its digits, and sums='real' the nearest float", (int)(end - field), field);
    return fault(v, SQLITE_ERROR, words);
}

/* The float that is nearest to a number of millionths. Its quotient is taken to some 61 bits, of which the last one tells if there are more. */
static double mean_of(unsigned __int128 millionths) {
    enum { CUT = 47 };
    int shift = 0;
    if (!millionths) return 0;
    for (; !(millionths >> 127); shift++) millionths <<= 1;
    unsigned __int128 quotient = millionths / 1000000;
    uint64_t front = (uint64_t)(quotient >> CUT);
    int is_exact = quotient == (unsigned __int128)front << CUT && !(millionths % 1000000);
    return __builtin_ldexp((double)(front | !is_exact), CUT - shift);
}

/* Gives a field of an answer: a whole number, a mean as a float, or a null; and for a number past 64 bits what the table's arguments say. */
static int give_field(vtab *v, sqlite3_context *context, const char *field, const char *end) {
    int is_negative = *field == '-', is_mean = 0;
    unsigned __int128 number = 0, most = (unsigned __int128)INT64_MAX + (unsigned)is_negative;
    if (*field == 'N') return SQLITE_OK;
    for (const char *at = field + is_negative; at < end; at++) {
        if (*at == '.') is_mean = 1;
        else number = 10 * number + (unsigned)(*at - '0');
    }
    if (is_mean) {
        sqlite3_result_double(context, is_negative ? -mean_of(number) : mean_of(number));
    } else if (number <= most) {
        sqlite3_result_int64(context, is_negative ? (sqlite3_int64)(0 - (uint64_t)number) : (sqlite3_int64)number);
    } else if (v->sums == SUMS_TEXT) {
        sqlite3_result_text(context, field, (int)(end - field), SQLITE_TRANSIENT);
    } else if (v->sums == SUMS_REAL) {
        sqlite3_result_double(context, is_negative ? -(double)number : (double)number);
    } else {
        return refuse_sum(v, field, end);
    }
    return SQLITE_OK;
}

static int column(sqlite3_vtab_cursor *base, sqlite3_context *context, int k) {
    cursor *c = (cursor *)base;
    vtab *v = (vtab *)base->pVtab;
    if (v->sql) return give_field(v, context, c->fields[k], c->fields[k + 1] - 1);
    if (c->rows->used >> k & 1 && is_value(c->rows, k, c->at))
        sqlite3_result_int64(context, value(c->rows, k, c->at));
    return SQLITE_OK;
}

/* Whether all comparisons of a cursor are true at a row. */
static int is_kept(const cursor *c, const block *b, size_t row) {
    for (int k = 0; k < c->count; k++) {
        const test *t = c->tests + k;
        if (!is_value(b, t->column, row)) return 0;
        int64_t cell = value(b, t->column, row);
        int order = (cell > t->number) - (cell < t->number);
        const int holds[] = {order == 0, order != 0, order < 0, order <= 0, order > 0, order >= 0};
        if (!holds[t->comparison]) return 0;
    }
    return 1;
}

/* Finds which of its batches' live rows a cursor's rows are: those at which its comparisons are true, in order. */
static int find_places(cursor *c) {
    vtab *v = (vtab *)c->base.pVtab;
    unsigned used = 0;
    size_t found = 0, before = 0;
    block *all = NULL;
    int code = SQLITE_OK;
    for (int k = 0; k < c->count; k++) used |= 1u << c->tests[k].column;
    size_t *places = malloc((c->rows->rows + 1) * sizeof *places);
    if (!places) return SQLITE_NOMEM;
    for (size_t batch = c->rows->first, end = batch + c->rows->batches; batch < end && !code; before += code ? 0 : all->rows, batch += code ? 0 : all->batches) {
        code = read_block(v, c->seen, used, "", batch, end - batch, &all);
        for (size_t row = 0; !code && row < all->rows && found < c->rows->rows; row++)
            if (is_kept(c, all, row)) places[found++] = before + row;
    }
    leave_block(all);
    c->places = places;
    if (code) return code;
    return found == c->rows->rows ? SQLITE_OK : fault(v, SQLITE_INTERNAL, sqlite3_mprintf("lanes: a condition and its comparisons differ"));
}

static int rowid(sqlite3_vtab_cursor *base, sqlite3_int64 *id) {
    cursor *c = (cursor *)base;
    vtab *v = (vtab *)base->pVtab;
    *id = (sqlite3_int64)c->at;
    if (v->sql) return SQLITE_OK;
    int code = count_live(v, c->seen);
    if (!code && c->count && !c->places) code = find_places(c);
    if (!code) *id = (sqlite3_int64)(c->seen->live[c->rows->first] + (c->count ? c->places[c->at] : c->at));
    return code;
}

static sqlite3_module module = {
    .xCreate = create,
    .xConnect = connect,
    .xBestIndex = best_index,
    .xDisconnect = disconnect,
    .xDestroy = disconnect,
    .xOpen = open_cursor,
    .xClose = close_cursor,
    .xFilter = filter,
    .xNext = next,
    .xEof = is_at_end,
    .xColumn = column,
    .xRowid = rowid,
};

__attribute__((visibility("default"))) int sqlite3_lanessqlite_init(sqlite3 *db, char **message, const sqlite3_api_routines *api) {
    SQLITE_EXTENSION_INIT2(api);
    (void)message;
    return sqlite3_create_module(db, "lanes", &module, NULL);
}
