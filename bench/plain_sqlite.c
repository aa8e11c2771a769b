/* The builds of generated books alone, kept in SQLite: plain_sqlite BOOK STATE TARGET

   It reads `kN = 12` and `kN = "MAX(ka,kb)-MIN(ka,kb)"` by hand, keeps of each input and rule that a build reached its formula and
   its value in one table, and runs a rule where it isn't kept, its formula is another, or something that it needs has another value
   than at its last run. What a build changes is one transaction, with the syncs that SQLite makes by itself. It prints what carte
   prints. Where carte keeps digests, so that values aren't needed to tell that they are others, this keeps the values alone. */
#include <sqlite3.h>
#include <stdio.h>
#include <stdlib.h>
#include <string.h>

typedef struct {
    int is_rule, is_reached, is_kept, has_changed, needs[2];
    long long value, old;
    char *formula, *old_formula;
} Key;

static void check(sqlite3 *db, int status, int wanted)
{
    if (status != wanted) {
        fprintf(stderr, "plain_sqlite: %s\n", sqlite3_errmsg(db));
        exit(4);
    }
}

static char *whole(const char *path)
{
    FILE *file = fopen(path, "rb");
    if (!file) exit(1);
    fseek(file, 0, SEEK_END);
    long size = ftell(file);
    rewind(file);
    char *text = malloc(size + 1);
    if (fread(text, 1, size, file) != (size_t)size) exit(1);
    text[size] = 0;
    fclose(file);
    return text;
}

static int read_book(char *text, Key *keys)
{
    int count = 0;
    for (char *line = strtok(text, "\n"); line; line = strtok(NULL, "\n")) {
        if (*line != 'k') continue;
        Key *key = &keys[strtol(line + 1, &line, 10)];
        line += 3;
        count++;
        if (*line != '"') {
            key->value = strtoll(line, NULL, 10);
            continue;
        }
        key->is_rule = 1;
        key->formula = line + 1;
        line[strlen(line) - 1] = 0;
        sscanf(line, "\"MAX(k%d,k%d)", &key->needs[0], &key->needs[1]);
    }
    return count;
}

static void load(sqlite3 *db, Key *keys)
{
    sqlite3_stmt *rows;
    check(db, sqlite3_prepare_v2(db, "SELECT key, formula, value FROM kept", -1, &rows, NULL), SQLITE_OK);
    int status;
    while ((status = sqlite3_step(rows)) == SQLITE_ROW) {
        Key *key = &keys[sqlite3_column_int(rows, 0)];
        const char *formula = (const char *)sqlite3_column_text(rows, 1);
        key->is_kept = 1;
        key->old_formula = formula ? strdup(formula) : NULL;
        key->old = sqlite3_column_int64(rows, 2);
    }
    check(db, status, SQLITE_DONE);
    sqlite3_finalize(rows);
}

static void keep(sqlite3 *db, sqlite3_stmt *put, int at, const Key *key)
{
    sqlite3_bind_int(put, 1, at);
    if (key->is_rule) sqlite3_bind_text(put, 2, key->formula, -1, SQLITE_STATIC);
    else sqlite3_bind_null(put, 2);
    sqlite3_bind_int64(put, 3, key->value);
    check(db, sqlite3_step(put), SQLITE_DONE);
    sqlite3_reset(put);
}

int main(int argc, char **words)
{
    if (argc != 4) return 2;
    char *text = whole(words[1]);
    Key *keys = calloc(1 << 18, sizeof *keys);
    int count = read_book(text, keys), target = atoi(words[3] + 1), ran = 0, reused = 0;
    sqlite3 *db;
    sqlite3_stmt *put;
    check(db, sqlite3_open(words[2], &db), SQLITE_OK);
    check(db, sqlite3_exec(db, "CREATE TABLE IF NOT EXISTS kept (key INTEGER PRIMARY KEY, formula TEXT, value INTEGER)", NULL, NULL, NULL), SQLITE_OK);
    load(db, keys);
    keys[target].is_reached = 1;
    for (int at = count - 1; at >= 0; at--)
        if (keys[at].is_reached && keys[at].is_rule)
            keys[keys[at].needs[0]].is_reached = keys[keys[at].needs[1]].is_reached = 1;
    check(db, sqlite3_prepare_v2(db, "INSERT OR REPLACE INTO kept VALUES (?, ?, ?)", -1, &put, NULL), SQLITE_OK);
    check(db, sqlite3_exec(db, "BEGIN", NULL, NULL, NULL), SQLITE_OK);
    for (int at = 0; at < count; at++) {
        Key *key = &keys[at];
        if (!key->is_reached) continue;
        int is_other = !key->is_kept;
        if (key->is_rule) {
            Key *a = &keys[key->needs[0]], *b = &keys[key->needs[1]];
            is_other |= !key->old_formula || strcmp(key->formula, key->old_formula) || a->has_changed || b->has_changed;
            if (is_other) {
                long long difference = a->value - b->value;
                key->value = difference < 0 ? -difference : difference;
                ran++;
            } else {
                key->value = key->old;
                reused++;
            }
        } else is_other |= key->value != key->old;
        key->has_changed = !key->is_kept || key->value != key->old;
        if (is_other) keep(db, put, at, key);
    }
    check(db, sqlite3_exec(db, "COMMIT", NULL, NULL, NULL), SQLITE_OK);
    printf("%s = %lld\nran %d, given up 0, reused %d\n", words[3], keys[target].value, ran, reused);
    return 0;
}
