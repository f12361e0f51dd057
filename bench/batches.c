// Plays a script of batches on a database file by sqlite3, as `keeper_script` does: the baseline of bench/database.py.
//
// A plain program, with nothing proved of it. The tables, the statements, the order of a batch's changes (drops before puts,
// an update before an insert) and the durability are those of `cd_keeper_sql`; the statements are prepared once.
#include <sqlite3.h>
#include <stdio.h>
#include <stdlib.h>
#include <string.h>

typedef struct {
    unsigned char *key, *value;
    int key_len, value_len; // value_len is -1 where the key is dropped
} Change;

enum { UPDATE, INSERT, DROP, KINDS };
static sqlite3 *base;
static sqlite3_stmt *statements[2][KINDS];

static void need(int seen, int due) {
    if (seen != due) {
        fprintf(stderr, "sqlite3: %d in place of %d\n", seen, due);
        exit(3);
    }
}

static void prepare(void) {
    static const char *texts[2][KINDS] = {
        {"UPDATE cells SET record = ?2 WHERE key = ?1", "INSERT INTO cells (key, record) VALUES (?1, ?2)", "DELETE FROM cells WHERE key = ?1"},
        {"UPDATE descs SET value = ?2 WHERE key = ?1", "INSERT INTO descs (key, value) VALUES (?1, ?2)", "DELETE FROM descs WHERE key = ?1"}};
    need(sqlite3_exec(base, "PRAGMA journal_mode = WAL; PRAGMA locking_mode = EXCLUSIVE; PRAGMA synchronous = FULL;"
                            "CREATE TABLE IF NOT EXISTS cells (key BLOB PRIMARY KEY, record BLOB NOT NULL);"
                            "CREATE TABLE IF NOT EXISTS descs (key BLOB PRIMARY KEY, value BLOB NOT NULL)", 0, 0, 0), SQLITE_OK);
    for (int table = 0; table < 2; table++)
        for (int kind = 0; kind < KINDS; kind++)
            need(sqlite3_prepare_v2(base, texts[table][kind], -1, &statements[table][kind], 0), SQLITE_OK);
}

static int run(int table, int kind, const Change *change) {
    sqlite3_stmt *statement = statements[table][kind];
    need(sqlite3_bind_blob(statement, 1, change->key, change->key_len, SQLITE_STATIC), SQLITE_OK);
    if (kind != DROP)
        need(sqlite3_bind_blob(statement, 2, change->value, change->value_len, SQLITE_STATIC), SQLITE_OK);
    need(sqlite3_step(statement), SQLITE_DONE);
    need(sqlite3_reset(statement), SQLITE_OK);
    return sqlite3_changes(base);
}

static void apply(Change *batch, size_t count) {
    need(sqlite3_exec(base, "BEGIN", 0, 0, 0), SQLITE_OK);
    for (int table = 0; table < 2; table++)
        for (int puts = 0; puts < 2; puts++)
            for (size_t at = 0; at < count; at++) {
                Change *change = &batch[at];
                if ((change->key_len == 80) != table || (change->value_len >= 0) != puts)
                    continue;
                if (!puts)
                    run(table, DROP, change);
                else if (run(table, UPDATE, change) == 0)
                    run(table, INSERT, change);
            }
    need(sqlite3_exec(base, "COMMIT", 0, 0, 0), SQLITE_OK);
    puts("applied");
    fflush(stdout);
}

static unsigned char *bytes_of(const char *text, int *len) {
    *len = (int)(strlen(text) / 2);
    unsigned char *bytes = malloc(*len + 1);
    for (int at = 0; at < *len; at++) {
        char pair[3] = {text[2 * at], text[2 * at + 1], 0};
        bytes[at] = (unsigned char)strtol(pair, 0, 16);
    }
    return bytes;
}

int main(int count, char **words) {
    if (count != 2 || sqlite3_open(words[1], &base) != SQLITE_OK)
        return 1;
    prepare();
    char *line = 0;
    size_t space = 0, changes = 0, room = 0;
    Change *batch = 0;
    for (ssize_t len; (len = getline(&line, &space, stdin)) > 0;) {
        line[strcspn(line, "\n")] = 0;
        char *name = strtok(line, " "), *key = strtok(0, " "), *value = strtok(0, " ");
        if (!strcmp(name, "apply")) {
            apply(batch, changes);
            while (changes > 0) {
                changes--;
                free(batch[changes].key);
                free(batch[changes].value);
            }
            continue;
        }
        if (changes == room)
            batch = realloc(batch, (room = 2 * room + 64) * sizeof *batch);
        Change *change = &batch[changes++];
        change->key = bytes_of(key, &change->key_len);
        change->value_len = -1;
        change->value = 0;
        if (!strcmp(name, "put"))
            change->value = bytes_of(value ? value : "", &change->value_len);
    }
    sqlite3_close(base);
    return 0;
}
