/* Answers questions of the benchmark (tests/run bench) by SQLite, from a schema in memory, in tables with indices, by
 * statements prepared once; and dumps the tables to a file in memory, and restores them from it.
 *
 * Reads rows as SQL on standard input, a statement to a line, up to an empty line; then questions, a line each: which
 * one (0: the descendants of a type, 1: its profile, 2: the type that bears a name, 3: the file's length, 4: how many
 * presences are in the tables restored), how often it is asked, and the type or the name, any word for 3 and 4. Answers
 * each with a line: the nanoseconds that all took together, and the entries. */
#include "clock.h"
#include <sqlite3.h>
#include <stdio.h>
#include <stdlib.h>
#include <string.h>

/* All that a base holds, and the working schema. */
static const char tables[] =
    "PRAGMA temp_store = MEMORY;"
    "CREATE TABLE working (place INTEGER PRIMARY KEY, sds INTEGER UNIQUE);"
    "CREATE TABLE sds (number INTEGER PRIMARY KEY, name TEXT UNIQUE);"
    "CREATE TABLE type (number INTEGER PRIMARY KEY, kind INTEGER, detail INTEGER, reverse INTEGER);"
    "CREATE TABLE parent (child INTEGER, parent INTEGER, PRIMARY KEY (child, parent)) WITHOUT ROWID;"
    "CREATE INDEX children ON parent (parent, child);"
    "CREATE TABLE presence (sds INTEGER, name TEXT, type INTEGER, usage INTEGER, definition INTEGER,"
    " PRIMARY KEY (sds, name)) WITHOUT ROWID;"
    "CREATE INDEX presences ON presence (type, sds);"
    "CREATE TABLE application (sds INTEGER, holder INTEGER, attribute INTEGER,"
    " PRIMARY KEY (holder, attribute, sds)) WITHOUT ROWID;"
    "CREATE TABLE ends (sds INTEGER, link INTEGER, side INTEGER, object INTEGER,"
    " PRIMARY KEY (object, side, link, sds)) WITHOUT ROWID;";

#define IS_VISIBLE "EXISTS (SELECT 1 FROM presence JOIN working USING (sds) WHERE presence.type = found.type)"

/* The last column of a row is an entry. The first two ask about a type, the third about a name. */
static const char *const questions[] = {
    "WITH RECURSIVE found (type) AS (SELECT child FROM parent WHERE parent = ?1"
    " UNION SELECT child FROM found JOIN parent ON parent = found.type)"
    " SELECT type FROM found WHERE " IS_VISIBLE " ORDER BY type",

    "WITH RECURSIVE found (type) AS (SELECT ?1"
    " UNION SELECT parent FROM found JOIN parent ON child = found.type)"
    " SELECT 0, type FROM found WHERE type <> ?1 AND " IS_VISIBLE
    " UNION SELECT 1, attribute FROM found JOIN application ON holder = found.type JOIN working USING (sds)"
    " UNION SELECT 2, link FROM found JOIN ends ON object = found.type AND side = 0 JOIN working USING (sds)"
    " ORDER BY 1, 2",

    /* CROSS JOIN keeps the order: a look into each listed SDS. So it is faster by far, and all is with no ANALYZE. */
    "SELECT type FROM working CROSS JOIN presence USING (sds) WHERE name = ?1 ORDER BY place LIMIT 1",
};

static sqlite3 *database, *restored;

static void must(int status, int expected)
{
    if (status == expected)
        return;
    fprintf(stderr, "sqlite: %d, %s; %s\n", status, sqlite3_errmsg(database), sqlite3_errmsg(restored));
    exit(1);
}

enum { MOST_ENTRIES = 512 };
static int entries[MOST_ENTRIES];

/* Gives the count of the entries. */
static int ask(sqlite3_stmt *question, int is_type, const char *about)
{
    int count = 0, status;
    if (is_type)
        must(sqlite3_bind_int(question, 1, atoi(about)), SQLITE_OK);
    else
        must(sqlite3_bind_text(question, 1, about, -1, SQLITE_STATIC), SQLITE_OK);
    while ((status = sqlite3_step(question)) == SQLITE_ROW && count < MOST_ENTRIES)
        entries[count++] = sqlite3_column_int(question, sqlite3_column_count(question) - 1);
    must(status, SQLITE_DONE);
    must(sqlite3_reset(question), SQLITE_OK);
    return count;
}

/* The file of the last dump. */
static unsigned char *file;
static sqlite3_int64 file_length;

static int dump(void)
{
    sqlite3_free(file);
    file = sqlite3_serialize(database, "main", &file_length, 0);
    must(file != NULL, 1);
    entries[0] = (int)file_length;
    return 1;
}

/* A database of its own, which may change and grow. It is not looked at before it is asked: so one question is. */
static int restore(void)
{
    sqlite3_stmt *question;
    unsigned char *copy = sqlite3_malloc64((sqlite3_uint64)file_length);
    must(copy != NULL, 1);
    memcpy(copy, file, (size_t)file_length);
    must(sqlite3_deserialize(restored, "main", copy, file_length, file_length,
                             SQLITE_DESERIALIZE_FREEONCLOSE | SQLITE_DESERIALIZE_RESIZEABLE), SQLITE_OK);
    must(sqlite3_prepare_v2(restored, "SELECT count(*) FROM presence", -1, &question, NULL), SQLITE_OK);
    must(sqlite3_step(question), SQLITE_ROW);
    entries[0] = sqlite3_column_int(question, 0);
    must(sqlite3_finalize(question), SQLITE_OK);
    return 1;
}

int main(void)
{
    static char line[256];
    sqlite3_stmt *prepared[3];
    unsigned number;
    long times;
    must(sqlite3_config(SQLITE_CONFIG_SINGLETHREAD), SQLITE_OK);
    must(sqlite3_config(SQLITE_CONFIG_MEMSTATUS, 0), SQLITE_OK);
    must(sqlite3_open(":memory:", &database), SQLITE_OK);
    must(sqlite3_open(":memory:", &restored), SQLITE_OK);
    must(sqlite3_exec(database, tables, NULL, NULL, NULL), SQLITE_OK);
    while (fgets(line, sizeof line, stdin) && *line != '\n')
        must(sqlite3_exec(database, line, NULL, NULL, NULL), SQLITE_OK);
    for (int n = 0; n < 3; n++)
        must(sqlite3_prepare_v2(database, questions[n], -1, &prepared[n], NULL), SQLITE_OK);
    dump();
    while (scanf("%u %ld %255s", &number, &times, line) == 3 && number < 5) {
        uint64_t start = now();
        int count = 0;
        for (long n = 0; n < times; n++)
            count = number == 3 ? dump() : number == 4 ? restore() : ask(prepared[number], number < 2, line);
        printf("%llu", (unsigned long long)(now() - start));
        for (int n = 0; n < count; n++)
            printf(" %d", entries[n]);
        printf("\n");
        fflush(stdout);
    }
    return 0;
}
