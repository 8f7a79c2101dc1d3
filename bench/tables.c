/* The twin of tables.rt.bench by C SQLite, with the same statements in the same transactions.
 *
 *   tables replay FILE    makes an office in the file, and does the transactions of the input: `= LABEL`,
 *                         then `+ TABLE VALUES` for each row that is inserted and `- TABLE VALUES` for each that
 *                         is deleted, then `.`
 *   tables open FILE      reads all rows of an office into sorted vectors
 *   tables sum FILE       prints how many rows each table has, and a sum of them all in their order
 *
 * A transaction is read from the input as a whole before its time begins. Each line that is printed is a
 * label, how many rows were changed or read, and the nanoseconds that it took.
 */
#include <sqlite3.h>
#include <stdio.h>
#include <stdlib.h>
#include <string.h>
#include <time.h>

enum { META, NAME, PAIR, GRANT, SET, LOCKED, TABLES };

static const char *const NAMES[TABLES] = {"meta", "name", "pair", "grant", "set", "locked"};

static const int COLUMNS[TABLES] = {2, 2, 3, 3, 3, 1};

/* Which columns are numbers, a bit each. */
static const int NUMBERS[TABLES] = {2, 1, 1, 0, 5, 0};

static const char *const CREATE[TABLES] = {
    "CREATE TABLE meta_row (tag TEXT NOT NULL, version INTEGER NOT NULL, PRIMARY KEY (tag)) STRICT",
    "CREATE TABLE name_row (kind INTEGER NOT NULL CHECK (kind BETWEEN 1 AND 3), a TEXT NOT NULL, PRIMARY KEY (kind, a)) STRICT",
    "CREATE TABLE pair_row (kind INTEGER NOT NULL CHECK (kind BETWEEN 1 AND 8), a TEXT NOT NULL, b TEXT NOT NULL, PRIMARY KEY (kind, a, b)) STRICT",
    "CREATE TABLE grant_row (ob TEXT NOT NULL, op TEXT NOT NULL, role TEXT NOT NULL, PRIMARY KEY (ob, op, role)) STRICT",
    "CREATE TABLE set_row (kind INTEGER NOT NULL CHECK (kind BETWEEN 1 AND 2), name TEXT NOT NULL, n INTEGER NOT NULL CHECK (n >= 2), PRIMARY KEY (kind, name)) STRICT",
    "CREATE TABLE locked_row (a TEXT NOT NULL, PRIMARY KEY (a)) STRICT",
};

static const char *const PUT[TABLES] = {
    "INSERT INTO meta_row (tag, version) VALUES (?1, ?2)",
    "INSERT INTO name_row (kind, a) VALUES (?1, ?2)",
    "INSERT INTO pair_row (kind, a, b) VALUES (?1, ?2, ?3)",
    "INSERT INTO grant_row (ob, op, role) VALUES (?1, ?2, ?3)",
    "INSERT INTO set_row (kind, name, n) VALUES (?1, ?2, ?3)",
    "INSERT INTO locked_row (a) VALUES (?1)",
};

static const char *const TAKE[TABLES] = {
    "DELETE FROM meta_row WHERE tag = ?1 AND version = ?2",
    "DELETE FROM name_row WHERE kind = ?1 AND a = ?2",
    "DELETE FROM pair_row WHERE kind = ?1 AND a = ?2 AND b = ?3",
    "DELETE FROM grant_row WHERE ob = ?1 AND op = ?2 AND role = ?3",
    "DELETE FROM set_row WHERE kind = ?1 AND name = ?2 AND n = ?3",
    "DELETE FROM locked_row WHERE a = ?1",
};

static const char *const READ[TABLES] = {
    "SELECT tag, version FROM meta_row",
    "SELECT kind, a FROM name_row",
    "SELECT kind, a, b FROM pair_row",
    "SELECT ob, op, role FROM grant_row",
    "SELECT kind, name, n FROM set_row",
    "SELECT a FROM locked_row",
};

static sqlite3 *base;

static void fail(const char *why) {
    fprintf(stderr, "tables: %s: %s\n", why, base ? sqlite3_errmsg(base) : "");
    exit(1);
}

static void check(int status, const char *what) {
    if (status != SQLITE_OK && status != SQLITE_DONE && status != SQLITE_ROW)
        fail(what);
}

static void run(const char *text) { check(sqlite3_exec(base, text, NULL, NULL, NULL), text); }

static sqlite3_stmt *prepared(const char *text) {
    sqlite3_stmt *made;
    check(sqlite3_prepare_v2(base, text, -1, &made, NULL), text);
    return made;
}

static long long now(void) {
    struct timespec it;
    clock_gettime(CLOCK_MONOTONIC, &it);
    return it.tv_sec * 1000000000LL + it.tv_nsec;
}

static void tell(const char *label, long rows, long long nanos) {
    printf("%s %ld %lld\n", label, rows, nanos);
}

static void *grown(void *old, size_t size) {
    void *made = realloc(old, size);
    if (!made)
        fail("no memory");
    return made;
}

/* The settings of the store in Rattle: a log that is synced at each commit, a file that only one process has
 * open, and as many pages in memory, 2,000 that were read and 2,000 that were written. */
static void open_base(const char *path) {
    check(sqlite3_open(path, &base), path);
    run("PRAGMA cache_size = 4000");
    run("PRAGMA locking_mode = EXCLUSIVE");
    run("PRAGMA journal_mode = WAL");
    run("PRAGMA synchronous = FULL");
}

static void close_base(void) {
    long long start = now();
    sqlite3_stmt *it;
    while ((it = sqlite3_next_stmt(base, NULL)))
        sqlite3_finalize(it);
    check(sqlite3_close(base), "close");
    tell("close", 0, now() - start);
}

static void create(void) {
    run("BEGIN");
    for (int table = 0; table < TABLES; table++)
        run(CREATE[table]);
    run("INSERT INTO meta_row (tag, version) VALUES ('rbac', 2)");
    run("COMMIT");
}

/* A statement of a transaction. */
struct act {
    int is_put, table;
    char *values[3];
};

static struct act *acts;
static size_t count, room;

static int table_of(const char *name) {
    for (int table = 0; table < TABLES; table++)
        if (!strcmp(NAMES[table], name))
            return table;
    fail(name);
    return 0;
}

static void add_act(char *line) {
    if (count == room)
        acts = grown(acts, (room = 2 * room + 64) * sizeof *acts);
    struct act *it = &acts[count++];
    strtok(line, " \n");
    it->is_put = *line == '+';
    it->table = table_of(strtok(NULL, " \n"));
    for (int at = 0; at < COLUMNS[it->table]; at++)
        if (!(it->values[at] = strdup(strtok(NULL, " \n"))))
            fail("no memory");
}

static void do_act(sqlite3_stmt **puts, sqlite3_stmt **takes, const struct act *it) {
    sqlite3_stmt *does = (it->is_put ? puts : takes)[it->table];
    for (int at = 0; at < COLUMNS[it->table]; at++) {
        if (NUMBERS[it->table] >> at & 1)
            sqlite3_bind_int(does, at + 1, atoi(it->values[at]));
        else
            sqlite3_bind_text(does, at + 1, it->values[at], -1, SQLITE_STATIC);
    }
    if (sqlite3_step(does) != SQLITE_DONE || sqlite3_changes(base) != 1)
        fail("a statement changes no row");
    sqlite3_reset(does);
}

static void transact(sqlite3_stmt **puts, sqlite3_stmt **takes, sqlite3_stmt **ends, const char *label) {
    long long start = now();
    check(sqlite3_step(ends[0]), "BEGIN");
    sqlite3_reset(ends[0]);
    for (size_t at = 0; at < count; at++)
        do_act(puts, takes, &acts[at]);
    check(sqlite3_step(ends[1]), "COMMIT");
    sqlite3_reset(ends[1]);
    long long nanos = now() - start;
    if (strcmp(label, "-"))
        tell(label, count, nanos);
    for (size_t at = 0; at < count; at++)
        for (int column = 0; column < COLUMNS[acts[at].table]; column++)
            free(acts[at].values[column]);
    count = 0;
}

static void tell_rows(void) {
    for (int table = 0; table < TABLES; table++) {
        char text[64], label[32];
        snprintf(text, sizeof text, "SELECT count(*) FROM %s_row", NAMES[table]);
        snprintf(label, sizeof label, "rows/%s_row", NAMES[table]);
        sqlite3_stmt *it = prepared(text);
        check(sqlite3_step(it), text);
        tell(label, sqlite3_column_int(it, 0), 0);
        sqlite3_finalize(it);
    }
}

static void replay(const char *path) {
    sqlite3_stmt *puts[TABLES], *takes[TABLES], *ends[2];
    char line[512], label[64] = "-";
    open_base(path);
    create();
    for (int table = 0; table < TABLES; table++) {
        puts[table] = prepared(PUT[table]);
        takes[table] = prepared(TAKE[table]);
    }
    ends[0] = prepared("BEGIN");
    ends[1] = prepared("COMMIT");
    while (fgets(line, sizeof line, stdin)) {
        if (*line == '=')
            sscanf(line, "= %63s", label);
        else if (*line == '.')
            transact(puts, takes, ends, label);
        else
            add_act(line);
    }
    tell_rows();
    close_base();
}

/* A row as it is kept, with its kind or its number, and up to three texts. */
struct row {
    int kind, number;
    char *texts[3];
};

struct vector {
    struct row *rows;
    size_t count, room;
};

static char *chunk;
static size_t left;

/* A copy of a text, in memory that is allocated in large pieces. */
static char *kept(const unsigned char *text, int bytes) {
    if (left < (size_t)bytes + 1)
        chunk = grown(NULL, left = 1 << 20);
    char *made = memcpy(chunk, text, bytes);
    made[bytes] = 0;
    chunk += bytes + 1;
    left -= bytes + 1;
    return made;
}

static int by_texts(const void *first, const void *second) {
    const struct row *a = first, *b = second;
    for (int at = 0; at < 3 && a->texts[at]; at++) {
        int order = strcmp(a->texts[at], b->texts[at]);
        if (order)
            return order;
    }
    return 0;
}

static void keep(struct vector *into, sqlite3_stmt *it, int table) {
    struct row row = {0, 0, {NULL, NULL, NULL}};
    int texts = 0;
    for (int at = 0; at < COLUMNS[table]; at++) {
        if (!(NUMBERS[table] >> at & 1))
            row.texts[texts++] = kept(sqlite3_column_text(it, at), sqlite3_column_bytes(it, at));
        else if (at)
            row.number = sqlite3_column_int(it, at);
        else
            row.kind = sqlite3_column_int(it, at);
    }
    struct vector *to = &into[row.kind];
    if (to->count == to->room)
        to->rows = grown(to->rows, (to->room = 2 * to->room + 64) * sizeof row);
    to->rows[to->count++] = row;
}

/* A vector for each kind of each table. */
static void read_all(const char *path) {
    static struct vector all[TABLES][9];
    long long start = now();
    open_base(path);
    long rows = 0;
    for (int table = 0; table < TABLES; table++) {
        sqlite3_stmt *it = prepared(READ[table]);
        int status;
        for (; (status = sqlite3_step(it)) == SQLITE_ROW; rows++)
            keep(all[table], it, table);
        check(status, READ[table]);
    }
    long long read = now();
    for (int table = 0; table < TABLES; table++)
        for (int kind = 0; kind < 9; kind++)
            qsort(all[table][kind].rows, all[table][kind].count, sizeof(struct row), by_texts);
    tell("open/rows", rows, read - start);
    tell("open", rows, now() - start);
    tell_rows();
    close_base();
}

/* Each table's rows in their order, so that two files with the same rows have the same sum. */
static void sum(const char *path) {
    unsigned long long sum = 14695981039346656037ULL;
    open_base(path);
    for (int table = 0; table < TABLES; table++) {
        char text[128];
        snprintf(text, sizeof text, "%s ORDER BY 1, 2, 3", READ[table]);
        text[strlen(text) - 3 * (3 - COLUMNS[table])] = 0;
        sqlite3_stmt *it = prepared(text);
        while (sqlite3_step(it) == SQLITE_ROW)
            for (int at = 0; at < COLUMNS[table]; at++)
                for (const unsigned char *byte = sqlite3_column_text(it, at);; byte++) {
                    sum = (sum ^ *byte) * 1099511628211ULL;
                    if (!*byte)
                        break;
                }
    }
    tell_rows();
    printf("sum %llu 0\n", sum);
}

int main(int argc, char **argv) {
    if (argc == 3 && !strcmp(argv[1], "replay"))
        replay(argv[2]);
    else if (argc == 3 && !strcmp(argv[1], "open"))
        read_all(argv[2]);
    else if (argc == 3 && !strcmp(argv[1], "sum"))
        sum(argv[2]);
    else
        fail("give replay, open or sum, and a file");
    return 0;
}
