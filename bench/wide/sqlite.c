/* Drives SQLite in memory, and takes the time.
 *
 *     sqlite < SCRIPT
 *
 * The script's commands, each but `statement` answered by a line of JSON:
 *
 *     say TEXT                          SQL that isn't timed
 *     statement TABLE TYPES TEXT        a statement that changes a row of a table; the types of its parameters, an `i` or `t` each
 *     save FILE, restore FILE           the whole base into a file, and back
 *     changes FILE BEGIN N              N changes of a file, each followed by a look at the logs
 *     paced FILE N                      the same, each with its own time
 *     register NAME TABLES TEXT         SQL that begins to keep a query over tables, by commas
 *     watch NAME                        its log is read after each change of its tables from now on
 *     first NAME TIMES TEXT             the first ten rows of a select
 *     all NAME TEXT                     all rows of a select
 *     memory                            what SQLite's allocator has given out
 */

#include "wide.h"
#include <sqlite3.h>

#define STATEMENTS 32

struct statement {
    char table[NAME_BYTES], kinds[MOST_VALUES + 1];
    sqlite3_stmt *prepared;
};

struct log {
    char tables[256];
    sqlite3_stmt *read, *empty;
    int watched;
};

static sqlite3 *base;
static struct statement statements[STATEMENTS];
static struct log logs[NAMES];
static int statement_count;

static void check(int holds) {
    if (!holds) {
        fprintf(stderr, "sqlite: %s\n", sqlite3_errmsg(base));
        exit(1);
    }
}

static sqlite3_stmt *prepared(const char *sql) {
    sqlite3_stmt *made;
    check(sqlite3_prepare_v3(base, sql, -1, SQLITE_PREPARE_PERSISTENT, &made, NULL) == SQLITE_OK);
    return made;
}

static void run(const char *sql) { check(sqlite3_exec(base, sql, NULL, NULL, NULL) == SQLITE_OK); }

/* The hash of a row, from some column on. */
static uint64_t hash_of_row(sqlite3_stmt *row, int first) {
    char number[32];
    uint64_t hash = HASH_BEGIN;
    int columns = sqlite3_column_count(row);
    for (int at = first; at < columns; at++) {
        if (at > first) {
            hash = hash_more(hash, " ", 1);
        }
        if (sqlite3_column_type(row, at) == SQLITE_INTEGER) {
            int size = snprintf(number, sizeof number, "%lld", (long long)sqlite3_column_int64(row, at));
            hash = hash_more(hash, number, (size_t)size);
        } else {
            const char *text = (const char *)sqlite3_column_text(row, at);
            hash = hash_more(hash, text, (size_t)sqlite3_column_bytes(row, at));
        }
    }
    return hash_end(hash);
}

/* Whether a name stands in a list by commas. */
static int in_list(const char *list, const char *name) {
    size_t size = strlen(name);
    for (const char *at = list; (at = strstr(at, name)) != NULL; at += size) {
        if ((at == list || at[-1] == ',') && (at[size] == 0 || at[size] == ',')) {
            return 1;
        }
    }
    return 0;
}

/* The watcher reads what came and went, and empties the log. */
static void read_log(int at) {
    int answer, any = 0;
    while ((answer = sqlite3_step(logs[at].read)) == SQLITE_ROW) {
        told(&watches[at], sqlite3_column_int(logs[at].read, 0) > 0, hash_of_row(logs[at].read, 1));
        any = 1;
    }
    check(answer == SQLITE_DONE);
    sqlite3_reset(logs[at].read);
    if (any) {
        check(sqlite3_step(logs[at].empty) == SQLITE_DONE);
        sqlite3_reset(logs[at].empty);
    }
}

/* A change that was read from its line. */
struct change {
    int statement;
    struct {
        char *text;
        int64_t number;
        int size;
    } values[MOST_VALUES];
};

static struct change parsed(char *line, char *end) {
    struct change made;
    made.statement = (int)strtol(line, &line, 10);
    must(made.statement >= 0 && made.statement < statement_count, "no such statement");
    const char *kinds = statements[made.statement].kinds;
    for (int at = 0; kinds[at]; at++) {
        must(*line == '\t', "too few values");
        line++;
        char *next = memchr(line, '\t', (size_t)(end - line));
        next = next ? next : end;
        if (kinds[at] == 'i') {
            made.values[at].number = strtoll(line, NULL, 10);
        } else {
            made.values[at].text = line;
            made.values[at].size = (int)(next - line);
        }
        line = next;
    }
    return made;
}

static void make_change(struct change *change) {
    struct statement *made = &statements[change->statement];
    for (int at = 0; made->kinds[at]; at++) {
        if (made->kinds[at] == 'i') {
            sqlite3_bind_int64(made->prepared, at + 1, change->values[at].number);
        } else {
            sqlite3_bind_text(made->prepared, at + 1, change->values[at].text, change->values[at].size, SQLITE_STATIC);
        }
    }
    check(sqlite3_step(made->prepared) == SQLITE_DONE);
    must(sqlite3_changes(base) == 1, "a change changes no row");
    sqlite3_reset(made->prepared);
    for (int at = 0; at < watch_count; at++) {
        if (logs[at].watched && in_list(logs[at].tables, made->table)) {
            read_log(at);
        }
    }
}

static void timed(const char *what, double wall, double processor) {
    printf("{\"what\": \"%s\", \"wall\": %.6f, \"processor\": %.6f", what, now() - wall, own_processor() - processor);
}

/* Makes changes of a file; the lines are taken apart before the clock starts. */
static void make_changes(const char *what) {
    char name[256];
    must(read_word(name), "a file");
    struct changes *file = changes_of(name);
    int paced = strcmp(what, "paced") == 0;
    size_t begin = paced ? 0 : (size_t)read_number(), count = (size_t)read_number();
    if (begin + count > file->change_count) {
        count = file->change_count - begin;
    }
    struct change *changes = malloc((count + 1) * sizeof *changes);
    double *delays = malloc((count + 1) * sizeof *delays);
    must(changes != NULL && delays != NULL, "memory");
    for (size_t at = 0; at < count; at++) {
        size_t line = file->changes[begin + at];
        changes[at] = parsed(file->bytes + file->lines[line], file->bytes + file->lines[line + 1] - 1);
    }
    double wall = now(), processor = own_processor();
    for (size_t at = 0; at < count; at++) {
        if (paced) {
            delays[at] = now();
        }
        make_change(&changes[at]);
        if (paced) {
            delays[at] = now() - delays[at];
        }
    }
    timed(what, wall, processor);
    printf(", ");
    if (paced) {
        print_delays(delays, count);
    } else {
        printf("\"count\": %zu", count);
    }
    print_watches();
    free(changes);
    free(delays);
}

static void copy(sqlite3 *to, sqlite3 *from) {
    sqlite3_backup *backup = sqlite3_backup_init(to, "main", from, "main");
    must(backup != NULL && sqlite3_backup_step(backup, -1) == SQLITE_DONE, "a copy fails");
    sqlite3_backup_finish(backup);
}

static void with_file(const char *word) {
    char name[256];
    sqlite3 *file;
    must(read_word(name) && sqlite3_open(name, &file) == SQLITE_OK, "a file");
    double wall = now(), processor = own_processor();
    if (word[0] == 's') {
        sqlite3_exec(file, "pragma synchronous = off", NULL, NULL, NULL);
        copy(file, base);
    } else {
        copy(base, file);
    }
    sqlite3_close(file);
    timed(word, wall, processor);
}

static void ask(const char *word) {
    char name[256];
    must(read_word(name), "a name");
    long times = word[0] == 'f' ? read_number() : 1;
    char *sql = read_text();
    uint64_t rows = 0, sum = 0;
    double wall = now(), processor = own_processor();
    sqlite3_stmt *select = prepared(sql);
    for (long at = 0; at < times; at++) {
        int answer;
        while ((answer = sqlite3_step(select)) == SQLITE_ROW) {
            rows++;
            sum += hash_of_row(select, 0);
        }
        check(answer == SQLITE_DONE);
        sqlite3_reset(select);
    }
    sqlite3_finalize(select);
    timed(word, wall, processor);
    printf(", \"query\": \"%s\", \"times\": %ld, \"count\": %" PRIu64 ", \"sum\": \"%" PRIu64 "\"", name, times, rows, sum);
    free(sql);
}

static void new_statement(void) {
    must(statement_count < STATEMENTS, "too many statements");
    struct statement *made = &statements[statement_count++];
    must(scanf("%63s %16s", made->table, made->kinds) == 2, "a statement");
    char *sql = read_text();
    made->prepared = prepared(sql);
    free(sql);
}

static void new_query(void) {
    struct log *log = &logs[watch_count];
    char name[256], sql[NAME_BYTES + 64];
    must(read_word(name) && strlen(name) < NAME_BYTES && read_word(log->tables), "a query");
    char *text = read_text();
    double wall = now(), processor = own_processor();
    run(text);
    timed("register", wall, processor);
    printf(", \"query\": \"%s\"", name);
    free(text);
    watch_new(name);
    snprintf(sql, sizeof sql, "select * from log_%s", name);
    log->read = prepared(sql);
    snprintf(sql, sizeof sql, "delete from log_%s", name);
    log->empty = prepared(sql);
}

int main(void) {
    char word[256], name[256];
    must(sqlite3_open(":memory:", &base) == SQLITE_OK, "no base");
    while (read_word(word)) {
        if (strcmp(word, "statement") == 0) {
            new_statement();
            continue;
        } else if (strcmp(word, "say") == 0) {
            char *text = read_text();
            double wall = now(), processor = own_processor();
            run(text);
            free(text);
            timed(word, wall, processor);
        } else if (strcmp(word, "register") == 0) {
            new_query();
        } else if (strcmp(word, "watch") == 0) {
            must(read_word(name), "a name");
            struct watched *watch = watch_of(name, strlen(name));
            must(watch != NULL, "no such query");
            logs[watch - watches].watched = 1;
            printf("{\"what\": \"watch\"");
        } else if (strcmp(word, "first") == 0 || strcmp(word, "all") == 0) {
            ask(word);
        } else if (strcmp(word, "save") == 0 || strcmp(word, "restore") == 0) {
            with_file(word);
        } else if (strcmp(word, "memory") == 0) {
            printf("{\"what\": \"memory\", \"bytes\": %lld", (long long)sqlite3_memory_used());
        } else {
            must(strcmp(word, "changes") == 0 || strcmp(word, "paced") == 0, word);
            make_changes(word);
        }
        printf("}\n");
        fflush(stdout);
    }
    return 0;
}
