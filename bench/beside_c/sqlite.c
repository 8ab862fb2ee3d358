/* Gives SQLite in memory the changes and questions that it reads, without Python between, and tells how long they took.
 *
 * On the standard input stand, one after another:
 *
 *     script N         and N bytes of SQL, which are run
 *     statement N      and N bytes of SQL: a statement of two numbers, which is prepared; the first one is 0
 *     changes N        and N lines `S X Y`: statement S is run with X and Y. Then all of the table `log` is read
 *     query TIMES N    and N bytes of SQL, which is asked so often, each time to its end
 *
 * For the last two it writes a line: how many nanoseconds that took, how many rows were read, and the sum of their numbers.
 */

#include <sqlite3.h>
#include <stdint.h>
#include <stdio.h>
#include <stdlib.h>
#include <time.h>

#define STATEMENTS 16
#define WORDS 32

struct change {
    int statement;
    long long x, y;
};

static sqlite3 *base;

static void must(int holds, const char *what) {
    if (!holds) {
        fprintf(stderr, "sqlite: %s: %s\n", what, base ? sqlite3_errmsg(base) : "");
        exit(1);
    }
}

static int64_t now(void) {
    struct timespec time;
    clock_gettime(CLOCK_MONOTONIC, &time);
    return (int64_t)time.tv_sec * 1000000000 + time.tv_nsec;
}

/* So many bytes of the input, and a zero behind them. */
static char *text_of(size_t size) {
    char *text = malloc(size + 1);
    must(text != NULL && fread(text, 1, size, stdin) == size, "the input ends");
    text[size] = 0;
    return text;
}

static sqlite3_stmt *prepared(const char *sql) {
    sqlite3_stmt *statement;
    must(sqlite3_prepare_v2(base, sql, -1, &statement, NULL) == SQLITE_OK, "prepare");
    return statement;
}

/* Reads all rows of a statement, and adds up their numbers. */
static int64_t rows_of(sqlite3_stmt *statement, int64_t *sum) {
    int64_t rows = 0;
    int columns = sqlite3_column_count(statement), answer;
    while ((answer = sqlite3_step(statement)) == SQLITE_ROW) {
        rows++;
        for (int at = 0; at < columns; at++) {
            *sum += sqlite3_column_int64(statement, at);
        }
    }
    must(answer == SQLITE_DONE, "step");
    sqlite3_reset(statement);
    return rows;
}

static void make_changes(sqlite3_stmt **statements, size_t count) {
    struct change *changes = malloc((count + 1) * sizeof *changes);
    must(changes != NULL, "memory");
    for (size_t at = 0; at < count; at++) {
        struct change *one = &changes[at];
        must(scanf("%d %lld %lld", &one->statement, &one->x, &one->y) == 3, "a change");
    }
    must(sqlite3_exec(base, "delete from log", NULL, NULL, NULL) == SQLITE_OK, "log");
    sqlite3_stmt *log = prepared("select * from log order by rowid");
    int64_t begin = now(), sum = 0;
    for (size_t at = 0; at < count; at++) {
        sqlite3_stmt *statement = statements[changes[at].statement];
        sqlite3_bind_int64(statement, 1, changes[at].x);
        sqlite3_bind_int64(statement, 2, changes[at].y);
        must(sqlite3_step(statement) == SQLITE_DONE, "a change");
        sqlite3_reset(statement);
    }
    int64_t rows = rows_of(log, &sum);
    printf("%lld %lld %lld\n", (long long)(now() - begin), (long long)rows, (long long)sum);
    sqlite3_finalize(log);
    free(changes);
}

static void ask(const char *sql, int times) {
    int64_t begin = now(), rows = 0, sum = 0;
    for (int at = 0; at < times; at++) {
        sqlite3_stmt *statement = prepared(sql);
        rows += rows_of(statement, &sum);
        sqlite3_finalize(statement);
    }
    printf("%lld %lld %lld\n", (long long)(now() - begin), (long long)rows, (long long)sum);
}

int main(void) {
    sqlite3_stmt *statements[STATEMENTS];
    int made = 0, times;
    size_t size;
    char word[WORDS];
    must(sqlite3_open(":memory:", &base) == SQLITE_OK, "open");
    while (scanf("%31s", word) == 1) {
        if (word[0] == 'q') {
            must(scanf("%d %zu", &times, &size) == 2 && getchar() == '\n', "query");
            ask(text_of(size), times);
            continue;
        }
        must(scanf("%zu", &size) == 1 && getchar() == '\n', word);
        if (word[0] == 'c') {
            make_changes(statements, size);
        } else if (word[1] == 'c') {
            must(sqlite3_exec(base, text_of(size), NULL, NULL, NULL) == SQLITE_OK, "script");
        } else {
            must(made < STATEMENTS, "statements");
            statements[made++] = prepared(text_of(size));
        }
    }
    return 0;
}
