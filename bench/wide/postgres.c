/* Drives PostgreSQL over TCP, and takes the time: one connection changes rows, another one hears what its triggers notify.
 *
 *     postgres POSTMASTER CONNECTION < SCRIPT
 *
 * POSTMASTER is the process of the server, whose processes' time is counted, CONNECTION the words to connect. The script's commands are those of
 * sqlite.c but `save` and `restore`; `register NAME TABLES TEXT` needs no tables here, `refresh NAME TEXT`
 * is a timed statement, and `memory` is what the tables take on the disk.
 * In `changes` many are on their way at once, each a transaction of its own.
 */

#include "wide.h"
#include <dirent.h>
#include <libpq-fe.h>
#include <poll.h>

#define STATEMENTS 32
#define WINDOW 512

struct statement {
    char kinds[MOST_VALUES + 1];
    int values;
};

static pid_t postmaster;
static PGconn *changer, *hearer;
static struct statement statements[STATEMENTS];
static int statement_count, heard_end;
static double last_at;

/* The processor time of the server's processes so far. */
static double server_processor(void) {
    double sum = processor_of(postmaster);
    DIR *folder = opendir("/proc");
    struct dirent *entry;
    must(folder != NULL, "no /proc");
    while ((entry = readdir(folder)) != NULL) {
        char path[300], line[512];
        int parent;
        if (entry->d_name[0] < '0' || entry->d_name[0] > '9') {
            continue;
        }
        snprintf(path, sizeof path, "/proc/%s/stat", entry->d_name);
        FILE *file = fopen(path, "r");
        if (file && fgets(line, sizeof line, file)) {
            char *behind = strrchr(line, ')');
            if (behind && sscanf(behind + 1, " %*c %d", &parent) == 1 && parent == postmaster) {
                sum += processor_of((pid_t)atoi(entry->d_name));
            }
        }
        if (file) {
            fclose(file);
        }
    }
    closedir(folder);
    return sum;
}

static void check(int holds, PGconn *connection) {
    if (!holds) {
        fprintf(stderr, "postgres: %s\n", PQerrorMessage(connection));
        exit(1);
    }
}

static void run(PGconn *connection, const char *sql) {
    PGresult *result = PQexec(connection, sql);
    ExecStatusType status = PQresultStatus(result);
    check(status == PGRES_COMMAND_OK || status == PGRES_TUPLES_OK, connection);
    PQclear(result);
}

/* What was notified so far. */
static void hear(void) {
    PGnotify *heard;
    check(PQconsumeInput(hearer), hearer);
    while ((heard = PQnotifies(hearer)) != NULL) {
        const char *text = heard->extra, *name = strchr(text, ' ');
        if (strcmp(text, "end") == 0) {
            heard_end = 1;
        } else if (text[0] == 'a') {
            struct watched *watch = watch_of(name + 1, strlen(name + 1));
            must(watch != NULL, "at of an unknown query");
            watch->ats++;
            last_at = now();
        } else {
            const char *values = strchr(name + 1, ' ');
            struct watched *watch = watch_of(name + 1, (size_t)(values - name - 1));
            must(watch != NULL, "a delta of an unknown query");
            told(watch, text[0] == '+', hash_end(hash_more(HASH_BEGIN, values + 1, strlen(values + 1))));
        }
        PQfreemem(heard);
    }
}

static void wait_for_both(int writing) {
    struct pollfd files[2] = {{PQsocket(changer), (short)(POLLIN | (writing ? POLLOUT : 0)), 0}, {PQsocket(hearer), POLLIN, 0}};
    must(poll(files, 2, 60000) > 0, "nothing came for 60 seconds");
}

/* All that was notified before is heard once this is. */
static void hear_all(void) {
    heard_end = 0;
    run(changer, "notify delta, 'end'");
    while (!heard_end) {
        struct pollfd file = {PQsocket(hearer), POLLIN, 0};
        must(poll(&file, 1, 60000) > 0, "nothing was notified for 60 seconds");
        hear();
    }
}

struct change {
    int statement;
    const char *values[MOST_VALUES];
};

/* Takes a line apart in its place. */
static struct change parsed(char *line) {
    struct change made;
    made.statement = (int)strtol(line, &line, 10);
    must(made.statement >= 0 && made.statement < statement_count, "no such statement");
    for (int at = 0; at < statements[made.statement].values; at++) {
        must(*line == '\t' || *line == 0, "too few values");
        made.values[at] = line + 1;
        line = strchr(line + 1, '\t') ? strchr(line + 1, '\t') : line + strlen(line + 1) + 1;
    }
    return made;
}

static void send_change(struct change *change) {
    char name[16];
    snprintf(name, sizeof name, "s%d", change->statement);
    check(PQsendQueryPrepared(changer, name, statements[change->statement].values, change->values, NULL, NULL, 0), changer);
    check(PQpipelineSync(changer), changer);
}

/* Takes the results that are there; how many changes these end. */
static size_t take_results(void) {
    size_t ended = 0;
    check(PQconsumeInput(changer), changer);
    while (!PQisBusy(changer)) {
        PGresult *result = PQgetResult(changer);
        if (result == NULL) {
            if (PQisBusy(changer) || PQpipelineStatus(changer) == PQ_PIPELINE_OFF) {
                break;
            }
            result = PQgetResult(changer);
            if (result == NULL) {
                break;
            }
        }
        ExecStatusType status = PQresultStatus(result);
        check(status == PGRES_COMMAND_OK || status == PGRES_PIPELINE_SYNC, changer);
        must(status != PGRES_COMMAND_OK || strcmp(PQcmdTuples(result), "1") == 0, "a change changes no row");
        ended += status == PGRES_PIPELINE_SYNC;
        PQclear(result);
    }
    return ended;
}

static void timed(const char *what, double wall, double processor, double client) {
    printf("{\"what\": \"%s\", \"wall\": %.6f, \"processor\": %.6f, \"client\": %.6f", what, now() - wall, server_processor() - processor,
           own_processor() - client);
}

static void make_many(struct change *changes, size_t count) {
    size_t sent = 0, ended = 0;
    check(PQenterPipelineMode(changer), changer);
    while (ended < count) {
        while (sent < count && sent < ended + WINDOW) {
            send_change(&changes[sent++]);
        }
        int left = PQflush(changer);
        wait_for_both(left > 0);
        ended += take_results();
        hear();
        pause_a_little();
    }
    check(PQexitPipelineMode(changer), changer);
    hear_all();
}

static uint64_t all_ats(void) {
    uint64_t sum = 0;
    for (int at = 0; at < watch_count; at++) {
        sum += watches[at].ats;
    }
    return sum;
}

static void make_paced(struct change *changes, size_t count, double *delays) {
    check(PQenterPipelineMode(changer), changer);
    for (size_t at = 0; at < count; at++) {
        uint64_t ats = all_ats();
        size_t ended = 0;
        double begin = now();
        send_change(&changes[at]);
        check(PQflush(changer) == 0, changer);
        while (ended == 0 || all_ats() == ats) {
            wait_for_both(0);
            ended += take_results();
            hear();
        }
        delays[at] = last_at - begin;
    }
    check(PQexitPipelineMode(changer), changer);
}

static void make_changes(const char *what) {
    char name[256];
    must(read_word(name), "a file");
    struct changes *file = changes_of(name);
    int paced = strcmp(what, "paced") == 0;
    size_t begin = paced ? 0 : (size_t)read_number(), count = (size_t)read_number();
    if (begin + count > file->change_count) {
        count = file->change_count - begin;
    }
    struct change *changes = malloc((count + 1) * sizeof *changes);
    double *delays = malloc((count + 1) * sizeof *delays);
    must(changes != NULL && delays != NULL, "memory");
    for (size_t at = 0; at < count; at++) {
        size_t line = file->changes[begin + at];
        char *bytes = file->bytes + file->lines[line], *end = file->bytes + file->lines[line + 1] - 1;
        *end = 0;
        changes[at] = parsed(bytes);
        for (char *tab = bytes; tab < end; tab++) {
            *tab = *tab == '\t' ? 0 : *tab;
        }
    }
    double wall = now(), processor = server_processor(), client = own_processor();
    if (paced) {
        make_paced(changes, count, delays);
    } else {
        make_many(changes, count);
    }
    timed(what, wall, processor, client);
    printf(", ");
    if (paced) {
        print_delays(delays, count);
    } else {
        printf("\"count\": %zu", count);
    }
    print_watches();
    free(changes);
    free(delays);
}

/* The hash of a row of a result. */
static uint64_t hash_of_row(PGresult *result, int row) {
    uint64_t hash = HASH_BEGIN;
    for (int at = 0; at < PQnfields(result); at++) {
        if (at) {
            hash = hash_more(hash, " ", 1);
        }
        hash = hash_more(hash, PQgetvalue(result, row, at), (size_t)PQgetlength(result, row, at));
    }
    return hash_end(hash);
}

static void ask(const char *word) {
    char name[256];
    must(read_word(name), "a name");
    long times = word[0] == 'f' ? read_number() : 1;
    char *sql = read_text();
    uint64_t rows = 0, sum = 0;
    double wall = now(), processor = server_processor(), client = own_processor();
    for (long at = 0; at < times; at++) {
        PGresult *result = PQexec(changer, sql);
        check(PQresultStatus(result) == PGRES_TUPLES_OK, changer);
        for (int row = 0; row < PQntuples(result); row++) {
            rows++;
            sum += hash_of_row(result, row);
        }
        PQclear(result);
    }
    timed(word, wall, processor, client);
    printf(", \"query\": \"%s\", \"times\": %ld, \"count\": %" PRIu64 ", \"sum\": \"%" PRIu64 "\"", name, times, rows, sum);
    free(sql);
}

/* What all tables take on the disk, with their indexes. */
static void memory(void) {
    PGresult *result = PQexec(changer, "select coalesce(sum(pg_total_relation_size(oid)), 0) from pg_class "
                                       "where relkind = 'r' and relnamespace = 'public'::regnamespace");
    check(PQresultStatus(result) == PGRES_TUPLES_OK, changer);
    printf("{\"what\": \"memory\", \"bytes\": %s", PQgetvalue(result, 0, 0));
    PQclear(result);
}

static void new_statement(void) {
    char table[NAME_BYTES], name[16];
    must(statement_count < STATEMENTS, "too many statements");
    struct statement *made = &statements[statement_count];
    must(scanf("%63s %16s", table, made->kinds) == 2, "a statement");
    made->values = (int)strlen(made->kinds);
    char *sql = read_text();
    snprintf(name, sizeof name, "s%d", statement_count++);
    PGresult *result = PQprepare(changer, name, sql, 0, NULL);
    check(PQresultStatus(result) == PGRES_COMMAND_OK, changer);
    PQclear(result);
    free(sql);
}

static void run_timed(const char *word) {
    char name[256] = "", tables[256];
    int named = strcmp(word, "say") != 0;
    must(!named || read_word(name), "a name");
    if (strcmp(word, "register") == 0) {
        must(read_word(tables) && strlen(name) < NAME_BYTES, "tables");
        watch_new(name);
    }
    char *text = read_text();
    double wall = now(), processor = server_processor(), client = own_processor();
    run(changer, text);
    timed(word, wall, processor, client);
    printf(", \"query\": \"%s\"", name);
    free(text);
}

int main(int count, char **words) {
    char word[256], name[256];
    must(count == 3, "usage: postgres POSTMASTER CONNECTION");
    postmaster = (pid_t)atoi(words[1]);
    changer = PQconnectdb(words[2]);
    hearer = PQconnectdb(words[2]);
    check(PQstatus(changer) == CONNECTION_OK, changer);
    check(PQstatus(hearer) == CONNECTION_OK, hearer);
    run(changer, "set client_min_messages = warning");
    run(hearer, "listen delta");
    PQsetnonblocking(changer, 0);
    while (read_word(word)) {
        if (strcmp(word, "statement") == 0) {
            new_statement();
            continue;
        } else if (strcmp(word, "watch") == 0) {
            must(read_word(name), "a name");
            printf("{\"what\": \"watch\"");
        } else if (strcmp(word, "memory") == 0) {
            memory();
        } else if (strcmp(word, "first") == 0 || strcmp(word, "all") == 0) {
            ask(word);
        } else if (strcmp(word, "changes") == 0 || strcmp(word, "paced") == 0) {
            make_changes(word);
        } else {
            must(strcmp(word, "say") == 0 || strcmp(word, "register") == 0 || strcmp(word, "refresh") == 0, word);
            run_timed(word);
        }
        printf("}\n");
        fflush(stdout);
    }
    PQfinish(changer);
    PQfinish(hearer);
    return 0;
}
