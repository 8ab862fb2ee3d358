/* A client of PostgreSQL that inserts integers, each by a transaction of its own, or asks for one of them, and takes the time.
 *
 *     postgres load CONNECTION CONNECTIONS WINDOW FIRST SECONDS
 *     postgres ask CONNECTION VALUE SECONDS LEAST MOST
 *
 * CONNECTION is what libpq connects by. What is inserted and asked, when, and what is printed, is as in lines.c: the statements are
 * prepared, and where WINDOW is more than one, libpq's pipeline mode sends the next ones before results are there.
 */

#include "common.h"
#include <libpq-fe.h>
#include <sys/epoll.h>

#define MOST_CONNECTIONS 256
#define CHANGE "insert into r values ($1)"
#define QUESTION "select 1 from r where x = $1"

struct connection {
    PGconn *to;
    long waiting;
    int writing; /* whether something is left to be sent */
};

static struct connection connections[MOST_CONNECTIONS];
static int connection_count;

static void check(int holds, PGconn *connection) {
    if (!holds) {
        fprintf(stderr, "postgres: %s\n", PQerrorMessage(connection));
        exit(1);
    }
}

static PGconn *connected(const char *words, const char *statement) {
    PGconn *made = PQconnectdb(words);
    check(PQstatus(made) == CONNECTION_OK, made);
    PGresult *result = PQprepare(made, "s", statement, 1, NULL);
    check(PQresultStatus(result) == PGRES_COMMAND_OK, made);
    PQclear(result);
    return made;
}

static void connect_all(const char *words, int count, int poller) {
    must(count <= MOST_CONNECTIONS, "too many connections");
    for (connection_count = 0; connection_count < count; connection_count++) {
        struct connection *made = &connections[connection_count];
        made->to = connected(words, CHANGE);
        check(PQsetnonblocking(made->to, 1) == 0 && PQenterPipelineMode(made->to), made->to);
        struct epoll_event event = {.events = EPOLLIN, .data.ptr = made};
        must(epoll_ctl(poller, EPOLL_CTL_ADD, PQsocket(made->to), &event) == 0, "no epoll");
    }
}

/* Sends changes until so many results are waited for. */
static void send_more(struct connection *one, long window, long *value) {
    if (one->waiting <= window / 2) {
        for (; one->waiting < window; one->waiting++) {
            char digits[24];
            const char *values[1] = {digits};
            snprintf(digits, sizeof digits, "%ld", (*value)++);
            check(PQsendQueryPrepared(one->to, "s", 1, values, NULL, NULL, 0) && PQpipelineSync(one->to), one->to);
        }
    }
}

/* Asks for the socket's readiness to write as long as something is left. */
static void flush(struct connection *one, int poller) {
    int left = PQflush(one->to);
    check(left >= 0, one->to);
    if (left != one->writing) {
        struct epoll_event event = {.events = EPOLLIN | (left ? EPOLLOUT : 0), .data.ptr = one};
        must(epoll_ctl(poller, EPOLL_CTL_MOD, PQsocket(one->to), &event) == 0, "no epoll");
        one->writing = left;
    }
}

/* Takes the results that are there; how many changes these end. */
static uint64_t take_results(struct connection *one) {
    uint64_t ended = 0;
    int nones = 0;
    check(PQconsumeInput(one->to), one->to);
    while (one->waiting > (long)ended && nones < 2 && !PQisBusy(one->to)) {
        PGresult *result = PQgetResult(one->to);
        nones = result == NULL ? nones + 1 : 0;
        if (result != NULL) {
            ExecStatusType status = PQresultStatus(result);
            check(status == PGRES_COMMAND_OK || status == PGRES_PIPELINE_SYNC, one->to);
            must(status != PGRES_COMMAND_OK || strcmp(PQcmdTuples(result), "1") == 0, "an insert changes no row");
            ended += status == PGRES_PIPELINE_SYNC;
            PQclear(result);
        }
    }
    one->waiting -= (long)ended;
    return ended;
}

static void load(const char *words, int count, long window, long value, double seconds) {
    int poller = epoll_create1(0), ends = 0;
    uint64_t sent_before = (uint64_t)value, taken = 0;
    struct epoll_event events[MOST_CONNECTIONS];
    connect_all(words, count, poller);
    await_begin();
    double begin = now();
    for (int at = 0; at < connection_count; at++) {
        send_more(&connections[at], window, &value);
        flush(&connections[at], poller);
    }
    while (taken < (uint64_t)value - sent_before) {
        int ready = epoll_wait(poller, events, MOST_CONNECTIONS, 60000);
        must(ready > 0, "no result for 60 seconds");
        ends = ends || now() - begin >= seconds || told_to_end(0);
        for (int at = 0; at < ready; at++) {
            struct connection *one = events[at].data.ptr;
            taken += take_results(one);
            send_more(one, ends ? 0 : window, &value);
            flush(one, poller);
        }
    }
    print_changes(taken, now() - begin);
}

static PGconn *asking;
static const char *asked[1];

static void ask_once(void) {
    PGresult *result = PQexecPrepared(asking, "s", 1, asked, NULL, NULL, 0);
    check(PQresultStatus(result) == PGRES_TUPLES_OK, asking);
    PQclear(result);
}

int main(int count, char **words) {
    must(count == 7, "postgres load CONNECTION CONNECTIONS WINDOW FIRST SECONDS | postgres ask CONNECTION VALUE SECONDS LEAST MOST");
    if (strcmp(words[1], "load") == 0) {
        load(words[2], atoi(words[3]), atol(words[4]), atol(words[5]), atof(words[6]));
    } else {
        asked[0] = words[3];
        asking = connected(words[2], QUESTION);
        await_begin();
        ask_often(ask_once, atof(words[4]), atol(words[5]), atof(words[6]));
    }
    return 0;
}
