/* Drives djq, or a program for a part of its protocol, by `run` over a pipe or by `serve` over TCP, and takes the time.
 *
 *     djq run|tcp PROGRAM [WORD ..] < SCRIPT
 *
 * The script's commands, each answered by a line of JSON:
 *
 *     say TEXT                 lines that aren't timed, each reply awaited
 *     changes FILE BEGIN N     N changes of a file, many on their way at once
 *     paced FILE N             N changes, each once the delta of the one before is there
 *     register NAME TEXT       a line that registers a query
 *     watch NAME               the watcher watches the query from now on
 *     first NAME TIMES         its first ten answers
 *     all NAME                 all its answers
 *     memory                   the memory of the program
 *
 * By TCP one session changes rows and another one watches and lists. Processor time is the program's, `client` is this driver's.
 */

#include "wide.h"
#include <fcntl.h>
#include <netinet/in.h>
#include <netinet/tcp.h>
#include <poll.h>
#include <signal.h>
#include <sys/socket.h>
#include <sys/wait.h>

#define WINDOW 1024           /* lines on their way at most */
#define READ_BYTES (1u << 20)
#define PAGES 32              /* lines `next` on their way at once */

struct session {
    int in, out;
    char *bytes;
    size_t have, room;
    uint64_t replies, ends;   /* of the replies, how many were `end` */
};

static pid_t program;
static struct session changer, other;
static struct session *watcher = &changer;
static uint64_t listed, listed_sum;
static double last_at;

/* The hash of an answer's values as djq prints them, the quotes left out. */
static uint64_t hash_of_values(const char *bytes, size_t size) {
    uint64_t hash = HASH_BEGIN;
    for (size_t at = 0; at < size; at++) {
        if (bytes[at] != '"') {
            hash = (hash ^ (unsigned char)bytes[at]) * 1099511628211ULL;
        }
    }
    return hash_end(hash);
}

static void take_line(struct session *session, const char *line, size_t size) {
    if (size > 2 && (line[0] == '+' || line[0] == '-') && line[1] == ' ') {
        const char *name = line + 2, *end = memchr(name, ' ', size - 2);
        must(end != NULL, "a delta without values");
        struct watched *watch = watch_of(name, (size_t)(end - name));
        must(watch != NULL, "a delta of a query that isn't watched");
        told(watch, line[0] == '+', hash_of_values(end + 1, (size_t)(line + size - end - 1)));
    } else if (size > 3 && memcmp(line, "at ", 3) == 0) {
        const char *end = memchr(line + 3, ' ', size - 3);
        struct watched *watch = end ? watch_of(line + 3, (size_t)(end - line - 3)) : NULL;
        must(watch != NULL, "at of a query that isn't watched");
        watch->ats++;
        last_at = now();
    } else if (size > 2 && line[0] == '=' && line[1] == ' ') {
        listed++;
        listed_sum += hash_of_values(line + 2, size - 2);
    } else {
        session->replies++;
        session->ends += size == 3 && memcmp(line, "end", 3) == 0;
        if ((size >= 2 && memcmp(line, "ok", 2) == 0 && !(size > 5 && memcmp(line, "ok abs", 6) == 0)) ||
            (size == 4 && memcmp(line, "more", 4) == 0) || (size == 3 && memcmp(line, "end", 3) == 0)) {
            return;
        }
        fprintf(stderr, "not expected: %.*s\n", (int)size, line);
        exit(1);
    }
}

/* Takes what has come to a session; whether there was anything. */
static int take(struct session *session) {
    if (session->room - session->have < READ_BYTES) {
        session->room = session->have + 2 * READ_BYTES;
        session->bytes = realloc(session->bytes, session->room);
        must(session->bytes != NULL, "memory");
    }
    ssize_t size = read(session->out, session->bytes + session->have, session->room - session->have);
    if (size < 0 && (errno == EAGAIN || errno == EINTR)) {
        return 0;
    }
    must(size > 0, "the program has ended");
    session->have += (size_t)size;
    char *line = session->bytes, *end;
    while ((end = memchr(line, '\n', (size_t)(session->bytes + session->have - line))) != NULL) {
        take_line(session, line, (size_t)(end - line));
        line = end + 1;
    }
    session->have -= (size_t)(line - session->bytes);
    memmove(session->bytes, line, session->have);
    return 1;
}

static void wait_for(int writing, struct session *session) {
    struct pollfd files[3] = {{changer.out, POLLIN, 0}, {writing ? session->in : -1, POLLOUT, 0}, {watcher == &other ? other.out : -1, POLLIN, 0}};
    must(poll(files, 3, 30000) > 0, "nothing came for 30 seconds");
}

/* Takes until a session has had so many replies. */
static void take_replies(struct session *session, uint64_t replies, int gently) {
    while (session->replies < replies) {
        if (gently) {
            pause_a_little();
        }
        wait_for(0, session);
        take(&changer);
        if (watcher == &other) {
            take(&other);
        }
    }
}

static size_t send_some(struct session *session, const char *bytes, size_t size) {
    ssize_t sent = write(session->in, bytes, size);
    if (sent < 0) {
        must(errno == EAGAIN || errno == EINTR, "the program takes nothing");
        return 0;
    }
    return (size_t)sent;
}

static void send_all(struct session *session, const char *bytes, size_t size) {
    while (size > 0) {
        size_t sent = send_some(session, bytes, size);
        if (sent == 0) {
            wait_for(1, session);
            take(&changer);
            if (watcher == &other) {
                take(&other);
            }
        }
        bytes += sent;
        size -= sent;
    }
}

/* A line, and its reply. */
static void ask(struct session *session, const char *line) {
    uint64_t wanted = session->replies + 1;
    send_all(session, line, strlen(line));
    take_replies(session, wanted, 0);
}

/* All deltas are there once the watcher's own line is answered. */
static void await_deltas(void) {
    char line[NAME_BYTES + 16];
    if (watcher == &other && watch_count > 0) {
        snprintf(line, sizeof line, "watch %s\n", watches[0].name);
        ask(&other, line);
    }
}

static void send_changes(struct changes *changes, size_t begin, size_t count) {
    size_t line = changes->changes[begin], last = changes->changes[begin + count], at = changes->lines[line];
    uint64_t before = changer.replies, wanted = before + (last - line);
    size_t first = line;
    while (changer.replies < wanted) {
        size_t ahead = first + (size_t)(changer.replies - before) + WINDOW, most = changes->lines[ahead < last ? ahead : last];
        int sent = 0;
        if (at < most) {
            size_t some = send_some(&changer, changes->bytes + at, most - at);
            at += some;
            sent = some > 0;
        }
        int came = take(&changer);
        if (watcher == &other) {
            came |= take(&other);
        }
        if (!sent && !came) {
            wait_for(at < most, &changer);
        }
        pause_a_little();
    }
    await_deltas();
}

static void timed(const char *what, double wall, double processor, double client) {
    printf("{\"what\": \"%s\", \"wall\": %.6f, \"processor\": %.6f, \"client\": %.6f", what, now() - wall,
           processor_of(program) - processor, own_processor() - client);
}

static void make_changes(void) {
    char name[256];
    must(read_word(name), "a file");
    struct changes *changes = changes_of(name);
    size_t begin = (size_t)read_number(), count = (size_t)read_number();
    if (begin + count > changes->change_count) {
        count = changes->change_count - begin;
    }
    double wall = now(), processor = processor_of(program), client = own_processor();
    send_changes(changes, begin, count);
    timed("changes", wall, processor, client);
    printf(", \"count\": %zu, \"lines\": %zu", count, changes->changes[begin + count] - changes->changes[begin]);
    print_watches();
    printf("}\n");
}

static uint64_t all_ats(void) {
    uint64_t sum = 0;
    for (int at = 0; at < watch_count; at++) {
        sum += watches[at].ats;
    }
    return sum;
}

static void make_paced(void) {
    char name[256];
    must(read_word(name), "a file");
    struct changes *changes = changes_of(name);
    size_t count = (size_t)read_number();
    double *delays = malloc((count + 1) * sizeof *delays);
    double wall = now(), processor = processor_of(program), client = own_processor();
    for (size_t at = 0; at < count; at++) {
        uint64_t ats = all_ats(), replies = changer.replies;
        double begin = now();
        send_all(&changer, changes->bytes + changes->lines[at], changes->lines[at + 1] - changes->lines[at]);
        while (all_ats() == ats || changer.replies == replies) {
            wait_for(0, &changer);
            take(&changer);
            if (watcher == &other) {
                take(&other);
            }
        }
        delays[at] = last_at - begin;
    }
    timed("paced", wall, processor, client);
    printf(", ");
    print_delays(delays, count);
    print_watches();
    printf("}\n");
    free(delays);
}

static void say(char *text) {
    for (char *line = strtok(text, "\n"); line; line = strtok(NULL, "\n")) {
        char with_end[4200];
        snprintf(with_end, sizeof with_end, "%s\n", line);
        ask(&changer, with_end);
    }
}

/* Lists through a cursor: pages of so many answers, or the first page alone. */
static void list(const char *name, int page, int whole) {
    char line[NAME_BYTES + 64], pages[64 * PAGES] = "";
    snprintf(line, sizeof line, "open c %s\n", name);
    ask(watcher, line);
    listed = listed_sum = 0;
    snprintf(line, sizeof line, "next c %d\n", page);
    if (!whole) {
        ask(watcher, line);
    } else {
        for (int at = 0; at < PAGES; at++) {
            strcat(pages, line);
        }
        uint64_t ends = watcher->ends;
        while (watcher->ends == ends) {
            uint64_t wanted = watcher->replies + PAGES;
            send_all(watcher, pages, strlen(pages));
            take_replies(watcher, wanted, 1);
        }
    }
    ask(watcher, "close c\n");
}

static void start(char **words, int tcp) {
    int down[2], up[2], said[2];
    must(pipe(down) == 0 && pipe(up) == 0 && pipe(said) == 0, "no pipe");
    program = fork();
    must(program >= 0, "no process");
    if (program == 0) {
        dup2(down[0], 0);
        dup2(up[1], 1);
        if (tcp) {
            dup2(said[1], 2);
        }
        for (int at = 3; at < 64; at++) {
            close(at);
        }
        execv(words[0], words);
        _exit(127);
    }
    close(down[0]);
    close(up[1]);
    close(said[1]);
    if (!tcp) {
        changer.in = down[1];
        changer.out = up[0];
        fcntl(changer.in, F_SETPIPE_SZ, 1 << 20);
        fcntl(changer.out, F_SETPIPE_SZ, 1 << 20);
    } else {
        char line[256] = "", *colon;
        size_t have = 0;
        while (have < sizeof line - 1 && !strchr(line, '\n')) {
            ssize_t size = read(said[0], line + have, 1);
            must(size == 1, "the server doesn't say where it listens");
            line[++have] = 0;
        }
        must((colon = strrchr(line, ':')) != NULL, line);
        struct sockaddr_in address = {.sin_family = AF_INET, .sin_port = htons((uint16_t)atoi(colon + 1)), .sin_addr = {htonl(INADDR_LOOPBACK)}};
        struct session *sessions[2] = {&changer, &other};
        for (int at = 0; at < 2; at++) {
            int file = socket(AF_INET, SOCK_STREAM, 0), one = 1;
            must(file >= 0 && connect(file, (struct sockaddr *)&address, sizeof address) == 0, "no connection");
            setsockopt(file, IPPROTO_TCP, TCP_NODELAY, &one, sizeof one);
            sessions[at]->in = sessions[at]->out = file;
        }
        fcntl(other.out, F_SETFL, O_NONBLOCK);
        watcher = &other;
    }
    fcntl(changer.in, F_SETFL, O_NONBLOCK);
    fcntl(changer.out, F_SETFL, O_NONBLOCK);
}

static void run_command(const char *word) {
    char name[256], line[NAME_BYTES + 16];
    double wall = now(), processor = processor_of(program), client = own_processor();
    if (strcmp(word, "say") == 0) {
        say(read_text());
        timed("say", wall, processor, client);
    } else if (strcmp(word, "register") == 0) {
        must(read_word(name), "a name");
        char *text = read_text();
        wall = now();
        say(text);
        timed("register", wall, processor, client);
        printf(", \"query\": \"%s\"", name);
    } else if (strcmp(word, "watch") == 0) {
        must(read_word(name), "a name");
        watch_new(name);
        snprintf(line, sizeof line, "watch %s\n", name);
        ask(watcher, line);
        timed("watch", wall, processor, client);
    } else if (strcmp(word, "first") == 0) {
        must(read_word(name), "a name");
        long times = read_number();
        for (long at = 0; at < times; at++) {
            list(name, 10, 0);
        }
        timed("first", wall, processor, client);
        printf(", \"query\": \"%s\", \"times\": %ld", name, times);
    } else if (strcmp(word, "all") == 0) {
        must(read_word(name), "a name");
        wall = now();
        list(name, 1000, 1);
        timed("all", wall, processor, client);
        printf(", \"query\": \"%s\", \"count\": %" PRIu64 ", \"sum\": \"%" PRIu64 "\"", name, listed, listed_sum);
    } else {
        must(strcmp(word, "memory") == 0, word);
        printf("{\"what\": \"memory\", \"bytes\": %ld", memory_of(program));
    }
    printf("}\n");
}

int main(int count, char **words) {
    char word[256];
    must(count > 2, "usage: djq run|tcp PROGRAM [WORD ..]");
    signal(SIGPIPE, SIG_IGN);
    start(words + 2, strcmp(words[1], "tcp") == 0);
    while (read_word(word)) {
        if (strcmp(word, "changes") == 0) {
            make_changes();
        } else if (strcmp(word, "paced") == 0) {
            make_paced();
        } else {
            run_command(word);
        }
        fflush(stdout);
    }
    kill(program, SIGTERM);
    waitpid(program, NULL, 0);
    return 0;
}
