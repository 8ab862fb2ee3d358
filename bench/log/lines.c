/* A client of djq or of Redis over loopback that inserts integers or asks for one of them, and takes the time.
 *
 *     lines load SIDE PORT CONNECTIONS WINDOW FIRST SECONDS
 *     lines ask SIDE PORT VALUE SECONDS LEAST MOST
 *
 * SIDE is `djq` or `redis`. `load` inserts FIRST, FIRST + 1 and so on over CONNECTIONS, each with up to WINDOW lines whose replies it
 * waits for; it sends more once half of them are there. It ends after SECONDS, or earlier with standard input. `ask` asks for VALUE
 * as common.h says. Both print `ready`, begin with a line of standard input, and print their figures as one line of JSON.
 */

#include "common.h"
#include <arpa/inet.h>
#include <fcntl.h>
#include <netinet/in.h>
#include <netinet/tcp.h>
#include <sys/epoll.h>
#include <sys/socket.h>

#define MOST_CONNECTIONS 256
#define LINE_BYTES 96
#define PIECE 65536

struct side {
    const char *name, *change, *question;
    char changed; /* the first byte of the reply to a change */
};

static const struct side sides[] = {
    {"djq", "add r %s\n", "has q %s\n", 'o'},
    {"redis", "*3\r\n$4\r\nSADD\r\n$1\r\nr\r\n$%zu\r\n%s\r\n", "*3\r\n$9\r\nSISMEMBER\r\n$1\r\nr\r\n$%zu\r\n%s\r\n", ':'},
};
static const struct side *side;

struct connection {
    int socket;
    char *out;
    size_t out_begin, out_end, out_size;
    long waiting;
    int within; /* whether a reply has begun */
};

static struct connection connections[MOST_CONNECTIONS];
static int connection_count;

static size_t spell(char *place, const char *form, long value) {
    char digits[24];
    size_t length = (size_t)snprintf(digits, sizeof digits, "%ld", value);
    if (side == &sides[0]) {
        return (size_t)snprintf(place, LINE_BYTES, form, digits);
    }
    return (size_t)snprintf(place, LINE_BYTES, form, length, digits);
}

static int connected(int port) {
    struct sockaddr_in address = {.sin_family = AF_INET, .sin_port = htons((uint16_t)port), .sin_addr.s_addr = htonl(INADDR_LOOPBACK)};
    int made = socket(AF_INET, SOCK_STREAM, 0), one = 1;
    must(made >= 0 && connect(made, (struct sockaddr *)&address, sizeof address) == 0, "no connection");
    must(setsockopt(made, IPPROTO_TCP, TCP_NODELAY, &one, sizeof one) == 0, "no TCP_NODELAY");
    return made;
}

/* Makes lines until so many replies are waited for, and sends what the socket takes. */
static void send_more(struct connection *to, long window, long *value) {
    if (to->waiting <= window / 2) {
        memmove(to->out, to->out + to->out_begin, to->out_end - to->out_begin);
        to->out_end -= to->out_begin;
        to->out_begin = 0;
        for (; to->waiting < window && to->out_size - to->out_end >= LINE_BYTES; to->waiting++) {
            to->out_end += spell(to->out + to->out_end, side->change, (*value)++);
        }
    }
    while (to->out_begin < to->out_end) {
        ssize_t sent = send(to->socket, to->out + to->out_begin, to->out_end - to->out_begin, MSG_NOSIGNAL);
        if (sent < 0 && errno == EAGAIN) {
            return;
        }
        must(sent > 0, "the server has ended");
        to->out_begin += (size_t)sent;
    }
}

/* Takes all replies that are there; how many these are. */
static uint64_t take_replies(struct connection *from) {
    char piece[PIECE];
    uint64_t taken = 0;
    ssize_t size;
    while ((size = recv(from->socket, piece, sizeof piece, 0)) > 0) {
        for (ssize_t at = 0; at < size; at++) {
            must(from->within || piece[at] == side->changed, "a change was refused");
            from->within = piece[at] != '\n';
            taken += piece[at] == '\n';
        }
    }
    must(size < 0 && errno == EAGAIN, "the server has closed a connection");
    from->waiting -= (long)taken;
    return taken;
}

static void connect_all(int port, int count, long window, int poller) {
    must(count <= MOST_CONNECTIONS, "too many connections");
    for (connection_count = 0; connection_count < count; connection_count++) {
        struct connection *made = &connections[connection_count];
        made->socket = connected(port);
        must(fcntl(made->socket, F_SETFL, O_NONBLOCK) == 0, "a socket blocks");
        made->out_size = (size_t)(window + 1) * LINE_BYTES;
        made->out = malloc(made->out_size);
        struct epoll_event event = {.events = EPOLLIN | EPOLLOUT | EPOLLET, .data.ptr = made};
        must(made->out != NULL && epoll_ctl(poller, EPOLL_CTL_ADD, made->socket, &event) == 0, "no memory");
    }
}

static void load(int port, int count, long window, long value, double seconds) {
    int poller = epoll_create1(0), ends = 0;
    uint64_t sent_before = (uint64_t)value, taken = 0;
    struct epoll_event events[MOST_CONNECTIONS];
    connect_all(port, count, window, poller);
    await_begin();
    double begin = now();
    for (int at = 0; at < connection_count; at++) {
        send_more(&connections[at], window, &value);
    }
    while (taken < (uint64_t)value - sent_before) {
        int ready = epoll_wait(poller, events, MOST_CONNECTIONS, 60000);
        must(ready > 0, "no reply for 60 seconds");
        ends = ends || now() - begin >= seconds || told_to_end(0);
        for (int at = 0; at < ready; at++) {
            struct connection *one = events[at].data.ptr;
            taken += take_replies(one);
            send_more(one, ends ? 0 : window, &value);
        }
    }
    print_changes(taken, now() - begin);
}

static char question[LINE_BYTES];
static size_t question_size;
static int asking;

static void ask_once(void) {
    char answer[64];
    must(send(asking, question, question_size, MSG_NOSIGNAL) == (ssize_t)question_size, "the server has ended");
    ssize_t size = recv(asking, answer, sizeof answer, 0);
    must(size > 0 && answer[size - 1] == '\n' && (answer[0] == ':' || answer[0] == 'y' || answer[0] == 'n'), "no answer");
}

int main(int count, char **words) {
    must(count == 8, "lines load SIDE PORT CONNECTIONS WINDOW FIRST SECONDS | lines ask SIDE PORT VALUE SECONDS LEAST MOST");
    side = strcmp(words[2], "djq") == 0 ? &sides[0] : &sides[1];
    int port = atoi(words[3]);
    if (strcmp(words[1], "load") == 0) {
        load(port, atoi(words[4]), atol(words[5]), atol(words[6]), atof(words[7]));
    } else {
        question_size = spell(question, side->question, atol(words[4]));
        asking = connected(port);
        await_begin();
        ask_often(ask_once, atof(words[5]), atol(words[6]), atof(words[7]));
    }
    return 0;
}
