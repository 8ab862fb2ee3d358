/* What the two drivers share: a clock, the delays of questions and their line of figures, and a wait for the end of standard input. */

#define _GNU_SOURCE
#include <errno.h>
#include <poll.h>
#include <stdint.h>
#include <stdio.h>
#include <stdlib.h>
#include <string.h>
#include <time.h>
#include <unistd.h>

#define MOST_DELAYS 1000000
#define PAUSE_MS 1

static void must(int holds, const char *what) {
    if (!holds) {
        fprintf(stderr, "%s\n", what);
        exit(1);
    }
}

static double now(void) {
    struct timespec time;
    must(clock_gettime(CLOCK_MONOTONIC, &time) == 0, "the clock can't be read");
    return (double)time.tv_sec + (double)time.tv_nsec / 1e9;
}

/* Says that all is connected, and waits for a line that begins the work. */
static void await_begin(void) {
    char byte;
    printf("ready\n");
    fflush(stdout);
    must(read(STDIN_FILENO, &byte, 1) == 1, "nobody begins");
}

/* Whether standard input has ended, waiting for it so many milliseconds. */
static int told_to_end(int milliseconds) {
    struct pollfd file = {STDIN_FILENO, POLLIN, 0};
    return poll(&file, 1, milliseconds) > 0;
}

static void print_changes(uint64_t changes, double seconds) { printf("{\"changes\": %lu, \"seconds\": %.6f}\n", changes, seconds); }

static int by_size(const void *left, const void *right) {
    double a = *(const double *)left, b = *(const double *)right;
    return (a > b) - (a < b);
}

/* Asks again and again, a millisecond after each answer: until standard input ends, or so many seconds have passed with that many
 * answers, and in no case longer than MOST seconds. */
static void ask_often(void (*ask)(void), double seconds, long least, double most) {
    static double delays[MOST_DELAYS];
    long count = 0;
    double begin = now(), last = begin;
    do {
        double asked = now();
        ask();
        last = now();
        delays[count++] = last - asked;
    } while (count < MOST_DELAYS && !told_to_end(PAUSE_MS) && last - begin < most && (last - begin < seconds || count < least));
    qsort(delays, (size_t)count, sizeof delays[0], by_size);
    printf("{\"questions\": %ld, \"median\": %.9f, \"p99\": %.9f, \"most\": %.9f}\n", count, delays[count / 2], delays[count * 99 / 100],
           delays[count - 1]);
}
