/* What the three drivers share: clocks, hashes of answers that don't depend on their order, a reader of scripts and of changes. */

#define _GNU_SOURCE
#include <errno.h>
#include <inttypes.h>
#include <stdint.h>
#include <stdio.h>
#include <stdlib.h>
#include <string.h>
#include <time.h>
#include <unistd.h>

#define NAMES 32
#define NAME_BYTES 64
#define MOST_VALUES 16

static void must(int holds, const char *what) {
    if (!holds) {
        fprintf(stderr, "%s\n", what);
        exit(1);
    }
}

static double clock_of(clockid_t clock) {
    struct timespec time;
    must(clock_gettime(clock, &time) == 0, "a clock can't be read");
    return (double)time.tv_sec + (double)time.tv_nsec / 1e9;
}

static double now(void) { return clock_of(CLOCK_MONOTONIC); }

static double own_processor(void) { return clock_of(CLOCK_PROCESS_CPUTIME_ID); }

/* The processor time of another process so far; 0 where it has ended. */
static double processor_of(pid_t process) {
    clockid_t clock;
    struct timespec time;
    if (clock_getcpuclockid(process, &clock) != 0 || clock_gettime(clock, &time) != 0) {
        return 0;
    }
    return (double)time.tv_sec + (double)time.tv_nsec / 1e9;
}

/* The memory of a process, in bytes, that isn't swapped out. */
static long memory_of(pid_t process) {
    char path[64], line[256];
    long kilobytes = 0;
    snprintf(path, sizeof path, "/proc/%d/status", (int)process);
    FILE *file = fopen(path, "r");
    must(file != NULL, "no such process");
    while (fgets(line, sizeof line, file)) {
        if (sscanf(line, "VmRSS: %ld", &kilobytes) == 1) {
            break;
        }
    }
    fclose(file);
    return kilobytes * 1024;
}

/* A hash of the bytes of an answer, its values with a space between and texts without quotes. */
#define HASH_BEGIN 14695981039346656037ULL

static uint64_t hash_more(uint64_t hash, const char *bytes, size_t size) {
    for (size_t at = 0; at < size; at++) {
        hash = (hash ^ (unsigned char)bytes[at]) * 1099511628211ULL;
    }
    return hash;
}

static uint64_t hash_end(uint64_t hash) {
    hash = (hash ^ (hash >> 32)) * 0x9E3779B97F4A7C15ULL;
    return hash ^ (hash >> 29);
}

/* A query that is watched: what its deltas add up to. */
struct watched {
    char name[NAME_BYTES];
    uint64_t sum, came, went, ats;
};

static struct watched watches[NAMES];
static int watch_count;

static struct watched *watch_of(const char *name, size_t size) {
    for (int at = 0; at < watch_count; at++) {
        if (strlen(watches[at].name) == size && memcmp(watches[at].name, name, size) == 0) {
            return &watches[at];
        }
    }
    return NULL;
}

static void watch_new(const char *name) {
    must(watch_count < NAMES, "too many queries");
    memset(&watches[watch_count], 0, sizeof watches[0]);
    strcpy(watches[watch_count++].name, name);
}

static void told(struct watched *watch, int came, uint64_t hash) {
    watch->sum += came ? hash : -hash;
    *(came ? &watch->came : &watch->went) += 1;
}

/* What the deltas add up to so far, of each query. */
static void print_watches(void) {
    printf(", \"deltas\": {");
    for (int at = 0; at < watch_count; at++) {
        printf("%s\"%s\": [\"%" PRIu64 "\", %" PRIu64 ", %" PRIu64 "]", at ? ", " : "", watches[at].name, watches[at].sum,
               watches[at].came, watches[at].went);
    }
    printf("}");
}

/* Changes: the lines of a file, each line one change or, with a space before it, more of the change above. */
struct changes {
    char name[256];
    char *bytes;
    size_t *lines, line_count;     /* where each line begins, and where the last ends */
    size_t *changes, change_count; /* the number of each change's first line, and of the last one's end */
};

static char *file_of(const char *name, size_t *size) {
    FILE *file = fopen(name, "rb");
    must(file != NULL, name);
    fseek(file, 0, SEEK_END);
    *size = (size_t)ftell(file);
    rewind(file);
    char *bytes = malloc(*size + 1);
    must(bytes != NULL && fread(bytes, 1, *size, file) == *size, "a file can't be read");
    bytes[*size] = 0;
    fclose(file);
    return bytes;
}

static struct changes *changes_of(const char *name) {
    static struct changes found[8];
    static int count;
    for (int at = 0; at < count; at++) {
        if (strcmp(found[at].name, name) == 0) {
            return &found[at];
        }
    }
    must(count < 8 && strlen(name) < sizeof found[0].name, "too many files");
    struct changes *made = &found[count++];
    size_t size;
    strcpy(made->name, name);
    made->bytes = file_of(name, &size);
    for (size_t at = 0; at < size; at++) {
        made->line_count += made->bytes[at] == '\n';
    }
    made->lines = malloc((made->line_count + 1) * sizeof *made->lines);
    made->changes = malloc((made->line_count + 1) * sizeof *made->changes);
    must(made->lines != NULL && made->changes != NULL, "memory");
    size_t line = 0, begin = 0;
    for (size_t at = 0; at < size; at++) {
        if (made->bytes[at] == '\n') {
            if (made->bytes[begin] != ' ') {
                made->changes[made->change_count++] = line;
            }
            made->lines[line++] = begin;
            begin = at + 1;
        }
    }
    made->lines[line] = begin;
    made->changes[made->change_count] = line;
    return made;
}

/* The words of a script. A text is its length and, behind a line end, its bytes. */
static int read_word(char *word) { return scanf("%255s", word) == 1; }

static long read_number(void) {
    long number;
    must(scanf("%ld", &number) == 1, "a number is missing");
    return number;
}

static char *read_text(void) {
    size_t size = (size_t)read_number();
    must(getchar() == '\n', "a text begins on a line of its own");
    char *text = malloc(size + 1);
    must(text != NULL && fread(text, 1, size, stdin) == size, "a text is cut");
    text[size] = 0;
    return text;
}

static int by_size(const void *one, const void *other) {
    double a = *(const double *)one, b = *(const double *)other;
    return (a > b) - (a < b);
}

/* The median and the 99th of a hundred of some delays. */
static void print_delays(double *delays, size_t count) {
    qsort(delays, count, sizeof *delays, by_size);
    printf("\"count\": %zu, \"median\": %.9f, \"p99\": %.9f", count, delays[count / 2], delays[count * 99 / 100]);
}

/* Waits a little, so that a reader that finds many replies at once costs nobody a call for each. */
static void pause_a_little(void) {
    struct timespec time = {0, 300000};
    nanosleep(&time, NULL);
}
