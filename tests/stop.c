/* Stops a program at a write or a sync of a file: preloaded before it, it counts these calls, and ends the process in
 * the middle of a chosen one.
 *
 *     STOP_AT=N      the process ends at the Nth call of pwrite or fsync; 0 stops at none
 *     STOP_PART=K    of a write at which it ends, K quarters of the bytes are written before
 *     STOP_LOSES=S   of the writes since the last sync some are undone, which the seed S chooses; 0 undoes none
 *
 * What is undone stands for what a disk had not yet taken as the power went. The process ends with the status 99.
 */

#include <stdint.h>
#include <stdlib.h>
#include <sys/stat.h>
#include <sys/syscall.h>
#include <sys/types.h>
#include <unistd.h>

#define STATUS 99
#define MOST 4096

/* A write since the last sync: where, what stood there before, and how long the file was. */
struct written {
    int file;
    off_t at, length;
    size_t size;
    unsigned char *before;
};

static struct written writes[MOST];
static size_t unsynced;
static unsigned long calls;

static unsigned long number(const char *name)
{
    const char *text = getenv(name);
    return text ? strtoul(text, NULL, 10) : 0;
}

static ssize_t put(int file, const void *bytes, size_t size, off_t at)
{
    return syscall(SYS_pwrite64, file, bytes, size, at);
}

static void note(int file, size_t size, off_t at)
{
    struct stat found;
    if (unsynced == MOST || fstat(file, &found) != 0)
        abort();
    struct written *one = &writes[unsynced++];
    *one = (struct written){file, at, found.st_size, size, calloc(size, 1)};
    if (size > 0 && (one->before == NULL || syscall(SYS_pread64, file, one->before, size, at) < 0))
        abort();
}

static void lose(unsigned long seed)
{
    uint64_t draw = seed * 6364136223846793005u + 1442695040888963407u;
    off_t end = 0; /* of the writes that aren't undone */
    while (seed > 0 && unsynced > 0) {
        struct written *one = &writes[--unsynced];
        draw = draw * 6364136223846793005u + 1442695040888963407u;
        if (draw >> 63) {
            off_t its = one->at + (off_t)one->size;
            end = its > end ? its : end;
        } else if (put(one->file, one->before, one->size, one->at) < 0
                   || ftruncate(one->file, one->length > end ? one->length : end) != 0)
            abort();
    }
}

static int stops(void)
{
    unsigned long chosen = number("STOP_AT");
    return ++calls == chosen;
}

ssize_t pwrite64(int file, const void *bytes, size_t size, off_t at)
{
    int last = stops();
    size_t part = last ? size * number("STOP_PART") / 4 : size;
    note(file, part, at);
    ssize_t answer = put(file, bytes, part, at);
    if (last) {
        lose(number("STOP_LOSES"));
        _exit(STATUS);
    }
    return answer;
}

ssize_t pwrite(int file, const void *bytes, size_t size, off_t at)
{
    return pwrite64(file, bytes, size, at);
}

int fsync(int file)
{
    if (stops()) {
        lose(number("STOP_LOSES"));
        _exit(STATUS);
    }
    while (unsynced > 0)
        free(writes[--unsynced].before);
    return (int)syscall(SYS_fsync, file);
}
