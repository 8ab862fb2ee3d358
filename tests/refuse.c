/* Refuses growths of memory: preloaded before a program, it answers chosen calls that ask for memory with none.
 *
 *     REFUSE_FROM=N    the Nth call from the start of `main` on is refused; 0 refuses none
 *     REFUSE_MANY=1    every later one too
 *     REFUSE_COUNT=F   in the file F, of two numbers of 8 bytes, stand how many calls were met and how many refused
 *
 * A call that asks for no more than is held already is counted too, since the program can't know that.
 */

#include <errno.h>
#include <fcntl.h>
#include <stddef.h>
#include <stdlib.h>
#include <sys/mman.h>
#include <unistd.h>

extern void *__libc_malloc(size_t);
extern void *__libc_calloc(size_t, size_t);
extern void *__libc_realloc(void *, size_t);
extern void *__libc_memalign(size_t, size_t);

static unsigned long unseen[2];
static unsigned long *counts = unseen;
static unsigned long from;
static int many, counting;

/* The C library's own start is over once this runs, and `main` comes next. */
__attribute__((constructor)) static void begin(void)
{
    const char *number = getenv("REFUSE_FROM"), *path = getenv("REFUSE_COUNT");
    from = number ? strtoul(number, NULL, 10) : 0;
    many = getenv("REFUSE_MANY") != NULL;
    int file = path ? open(path, O_RDWR) : -1;
    if (file >= 0) {
        void *shared = mmap(NULL, sizeof unseen, PROT_READ | PROT_WRITE, MAP_SHARED, file, 0);
        if (shared != MAP_FAILED)
            counts = shared;
        close(file);
    }
    counting = 1;
}

static int refused(void)
{
    if (!counting)
        return 0;
    counts[0]++;
    if (from == 0 || counts[0] < from || (counts[0] > from && !many))
        return 0;
    counts[1]++;
    errno = ENOMEM;
    return 1;
}

void *malloc(size_t size)
{
    return refused() ? NULL : __libc_malloc(size);
}

void *calloc(size_t number, size_t size)
{
    return refused() ? NULL : __libc_calloc(number, size);
}

void *realloc(void *place, size_t size)
{
    return refused() ? NULL : __libc_realloc(place, size);
}

void *memalign(size_t alignment, size_t size)
{
    return refused() ? NULL : __libc_memalign(alignment, size);
}

void *aligned_alloc(size_t alignment, size_t size)
{
    return refused() ? NULL : __libc_memalign(alignment, size);
}

int posix_memalign(void **place, size_t alignment, size_t size)
{
    if (refused())
        return ENOMEM;
    void *found = __libc_memalign(alignment, size);
    if (!found)
        return ENOMEM;
    *place = found;
    return 0;
}
