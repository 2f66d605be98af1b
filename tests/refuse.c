/* Refuses one request for memory of the program that it is loaded into, by LD_PRELOAD, for
 * tests/test_memory.py.
 *
 * REFUSE_AT is the number of the request to refuse, from 1 (0, or none: no request is refused), and
 * REFUSE_NOTE a file to which it tells, in three numbers of 64 bits, how many requests there were,
 * how many of them were refused, and how many blocks are still out. What comes before the program's
 * own start is not counted. For glibc, whose functions it calls.
 */
#define _GNU_SOURCE
#include <errno.h>
#include <fcntl.h>
#include <stdint.h>
#include <stdlib.h>
#include <sys/mman.h>
#include <unistd.h>

extern void *__libc_malloc(size_t size);
extern void *__libc_calloc(size_t count, size_t size);
extern void *__libc_realloc(void *block, size_t size);
extern void *__libc_memalign(size_t alignment, size_t size);
extern void __libc_free(void *block);

struct note {
    uint64_t requests;
    uint64_t refused;
    uint64_t out;
};

static struct note *note;
static uint64_t refuse_at;

__attribute__((constructor)) static void begin(void)
{
    const char *path = getenv("REFUSE_NOTE");
    const char *number = getenv("REFUSE_AT");
    int file = path == NULL ? -1 : open(path, O_RDWR);
    void *mapped = MAP_FAILED;

    if (file >= 0) {
        mapped = mmap(NULL, sizeof *note, PROT_READ | PROT_WRITE, MAP_SHARED, file, 0);
        close(file);
    }
    if (mapped == MAP_FAILED)
        _exit(125);
    refuse_at = number == NULL ? 0 : strtoull(number, NULL, 10);
    note = mapped;
}

/* Counts a request, and says whether it is the one to refuse. */
static int is_refused(void)
{
    if (note == NULL || __atomic_add_fetch(&note->requests, 1, __ATOMIC_SEQ_CST) != refuse_at)
        return 0;
    __atomic_add_fetch(&note->refused, 1, __ATOMIC_SEQ_CST);
    errno = ENOMEM;
    return 1;
}

/* Counts a block that is given out. */
static void *given(void *block)
{
    if (note != NULL && block != NULL)
        __atomic_add_fetch(&note->out, 1, __ATOMIC_SEQ_CST);
    return block;
}

void *malloc(size_t size)
{
    return is_refused() ? NULL : given(__libc_malloc(size));
}

void *calloc(size_t count, size_t size)
{
    return is_refused() ? NULL : given(__libc_calloc(count, size));
}

void *memalign(size_t alignment, size_t size)
{
    return is_refused() ? NULL : given(__libc_memalign(alignment, size));
}

void *aligned_alloc(size_t alignment, size_t size)
{
    return memalign(alignment, size);
}

int posix_memalign(void **block, size_t alignment, size_t size)
{
    void *got = memalign(alignment, size);

    if (got == NULL)
        return ENOMEM;
    *block = got;
    return 0;
}

void free(void *block)
{
    if (note != NULL && block != NULL)
        __atomic_sub_fetch(&note->out, 1, __ATOMIC_SEQ_CST);
    __libc_free(block);
}

void *realloc(void *block, size_t size)
{
    if (block == NULL)
        return malloc(size);
    if (size == 0) {
        free(block);
        return NULL;
    }
    return is_refused() ? NULL : __libc_realloc(block, size);
}
