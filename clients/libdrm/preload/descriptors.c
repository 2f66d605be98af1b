/* The functions of the C library on descriptors of nodes, which are packet sockets, and on PRIME
 * descriptors. All others are the kernel's own: what can be read is events. */
#include "libc.h"

#include "preload.h"

#include <drm.h>
#include <errno.h>
#include <linux/dma-buf.h>
#include <linux/sync_file.h>
#include <stdarg.h>
#include <sys/ioctl.h>
#include <sys/mman.h>
#include <sys/syscall.h>
#include <sys/uio.h>
#include <unistd.h>

SHOWN int ioctl(int fd, unsigned long request, ...)
{
    enum node node;
    void *argument;
    va_list list;

    va_start(list, request);
    argument = va_arg(list, void *);
    va_end(list);
    if (_IOC_TYPE(request) == DRM_IOCTL_BASE && is_node(fd, &node))
        return result_of(ask_ioctl(fd, (uint32_t)request, (uintptr_t)argument));
    if (_IOC_TYPE(request) == DMA_BUF_BASE && is_memory(fd))
        return result_of(ask_of_memory((uint32_t)request, (uintptr_t)argument));
    if (_IOC_TYPE(request) == SYNC_IOC_MAGIC && fence_number(fd) != 0)
        return result_of(ask_ioctl(fd, (uint32_t)request, (uintptr_t)argument));
    return REAL(ioctl)(fd, request, argument);
}

/* A node can't be written to; the display would take the bytes for a packet. */
static bool is_not_written(int fd)
{
    enum node node;
    bool is_one = is_node(fd, &node);

    if (is_one)
        errno = EINVAL;
    return is_one;
}

SHOWN ssize_t write(int fd, const void *bytes, size_t size)
{
    return is_not_written(fd) ? -1 : REAL(write)(fd, bytes, size);
}

SHOWN ssize_t writev(int fd, const struct iovec *parts, int count)
{
    return is_not_written(fd) ? -1 : REAL(writev)(fd, parts, count);
}

SHOWN ssize_t pwrite(int fd, const void *bytes, size_t size, off_t offset)
{
    return is_not_written(fd) ? -1 : REAL(pwrite)(fd, bytes, size, offset);
}

ALSO(pwrite64, pwrite);

SHOWN void *mmap(void *address, size_t length, int protection, int flags, int fd, off_t offset)
{
    enum node node;
    uint64_t place;
    void *mapped;
    int memory;

    if (fd < 0 || (flags & MAP_ANONYMOUS) || !is_node(fd, &node))
        return REAL(mmap)(address, length, protection, flags, fd, offset);
    memory = ask_for_memory(fd, (uint64_t)offset, length, &place);
    if (memory < 0) {
        errno = -memory;
        return MAP_FAILED;
    }
    mapped = REAL(mmap)(address, length, protection, flags, memory, (off_t)place);
    close(memory);
    return mapped;
}

_Static_assert(sizeof(off_t) == sizeof(off64_t), "this is for systems of 64 bits");

ALSO(mmap64, mmap);

/* The system call itself. */
static long call_system(long number, const long *word)
{
#ifdef __x86_64__
    register long fourth __asm__("r10") = word[3];
    register long fifth __asm__("r8") = word[4];
    register long sixth __asm__("r9") = word[5];
    long result;

    __asm__ volatile("syscall"
                     : "=a"(result)
                     : "a"(number), "D"(word[0]), "S"(word[1]), "d"(word[2]), "r"(fourth),
                       "r"(fifth), "r"(sixth)
                     : "rcx", "r11", "memory");
    if (result >= -4095 && result < 0) {
        errno = (int)-result;
        return -1;
    }
    return result;
#else
    return REAL(syscall)(number, word[0], word[1], word[2], word[3], word[4], word[5]);
#endif
}

/* System calls by their numbers, on descriptors that may be nodes. */
SHOWN long syscall(long number, ...)
{
    long word[6];
    va_list list;
    size_t at;

    va_start(list, number);
    for (at = 0; at < sizeof word / sizeof word[0]; at++)
        word[at] = va_arg(list, long);
    va_end(list);
    if (number == SYS_ioctl)
        return ioctl((int)word[0], (unsigned long)word[1], (void *)word[2]);
    if (number == SYS_write)
        return write((int)word[0], (const void *)word[1], (size_t)word[2]);
    if (number == SYS_mmap)
        return (long)mmap((void *)word[0], (size_t)word[1], (int)word[2], (int)word[3],
                          (int)word[4], (off_t)word[5]);
    return call_system(number, word);
}
