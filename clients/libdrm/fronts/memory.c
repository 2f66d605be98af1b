/* The memory of the caller: that of this process itself, or of the task that a supervisor answers.
 */
#include "libc.h"

#include "asks.h"

#include <errno.h>
#include <string.h>
#include <sys/syscall.h>
#include <unistd.h>

#define PAGE 4096
#define MASK sizeof(uint64_t)

/* Returns whether this process can read at an address: the kernel reads a signal mask there before
 * it refuses the first word. Where a filter of system calls forbids that, a wrong address is a
 * fault. */
static bool is_readable(uintptr_t address)
{
    int error = errno;
    bool is_one = address >= MASK /* no mask is read at 0 */
                  && (syscall(SYS_rt_sigprocmask, -1, address / MASK * MASK, NULL, MASK) == 0
                      || errno != EFAULT);

    errno = error;
    return is_one;
}

/* Reads the memory of this process itself, which costs less than to read it as another one's. The
 * page that was looked at last isn't looked at again. If another thread unmaps one after the look,
 * the process gets SIGSEGV. */
static int read_own(const struct iovec *here, const struct iovec *there, uintptr_t *page)
{
    uintptr_t next = (uintptr_t)there->iov_base, end = next + there->iov_len;

    if (end < next)
        return -EFAULT;
    for (; next < end; next = next / PAGE * PAGE + PAGE) {
        if (next / PAGE != *page && !is_readable(next))
            return -EFAULT;
        *page = next / PAGE;
    }
    if (there->iov_len > 0)
        memcpy(here->iov_base, there->iov_base, there->iov_len);
    return 0;
}

/* Returns whether as many bytes as parts have were copied. */
static bool has_copied(ssize_t copied, const struct iovec *parts, size_t count)
{
    size_t length = 0;

    while (count > 0)
        length += parts[--count].iov_len;
    return copied == (ssize_t)length;
}

int caller_reads_all(const struct iovec *here, const struct iovec *there, size_t count)
{
    const struct caller *caller = caller_now();
    uintptr_t page = UINTPTR_MAX;
    size_t at;

    if (caller != NULL)
        return has_copied(process_vm_readv(caller->task, here, count, there, count, 0), here, count)
                   ? 0
                   : -EFAULT;
    for (at = 0; at < count; at++) {
        if (read_own(&here[at], &there[at], &page) != 0)
            return -EFAULT;
    }
    return 0;
}

int caller_reads(void *to, uint64_t address, size_t size)
{
    const struct iovec here = {to, size}, there = {(void *)(uintptr_t)address, size};

    return size == 0 ? 0 : caller_reads_all(&here, &there, 1);
}

int caller_takes_all(const struct iovec *here, const struct iovec *there, size_t count)
{
    const struct caller *caller = caller_now();
    ssize_t copied;
    size_t at;

    if (has_copied(0, here, count))
        return 0;
    copied =
        process_vm_writev(caller == NULL ? getpid() : caller->task, here, count, there, count, 0);
    if (has_copied(copied, here, count))
        return 0;
    if (copied >= 0 || caller != NULL || (errno != EPERM && errno != ENOSYS))
        return -EFAULT;
    for (at = 0; at < count; at++)
        memcpy(there[at].iov_base, here[at].iov_base, here[at].iov_len);
    return 0;
}

int caller_takes(uint64_t address, const void *from, size_t size)
{
    const struct iovec here = {(void *)(uintptr_t)from, size},
                       there = {(void *)(uintptr_t)address, size};

    return size == 0 ? 0 : caller_takes_all(&here, &there, 1);
}
