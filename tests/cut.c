/* Cuts what the program that it is loaded into, by LD_PRELOAD, reads and writes, for
 * tests/test_streams.py.
 *
 * CUT_READ says how of its standard input, CUT_WRITE of its standard output, CUT_RECV of what it
 * receives of sockets and CUT_SEND of what it sends to them, as PIECE FAULT AT TIMES. A call moves
 * PIECE bytes at most. Behind AT bytes FAULT comes, so many TIMES, and then the calls go on: fail
 * (EIO), end (the call moves 0 bytes) or eintr (it is interrupted), with AT -1 before each piece;
 * or none. For Linux, whose calls it makes itself.
 */
#define _GNU_SOURCE
#include <errno.h>
#include <stdint.h>
#include <stdio.h>
#include <stdlib.h>
#include <string.h>
#include <sys/socket.h>
#include <sys/syscall.h>
#include <unistd.h>

struct side {
    size_t piece;
    char fault[8];
    long at;
    long times;
    long passed;
    long in_a_row;
};

#define WHOLE                                                                                      \
    {                                                                                              \
        SIZE_MAX, "none", 0, 0, 0, 0                                                               \
    }

static struct side reads = WHOLE, writes = WHOLE, receives = WHOLE, sends = WHOLE;

static void set(struct side *side, const char *name)
{
    const char *how = getenv(name);

    if (how != NULL
        && sscanf(how, "%zu %7s %ld %ld", &side->piece, side->fault, &side->at, &side->times) != 4)
        _exit(125);
}

__attribute__((constructor)) static void begin(void)
{
    set(&reads, "CUT_READ");
    set(&writes, "CUT_WRITE");
    set(&receives, "CUT_RECV");
    set(&sends, "CUT_SEND");
}

/* How many bytes a call may move now: less than 0 with errno set, or 0 where it gives 0 at once. */
static long room(struct side *side, size_t count)
{
    size_t most = count < side->piece ? count : side->piece;

    if (strcmp(side->fault, "none") == 0)
        return (long)most;
    if ((side->at < 0 || side->at == side->passed) && side->in_a_row < side->times) {
        side->in_a_row++;
        errno = strcmp(side->fault, "eintr") == 0 ? EINTR : EIO;
        return strcmp(side->fault, "end") == 0 ? 0 : -1;
    }
    if (side->at > side->passed && most > (size_t)(side->at - side->passed))
        most = (size_t)(side->at - side->passed);
    return (long)most;
}

static ssize_t moved(struct side *side, ssize_t count)
{
    if (count > 0) {
        side->passed += count;
        side->in_a_row = 0;
    }
    return count;
}

ssize_t read(int file, void *buffer, size_t count)
{
    long most = file == 0 ? room(&reads, count) : (long)count;

    if (most <= 0 && count > 0)
        return most;
    count = syscall(SYS_read, file, buffer, (size_t)most);
    return file == 0 ? moved(&reads, (ssize_t)count) : (ssize_t)count;
}

ssize_t write(int file, const void *text, size_t count)
{
    long most = file == 1 ? room(&writes, count) : (long)count;

    if (most <= 0 && count > 0)
        return most;
    count = syscall(SYS_write, file, text, (size_t)most);
    return file == 1 ? moved(&writes, (ssize_t)count) : (ssize_t)count;
}

/* What is read and stays (MSG_PEEK) has not passed. It passes when it is taken by a call that
 * doesn't wait. That one isn't cut: it takes what was read before. */
ssize_t recv(int file, void *buffer, size_t count, int flags)
{
    long most = flags & MSG_DONTWAIT ? (long)count : room(&receives, count);
    ssize_t got;

    if (most <= 0)
        return most;
    got = syscall(SYS_recvfrom, file, buffer, (size_t)most, flags, NULL, NULL);
    if (flags & MSG_PEEK) {
        if (got > 0)
            receives.in_a_row = 0;
        return got;
    }
    return moved(&receives, got);
}

ssize_t send(int file, const void *text, size_t count, int flags)
{
    long most = room(&sends, count);

    return most <= 0
               ? most
               : moved(&sends, syscall(SYS_sendto, file, text, (size_t)most, flags, NULL, NULL));
}
