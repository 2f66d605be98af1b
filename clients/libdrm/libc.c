/* The C library's own functions that more than one file calls. */
#include "libc.h"

#include <unistd.h>

ssize_t libc_readlink(const char *path, char *target, size_t size)
{
    return REAL(readlink)(path, target, size);
}
