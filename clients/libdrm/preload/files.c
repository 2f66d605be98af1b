/* The functions of the C library that open, look at and close files: those of the device are
 * answered here. */
#include "libc.h"

#include "preload.h"
#include "tree.h"

#include <errno.h>
#include <fcntl.h>
#include <limits.h>
#include <stdarg.h>
#include <stdio.h>
#include <stdlib.h>
#include <string.h>
#include <sys/mman.h>
#include <sys/sysmacros.h>
#include <unistd.h>

_Static_assert(sizeof(struct stat) == sizeof(struct stat64) && sizeof(off_t) == 8,
               "this is for systems of 64 bits");

/* Fails as the C library does. */
static int fail(int error)
{
    errno = error;
    return -1;
}

/* Whether a path is that of a descriptor of a node, which is opened anew. */
static bool is_path_of_node(const char *path, enum node *node)
{
    int fd;

    return path != NULL && names_descriptor(path, getpid(), &fd) && is_node(fd, node);
}

/* Returns whether the path is the device's. Then the result of open is in `fd`. */
static bool opens(int folder, const char *path, int flags, int *fd)
{
    const struct entry *entry;
    enum node node;

    if (is_path_of_node(path, &node)) {
        *fd = result_of(open_node(node, flags));
        return true;
    }
    if (!find_place(folder, path, &entry))
        return false;
    if (entry == NULL)
        *fd = fail(ENOENT);
    else if (entry->kind == KIND_NODE && !(flags & (O_PATH | O_DIRECTORY)))
        *fd = result_of(open_node(entry->node, flags));
    else
        *fd = result_of(open_entry(entry, flags));
    return true;
}

/* The mode of a file that open might make. */
#define MODE_OF(flags, mode)                                                                       \
    do {                                                                                           \
        if (((flags)&O_CREAT) || ((flags)&O_TMPFILE) == O_TMPFILE) {                               \
            va_list list;                                                                          \
                                                                                                   \
            va_start(list, flags);                                                                 \
            mode = va_arg(list, mode_t);                                                           \
            va_end(list);                                                                          \
        }                                                                                          \
    } while (0)

SHOWN int open(const char *path, int flags, ...)
{
    mode_t mode = 0;
    int fd;

    MODE_OF(flags, mode);
    return opens(AT_FDCWD, path, flags, &fd) ? fd : REAL(open)(path, flags, mode);
}

SHOWN int openat(int folder, const char *path, int flags, ...)
{
    mode_t mode = 0;
    int fd;

    MODE_OF(flags, mode);
    return opens(folder, path, flags, &fd) ? fd : REAL(openat)(folder, path, flags, mode);
}

ALSO(open64, open);
ALSO(openat64, openat);

/* A function whose result `answered` writes to `result`, unless the path is not the device's. */
#define ANSWERING(type, name, answered, parameters, words)                                         \
    SHOWN type name parameters                                                                     \
    {                                                                                              \
        type result;                                                                               \
                                                                                                   \
        return answered ? result : REAL(name) words;                                               \
    }

/* Programs that were compiled with checks call these instead. */
ANSWERING(int, __open_2, opens(AT_FDCWD, path, flags, &result), (const char *path, int flags),
          (path, flags))
ANSWERING(int, __openat_2, opens(folder, path, flags, &result),
          (int folder, const char *path, int flags), (folder, path, flags))

ALSO(__open64_2, __open_2);
ALSO(__openat64_2, __openat_2);

static bool opens_stream(const char *path, const char *mode, FILE **stream)
{
    const struct entry *entry;

    if (!find_place(AT_FDCWD, path, &entry))
        return false;
    *stream = NULL;
    if (entry == NULL)
        errno = ENOENT;
    else if (entry->kind != KIND_TEXT || mode[0] != 'r')
        errno = EACCES;
    else
        *stream = fmemopen((void *)(uintptr_t)entry->text, strlen(entry->text), "r");
    return true;
}

ANSWERING(FILE *, fopen, opens_stream(path, mode, &result), (const char *path, const char *mode),
          (path, mode))

ALSO(fopen64, fopen);

/* Returns whether the path is the device's. Then the result of stat is in `result`. */
static bool tells(int folder, const char *path, bool follows, struct stat *status, int *result)
{
    const struct entry *entry;

    if (!find_place(folder, path, &entry))
        return false;
    *result = entry == NULL ? fail(ENOENT) : 0;
    if (entry != NULL)
        entry_status(entry, follows, status);
    return true;
}

/* What fstat returns, if the descriptor is a connection or represents a folder. */
static int told_of_descriptor(int fd, struct stat *status, int result)
{
    enum node node;
    const struct entry *folder =
        result == 0 && S_ISREG(status->st_mode) && status->st_nlink == 0 ? folder_of(fd) : NULL;

    if (result == 0 && S_ISSOCK(status->st_mode) && is_node(fd, &node))
        node_status(node, status);
    if (folder != NULL)
        entry_status(folder, true, status);
    return result;
}

/* Whether the descriptor itself is asked of. (The C library's header says that a path is never
 * NULL; a kernel takes it.) */
__attribute__((noinline)) static bool is_no_path(const char *path)
{
    return path == NULL || path[0] == '\0';
}

ANSWERING(int, stat, tells(AT_FDCWD, path, true, status, &result),
          (const char *path, struct stat *status), (path, status))
ANSWERING(int, lstat, tells(AT_FDCWD, path, false, status, &result),
          (const char *path, struct stat *status), (path, status))

SHOWN int fstatat(int folder, const char *path, struct stat *status, int flags)
{
    int result;

    if (tells(folder, path, !(flags & AT_SYMLINK_NOFOLLOW), status, &result))
        return result;
    result = REAL(fstatat)(folder, path, status, flags);
    return is_no_path(path) ? told_of_descriptor(folder, status, result) : result;
}

SHOWN int fstat(int fd, struct stat *status)
{
    return told_of_descriptor(fd, status, REAL(fstat)(fd, status));
}

/* Sizes have 64 bits in any case. */
ALSO(stat64, stat);
ALSO(lstat64, lstat);
ALSO(fstatat64, fstatat);
ALSO(fstat64, fstat);

/* What calls of stat were before glibc 2.33. */
int __xstat(int, const char *, struct stat *);
int __lxstat(int, const char *, struct stat *);
int __fxstat(int, int, struct stat *);

SHOWN int __xstat(int version, const char *path, struct stat *status)
{
    (void)version;
    return stat(path, status);
}

SHOWN int __lxstat(int version, const char *path, struct stat *status)
{
    (void)version;
    return lstat(path, status);
}

SHOWN int __fxstat(int version, int fd, struct stat *status)
{
    (void)version;
    return fstat(fd, status);
}

ALSO(__xstat64, __xstat);
ALSO(__lxstat64, __lxstat);
ALSO(__fxstat64, __fxstat);

SHOWN int statx(int folder, const char *path, int flags, unsigned mask, struct statx *wide)
{
    bool is_of_descriptor = is_no_path(path);
    struct stat status;
    int result = 0;

    if (!is_of_descriptor
        && tells(folder, path, !(flags & AT_SYMLINK_NOFOLLOW), &status, &result)) {
        if (result == 0)
            widen_status(&status, wide);
        return result;
    }
    result = REAL(statx)(folder, path, flags, mask, wide);
    if (result == 0 && is_of_descriptor && S_ISSOCK(wide->stx_mode) && fstat(folder, &status) == 0
        && S_ISCHR(status.st_mode))
        widen_status(&status, wide);
    return result;
}

/* Every user may read and write the tree, and execute nothing of it. */
static bool allows(int folder, const char *path, int mode, int *result)
{
    const struct entry *entry;

    if (!find_place(folder, path, &entry))
        return false;
    *result = entry == NULL                               ? fail(ENOENT)
              : entry->kind == KIND_NODE && (mode & X_OK) ? fail(EACCES)
                                                          : 0;
    return true;
}

ANSWERING(int, access, allows(AT_FDCWD, path, mode, &result), (const char *path, int mode),
          (path, mode))
ANSWERING(int, euidaccess, allows(AT_FDCWD, path, mode, &result), (const char *path, int mode),
          (path, mode))
ANSWERING(int, faccessat, allows(folder, path, mode, &result),
          (int folder, const char *path, int mode, int flags), (folder, path, mode, flags))

static bool changes(int folder, const char *path, int *result)
{
    bool is_known = changes_place(folder, path, geteuid(), result);

    if (is_known)
        *result = result_of(*result);
    return is_known;
}

ANSWERING(int, chmod, changes(AT_FDCWD, path, &result), (const char *path, mode_t mode),
          (path, mode))
ANSWERING(int, fchmodat, changes(folder, path, &result),
          (int folder, const char *path, mode_t mode, int flags), (folder, path, mode, flags))
ANSWERING(int, chown, changes(AT_FDCWD, path, &result), (const char *path, uid_t user, gid_t group),
          (path, user, group))
ANSWERING(int, lchown, changes(AT_FDCWD, path, &result),
          (const char *path, uid_t user, gid_t group), (path, user, group))
ANSWERING(int, fchownat, changes(folder, path, &result),
          (int folder, const char *path, uid_t user, gid_t group, int flags),
          (folder, path, user, group, flags))

static bool leads(int folder, const char *path, char *target, size_t size, ssize_t *length)
{
    const struct entry *entry;

    if (!find_place(folder, path, &entry))
        return false;
    *length = -1;
    if (entry == NULL || entry->kind != KIND_LINK) {
        errno = entry == NULL ? ENOENT : EINVAL;
        return true;
    }
    *length = (ssize_t)strlen(entry->text);
    if (*length > (ssize_t)size)
        *length = (ssize_t)size;
    memcpy(target, entry->text, (size_t)*length);
    return true;
}

ANSWERING(ssize_t, readlink, leads(AT_FDCWD, path, target, size, &result),
          (const char *path, char *target, size_t size), (path, target, size))
ANSWERING(ssize_t, readlinkat, leads(folder, path, target, size, &result),
          (int folder, const char *path, char *target, size_t size), (folder, path, target, size))

/* The paths of the tree are their own real paths, as far as programs ask for those of nodes. */
static bool is_real(const char *path, char **resolved)
{
    const struct entry *entry;

    if (!find_place(AT_FDCWD, path, &entry))
        return false;
    if (entry == NULL)
        errno = ENOENT;
    if (*resolved == NULL && entry != NULL)
        *resolved = malloc(PATH_MAX);
    if (*resolved != NULL && entry != NULL)
        snprintf(*resolved, PATH_MAX, "%s", entry->path[0] != '\0' ? entry->path : path);
    else
        *resolved = NULL;
    return true;
}

SHOWN char *realpath(const char *path, char *resolved)
{
    return is_real(path, &resolved) ? resolved : REAL(realpath)(path, resolved);
}

SHOWN char *canonicalize_file_name(const char *path)
{
    return realpath(path, NULL);
}

char *__realpath_chk(const char *, char *, size_t);

SHOWN char *__realpath_chk(const char *path, char *resolved, size_t size)
{
    return is_real(path, &resolved) ? resolved : REAL(__realpath_chk)(path, resolved, size);
}
