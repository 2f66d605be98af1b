/* The functions of the C library that list folders: those of the device are listed here. */
#include "libc.h"

#include "preload.h"
#include "tree.h"

#include <errno.h>
#include <fcntl.h>
#include <glob.h>
#include <stdio.h>
#include <string.h>
#include <sys/mman.h>
#include <unistd.h>

/* A folder of the device that the program lists; to the program its address is that of a DIR. */
struct listing {
    atomic_bool is_taken;
    const struct entry *folder;
    int fd; /* what dirfd returns, or -1 */
    size_t next;
    struct dirent given;
};

/* A program lists no more of them at once. */
static struct listing listings[64];

#define COUNT (sizeof listings / sizeof listings[0])

static struct listing *listing_of(DIR *stream)
{
    uintptr_t offset = (uintptr_t)stream - (uintptr_t)listings;

    return offset < sizeof listings ? (struct listing *)stream : NULL;
}

static DIR *list(const struct entry *folder, int fd)
{
    size_t at = 0;

    while (at < COUNT && atomic_exchange(&listings[at].is_taken, true))
        at++;
    if (at == COUNT) {
        errno = ENOMEM;
        return NULL;
    }
    listings[at].folder = folder;
    listings[at].fd = fd;
    listings[at].next = 0;
    return (DIR *)&listings[at];
}

int open_folder(const struct entry *folder, int flags)
{
    char name[128];
    int fd;

    snprintf(name, sizeof name, FOLDER_NAME "%s", folder->path);
    fd = memfd_create(name, flags & O_CLOEXEC ? MFD_CLOEXEC : 0);
    return fd < 0 ? -errno : fd;
}

static unsigned char type_of(enum kind kind)
{
    static const unsigned char types[] = {
        [KIND_NODE] = DT_CHR,
        [KIND_FOLDER] = DT_DIR,
        [KIND_LINK] = DT_LNK,
        [KIND_TEXT] = DT_REG,
    };

    return types[kind];
}

static struct dirent *next_given(struct listing *listing)
{
    const char *name;
    const struct entry *entry = next_in(listing->folder, &listing->next, &name);

    if (entry == NULL)
        return NULL;
    memset(&listing->given, 0, sizeof listing->given);
    listing->given.d_ino = (ino_t)(uintptr_t)entry;
    listing->given.d_off = (off_t)listing->next;
    listing->given.d_reclen = sizeof listing->given;
    listing->given.d_type = type_of(entry->kind);
    strncpy(listing->given.d_name, name, sizeof listing->given.d_name - 1);
    return &listing->given;
}

SHOWN DIR *opendir(const char *path)
{
    const struct entry *entry;

    if (!find_place(AT_FDCWD, path, &entry))
        return REAL(opendir)(path);
    if (entry != NULL && is_folder(entry))
        return list(entry, -1);
    errno = entry == NULL ? ENOENT : ENOTDIR;
    return NULL;
}

SHOWN DIR *fdopendir(int fd)
{
    const struct entry *folder = folder_of(fd);

    return folder != NULL ? list(folder, fd) : REAL(fdopendir)(fd);
}

SHOWN struct dirent *readdir(DIR *stream)
{
    struct listing *listing = listing_of(stream);

    return listing != NULL ? next_given(listing) : REAL(readdir)(stream);
}

_Static_assert(sizeof(struct dirent) == sizeof(struct dirent64)
                   && sizeof(glob_t) == sizeof(glob64_t),
               "this is for systems of 64 bits");

ALSO(readdir64, readdir);

/* glibc's header says that no program is to use it; some do. */
#pragma GCC diagnostic ignored "-Wdeprecated-declarations"
SHOWN int readdir_r(DIR *stream, struct dirent *room, struct dirent **found)
{
    struct listing *listing = listing_of(stream);
    const struct dirent *next;

    if (listing == NULL)
        return REAL(readdir_r)(stream, room, found);
    next = next_given(listing);
    *found = next == NULL ? NULL : room;
    if (next != NULL)
        *room = *next;
    return 0;
}

ALSO(readdir64_r, readdir_r);

SHOWN long telldir(DIR *stream)
{
    struct listing *listing = listing_of(stream);

    return listing != NULL ? (long)listing->next : REAL(telldir)(stream);
}

SHOWN void seekdir(DIR *stream, long place)
{
    struct listing *listing = listing_of(stream);

    if (listing != NULL)
        listing->next = (size_t)place;
    else
        REAL(seekdir)(stream, place);
}

SHOWN void rewinddir(DIR *stream)
{
    struct listing *listing = listing_of(stream);

    if (listing != NULL)
        listing->next = 0;
    else
        REAL(rewinddir)(stream);
}

SHOWN int dirfd(DIR *stream)
{
    struct listing *listing = listing_of(stream);

    if (listing == NULL)
        return REAL(dirfd)(stream);
    if (listing->fd < 0)
        listing->fd = result_of(open_folder(listing->folder, O_CLOEXEC));
    return listing->fd;
}

SHOWN int closedir(DIR *stream)
{
    struct listing *listing = listing_of(stream);

    if (listing == NULL)
        return REAL(closedir)(stream);
    if (listing->fd >= 0)
        close(listing->fd);
    atomic_store(&listing->is_taken, false);
    return 0;
}

/* glob calls the functions that it receives, and otherwise none that can be overridden. */
static void *open_for_glob(const char *path)
{
    return opendir(path);
}

static void close_for_glob(void *stream)
{
    closedir(stream);
}

static struct dirent *read_for_glob(void *stream)
{
    return readdir(stream);
}

SHOWN int glob(const char *pattern, int flags, int (*report)(const char *, int), glob_t *found)
{
    if (is_served() && !(flags & GLOB_ALTDIRFUNC)) {
        flags |= GLOB_ALTDIRFUNC;
        found->gl_opendir = open_for_glob;
        found->gl_readdir = read_for_glob;
        found->gl_closedir = close_for_glob;
        found->gl_stat = stat;
        found->gl_lstat = lstat;
    }
    return REAL(glob)(pattern, flags, report, found);
}

ALSO(glob64, glob);
