/* The folders of the device that callers list: real folders with empty files, which are removed at
 * the end. */
#include "supervisor.h"

#include "tree.h"

#include <ftw.h>
#include <stdio.h>
#include <stdlib.h>

#define ROOM 4096
#define MOST_OPEN 8

static pthread_mutex_t turn = PTHREAD_MUTEX_INITIALIZER;
static char top[ROOM]; /* the folder with all of them, or empty */

static int remove_file(const char *path, const struct stat *status, int kind, struct FTW *place)
{
    (void)status, (void)kind, (void)place;
    return remove(path);
}

void folders_end(void)
{
    if (top[0] != '\0')
        nftw(top, remove_file, MOST_OPEN, FTW_DEPTH | FTW_PHYS);
}

/* Creates the top folder, once. */
static bool has_top(void)
{
    const char *place = getenv("TMPDIR");

    if (top[0] != '\0')
        return true;
    if (place == NULL || place[0] == '\0')
        place = "/tmp";
    if (snprintf(top, sizeof top, "%s/zirkoshe-folders-XXXXXX", place) < (int)sizeof top
        && mkdtemp(top) != NULL)
        return true;
    top[0] = '\0';
    return false;
}

/* Writes the path of a folder, whose name is its path in the tree without slashes. */
static void name_folder(const struct entry *folder, char *path, size_t room)
{
    size_t length = (size_t)snprintf(path, room, "%s/", top);
    const char *from;

    for (from = folder->path; *from != '\0' && length < room - 1; from++)
        path[length++] = *from == '/' ? '!' : *from;
    path[length] = '\0';
}

static bool make_entry(int folder, const struct entry *entry, const char *name)
{
    int made;

    if (entry->kind == KIND_FOLDER)
        return mkdirat(folder, name, 0755) == 0;
    if (entry->kind == KIND_LINK)
        return symlinkat(entry->text, folder, name) == 0;
    made = openat(folder, name, O_CREAT | O_WRONLY | O_CLOEXEC, 0444);
    return made >= 0 && close(made) == 0;
}

/* Creates a folder with what is in it, once, and opens it. Returns -1 on failure. */
static int make_folder(const struct entry *folder, const char *path)
{
    bool is_new = mkdir(path, 0755) == 0;
    int fd = open(path, O_RDONLY | O_DIRECTORY | O_CLOEXEC);
    const struct entry *entry = NULL;
    const char *name;
    size_t next = 0;

    while (fd >= 0 && is_new && (entry = next_in(folder, &next, &name)) != NULL) {
        if (!make_entry(fd, entry, name))
            break;
    }
    if (fd >= 0 && entry != NULL) {
        close(fd);
        return -1;
    }
    return fd;
}

int open_folder(const struct entry *folder, int flags)
{
    char path[2 * ROOM];
    int fd = -1;

    (void)flags;
    pthread_mutex_lock(&turn);
    if (has_top()) {
        name_folder(folder, path, sizeof path);
        fd = make_folder(folder, path);
    }
    pthread_mutex_unlock(&turn);
    return fd < 0 ? -EIO : fd;
}
