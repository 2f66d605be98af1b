/* The paths that programs look at to find a device. */
#include "libc.h"

#include "tree.h"

#include <errno.h>
#include <fcntl.h>
#include <limits.h>
#include <stdio.h>
#include <string.h>
#include <sys/mman.h>
#include <sys/sysmacros.h>
#include <unistd.h>

/* the device numbers of DRM nodes, which are assigned: Documentation/admin-guide/devices.txt of
 * Linux */
#define DRM_MAJOR 226
#define FIRST_RENDER 128

/* What /sys has of a node, by its minor number and its name: libdrm looks for the device, its bus,
 * and its other nodes. */
#define SYSFS_OF(number, name, node)                                                               \
    {"/sys/dev/char/226:" number, KIND_LINK, node, "../../devices/platform/zirkoshe/drm/" name},   \
        {"/sys/dev/char/226:" number "/uevent", KIND_TEXT, node,                                   \
         "MAJOR=226\nMINOR=" number "\nDEVNAME=dri/" name "\nDEVTYPE=drm_minor\n"},                \
        {"/sys/dev/char/226:" number "/dev", KIND_TEXT, node, "226:" number "\n"},                 \
        {"/sys/dev/char/226:" number "/subsystem", KIND_LINK, node, "../../../../../class/drm"},   \
        {"/sys/dev/char/226:" number "/device", KIND_FOLDER, node, ""},                            \
        {"/sys/dev/char/226:" number "/device/uevent", KIND_TEXT, node,                            \
         "DRIVER=zirkoshe\nMODALIAS=platform:zirkoshe\n"},                                         \
        {"/sys/dev/char/226:" number "/device/subsystem", KIND_LINK, node,                         \
         "../../../bus/platform"},                                                                 \
        {"/sys/dev/char/226:" number "/device/drm", KIND_FOLDER, node, ""},                        \
        {"/sys/dev/char/226:" number "/device/drm/card0", KIND_FOLDER, NODE_CARD, ""},             \
    {                                                                                              \
        "/sys/dev/char/226:" number "/device/drm/renderD128", KIND_FOLDER, NODE_RENDER, ""         \
    }

static const struct entry entries[] = {
    {"/dev/dri", KIND_FOLDER, NODE_CARD, ""},
    {"/dev/dri", KIND_FOLDER, NODE_RENDER, ""},
    {"/dev/dri/card0", KIND_NODE, NODE_CARD, ""},
    {"/dev/dri/renderD128", KIND_NODE, NODE_RENDER, ""},
    SYSFS_OF("0", "card0", NODE_CARD),
    SYSFS_OF("128", "renderD128", NODE_RENDER),
};

#define COUNT (sizeof entries / sizeof entries[0])

/* Where the server's sockets are named in the environment, they are nodes too. */
static const struct entry sockets[] = {
    {"", KIND_NODE, NODE_CARD, ""},
    {"", KIND_NODE, NODE_RENDER, ""},
    {"", KIND_NODE, NODE_ROOT, ""},
};

#define FOLDER_LINK "/memfd:" FOLDER_NAME

/* Adds the parts of a path to a plain one, which has no `.`, no `..` and no slash too many; false
 * if there is no room. */
static bool add_parts(const char *path, char *plain, size_t *length)
{
    while (*path != '\0') {
        size_t size = strcspn(path, "/");

        if (size == 2 && path[0] == '.' && path[1] == '.') {
            while (*length > 0 && plain[--*length] != '/')
                ;
        } else if (size > 1 || (size == 1 && path[0] != '.')) {
            if (*length + size + 2 > PATH_MAX)
                return false;
            plain[(*length)++] = '/';
            memcpy(plain + *length, path, size);
            *length += size;
        }
        path += size + (path[size] == '/');
    }
    plain[*length] = '\0';
    return true;
}

/* Where a descriptor leads; false if nowhere. */
static bool follow(int fd, char *target)
{
    char link[32];
    ssize_t length;

    snprintf(link, sizeof link, "/proc/self/fd/%d", fd);
    length = libc_readlink(link, target, PATH_MAX - 1);
    if (length < 0)
        return false;
    target[length] = '\0';
    return true;
}

const struct entry *folder_of(int fd)
{
    int error = errno;
    char target[PATH_MAX];
    size_t at = COUNT;

    if (follow(fd, target) && strncmp(target, FOLDER_LINK, strlen(FOLDER_LINK)) == 0) {
        char *name = target + strlen(FOLDER_LINK);

        name[strcspn(name, " ")] = '\0';
        for (at = 0; at < COUNT && strcmp(entries[at].path, name) != 0; at++)
            ;
    }
    errno = error;
    return at < COUNT ? &entries[at] : NULL;
}

/* Makes a file with the text of an entry. */
static int open_text(const struct entry *entry, int flags)
{
    ssize_t length = (ssize_t)strlen(entry->text);
    int fd = memfd_create("zirkoshe-text", flags & O_CLOEXEC ? MFD_CLOEXEC : 0);

    if (fd >= 0 && write(fd, entry->text, (size_t)length) == length && lseek(fd, 0, SEEK_SET) == 0)
        return fd;
    if (fd >= 0)
        close(fd);
    return -EIO;
}

int open_entry(const struct entry *entry, int flags)
{
    if (is_folder(entry) && (entry->kind == KIND_FOLDER || !(flags & O_NOFOLLOW)))
        return flags & (O_WRONLY | O_RDWR) ? -EISDIR : open_folder(entry, flags);
    if (flags & (O_PATH | O_DIRECTORY))
        return flags & O_PATH ? -EACCES : -ENOTDIR;
    return entry->kind == KIND_TEXT ? open_text(entry, flags) : -EACCES;
}

/* The path of a folder that is open, or of the working directory; false if it has none. */
static bool base_of(int folder, char *base)
{
    const struct entry *own = folder == AT_FDCWD ? NULL : folder_of(folder);

    if (folder == AT_FDCWD)
        return getcwd(base, PATH_MAX) != NULL;
    if (own == NULL)
        return follow(folder, base);
    strcpy(base, own->path);
    return true;
}

/* The plain form of a path that begins at a folder; false if it has none. */
static bool make_plain(int folder, const char *path, char *plain)
{
    char base[PATH_MAX];
    size_t length = 0;

    if (path[0] != '/' && (!base_of(folder, base) || !add_parts(base, plain, &length)))
        return false;
    return add_parts(path, plain, &length);
}

static bool begins(const char *path, const char *folder)
{
    size_t length = strlen(folder);

    return strncmp(path, folder, length) == 0
           && (path[length] == '/' || path[length] == ':' || path[length] == '\0');
}

static const struct entry *socket_at(const char *path)
{
    size_t at;

    for (at = 0; at < sizeof sockets / sizeof sockets[0]; at++) {
        const char *socket = node_path(sockets[at].node);

        if (socket != NULL && strcmp(socket, path) == 0)
            return &sockets[at];
    }
    return NULL;
}

bool is_served(void)
{
    return node_path(NODE_CARD) != NULL || node_path(NODE_RENDER) != NULL;
}

bool find_place(int folder, const char *path, const struct entry **entry)
{
    int error = errno;
    char plain[PATH_MAX];
    size_t at;

    if (path == NULL || path[0] == '\0')
        return false;
    *entry = socket_at(path);
    if (*entry != NULL || !is_served() || !make_plain(folder, path, plain)) {
        errno = error;
        return *entry != NULL;
    }
    errno = error;
    for (at = 0; at < COUNT && *entry == NULL; at++) {
        if (strcmp(plain, entries[at].path) == 0 && node_path(entries[at].node) != NULL)
            *entry = &entries[at];
    }
    return *entry != NULL || begins(plain, "/dev/dri") || begins(plain, "/sys/dev/char/226");
}

void node_status(enum node node, struct stat *status)
{
    unsigned minor_number = node == NODE_RENDER ? FIRST_RENDER : 0;

    memset(status, 0, sizeof *status);
    status->st_mode = S_IFCHR | 0666;
    status->st_rdev = makedev(DRM_MAJOR, minor_number);
    status->st_ino = DRM_MAJOR + minor_number;
    status->st_nlink = 1;
    status->st_blksize = 4096;
}

void entry_status(const struct entry *entry, bool follows, struct stat *status)
{
    static const mode_t modes[] = {
        [KIND_NODE] = S_IFCHR | 0666,
        [KIND_FOLDER] = S_IFDIR | 0755,
        [KIND_LINK] = S_IFLNK | 0777,
        [KIND_TEXT] = S_IFREG | 0444,
    };

    node_status(entry->node, status);
    if (entry->kind == KIND_NODE)
        return;
    /* the links of the tree lead to folders */
    status->st_mode = modes[entry->kind == KIND_LINK && follows ? KIND_FOLDER : entry->kind];
    status->st_rdev = 0;
    status->st_size = (off_t)strlen(entry->text);
    status->st_ino = (ino_t)(uintptr_t)entry;
}

void widen_status(const struct stat *status, struct statx *wide)
{
    memset(wide, 0, sizeof *wide);
    wide->stx_mask = STATX_BASIC_STATS;
    wide->stx_mode = (uint16_t)status->st_mode;
    wide->stx_ino = status->st_ino;
    wide->stx_nlink = (uint32_t)status->st_nlink;
    wide->stx_size = (uint64_t)status->st_size;
    wide->stx_blksize = (uint32_t)status->st_blksize;
    wide->stx_rdev_major = major(status->st_rdev);
    wide->stx_rdev_minor = minor(status->st_rdev);
}

/* Returns the name of an entry directly in a folder, or NULL. */
static const char *name_below(const struct entry *folder, const struct entry *entry)
{
    size_t length = strlen(folder->path);

    if (strncmp(entry->path, folder->path, length) != 0 || entry->path[length] != '/'
        || strchr(entry->path + length + 1, '/') != NULL)
        return NULL;
    return entry->path + length + 1;
}

const struct entry *next_in(const struct entry *folder, size_t *next, const char **name)
{
    while (*next < COUNT) {
        const struct entry *entry = &entries[(*next)++];

        *name = name_below(folder, entry);
        if (*name != NULL && node_path(entry->node) != NULL)
            return entry;
    }
    return NULL;
}

bool is_folder(const struct entry *entry)
{
    const char *name;
    size_t next = 0;

    return entry->kind == KIND_FOLDER
           || (entry->kind == KIND_LINK && next_in(entry, &next, &name) != NULL);
}

bool changes_place(int folder, const char *path, uid_t user, int *result)
{
    const struct entry *entry;

    if (!find_place(folder, path, &entry) || (entry != NULL && entry->path[0] == '\0'))
        return false;
    *result = entry == NULL ? -ENOENT : user == 0 ? 0 : -EPERM;
    return true;
}
