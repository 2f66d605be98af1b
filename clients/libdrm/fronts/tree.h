/* The paths that programs look at to find a device: the nodes in /dev/dri, and their folders of
 * /sys. */
#ifndef ZIRKOSHE_LIBDRM_TREE_H
#define ZIRKOSHE_LIBDRM_TREE_H

#include "nodes.h"

#include <dirent.h>
#include <sys/stat.h>

enum kind { KIND_NODE, KIND_FOLDER, KIND_LINK, KIND_TEXT };

struct entry {
    const char *path;
    enum kind kind;
    enum node node;   /* the entry exists if this node does */
    const char *text; /* the contents of a text, and the target of a link */
};

/* Whether there are nodes. */
bool is_served(void);

/* Returns whether a path is the device's, from this folder or AT_FDCWD on. Its entry is NULL if
 * the path hides another device's node, or nothing. `..` is the folder that the path names
 * before it, not the one that a symbolic link leads to. */
bool find_place(int folder, const char *path, const struct entry **entry);

/* Returns whether an entry is a folder, or a link to one that has entries. */
bool is_folder(const struct entry *entry);

/* Opens an entry that is no node, with flags of open. Returns a descriptor or a negative errno. */
int open_entry(const struct entry *entry, int flags);

/* What each front end defines: opens a folder of the device likewise. */
int open_folder(const struct entry *folder, int flags);

/* What the name of a file in memory begins with that represents a folder, whose path follows; and
 * the folder that a descriptor represents, or NULL. */
#define FOLDER_NAME "zirkoshe-folder:"
const struct entry *folder_of(int fd);

/* Returns whether a path is the device's, as find_place does, and not that of a server's socket.
 * Then a user's change of its mode or owner results in 0 or a negative errno, and changes nothing.
 */
bool changes_place(int folder, const char *path, uid_t user, int *result);

/* Writes what stat reports of an entry, and of the target of a link if links are followed. */
void entry_status(const struct entry *entry, bool follows, struct stat *status);

/* Writes what fstat reports of a connection. */
void node_status(enum node node, struct stat *status);

/* Writes what statx reports, by what stat does. */
void widen_status(const struct stat *status, struct statx *wide);

/* The next entry of a folder, counted on in `next` from 0, and its name there; NULL at the end. */
const struct entry *next_in(const struct entry *folder, size_t *next, const char **name);

#endif
