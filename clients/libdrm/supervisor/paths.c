/* Answers calls that look at files: at absolute paths of the device, and at its descriptors. */
#include "supervisor.h"

#include "tree.h"

#include <limits.h>
#include <stdio.h>
#include <sys/mman.h>
#include <sys/syscall.h>

#define NONE (-1)

/* What a call asks for, or changes */
enum asked { STATUS, WIDE_STATUS, ACCESS, LINK, CHANGE };

/* The positions of the arguments of a call */
struct form {
    int number;
    enum asked asked;
    int folder, path, result, more; /* the flags, the mode of an access, or the size of a text */
};

static const struct form forms[] = {
#ifdef __NR_stat
    {__NR_stat, STATUS, NONE, 0, 1, NONE},      {__NR_lstat, STATUS, NONE, 0, 1, NONE},
    {__NR_access, ACCESS, NONE, 0, NONE, 1},    {__NR_readlink, LINK, NONE, 0, 1, 2},
    {__NR_chmod, CHANGE, NONE, 0, NONE, NONE},  {__NR_chown, CHANGE, NONE, 0, NONE, NONE},
    {__NR_lchown, CHANGE, NONE, 0, NONE, NONE},
#endif
    {__NR_fstat, STATUS, 0, NONE, 1, NONE},     {__NR_newfstatat, STATUS, 0, 1, 2, 3},
    {__NR_statx, WIDE_STATUS, 0, 1, 4, 2},      {__NR_faccessat, ACCESS, 0, 1, NONE, 2},
    {__NR_faccessat2, ACCESS, 0, 1, NONE, 2},   {__NR_readlinkat, LINK, 0, 1, 2, 3},
    {__NR_fchmodat, CHANGE, 0, 1, NONE, NONE},  {__NR_fchownat, CHANGE, 0, 1, NONE, NONE},
};

static const struct form *form_of(int number)
{
    size_t at;

    for (at = 0; at < sizeof forms / sizeof forms[0]; at++) {
        if (forms[at].number == number)
            return &forms[at];
    }
    return NULL;
}

static uint64_t word_of(const struct seccomp_notif *notice, int position)
{
    return position == NONE ? 0 : notice->data.args[position];
}

/* Returns whether the call reports a link itself. */
static bool is_of_link(const struct seccomp_notif *notice, const struct form *form)
{
#ifdef __NR_lstat
    if (notice->data.nr == __NR_lstat)
        return true;
#endif
    return form->more != NONE && (word_of(notice, form->more) & AT_SYMLINK_NOFOLLOW) != 0;
}

static int write_status(const struct seccomp_notif *notice, const struct form *form,
                        const struct stat *status)
{
    uint64_t address = word_of(notice, form->result);
    struct statx wide;

    if (form->asked == STATUS)
        return caller_takes(address, status, sizeof *status);
    widen_status(status, &wide);
    return caller_takes(address, &wide, sizeof wide);
}

/* The result is cut off as the kernel does. */
static int write_link(const struct seccomp_notif *notice, const struct form *form,
                      const struct entry *entry)
{
    size_t length = strlen(entry->text), room = word_of(notice, form->more);
    int failed;

    if (entry->kind != KIND_LINK || (int)room <= 0)
        return -EINVAL;
    length = length < room ? length : room;
    failed = caller_takes(word_of(notice, form->result), entry->text, length);
    return failed ? failed : (int)length;
}

/* Every user may read and write the tree, and execute nothing of it but folders. */
static int answer_entry(const struct seccomp_notif *notice, const struct form *form,
                        const struct entry *entry)
{
    struct stat status;

    if (form->asked == ACCESS)
        return entry->kind == KIND_NODE && (word_of(notice, form->more) & X_OK) ? -EACCES : 0;
    if (form->asked == LINK)
        return write_link(notice, form, entry);
    entry_status(entry, !is_of_link(notice, form), &status);
    return write_status(notice, form, &status);
}

/* Answers for a descriptor. */
static bool looks_at_descriptor(const struct seccomp_notif *notice, const struct form *form,
                                int *result)
{
    struct stat status;
    enum node node;

    if (form->folder == NONE || (form->asked != STATUS && form->asked != WIDE_STATUS)
        || !is_caller_node((int)word_of(notice, form->folder), &node))
        return false;
    node_status(node, &status);
    *result = write_status(notice, form, &status);
    return true;
}

bool is_look(int number)
{
    return form_of(number) != NULL;
}

bool answer_look(const struct seccomp_notif *notice, int *result)
{
    const struct form *form = form_of(notice->data.nr);
    const struct entry *entry;
    char path[PATH_MAX] = "";

    if (form->path != NONE
        && copy_text_from_caller(path, sizeof path, word_of(notice, form->path)) != 0)
        return false;
    if (path[0] == '\0')
        return looks_at_descriptor(notice, form, result);
    if (path[0] != '/')
        return false;
    if (form->asked == CHANGE)
        return changes_place(AT_FDCWD, path, caller_now()->user, result);
    if (!find_place(AT_FDCWD, path, &entry))
        return false;
    *result = entry == NULL ? -ENOENT : answer_entry(notice, form, entry);
    return true;
}
