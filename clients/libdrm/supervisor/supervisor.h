/* Answers system calls of a command and of the processes that it starts: the opening of nodes, and
 * their requests, which it asks of the display. The command needs no library for it. */
#ifndef ZIRKOSHE_LIBDRM_SUPERVISOR_H
#define ZIRKOSHE_LIBDRM_SUPERVISOR_H

#include "libc.h"

#include "asks.h"

#include <errno.h>
#include <fcntl.h>
#include <linux/seccomp.h>
#include <pthread.h>
#include <stdbool.h>
#include <string.h>
#include <unistd.h>

struct entry;

/* The smallest size of a page. A path is read page by page. */
#define PAGE 4096u

/* A system call that a caller waits for */
struct call {
    int listener;
    struct seccomp_notif notice;
    enum node node; /* of an opening */
};

/* callers.c: sets the call that this thread answers, and returns whether its caller still waits.
 * Copies a text of the caller, and returns 0,
 * -EFAULT or -ENAMETOOLONG. Writes the path of a descriptor of the caller. */
void answer_for(const struct call *call);
bool caller_waits(void);
int copy_text_from_caller(char *text, size_t room, uint64_t address);
void name_caller_descriptor(char *path, size_t room, int fd);

/* Returns whether a descriptor of the caller is a node, and which. */
bool is_caller_node(int fd, enum node *node);

/* Returns whether a descriptor of the caller is that of a fence. */
bool is_caller_fence(int fd);

/* Attends to the socket of the display on which the supervisor names its callers. Opens a node for
 * the caller. Returns a descriptor or a negative errno. */
bool callers_begin(int way);
int open_for_caller(enum node node, int flags);

/* filters.c: installs the filter for this process. Returns the descriptor of the notifications, or
 * a negative errno. */
int begin_filter(void);

/* mappings.c: has a caller that waits for the answer to an mmap make another one.
 *
 * Call `mapping_begin` first. It returns 0 or a negative errno. Call `mapping_stop` before the
 * answer, and `mapping_end` after it. `mapping_end` has the caller make an mmap with these
 * arguments, and close its descriptor. The caller gets the result, or `failed` if that is not 0. */
int mapping_begin(pid_t task);
void mapping_stop(pid_t task);
void mapping_end(pid_t task, const uint64_t *words, int failed);

/* paths.c: returns whether a call looks at a file. Answers it, or returns false if the file is not
 * of the device. */
bool is_look(int number);
bool answer_look(const struct seccomp_notif *notice, int *result);

/* folders.c: removes all folders that were made for callers. */
void folders_end(void);

/* calls.c: answers a system call, in another thread if that can take time. */
void answer_call(int listener, const struct seccomp_notif *notice);

#endif
