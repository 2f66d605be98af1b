/* The caller of a request: its memory, where the addresses of a request lead, and its process. Each
 * front end has its own functions. */
#ifndef ZIRKOSHE_LIBDRM_CALLERS_H
#define ZIRKOSHE_LIBDRM_CALLERS_H

#include "libc.h"

#include <stdbool.h>
#include <stdint.h>

/* Copies the caller's memory at an address, or to an address; 0, or -EFAULT. */
int copy_from_caller(void *to, uint64_t address, size_t size);
int copy_to_caller(uint64_t address, const void *from, size_t size);

/* A list in the caller's memory, as far as the request has it. */
struct caller_list {
    const uint8_t *bytes;
    size_t size;
};

/* Returns what the request has of the caller's memory from an address on, which may be nothing. */
struct caller_list caller_list_at(uint64_t address);

/* The descriptor at a position of those that came with the request, or -1. It is closed after the
 * answer. */
int caller_descriptor(uint32_t at);

/* Keeps the memory of the caller that the request has, for a task that continues it later; NULL if
 * it is too much. Lets this task have it. */
struct caller_memory;
struct caller_memory *caller_memory_keep(void);
void caller_memory_use(struct caller_memory *memory);

/* The process that makes the request, its user, and whether its name begins with this letter. */
pid_t caller_process(void);
uid_t caller_user(void);
bool caller_name_begins(char letter);

#endif
