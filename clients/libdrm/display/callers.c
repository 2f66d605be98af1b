/* The caller of the request that is answered now. Its memory is the lists that are in the packet,
 * and what is written to it is in the answer. */
#include "display.h"

#include <stdio.h>
#include <stdlib.h>
#include <sys/ioctl.h>

uint8_t *written_add(struct written *written, size_t size)
{
    size_t room = written->room > 0 ? written->room : 4096;
    uint8_t *grown;

    while (room - written->length < size && room < 2 * (size_t)MOST_LONG)
        room *= 2;
    if (room - written->length < size)
        return NULL;
    grown = room > written->room ? realloc(written->bytes, room) : written->bytes;
    if (grown == NULL)
        return NULL;
    written->bytes = grown;
    written->room = room;
    written->length += size;
    return grown + written->length - size;
}

struct caller_list caller_list_at(uint64_t address)
{
    const struct packet *packet = &task_now()->packet;
    struct caller_list longest = {NULL, 0};
    const uint8_t *bytes = packet->lists;
    size_t at;

    for (at = 0; at < MOST_LISTS; at++) {
        const struct list *list = &packet->ask.lists[at];
        uint64_t before = address - list->address;

        if (address >= list->address && before < list->size && list->size - before > longest.size)
            longest = (struct caller_list){bytes + before, list->size - before};
        bytes += list->size;
    }
    return longest;
}

int copy_from_caller(void *to, uint64_t address, size_t size)
{
    const struct caller_list found = caller_list_at(address);

    if (size > found.size)
        return -EFAULT;
    if (size > 0)
        memcpy(to, found.bytes, size);
    return 0;
}

int copy_to_caller(uint64_t address, const void *from, size_t size)
{
    const struct list head = {address, size};
    struct written *written = &task_now()->written;
    uint8_t *bytes;

    if (size == 0)
        return 0;
    if (address == 0)
        return -EFAULT;
    bytes = written_add(written, sizeof head + size);
    if (bytes == NULL)
        return -ENOMEM;
    memcpy(bytes, &head, sizeof head);
    memcpy(bytes + sizeof head, from, size);
    written->count++;
    return 0;
}

int caller_descriptor(uint32_t at)
{
    const struct packet *packet = &task_now()->packet;

    return at < (uint32_t)(packet->count - packet->taken)
               ? packet->received[(uint32_t)packet->taken + at]
               : -1;
}

/* What is kept of a request at most */
#define MOST_KEPT ((size_t)1024 * 1024)

struct caller_memory {
    struct ucred caller;
    struct list lists[MOST_LISTS];
    uint8_t bytes[];
};

struct caller_memory *caller_memory_keep(void)
{
    const struct task *task = task_now();
    const struct list *lists = task->packet.ask.lists;
    struct caller_memory *kept;
    size_t length = 0, at;

    for (at = 0; at < MOST_LISTS; at++)
        length += lists[at].size;
    kept = length <= MOST_KEPT ? malloc(sizeof *kept + length) : NULL;
    if (kept == NULL)
        return NULL;
    kept->caller = task->caller;
    memcpy(kept->lists, lists, sizeof kept->lists);
    memcpy(kept->bytes, task->packet.lists, length);
    return kept;
}

void caller_memory_use(struct caller_memory *memory)
{
    struct task *task = task_now();

    task->caller = memory->caller;
    memcpy(task->packet.ask.lists, memory->lists, sizeof memory->lists);
    task->packet.lists = memory->bytes;
    task->packet.count = task->packet.taken = 0;
}

pid_t caller_process(void)
{
    return task_now()->caller.pid;
}

uid_t caller_user(void)
{
    return task_now()->caller.uid;
}

bool caller_name_begins(char letter)
{
    char path[32];
    FILE *name;
    int found = EOF;

    snprintf(path, sizeof path, "/proc/%d/comm", (int)caller_process());
    name = fopen(path, "r");
    if (name != NULL) {
        found = fgetc(name);
        fclose(name);
    }
    return found == letter;
}

struct outcome *outcome(void)
{
    return &task_now()->outcome;
}

int outcome_has(int descriptor)
{
    struct outcome *made = outcome();

    made->descriptors[made->count++] = descriptor;
    return 0;
}

void outcome_drops_fences(void)
{
    struct outcome *made = outcome();

    for (; made->fences > 0; made->fences--)
        close(made->descriptors[--made->count]);
    task_now()->written.count = 0;
    task_now()->written.length = _IOC_SIZE(task_now()->packet.ask.request);
}
