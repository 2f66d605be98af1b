/* The sockets on which threads wait for their answers. */
#include "display.h"

#include <stdlib.h>
#include <sys/epoll.h>

#define MOST_CHANNELS 16384
/* Users other than root leave some of them. */
#define MOST_OF_USER (MOST_CHANNELS / 4 * 3)

static struct channel *channels[MOST_CHANNELS]; /* the first place is never used */

/* The first free number, or MOST_CHANNELS if there is none for this user. */
static uint32_t free_number(uid_t user)
{
    uint32_t number = MOST_CHANNELS, at, count = 0;

    for (at = MOST_CHANNELS - 1; at > 0; at--) {
        if (channels[at] == NULL)
            number = at;
        else if (channels[at]->user == user)
            count++;
    }
    return user != 0 && count >= MOST_OF_USER ? MOST_CHANNELS : number;
}

struct channel *channel_add(int fd, const struct ucred *sender, bool is_supervisor)
{
    uint32_t number = free_number(sender->uid);
    struct channel *made = number < MOST_CHANNELS ? calloc(1, sizeof *made) : NULL;

    if (made == NULL)
        return NULL;
    *made = (struct channel){.source = {.kind = SOURCE_CHANNEL, .fd = fd},
                             .number = number,
                             .process = sender->pid,
                             .user = sender->uid,
                             .is_supervisor = is_supervisor,
                             .users = 1};
    if (!source_add(&made->source, EPOLLET)) {
        free(made);
        return NULL;
    }
    channels[number] = made;
    return made;
}

struct channel *channel_find(uint32_t number, pid_t process)
{
    struct channel *found = number > 0 && number < MOST_CHANNELS ? channels[number] : NULL;

    return found != NULL && found->process == process ? found : NULL;
}

void channel_end(struct channel *channel)
{
    channels[channel->number] = NULL;
    channel_release(channel);
}

void channel_use(struct channel *channel)
{
    channel->users++;
}

void channel_release(struct channel *channel)
{
    if (--channel->users > 0)
        return;
    close(channel->source.fd);
    free(channel);
}
