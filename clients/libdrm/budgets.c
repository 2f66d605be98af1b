/* How much of the display each user has for fences, synchronisation objects and waits. */
#include "budgets.h"

#include <stddef.h>

#define MOST_OF_USER 65536u
#define MOST_USERS 64

static struct {
    uid_t user;
    unsigned spent; /* 0 if the place is free */
} users[MOST_USERS];

/* The place of a user, or of none; MOST_USERS if there is no free one. */
static size_t place_of(uid_t user)
{
    size_t at, found = MOST_USERS;

    for (at = 0; at < MOST_USERS; at++) {
        if (users[at].spent > 0 && users[at].user == user)
            return at;
        if (users[at].spent == 0)
            found = at;
    }
    return found;
}

bool budget_take(uid_t user, unsigned cost)
{
    size_t at = place_of(user);

    if (at == MOST_USERS || cost > MOST_OF_USER - users[at].spent)
        return false;
    users[at].user = user;
    users[at].spent += cost;
    return true;
}

void budget_give(uid_t user, unsigned cost)
{
    size_t at = place_of(user);

    if (at < MOST_USERS)
        users[at].spent -= cost;
}
