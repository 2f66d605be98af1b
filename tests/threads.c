/* A C client that two threads share: each asks another encoder 10,000 times, and the answers that
 * are the other's are counted. With a second word it asks once for the version, and prints what
 * that gives. */
#include "drm_client.h"

#include <stdio.h>

#define ASKED 10000

struct asker {
    struct zirkoshe_client *client;
    uint32_t encoder, possible_crtcs;
    unsigned swapped, failed;
};

static void *ask(void *given)
{
    struct asker *asker = (struct asker *)given;
    int time;

    for (time = 0; time < ASKED; time++) {
        uint32_t found = 0;

        if (zirkoshe_drmModeGetEncoder(asker->client, asker->encoder, &found))
            asker->failed++;
        else if (found != asker->possible_crtcs)
            asker->swapped++;
    }
    return NULL;
}

/* Asks what is refused by one of two rules: the rule that is read is that of the own call while the
 * client is held. */
static void *be_refused(void *given)
{
    struct asker *asker = (struct asker *)given;
    int time;

    for (time = 0; time < ASKED; time++) {
        zirkoshe_lock(asker->client);
        if (asker->encoder)
            zirkoshe_drmCloseBufferHandle(asker->client, 7);
        else
            zirkoshe_drmModeRmFB(asker->client, 7);
        if (asker->client->rule
            != (asker->encoder ? ZIRKOSHE_RULE_NO_HANDLE_TO_CLOSE : ZIRKOSHE_RULE_NO_FB))
            asker->swapped++;
        zirkoshe_unlock(asker->client);
    }
    return NULL;
}

static int share(struct zirkoshe_client *client, void *(*action)(void *))
{
    struct asker askers[] = {{client, 5, 3, 0, 0}, {client, 6, 2, 0, 0}};
    pthread_t threads[2];
    int at;

    if (action == be_refused)
        askers[1].encoder = 0;
    for (at = 0; at < 2; at++) {
        if (pthread_create(&threads[at], NULL, action, &askers[at]))
            return 1;
    }
    for (at = 0; at < 2; at++)
        pthread_join(threads[at], NULL);
    printf("%u swapped, %u failed\n", askers[0].swapped + askers[1].swapped,
           askers[0].failed + askers[1].failed);
    return 0;
}

static int ask_once(struct zirkoshe_client *client)
{
    struct zirkoshe_version version = {0, 0, 0};
    int failed = zirkoshe_drmGetVersion(client, &version);

    printf("%s\n", failed ? strerror(-failed) : "version");
    return 0;
}

int main(int count, char **words)
{
    struct zirkoshe_client client;

    if (count < 2 || zirkoshe_open(&client, words[1], ZIRKOSHE_TIMEOUT))
        return 2;
    if (count > 2)
        return ask_once(&client);
    return share(&client, ask) | share(&client, be_refused) | (zirkoshe_close(&client) ? 1 : 0);
}
