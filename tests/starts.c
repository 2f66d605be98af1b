/* Starts servers at the same time, each in its own thread: starts COUNT. Prints the process of each
 * server and the descriptor of its input. At the end of its own input it uses the servers and ends
 * them. The status is 0 if nothing failed. */
#include "drm_testing.h"

#define MOST_SERVERS 64

static struct zirkoshe_server servers[MOST_SERVERS];

static void *start(void *server)
{
    return zirkoshe_server_start((struct zirkoshe_server *)server, NULL) == 0 ? server : NULL;
}

/* Starts the servers; the number of those that did not start. */
static int start_together(int count)
{
    pthread_t threads[MOST_SERVERS];
    int at, failed = 0;

    for (at = 0; at < count; at++) {
        if (pthread_create(&threads[at], NULL, start, &servers[at]))
            exit(2);
    }
    for (at = 0; at < count; at++) {
        void *started;

        pthread_join(threads[at], &started);
        failed += started == NULL;
    }
    return failed;
}

static int use(struct zirkoshe_server *server)
{
    struct zirkoshe_client client;
    int failed = zirkoshe_open(&client, server->card, ZIRKOSHE_TIMEOUT);

    if (!failed)
        failed = zirkoshe_close(&client);
    return zirkoshe_server_end(server) != 0 || failed;
}

int main(int words, char **word)
{
    int count = words == 2 ? atoi(word[1]) : 0;
    int at, failed;

    if (count < 1 || count > MOST_SERVERS)
        return 2;
    failed = start_together(count);
    for (at = 0; at < count; at++)
        printf("%ld %d\n", (long)servers[at].process, servers[at].input);
    fflush(stdout);
    while (getchar() != EOF)
        continue;
    for (at = 0; at < count; at++)
        failed += use(&servers[at]);
    return failed ? 1 : 0;
}
