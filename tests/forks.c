/* A process that forks while another thread waits for the answer of GETCRTC: forks PATH. Prints
 * what the client's functions return in the child, and then in the parent. */
#include "drm_client.h"

#include <stdio.h>
#include <stdlib.h>
#include <sys/wait.h>

/* How long the child may take, in seconds. */
#define MOST_SECONDS 20

static void *wait_for_answer(void *given)
{
    struct zirkoshe_client *client = (struct zirkoshe_client *)given;
    static int failed;
    uint32_t framebuffer;

    failed = zirkoshe_drmModeGetCrtc(client, 1, &framebuffer);
    return &failed;
}

/* Whether a thread waits for an answer. */
static bool is_waiting(struct zirkoshe_client *client)
{
    bool is_held;

    pthread_mutex_lock(&client->turn.guard);
    is_held = client->turn.depth > 0;
    pthread_mutex_unlock(&client->turn.guard);
    return is_held;
}

static void tell(const char *what, int failed)
{
    printf("%s: %s\n", what, failed ? strerror(-failed) : "done");
}

static int ask(struct zirkoshe_client *client)
{
    struct zirkoshe_version version;

    return zirkoshe_drmGetVersion(client, &version);
}

static void be_child(struct zirkoshe_client *client, const char *path)
{
    struct zirkoshe_plain_call call = {ZIRKOSHE_CALL_MODE_SETCRTC, {1, 0, 0}, 0, 0};

    alarm(MOST_SECONDS);
    tell("a call of the child", ask(client));
    zirkoshe_lock(client);
    zirkoshe_call_together(client, &call, 1);
    zirkoshe_unlock(client);
    tell("calls that are sent together", call.failed);
    tell("its closing", zirkoshe_close(client));
    tell("a call after it", ask(client));
    tell("another opening", zirkoshe_open(client, path, ZIRKOSHE_TIMEOUT));
    tell("a call of it", ask(client));
    tell("its closing", zirkoshe_close(client));
    exit(0);
}

int main(int count, char **words)
{
    struct zirkoshe_client client;
    pthread_t thread;
    void *failed;
    int status = 0;
    pid_t child;

    if (count != 2 || zirkoshe_open(&client, words[1], ZIRKOSHE_TIMEOUT)
        || pthread_create(&thread, NULL, wait_for_answer, &client))
        return 2;
    while (!is_waiting(&client))
        poll(NULL, 0, 1);
    child = fork();
    if (child == 0)
        be_child(&client, words[1]);
    waitpid(child, &status, 0);
    printf("the child's status: %d\n", status);
    pthread_join(thread, &failed);
    tell("the call of the thread", *(int *)failed);
    tell("a call of the parent", ask(&client));
    tell("its closing", zirkoshe_close(&client));
    return 0;
}
