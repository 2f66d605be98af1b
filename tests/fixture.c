/* The server of a test in C: fixture JOURNAL, which is where it writes its journal. */
#include "drm_testing.h"

static void use(const char *card)
{
    struct zirkoshe_client client;

    if (zirkoshe_open(&client, card, ZIRKOSHE_TIMEOUT) == 0) {
        printf("client %u\n", (unsigned)client.number);
        zirkoshe_close(&client);
    }
}

int main(int count, char **words)
{
    struct zirkoshe_server_options options = ZIRKOSHE_SERVER_DEFAULTS;
    struct zirkoshe_server server;

    if (count != 2)
        return 2;
    options.cards = 2;
    options.roots = 0;
    options.limits = "8 8 8 8 8 8 8 100";
    options.journal = words[1];
    printf("started %d\n", zirkoshe_server_start(&server, &options));
    use(server.card);
    printf("ended %d\n", zirkoshe_server_end(&server));
    printf("again %d\n", zirkoshe_server_end(&server));
    if (zirkoshe_server_start(&server, NULL) == 0) {
        kill(server.process, SIGKILL);
        printf("killed %d\n", zirkoshe_server_end(&server));
    }
    options.program = "/nonexistent";
    printf("absent %d\n", zirkoshe_server_start(&server, &options));
    return 0;
}
