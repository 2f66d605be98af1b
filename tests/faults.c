/* Faults on purpose, planned by a test's server in C: faults. It prints what each call returns. */
#include "drm_testing.h"

#define DELAY 300

/* What creating a dumb buffer returns, and the rule that refused it. */
static void create(struct zirkoshe_client *client)
{
    struct zirkoshe_dumb dumb;
    int failed = zirkoshe_drmModeCreateDumbBuffer(client, 64, 64, 32, &dumb);

    printf("create %d %s\n", failed, zirkoshe_rule_name(client->rule));
}

/* What asking for the version returns, and whether that took as long as the delay. */
static void ask_version(struct zirkoshe_client *client)
{
    struct zirkoshe_version version;
    int64_t begin = zirkoshe_now();
    int failed = zirkoshe_drmGetVersion(client, &version);

    printf("version %d %s\n", failed, zirkoshe_now() - begin >= DELAY ? "late" : "prompt");
}

static void use_plans(struct zirkoshe_server *server, struct zirkoshe_client *client)
{
    printf("fail %d\n", zirkoshe_server_fail(server, "create_dumb", 2));
    create(client);
    create(client);
    create(client);
    printf("stall %d\n", zirkoshe_server_stall(server, "version", 2, DELAY));
    ask_version(client);
    ask_version(client);
    ask_version(client);
    printf("fail %d\n", zirkoshe_server_fail(server, "create_dumb", 1));
    printf("clear %d\n", zirkoshe_server_clear_faults(server));
    create(client);
    printf("break %d\n", zirkoshe_server_break(server, client->number, 2));
    ask_version(client);
    create(client);
    create(client);
}

/* What is said of a plan that isn't carried out. */
static void refuse(const char *what, int failed, const struct zirkoshe_server *server)
{
    printf("%s %d %s\n", what, failed, server->reason);
}

static void use_wrong_plans(struct zirkoshe_server *server)
{
    char many[200];

    memset(many, 'x', sizeof many - 1);
    many[sizeof many - 1] = '\0';
    refuse("no call", zirkoshe_server_fail(server, "creat_dumb", 1), server);
    refuse("no row", zirkoshe_server_fail(server, "version", 1), server);
    refuse("no number", zirkoshe_server_fail(server, "create_dumb", 0), server);
    refuse("two lines", zirkoshe_server_fail(server, "create_dumb:1=memory\nclear", 1), server);
    refuse("too long", zirkoshe_server_stall(server, many, 1, 1), server);
    refuse("well", zirkoshe_server_clear_faults(server), server);
}

int main(void)
{
    struct zirkoshe_server_options options = ZIRKOSHE_SERVER_DEFAULTS;
    struct zirkoshe_server server;
    struct zirkoshe_client client;

    options.control = true;
    if (zirkoshe_server_start(&server, &options) != 0)
        return 1;
    if (zirkoshe_open(&client, server.card, ZIRKOSHE_TIMEOUT) == 0) {
        use_plans(&server, &client);
        zirkoshe_close(&client);
    }
    use_wrong_plans(&server);
    printf("ended %d\n", zirkoshe_server_end(&server));
    refuse("no server", zirkoshe_server_clear_faults(&server), &server);
    if (zirkoshe_server_start(&server, NULL) != 0)
        return 1;
    refuse("no control", zirkoshe_server_clear_faults(&server), &server);
    return zirkoshe_server_end(&server) != 0;
}
