/* A C client that asks until it is stopped or killed, or its server ends: soak PATH. */
#include "drm_client.h"

int main(int count, char **words)
{
    struct zirkoshe_client client;
    struct zirkoshe_version version;

    if (count != 2 || zirkoshe_open(&client, words[1], 30000))
        return 2;
    while (!zirkoshe_drmGetVersion(&client, &version))
        ;
    zirkoshe_close(&client);
    return 0;
}
