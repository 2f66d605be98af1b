/* A root client that waits until the client of a number is closed: closed PATH NUMBER MILLISECONDS.
 */
#include "drm_client.h"

#include <stdio.h>
#include <stdlib.h>

int main(int count, char **words)
{
    struct zirkoshe_client root;
    struct zirkoshe_version version;
    uint32_t number;
    int failed;

    if (count != 4 || zirkoshe_open(&root, words[1], 30000))
        return 2;
    number = (uint32_t)strtoul(words[2], NULL, 10);
    root.timeout = (int)strtol(words[3], NULL, 10);
    failed = zirkoshe_wait_until_closed(&root, number);
    puts(failed == 0 ? "closed" : failed == -ETIMEDOUT ? "open" : strerror(-failed));
    fflush(stdout);
    /* the connection continues */
    root.timeout = 30000;
    failed = zirkoshe_drmGetVersion(&root, &version);
    zirkoshe_close(&root);
    return failed != 0;
}
