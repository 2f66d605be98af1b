/* A client of a hostile server: hostile PATH COUNT MILLISECONDS. One after the other it makes COUNT
 * connections, each with an opening, a call and a closing within this time limit. Prints the first
 * error of each connection, or that there was none. */
#include "drm_client.h"

#include <stdio.h>
#include <stdlib.h>

/* A call of each kind of answer. */
union answer {
    struct zirkoshe_version version;
    struct zirkoshe_dumb dumb;
    struct zirkoshe_buffer buffer;
    struct zirkoshe_ids ids;
    struct zirkoshe_resources resources;
    struct zirkoshe_plane plane;
    struct zirkoshe_fb fb;
    struct zirkoshe_lease lease;
    struct zirkoshe_rows rows;
    uint32_t number;
    uint64_t value;
};

static int call(struct zirkoshe_client *client, int which)
{
    static union answer answer;
    const uint32_t leased[] = {2, 4, 8};

    switch (which % 12) {
    case 0:
        return zirkoshe_drmGetVersion(client, &answer.version);
    case 1:
        return zirkoshe_drmSetMaster(client);
    case 2:
        return zirkoshe_drmModeGetEncoder(client, 5, &answer.number);
    case 3:
        return zirkoshe_drmGetCap(client, 5, &answer.value);
    case 4:
        return zirkoshe_drmModeCreateDumbBuffer(client, 64, 64, 32, &answer.dumb);
    case 5:
        return zirkoshe_buf_create(client, 1, &answer.buffer);
    case 6:
        return zirkoshe_list_handles(client, 0, &answer.ids);
    case 7:
        return zirkoshe_drmModeGetResources(client, &answer.resources);
    case 8:
        return zirkoshe_drmModeGetPlane(client, 3, &answer.plane);
    case 9:
        return zirkoshe_drmModeGetFB(client, 9, &answer.fb);
    case 10:
        return zirkoshe_drmModeCreateLease(client, leased, 3, &answer.lease);
    default:
        return zirkoshe_audit(client, 1, 0, &answer.rows);
    }
}

static const char *end_of(int failed)
{
    switch (failed) {
    case 0:
        return "done";
    case -EPROTO:
        return "malformed";
    case -ETIMEDOUT:
        return "late";
    case -ECONNRESET:
    case -EPIPE:
        return "gone";
    default:
        return strerror(-failed);
    }
}

int main(int count, char **words)
{
    int number, connections = count == 4 ? atoi(words[2]) : 0;

    for (number = 0; number < connections; number++) {
        struct zirkoshe_client client;
        int failed = zirkoshe_open(&client, words[1], atoi(words[3]));

        if (!failed) {
            int closed;

            failed = call(&client, number);
            closed = zirkoshe_close(&client);
            failed = failed ? failed : closed;
        }
        puts(end_of(failed));
    }
    return connections > 0 ? 0 : 2;
}
