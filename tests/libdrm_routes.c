/* For tests: which CRTC drives what, as libdrm reports it. The first argument says what is tried; a
 * line is written for each thing that was found, and the tests know what it must be.
 */
#define _GNU_SOURCE
#include "libdrm_atomic.h"

#include <sys/wait.h>

#define SIDE 64

static void list_planes(int fd)
{
    drmModePlaneRes *listed = drmModeGetPlaneResources(fd);
    uint32_t at;

    for (at = 0; at < listed->count_planes; at++) {
        drmModePlane *plane = drmModeGetPlane(fd, listed->planes[at]);

        printf(" plane %u: %u on %u,", plane->plane_id, plane->fb_id, plane->crtc_id);
        drmModeFreePlane(plane);
    }
    drmModeFreePlaneResources(listed);
}

/* A line of what each plane shows, what drives each encoder, and what drives each connector. */
static void list_routes(int fd, const char *what)
{
    drmModeRes *resources = drmModeGetResources(fd);
    int at;

    printf("%s:", what);
    list_planes(fd);
    for (at = 0; at < resources->count_encoders; at++) {
        drmModeEncoder *encoder = drmModeGetEncoder(fd, resources->encoders[at]);

        printf(" encoder %u: %u,", encoder->encoder_id, encoder->crtc_id);
        drmModeFreeEncoder(encoder);
    }
    for (at = 0; at < resources->count_connectors; at++) {
        drmModeConnector *connector = drmModeGetConnector(fd, resources->connectors[at]);

        printf(" connector %u: %u", connector->connector_id, connector->encoder_id);
        drmModeFreeConnector(connector);
    }
    putchar('\n');
    fflush(stdout);
    drmModeFreeResources(resources);
}

static int show(int fd, uint32_t crtc, uint32_t fb, uint32_t connector)
{
    drmModeModeInfo mode = mode_of(10);

    return drmModeSetCrtc(fd, crtc, fb, 0, 0, fb == 0 ? NULL : &connector, fb == 0 ? 0 : 1,
                          fb == 0 ? NULL : &mode);
}

/* Another process, which knows only what the server reports. */
static void list_elsewhere(const char *program)
{
    pid_t child = fork();

    if (child == 0) {
        execl(program, program, "asks", NULL);
        _exit(1);
    }
    waitpid(child, NULL, 0);
}

static void list_for_lessee(int fd)
{
    uint32_t objects[] = {OTHER_CRTC, OTHER_PRIMARY, CONNECTOR}, lessee;
    int leased = drmModeCreateLease(fd, objects, 3, O_CLOEXEC, &lessee);

    drmSetClientCap(leased, DRM_CLIENT_CAP_UNIVERSAL_PLANES, 1);
    list_routes(leased, "lessee");
    drmModeRevokeLease(fd, lessee);
    close(leased);
}

/* In the topology where each CRTC can drive each connector */
static void try_laptop(const char *program)
{
    int fd = open_card(true);
    uint32_t fbs[] = {make_fb(fd, SIDE), make_fb(fd, SIDE)}, mode = mode_blob(fd, 10);

    list_routes(fd, "dark");
    show(fd, CRTC, fbs[0], OTHER_CONNECTOR);
    list_routes(fd, "lit");
    drmModeSetPlane(fd, OVERLAY, CRTC, fbs[1], 0, 0, 0, SIDE, SIDE, 0, 0, SIDE << 16, SIDE << 16);
    list_routes(fd, "overlay");
    COMMIT(fd, MODESET, LIGHTS(OTHER_CRTC, CONNECTOR, OTHER_PRIMARY, mode, fbs[1]));
    list_routes(fd, "both");
    list_elsewhere(program);
    list_for_lessee(fd);
    COMMIT(fd, MODESET, {CRTC, "ACTIVE", 0});
    list_routes(fd, "inactive");
    if (fork() == 0)
        _exit(show(fd, OTHER_CRTC, 0, 0));
    wait(NULL);
    list_routes(fd, "darkened by a child");
}

/* In the topology where CRTC 1 can drive one connector */
static void try_pairs(const char *program)
{
    int fd = open_card(true);

    show(fd, 1, make_fb(fd, SIDE), 7);
    list_routes(fd, "lit");
    list_elsewhere(program);
}

int main(int count, char **words)
{
    if (count == 2 && strcmp(words[1], "laptop") == 0) {
        try_laptop(words[0]);
    } else if (count == 2 && strcmp(words[1], "pairs") == 0) {
        try_pairs(words[0]);
    } else if (count == 2 && strcmp(words[1], "asks") == 0) {
        list_routes(open_card(true), "another process");
    } else {
        fprintf(stderr, "usage: libdrm_routes laptop|pairs\n");
        return 2;
    }
    return 0;
}
