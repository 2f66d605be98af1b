/* A compositor leases an output to another program, which is refused outside it and sees its
 * revocation. Over libdrm alone:
 *
 *     cc -Wall -o libdrm_lease examples/libdrm_lease.c $(pkg-config --cflags --libs libdrm)
 *     tools/with-server --libdrm ./libdrm_lease
 *
 * It calls libdrm and the system alone, so that it is a program for the device of a kernel too, if
 * that has two outputs and nobody is master there: its path may be given, and is /dev/dri/card0
 * else. Each step tells what came of it, and the errno that a kernel gives where that is another
 * one; the status is then 1.
 */
#include <errno.h>
#include <fcntl.h>
#include <stdbool.h>
#include <stdint.h>
#include <stdio.h>
#include <stdlib.h>
#include <string.h>
#include <sys/socket.h>
#include <sys/wait.h>
#include <unistd.h>
#include <xf86drm.h>
#include <xf86drmMode.h>

/* What is leased, and where a framebuffer can be shown. */
struct output {
    uint32_t crtc, plane, connector;
    drmModeModeInfo mode;
};

static bool went_wrong;

static const char *name_of(int error)
{
    switch (error) {
    case 0:
        return "done";
    case ENOENT:
        return "ENOENT";
    case EACCES:
        return "EACCES";
    case EBUSY:
        return "EBUSY";
    case EINVAL:
        return "EINVAL";
    default:
        return strerror(error);
    }
}

/* Tells what came of a step, and notes where it is another end than the one that a kernel gives. */
static void tell(const char *who, const char *what, int error, int wanted)
{
    printf("%s: %s: %s", who, what, name_of(error));
    if (error != wanted)
        printf(", and not %s", name_of(wanted));
    puts("");
    fflush(stdout);
    went_wrong = went_wrong || error != wanted;
}

/* The error of a call of libdrm: some give it as a negative number, and some in errno. */
static int error_of(int result)
{
    return result >= 0 ? 0 : result == -1 ? errno : -result;
}

/* The error of a call that gives a pointer, which is freed. */
static int error_of_pointer(void *found, void (*release)(void *))
{
    int error = found == NULL ? errno : 0;

    if (found != NULL)
        release(found);
    return error;
}

static void release_crtc(void *crtc)
{
    drmModeFreeCrtc(crtc);
}
static void release_connector(void *connector)
{
    drmModeFreeConnector(connector);
}
static void release_plane(void *plane)
{
    drmModeFreePlane(plane);
}

static void leave(const char *what)
{
    perror(what);
    exit(1);
}

/* The first plane of a CRTC, by its place among the CRTCs. */
static uint32_t find_plane(int card, uint32_t place)
{
    drmModePlaneRes *planes = drmModeGetPlaneResources(card);
    uint32_t found = 0, at;

    if (planes == NULL)
        leave("planes");
    for (at = 0; at < planes->count_planes; at++) {
        drmModePlane *plane = drmModeGetPlane(card, planes->planes[at]);

        if (plane != NULL && found == 0 && (plane->possible_crtcs & 1u << place))
            found = plane->plane_id;
        drmModeFreePlane(plane);
    }
    drmModeFreePlaneResources(planes);
    return found;
}

/* The output of the connector and the CRTC at this place. */
static struct output find_output(int card, int place)
{
    drmModeRes *resources = drmModeGetResources(card);
    drmModeConnector *connector;
    struct output output;

    if (resources == NULL || resources->count_connectors <= place
        || resources->count_crtcs <= place)
        leave("two outputs are wanted");
    connector = drmModeGetConnector(card, resources->connectors[place]);
    if (connector == NULL || connector->count_modes == 0)
        leave("connector");
    output.connector = connector->connector_id;
    output.crtc = resources->crtcs[place];
    output.plane = find_plane(card, (uint32_t)place);
    output.mode = connector->modes[0];
    drmModeFreeConnector(connector);
    drmModeFreeResources(resources);
    return output;
}

static void send_descriptor(int peer, int fd)
{
    char byte = 'l', space[CMSG_SPACE(sizeof fd)] = {0};
    struct iovec part = {&byte, 1};
    struct msghdr message = {
        .msg_iov = &part, .msg_iovlen = 1, .msg_control = space, .msg_controllen = sizeof space};
    struct cmsghdr *rights = CMSG_FIRSTHDR(&message);

    rights->cmsg_level = SOL_SOCKET;
    rights->cmsg_type = SCM_RIGHTS;
    rights->cmsg_len = CMSG_LEN(sizeof fd);
    memcpy(CMSG_DATA(rights), &fd, sizeof fd);
    if (sendmsg(peer, &message, 0) != 1)
        leave("sendmsg");
}

static int take_descriptor(int peer)
{
    int fd;
    char byte, space[CMSG_SPACE(sizeof fd)];
    struct iovec part = {&byte, 1};
    struct msghdr message = {
        .msg_iov = &part, .msg_iovlen = 1, .msg_control = space, .msg_controllen = sizeof space};

    if (recvmsg(peer, &message, 0) != 1 || CMSG_FIRSTHDR(&message) == NULL)
        leave("recvmsg");
    memcpy(&fd, CMSG_DATA(CMSG_FIRSTHDR(&message)), sizeof fd);
    return fd;
}

/* Each of the two continues when the other has come to the same place. */
static void meet(int peer)
{
    char byte = 'm';

    fflush(stdout);
    if (write(peer, &byte, 1) != 1 || read(peer, &byte, 1) != 1)
        leave("the other program");
}

/* A framebuffer of this mode's size. */
static uint32_t make_framebuffer(int fd, const drmModeModeInfo *mode)
{
    uint32_t handle, pitch, framebuffer;
    uint64_t size;

    if (drmModeCreateDumbBuffer(fd, mode->hdisplay, mode->vdisplay, 32, 0, &handle, &pitch, &size)
            != 0
        || drmModeAddFB(fd, mode->hdisplay, mode->vdisplay, 24, 32, pitch, handle, &framebuffer)
               != 0)
        leave("framebuffer");
    return framebuffer;
}

static int show(int fd, const struct output *output, uint32_t framebuffer)
{
    uint32_t connector = output->connector;
    drmModeModeInfo mode = output->mode;

    return error_of(drmModeSetCrtc(fd, output->crtc, framebuffer, 0, 0, &connector, 1, &mode));
}

/* How many objects the lease has. */
static uint32_t leased(int fd)
{
    drmModeObjectListRes *lease = drmModeGetLease(fd);
    uint32_t count = lease == NULL ? UINT32_MAX : lease->count;

    drmFree(lease);
    return count;
}

/* What the program does that has the lease: own is its output, and other is the compositor's. */
static int use_lease(int peer, struct output own, struct output other)
{
    int fd = take_descriptor(peer);
    uint32_t framebuffer = make_framebuffer(fd, &own.mode);

    tell("lessee", "shows a framebuffer on what it has", show(fd, &own, framebuffer), 0);
    tell("lessee", "shows it on another CRTC", show(fd, &other, framebuffer), ENOENT);
    tell("lessee", "asks what another CRTC shows",
         error_of_pointer(drmModeGetCrtc(fd, other.crtc), release_crtc), ENOENT);
    tell("lessee", "asks for another connector",
         error_of_pointer(drmModeGetConnector(fd, other.connector), release_connector), ENOENT);
    tell("lessee", "asks for another plane",
         error_of_pointer(drmModeGetPlane(fd, other.plane), release_plane), ENOENT);
    printf("lessee: has %u objects\n", (unsigned)leased(fd));
    meet(peer);
    meet(peer);
    printf("lessee: has %u objects\n", (unsigned)leased(fd));
    tell("lessee", "shows a framebuffer on what it had", show(fd, &own, framebuffer), ENOENT);
    drmClose(fd);
    fflush(stdout);
    return went_wrong ? 1 : 0;
}

/* How many lessees the compositor has. */
static uint32_t lessees_of(int card)
{
    drmModeLesseeListRes *lessees = drmModeListLessees(card);
    uint32_t count = lessees == NULL ? UINT32_MAX : lessees->count;

    drmFree(lessees);
    return count;
}

/* What the compositor does: it leases one output, and takes it back. */
static void lease_out(int card, int peer, const struct output *output)
{
    uint32_t objects[] = {output->crtc, output->plane, output->connector};
    uint32_t lessee, again;
    int fd = drmModeCreateLease(card, objects, 3, O_CLOEXEC, &lessee);

    if (fd < 0)
        leave("lease");
    tell("owner", "leases an output", 0, 0);
    tell("owner", "leases it again",
         error_of(drmModeCreateLease(card, objects, 3, O_CLOEXEC, &again)), EBUSY);
    send_descriptor(peer, fd);
    close(fd);
    meet(peer);
    printf("owner: has %u lessee\n", (unsigned)lessees_of(card));
    tell("owner", "revokes another lease", error_of(drmModeRevokeLease(card, lessee + 1)), ENOENT);
    tell("owner", "revokes the lease", error_of(drmModeRevokeLease(card, lessee)), 0);
    meet(peer);
}

int main(int count, char **words)
{
    int card = open(count > 1 ? words[1] : "/dev/dri/card0", O_RDWR | O_CLOEXEC);
    struct output first, second;
    int peers[2], status;
    pid_t child;

    if (card < 0 || drmSetClientCap(card, DRM_CLIENT_CAP_UNIVERSAL_PLANES, 1) != 0)
        leave("the device");
    first = find_output(card, 0);
    second = find_output(card, 1);
    if (socketpair(AF_UNIX, SOCK_STREAM, 0, peers) != 0 || (child = fork()) < 0)
        leave("another program");
    if (child == 0) {
        close(card);
        close(peers[0]);
        exit(use_lease(peers[1], second, first));
    }
    close(peers[1]);
    lease_out(card, peers[0], &second);
    if (waitpid(child, &status, 0) != child || status != 0)
        went_wrong = true;
    printf("owner: has %u lessees\n", (unsigned)lessees_of(card));
    drmClose(card);
    return went_wrong ? 1 : 0;
}
