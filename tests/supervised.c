/* For tests: a program that makes each system call of the device itself, and is linked statically.
 * The first argument says what is tried; a line is written for each thing that was found, and the
 * tests know what it must be.
 */
#ifndef _GNU_SOURCE
#define _GNU_SOURCE
#endif
#include <errno.h>
#include <fcntl.h>
#include <poll.h>
#include <stdbool.h>
#include <stdint.h>
#include <stdio.h>
#include <stdlib.h>
#include <string.h>
#include <sys/epoll.h>
#include <sys/mman.h>
#include <sys/syscall.h>
#include <sys/wait.h>
#include <unistd.h>

#include <drm.h>
#include <drm_mode.h>
#include <linux/dma-buf.h>

#define CARD "/dev/dri/card0"
#define SIDE 64

/* What is shown on the output at a place, by its framebuffer. */
struct output {
    uint32_t crtc, connector, plane;
};

static void say(const char *what, long result)
{
    printf("%s: %s\n", what, result < 0 ? strerrorname_np(errno) : "done");
}

static int open_path(const char *path)
{
    return (int)syscall(SYS_openat, AT_FDCWD, path, O_RDWR | O_CLOEXEC, 0);
}

static long ask(int fd, unsigned long request, void *argument)
{
    return syscall(SYS_ioctl, fd, request, argument);
}

static void *map(int fd, uint64_t offset, uint64_t size)
{
    long address = syscall(SYS_mmap, NULL, size, PROT_READ | PROT_WRITE, MAP_SHARED, fd, offset);

    if (address == -1) {
        perror("mmap");
        exit(2);
    }
    return (void *)address;
}

/* A client whose reading does not wait for an event. */
static int open_not_waiting(void)
{
    return (int)syscall(SYS_openat, AT_FDCWD, CARD, O_RDWR | O_CLOEXEC | O_NONBLOCK, 0);
}

static int open_card(void)
{
    int fd = open_path(CARD);

    if (fd < 0) {
        perror(CARD);
        exit(2);
    }
    return fd;
}

/* The output at a place, and a mode in which it can be shown. */
static struct output output_at(int card, uint32_t place, struct drm_mode_modeinfo *mode)
{
    uint32_t crtcs[8] = {0}, connectors[8] = {0}, planes[8] = {0};
    struct drm_mode_modeinfo modes[16];
    struct drm_mode_card_res resources = {0};
    struct drm_mode_get_plane_res listed = {0};
    struct drm_mode_get_connector connector = {0};

    resources.crtc_id_ptr = (uintptr_t)crtcs;
    resources.connector_id_ptr = (uintptr_t)connectors;
    resources.count_crtcs = resources.count_connectors = 8;
    listed.plane_id_ptr = (uintptr_t)planes;
    listed.count_planes = 8;
    if (ask(card, DRM_IOCTL_MODE_GETRESOURCES, &resources) != 0
        || ask(card, DRM_IOCTL_MODE_GETPLANERESOURCES, &listed) != 0)
        perror("resources");
    connector.connector_id = connectors[place];
    connector.modes_ptr = (uintptr_t)modes;
    connector.count_modes = 16;
    if (ask(card, DRM_IOCTL_MODE_GETCONNECTOR, &connector) != 0)
        perror("connector");
    *mode = modes[0];
    return (struct output){crtcs[place], connectors[place], planes[place]};
}

static long show(int card, uint32_t crtc_id, const uint32_t *connector, uint32_t framebuffer,
                 const struct drm_mode_modeinfo *mode)
{
    struct drm_mode_crtc crtc = {0};

    crtc.crtc_id = crtc_id;
    crtc.fb_id = framebuffer;
    crtc.set_connectors_ptr = (uintptr_t)connector;
    crtc.count_connectors = 1;
    crtc.mode = *mode;
    crtc.mode_valid = 1;
    return ask(card, DRM_IOCTL_MODE_SETCRTC, &crtc);
}

/* A framebuffer that is as large as a mode. */
static uint32_t make_framebuffer(int card, const struct drm_mode_modeinfo *mode)
{
    struct drm_mode_create_dumb dumb = {0};
    struct drm_mode_fb_cmd framebuffer = {0};

    dumb.width = mode->hdisplay;
    dumb.height = mode->vdisplay;
    dumb.bpp = 32;
    say("makes a dumb buffer", ask(card, DRM_IOCTL_MODE_CREATE_DUMB, &dumb));
    framebuffer.width = dumb.width;
    framebuffer.height = dumb.height;
    framebuffer.pitch = dumb.pitch;
    framebuffer.bpp = dumb.bpp;
    framebuffer.depth = 24;
    framebuffer.handle = dumb.handle;
    say("adds a framebuffer", ask(card, DRM_IOCTL_MODE_ADDFB, &framebuffer));
    return framebuffer.fb_id;
}

static void print_version(int card)
{
    char name[32] = "";
    struct drm_version version = {0};

    version.name = name;
    version.name_len = sizeof name - 1;
    say("version", ask(card, DRM_IOCTL_VERSION, &version));
    printf("driver: %s\n", name);
}

static void print_resources(int card)
{
    struct drm_mode_card_res resources = {0};

    say("resources", ask(card, DRM_IOCTL_MODE_GETRESOURCES, &resources));
    printf("%u CRTCs, %u encoders, %u connectors\n", resources.count_crtcs,
           resources.count_encoders, resources.count_connectors);
}

/* What a program does that shows something. */
static void shows(void)
{
    int card = open_card(), other;
    struct drm_mode_modeinfo mode;
    struct output output;
    struct drm_mode_crtc crtc = {0};
    uint32_t framebuffer;

    print_version(card);
    say("becomes master", ask(card, DRM_IOCTL_SET_MASTER, NULL));
    print_resources(card);
    output = output_at(card, 0, &mode);
    framebuffer = make_framebuffer(card, &mode);
    say("sets a CRTC", show(card, output.crtc, &output.connector, framebuffer, &mode));
    other = open_card();
    crtc.crtc_id = output.crtc;
    say("another client reads it", ask(other, DRM_IOCTL_MODE_GETCRTC, &crtc));
    printf("the framebuffer is shown: %s\n", crtc.fb_id == framebuffer ? "yes" : "no");
    say("another client sets it", show(other, output.crtc, &output.connector, framebuffer, &mode));
    say("and becomes master", ask(other, DRM_IOCTL_SET_MASTER, NULL));
    close(card);
    card = open_card();
    say("the next client is master", ask(card, DRM_IOCTL_SET_MASTER, NULL));
}

/* Leases an output, and shows something on both outputs by the lease. */
static void leases(void)
{
    int card = open_card();
    struct drm_set_client_cap universal = {DRM_CLIENT_CAP_UNIVERSAL_PLANES, 1};
    struct drm_mode_create_lease lease = {0}, again;
    struct drm_mode_modeinfo mode;
    struct output mine, other;
    uint32_t objects[3], framebuffer;
    int lessee;

    say("universal planes", ask(card, DRM_IOCTL_SET_CLIENT_CAP, &universal));
    mine = output_at(card, 0, &mode);
    other = output_at(card, 1, &mode);
    memcpy(objects, &mine, sizeof objects);
    lease.object_ids = (uintptr_t)objects;
    lease.object_count = 3;
    lease.flags = O_CLOEXEC;
    again = lease;
    say("leases an output", ask(card, DRM_IOCTL_MODE_CREATE_LEASE, &lease));
    say("leases it again", ask(card, DRM_IOCTL_MODE_CREATE_LEASE, &again));
    lessee = (int)lease.fd;
    printf("closed at exec: %s\n",
           syscall(SYS_fcntl, lessee, F_GETFD) == FD_CLOEXEC ? "yes" : "no");
    framebuffer = make_framebuffer(lessee, &mode);
    say("lessee shows it", show(lessee, mine.crtc, &mine.connector, framebuffer, &mode));
    say("on another CRTC", show(lessee, other.crtc, &other.connector, framebuffer, &mode));
    print_resources(lessee);
}

static void print_mapping(const char *what, const char *memory)
{
    printf("%s: %s\n", what, memory[0] == '\0' ? "nothing" : memory);
}

/* Maps dumb buffers by the kernel's mmap. */
static void maps(void)
{
    int card = open_card();
    struct drm_mode_create_dumb dumb = {0};
    struct drm_mode_map_dumb mapped = {0};
    struct drm_mode_destroy_dumb destroyed = {0};
    char *memory;

    dumb.width = dumb.height = SIDE;
    dumb.bpp = 32;
    say("makes a dumb buffer", ask(card, DRM_IOCTL_MODE_CREATE_DUMB, &dumb));
    printf("%u bytes in a line, %llu in all\n", dumb.pitch, (unsigned long long)dumb.size);
    mapped.handle = dumb.handle;
    say("maps it", ask(card, DRM_IOCTL_MODE_MAP_DUMB, &mapped));
    memory = map(card, mapped.offset, dumb.size);
    print_mapping("it has", memory);
    strcpy(memory, "pixels");
    print_mapping("it then has", map(card, mapped.offset, dumb.size));
    say("maps more than it has",
        syscall(SYS_mmap, NULL, 2 * dumb.size, PROT_READ, MAP_SHARED, card, mapped.offset));
    mapped.handle = dumb.handle + 1;
    say("maps one that isn't there", ask(card, DRM_IOCTL_MODE_MAP_DUMB, &mapped));
    destroyed.handle = dumb.handle;
    say("destroys it", ask(card, DRM_IOCTL_MODE_DESTROY_DUMB, &destroyed));
    say("makes another", ask(card, DRM_IOCTL_MODE_CREATE_DUMB, &dumb));
    mapped.handle = dumb.handle;
    say("maps that", ask(card, DRM_IOCTL_MODE_MAP_DUMB, &mapped));
    print_mapping("that has", map(card, mapped.offset, dumb.size));
}

/* What a handle's memory has. */
static char *map_handle(int card, uint32_t handle, uint64_t size)
{
    struct drm_mode_map_dumb mapped = {.handle = handle};

    say("maps a handle", ask(card, DRM_IOCTL_MODE_MAP_DUMB, &mapped));
    return map(card, mapped.offset, size);
}

/* Passes a buffer to another client by a PRIME descriptor. */
static void shares(void)
{
    int card = open_card(), other = open_card();
    struct drm_mode_create_dumb dumb = {0};
    struct drm_prime_handle exported = {0}, imported = {0};
    struct dma_buf_sync sync = {DMA_BUF_SYNC_START | DMA_BUF_SYNC_WRITE};

    dumb.width = dumb.height = SIDE;
    dumb.bpp = 32;
    say("makes a dumb buffer", ask(card, DRM_IOCTL_MODE_CREATE_DUMB, &dumb));
    exported.handle = dumb.handle;
    exported.flags = DRM_CLOEXEC | DRM_RDWR;
    say("exports it", ask(card, DRM_IOCTL_PRIME_HANDLE_TO_FD, &exported));
    printf("%ld bytes\n", (long)syscall(SYS_lseek, exported.fd, 0, SEEK_END));
    strcpy(map_handle(card, dumb.handle, dumb.size), "pixels");
    print_mapping("the descriptor has", map(exported.fd, 0, dumb.size));
    imported.fd = exported.fd;
    say("begins to write", ask(exported.fd, DMA_BUF_IOCTL_SYNC, &sync));
    sync.flags = 64;
    say("with an unknown flag", ask(exported.fd, DMA_BUF_IOCTL_SYNC, &sync));
    say("with a bad address", ask(exported.fd, DMA_BUF_IOCTL_SYNC, (void *)8));
    say("asks what isn't known of it", ask(exported.fd, _IO(DMA_BUF_BASE, 99), NULL));
    say("another client imports it", ask(other, DRM_IOCTL_PRIME_FD_TO_HANDLE, &imported));
    printf("the descriptor is the same: %s\n", imported.fd == exported.fd ? "yes" : "no");
    print_mapping("the importer has", map_handle(other, imported.handle, dumb.size));
    imported.fd = card;
    say("imports a node", ask(other, DRM_IOCTL_PRIME_FD_TO_HANDLE, &imported));
    imported.fd = 999;
    say("imports no descriptor", ask(other, DRM_IOCTL_PRIME_FD_TO_HANDLE, &imported));
}

/* Shares the node with a child, which ends while the parent continues. */
static void forks(void)
{
    int card = open_card(), status = 0;
    pid_t child;

    fflush(stdout);
    child = fork();
    if (child == 0) {
        print_resources(card);
        fflush(stdout);
        _exit(0);
    }
    waitpid(child, &status, 0);
    say("still master", ask(card, DRM_IOCTL_SET_MASTER, NULL));
}

/* What is refused, and what isn't the device's. */
static void refusals(void)
{
    int card = open_card(), waits_not = open_not_waiting(), null = open_path("/dev/null");
    struct drm_mode_crtc_page_flip flip = {.flags = DRM_MODE_PAGE_FLIP_EVENT};
    struct drm_mode_card_res resources = {0};
    char bytes[64];

    resources.crtc_id_ptr = 8;
    resources.count_crtcs = 8;
    say("reads to a bad address", ask(card, DRM_IOCTL_MODE_GETRESOURCES, &resources));
    say("reads to no address", ask(card, DRM_IOCTL_MODE_GETRESOURCES, NULL));
    say("asks with a bad address", ask(card, DRM_IOCTL_MODE_GETRESOURCES, (void *)8));
    say("asks what isn't known", ask(card, DRM_IO(0xff), NULL));
    say("flips with an event", ask(card, DRM_IOCTL_MODE_PAGE_FLIP, &flip));
    say("reads no event", syscall(SYS_read, waits_not, bytes, sizeof bytes));
    say("asks another file", ask(null, DRM_IOCTL_MODE_GETRESOURCES, &resources));
    say("asks no file", ask(999, DRM_IOCTL_MODE_GETRESOURCES, &resources));
    say("opens another card", open_path("/dev/dri/card1"));
    say("opens the render node", open_path("/dev/dri/renderD128"));
    say("opens a bad address", syscall(SYS_openat, AT_FDCWD, (char *)8, O_RDONLY, 0));
}

/* Waits for an event by poll, and prints it. */
static void print_event(int card, const char *what)
{
    union {
        struct drm_event base;
        struct drm_event_vblank vblank;
        struct drm_event_crtc_sequence sequence;
    } event[4] = {0};
    struct pollfd waited = {card, POLLIN, 0};
    long ready = syscall(SYS_poll, &waited, 1, 10000);
    long size = syscall(SYS_read, card, event, sizeof event);

    printf("%s: ready %ld, %ld bytes, type %u, data %llu\n", what, ready, size, event->base.type,
           (unsigned long long)(event->base.type == DRM_EVENT_CRTC_SEQUENCE
                                    ? event->sequence.user_data
                                    : event->vblank.user_data));
}

/* Flips, and asks for vertical blanking, with events that are read when they are due. */
static void events(void)
{
    int card = open_not_waiting(), set = (int)syscall(SYS_epoll_create1, 0);
    struct drm_mode_modeinfo mode;
    struct output output = output_at(card, 0, &mode);
    uint32_t framebuffer = make_framebuffer(card, &mode);
    struct drm_mode_crtc_page_flip flip = {.flags = DRM_MODE_PAGE_FLIP_EVENT, .user_data = 7};
    union drm_wait_vblank wait = {.request = {_DRM_VBLANK_RELATIVE | _DRM_VBLANK_EVENT, 1, 8}};
    struct drm_crtc_queue_sequence queued = {.flags = DRM_CRTC_SEQUENCE_RELATIVE, .user_data = 9};
    struct epoll_event waited = {.events = EPOLLIN, .data = {.u64 = 5}};
    char bytes[64];

    flip.crtc_id = queued.crtc_id = output.crtc;
    flip.fb_id = framebuffer;
    queued.sequence = 1;
    say("sets a CRTC", show(card, output.crtc, &output.connector, framebuffer, &mode));
    say("flips", ask(card, DRM_IOCTL_MODE_PAGE_FLIP, &flip));
    say("flips again", ask(card, DRM_IOCTL_MODE_PAGE_FLIP, &flip));
    print_event(card, "flip");
    say("reads again", syscall(SYS_read, card, bytes, sizeof bytes));
    say("waits for a blanking", ask(card, DRM_IOCTL_WAIT_VBLANK, &wait));
    print_event(card, "blanking");
    say("waits by epoll", syscall(SYS_epoll_ctl, set, EPOLL_CTL_ADD, card, &waited));
    say("waits for another", ask(card, DRM_IOCTL_CRTC_QUEUE_SEQUENCE, &queued));
    printf("epoll: %ld\n", (long)syscall(SYS_epoll_wait, set, &waited, 1, 10000));
    print_event(card, "sequence");
    say("writes", syscall(SYS_write, card, bytes, sizeof bytes));
}

int main(int count, char **words)
{
    static const struct {
        const char *name;
        void (*carry_out)(void);
    } known[] = {{"shows", shows}, {"leases", leases},     {"maps", maps},    {"shares", shares},
                 {"forks", forks}, {"refusals", refusals}, {"events", events}};
    size_t at;

    for (at = 0; count == 2 && at < sizeof known / sizeof known[0]; at++) {
        if (strcmp(words[1], known[at].name) == 0) {
            known[at].carry_out();
            return 0;
        }
    }
    fprintf(stderr, "usage: supervised WHAT\n");
    return 2;
}
