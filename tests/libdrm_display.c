/* For tests: what two processes see of one display, and what a process may do with a node. The
 * argument is a case, which prints what it finds. */
#define _GNU_SOURCE
#include <errno.h>
#include <fcntl.h>
#include <poll.h>
#include <pthread.h>
#include <signal.h>
#include <stdatomic.h>
#include <stdbool.h>
#include <stdint.h>
#include <stdio.h>
#include <stdlib.h>
#include <string.h>
#include <sys/epoll.h>
#include <sys/ioctl.h>
#include <sys/mman.h>
#include <sys/resource.h>
#include <sys/socket.h>
#include <sys/wait.h>
#include <time.h>
#include <unistd.h>

#include <dirent.h>
#include <drm_fourcc.h>
#include <sys/stat.h>
#include <xf86drm.h>
#include <xf86drmMode.h>

#define CRTC 1
#define CONNECTOR 7
#define PLANE 3

static int opened(void)
{
    int fd = open("/dev/dri/card0", O_RDWR | O_CLOEXEC);

    if (fd < 0) {
        printf("no card: %s\n", strerror(errno));
        exit(2);
    }
    return fd;
}

static uint32_t buffer(int fd, uint32_t width, uint32_t height, uint32_t format, uint32_t *handle)
{
    uint32_t pitch, id = 0, handles[4] = {0}, pitches[4] = {0}, offsets[4] = {0};
    uint64_t size;

    if (drmModeCreateDumbBuffer(fd, width, height, 32, 0, handle, &pitch, &size) != 0)
        return 0;
    handles[0] = *handle;
    pitches[0] = pitch;
    drmModeAddFB2(fd, width, height, format, handles, pitches, offsets, &id, 0);
    return id;
}

static drmModeModeInfo mode_of(int fd, int at)
{
    drmModeConnector *connector = drmModeGetConnector(fd, CONNECTOR);
    drmModeModeInfo mode = connector->modes[at];

    drmModeFreeConnector(connector);
    return mode;
}

static uint32_t lit(int fd, uint32_t x, uint32_t y)
{
    drmModeModeInfo mode = mode_of(fd, 2);
    uint32_t handle, connector = CONNECTOR;
    uint32_t id = buffer(fd, 2000, 2000, DRM_FORMAT_XBGR8888, &handle);

    if (drmModeSetCrtc(fd, CRTC, id, x, y, &connector, 1, &mode) != 0)
        printf("set: %s\n", strerror(errno));
    return id;
}

/* The name of an error that a case can find, or its number. */
static const char *said(int result)
{
    static char number[16];

    snprintf(number, sizeof number, "%d", errno);
    return result == 0       ? "done"
           : errno == EACCES ? "EACCES"
           : errno == EBUSY  ? "EBUSY"
           : errno == EFAULT ? "EFAULT"
           : errno == EMFILE ? "EMFILE"
           : errno == ENOENT ? "ENOENT"
           : errno == ENOMEM ? "ENOMEM"
           : errno == EPERM  ? "EPERM"
                             : number;
}

static void wait_for(pid_t child)
{
    int status;

    if (child > 1 && waitpid(child, &status, 0) == child && WIFSIGNALED(status))
        printf("signal %d\n", WTERMSIG(status));
}

static void tell_event(const char *who, int fd)
{
    struct pollfd waited = {fd, POLLIN, 0};
    char bytes[1024];
    int ready = poll(&waited, 1, 1000);
    ssize_t length = ready > 0 ? read(fd, bytes, sizeof bytes) : 0;
    struct drm_event_vblank event;

    memset(&event, 0, sizeof event);
    if (length >= (ssize_t)sizeof event)
        memcpy(&event, bytes, sizeof event);
    printf("%s: ready %d, length %zd, type %u, data %llu, crtc %u\n", who, ready, length,
           event.base.type, (unsigned long long)event.user_data, event.crtc_id);
    fflush(stdout);
}

/* Runs a case in its own program, next to this one. */
static void beside(const char *name)
{
    pid_t child;

    fflush(stdout);
    child = fork();
    if (child == 0) {
        execl("/proc/self/exe", "libdrm_display", name, NULL);
        _exit(127);
    }
    wait_for(child);
}

/* The value of a property of an object. */
static uint64_t value_of(int fd, uint32_t object, uint32_t kind, const char *name)
{
    drmModeObjectProperties *all = drmModeObjectGetProperties(fd, object, kind);
    uint64_t found = UINT64_MAX;
    uint32_t at;

    for (at = 0; all != NULL && at < all->count_props; at++) {
        drmModePropertyRes *property = drmModeGetProperty(fd, all->props[at]);

        if (property != NULL && strcmp(property->name, name) == 0)
            found = all->prop_values[at];
        drmModeFreeProperty(property);
    }
    drmModeFreeObjectProperties(all);
    return found;
}

static void look_at(int fd)
{
    drmModeCrtc *crtc;
    drmModeFB2 *fb;
    drmModePlane *plane;
    drmModePropertyBlobRes *blob;

    drmSetClientCap(fd, DRM_CLIENT_CAP_ATOMIC, 1);
    crtc = drmModeGetCrtc(fd, CRTC);
    fb = drmModeGetFB2(fd, crtc->buffer_id);
    plane = drmModeGetPlane(fd, PLANE);
    blob =
        drmModeGetPropertyBlob(fd, (uint32_t)value_of(fd, CRTC, DRM_MODE_OBJECT_CRTC, "MODE_ID"));
    printf("mode %s at %u,%u, format %.4s, ", crtc->mode.name, crtc->x, crtc->y,
           fb == NULL ? "none" : (char *)&fb->pixel_format);
    printf("plane shows it %d on CRTC %u from %u, ", plane->fb_id == crtc->buffer_id,
           plane->crtc_id, (uint32_t)(value_of(fd, PLANE, DRM_MODE_OBJECT_PLANE, "SRC_X") >> 16));
    printf("blob %s, connector on CRTC %u\n",
           blob == NULL ? "none" : ((drmModeModeInfo *)blob->data)->name,
           (uint32_t)value_of(fd, CONNECTOR, DRM_MODE_OBJECT_CONNECTOR, "CRTC_ID"));
}

static void look(void)
{
    look_at(opened());
}

/* The descriptor is that of a lease. */
static void look_leased(void)
{
    look_at(9);
}

/* Sets a CRTC, and waits for a line. */
static void shows(void)
{
    lit(opened(), 100, 50);
    printf("shown\n");
    fflush(stdout);
    getchar();
}

/* What another program that opens the card itself sees, and one with a lease. */
static void view(void)
{
    uint32_t objects[] = {CRTC, PLANE, CONNECTOR}, lessee;
    int fd = opened();

    lit(fd, 100, 50);
    beside("look");
    drmSetClientCap(fd, DRM_CLIENT_CAP_UNIVERSAL_PLANES, 1);
    dup2(drmModeCreateLease(fd, objects, 3, O_CLOEXEC, &lessee), 9);
    beside("look-leased");
}

static void fork_events(void)
{
    int fd = opened();
    uint32_t id = lit(fd, 0, 0);
    pid_t child;

    fflush(stdout);
    drmModePageFlip(fd, CRTC, id, DRM_MODE_PAGE_FLIP_EVENT, (void *)77);
    child = fork();
    if (child == 0) {
        tell_event("child of the parent's flip", fd);
        usleep(50000);
        drmModePageFlip(fd, CRTC, id, DRM_MODE_PAGE_FLIP_EVENT, (void *)78);
        _exit(0);
    }
    wait_for(child);
    tell_event("parent of the child's flip", fd);
}

static void pass(int socket, int fd)
{
    union {
        struct cmsghdr head;
        char room[CMSG_SPACE(sizeof fd)];
    } control = {0};
    char byte = 0;
    struct iovec part = {&byte, 1};
    struct msghdr message = {.msg_iov = &part,
                             .msg_iovlen = 1,
                             .msg_control = &control,
                             .msg_controllen = sizeof control};

    control.head.cmsg_level = SOL_SOCKET;
    control.head.cmsg_type = SCM_RIGHTS;
    control.head.cmsg_len = CMSG_LEN(sizeof fd);
    memcpy(CMSG_DATA(&control.head), &fd, sizeof fd);
    sendmsg(socket, &message, 0);
}

static int received(int socket)
{
    union {
        struct cmsghdr head;
        char room[CMSG_SPACE(sizeof(int))];
    } control;
    char byte;
    struct iovec part = {&byte, 1};
    struct msghdr message = {.msg_iov = &part,
                             .msg_iovlen = 1,
                             .msg_control = &control,
                             .msg_controllen = sizeof control};
    int fd = -1;

    if (recvmsg(socket, &message, 0) == 1)
        memcpy(&fd, CMSG_DATA(&control.head), sizeof fd);
    return fd;
}

/* The descriptor is passed, and closed here: the file stays, with its pending event. */
static void passed_events(void)
{
    int pair[2], fd;
    pid_t child;

    socketpair(AF_UNIX, SOCK_STREAM, 0, pair);
    fflush(stdout);
    child = fork();
    if (child == 0) {
        int got = received(pair[1]), set = epoll_create1(0);
        struct epoll_event event = {.events = EPOLLIN}, seen;
        drmModeCrtc *crtc;
        uint32_t id;

        epoll_ctl(set, EPOLL_CTL_ADD, got, &event);
        printf("epoll %d\n", epoll_wait(set, &seen, 1, 1000));
        tell_event("receiver", got);
        crtc = drmModeGetCrtc(got, CRTC);
        id = crtc->buffer_id;
        usleep(50000);
        printf("receiver's flip: %s\n",
               said(drmModePageFlip(got, CRTC, id, DRM_MODE_PAGE_FLIP_EVENT, (void *)5)));
        tell_event("receiver", got);
        _exit(0);
    }
    fd = opened();
    drmModePageFlip(fd, CRTC, lit(fd, 0, 0), DRM_MODE_PAGE_FLIP_EVENT, (void *)4);
    pass(pair[0], fd);
    close(fd);
    wait_for(child);
}

/* A handle that one holder of the file makes after the fork is mapped by the other; and by a name
 * through another file. */
static void mapping(void)
{
    int fd = opened(), pair[2];
    struct drm_gem_flink flink = {0};
    struct drm_gem_open opening = {0};
    uint32_t handle, name;
    drm_magic_t magic = 0;
    uint64_t offset;
    uint8_t *bytes;
    pid_t child;
    int own;

    socketpair(AF_UNIX, SOCK_STREAM, 0, pair);
    fflush(stdout);
    child = fork();
    if (child == 0) {
        uint32_t pitch;
        uint64_t size;

        drmModeCreateDumbBuffer(fd, 64, 64, 32, 0, &handle, &pitch, &size);
        drmModeMapDumbBuffer(fd, handle, &offset);
        bytes = mmap(NULL, size, PROT_READ | PROT_WRITE, MAP_SHARED, fd, (off_t)offset);
        memset(bytes, 0xa5, size);
        write(pair[1], &handle, sizeof handle);
        read(pair[1], &handle, 1);
        _exit(0);
    }
    read(pair[0], &handle, sizeof handle);
    if (drmModeMapDumbBuffer(fd, handle, &offset) != 0)
        printf("map: %s\n", strerror(errno));
    bytes = mmap(NULL, 64 * 64 * 4, PROT_READ | PROT_WRITE, MAP_SHARED, fd, (off_t)offset);
    printf("other holder's byte %02x\n", bytes == MAP_FAILED ? 0 : bytes[100]);
    flink.handle = handle;
    printf("flink %s\n", said(drmIoctl(fd, DRM_IOCTL_GEM_FLINK, &flink)));
    name = flink.name;
    own = open("/dev/dri/card0", O_RDWR);
    drmGetMagic(own, &magic);
    drmAuthMagic(fd, magic);
    opening.name = name;
    printf("open by the name %s\n", said(drmIoctl(own, DRM_IOCTL_GEM_OPEN, &opening)));
    if (drmModeMapDumbBuffer(own, opening.handle, &offset) == 0) {
        uint8_t *named = mmap(NULL, 64 * 64 * 4, PROT_READ, MAP_SHARED, own, (off_t)offset);

        printf("byte by the name %02x\n", named == MAP_FAILED ? 0 : named[100]);
    }
    write(pair[0], "", 1);
    wait_for(child);
}

static void master(void)
{
    int fd = opened();
    pid_t child;

    printf("drop by the opener: %s\n", said(drmDropMaster(fd)));
    fflush(stdout);
    child = fork();
    if (child == 0) {
        printf("set by a child: %s\n", said(drmSetMaster(fd)));
        fflush(stdout);
        _exit(0);
    }
    wait_for(child);
    printf("set by the opener: %s\n", said(drmSetMaster(fd)));
    fflush(stdout);
    child = fork();
    if (child == 0) {
        printf("drop by a child: %s\n", said(drmDropMaster(fd)));
        fflush(stdout);
        _exit(0);
    }
    wait_for(child);
    printf("drop by the opener: %s\n", said(drmDropMaster(fd)));
}

static void sequence(void)
{
    int fd = opened();
    uint64_t number = 0, time = 0;

    drmCrtcGetSequence(fd, CRTC, &number, &time);
    printf("sequence above 20 %d\n", number > 20);
}

/* One clock for each CRTC: another program counts on. */
static void sequences(void)
{
    int fd = opened();

    lit(fd, 0, 0);
    usleep(500000);
    beside("sequence");
}

/* The other one is a holder of the same file, after an exec. */
static void held_flip(void)
{
    int fd = 9;
    drmModeCrtc *crtc = drmModeGetCrtc(fd, CRTC);

    printf("flip while another's is pending: %s\n",
           said(drmModePageFlip(fd, CRTC, crtc->buffer_id, 0, NULL)));
}

static void busy(void)
{
    int fd = opened();
    drmModeModeInfo mode = mode_of(fd, 2);
    uint32_t handle, connector = CONNECTOR;
    uint32_t id = buffer(fd, 2000, 2000, DRM_FORMAT_XBGR8888, &handle);

    mode.clock /= 60; /* one frame a second */
    drmModeSetCrtc(fd, CRTC, id, 0, 0, &connector, 1, &mode);
    dup2(fd, 9);
    drmModePageFlip(fd, CRTC, id, 0, NULL);
    beside("held-flip");
}

static void killed(void)
{
    int fd = opened(), round, failed = 0;
    uint64_t value;

    fflush(stdout);
    for (round = 0; round < 100; round++) {
        pid_t child = fork();

        if (child == 0) {
            for (;;)
                drmGetCap(fd, DRM_CAP_DUMB_BUFFER, &value);
        }
        usleep(1000 + (useconds_t)(rand() % 2000));
        if (child > 1)
            kill(child, SIGKILL);
        waitpid(child, NULL, 0);
        failed += drmGetCap(fd, DRM_CAP_DUMB_BUFFER, &value) != 0;
    }
    printf("failed after kills %d of 100\n", failed);
}

static double seconds_since(const struct timespec *begun)
{
    struct timespec now;

    clock_gettime(CLOCK_MONOTONIC, &now);
    return (double)(now.tv_sec - begun->tv_sec) + (double)(now.tv_nsec - begun->tv_nsec) / 1e9;
}

/* The server answers the child late. */
static void killed_waiting(void)
{
    struct timespec begun;
    struct stat status;
    double looked;
    pid_t child = fork();

    if (child == 0) {
        drmModeGetCrtc(opened(), CRTC);
        _exit(0);
    }
    usleep(500000);
    if (child > 1)
        kill(child, SIGKILL);
    waitpid(child, NULL, 0);
    clock_gettime(CLOCK_MONOTONIC, &begun);
    stat("/dev/dri/card0", &status);
    looked = seconds_since(&begun);
    clock_gettime(CLOCK_MONOTONIC, &begun);
    opened();
    printf("stat at once %d, opening in a while %d\n", looked < 0.8, seconds_since(&begun) < 2.5);
}

static void reopen(void)
{
    int round, failed = 0;

    for (round = 0; round < 1000; round++) {
        int fd = opened();

        failed += !drmIsMaster(fd);
        close(fd);
    }
    printf("not master after a close %d of 1000\n", failed);
}

/* A process ends, and who waited for it opens. */
static void reopen_ended(void)
{
    int round, failed = 0;

    fflush(stdout);
    for (round = 0; round < 200; round++) {
        int fd;
        pid_t child = fork();

        if (child == 0) {
            opened();
            _exit(0);
        }
        waitpid(child, NULL, 0);
        fd = opened();
        failed += !drmIsMaster(fd);
        close(fd);
    }
    printf("not master after an end %d of 200\n", failed);
}

/* One closes, and another file that was open before becomes master. */
static void next_master(void)
{
    int round, failed = 0;

    for (round = 0; round < 500; round++) {
        int fd = opened(), other = opened();

        close(fd);
        failed += drmSetMaster(other) != 0 && errno != EACCES;
        close(other);
    }
    printf("busy after a close %d of 500\n", failed);
}

static volatile sig_atomic_t handled = -1;

static void on_alarm(int number)
{
    (void)number;
    if (handled >= 0)
        close(handled);
    handled = -1;
}

static void handler(void)
{
    struct sigaction action = {.sa_handler = on_alarm};
    int round;

    sigaction(SIGUSR1, &action, NULL);
    fflush(stdout);
    for (round = 0; round < 500; round++) {
        pid_t self = getpid(), child;

        handled = opened();
        child = fork();
        if (child == 0) {
            if (self > 1)
                kill(self, SIGUSR1);
            _exit(0);
        }
        /* the handler interrupts an allocation */
        while (handled >= 0) {
            void *volatile memory = malloc((size_t)(2000 + rand() % 100000));

            free(memory);
        }
        waitpid(child, NULL, 0);
    }
    printf("closed in a handler 500 times\n");
}

static void *asks_once(void *given)
{
    uint64_t value;

    printf("another thread %s, ", said(drmGetCap(*(int *)given, DRM_CAP_DUMB_BUFFER, &value)));
    return NULL;
}

/* No descriptor is left. */
static void limit(void)
{
    struct drm_gem_close closing = {0};
    struct rlimit few = {64, 64};
    uint32_t handle, pitch;
    pthread_t thread;
    uint64_t size;
    int fd = opened(), prime;

    setrlimit(RLIMIT_NOFILE, &few);
    drmModeCreateDumbBuffer(fd, 8, 8, 32, 0, &handle, &pitch, &size);
    while (open("/dev/null", O_RDONLY) >= 0)
        ;
    asks_once(&fd);
    pthread_create(&thread, NULL, asks_once, &fd);
    pthread_join(thread, NULL);
    printf("export %s, ", said(drmPrimeHandleToFD(fd, handle, DRM_CLOEXEC, &prime)));
    closing.handle = handle;
    printf("gem close %s\n", said(drmIoctl(fd, DRM_IOCTL_GEM_CLOSE, &closing)));
}

static atomic_bool is_over;

static void *asks(void *given)
{
    uint64_t value;

    while (!is_over)
        drmGetCap(*(int *)given, DRM_CAP_DUMB_BUFFER, &value);
    return NULL;
}

/* A child that was forked during a call of another thread closes the last descriptor. */
static void forked(void)
{
    int round;

    fflush(stdout);
    for (round = 0; round < 20; round++) {
        int fd = opened();
        pthread_t thread;
        pid_t child;

        is_over = false;
        pthread_create(&thread, NULL, asks, &fd);
        usleep(5000);
        child = fork();
        if (child == 0) {
            alarm(5);
            usleep(50000);
            close(fd);
            _exit(0);
        }
        is_over = true;
        pthread_join(thread, NULL);
        close(fd);
        wait_for(child);
    }
    printf("children that closed 20\n");
}

static void room(void)
{
    int fd = opened(), count = 0, failed, read_ones = 0;
    char bytes[1024];

    lit(fd, 0, 0);
    fcntl(fd, F_SETFL, O_NONBLOCK);
    for (;;) {
        drmVBlank wait = {
            .request = {.type = DRM_VBLANK_RELATIVE | DRM_VBLANK_EVENT, .sequence = 1}};

        failed = drmWaitVBlank(fd, &wait);
        if (failed || count > 1000)
            break;
        count++;
        if (count % 40 == 0)
            usleep(40000);
    }
    printf("events %d, then %s; ", count, said(failed));
    usleep(40000);
    while (read(fd, bytes, sizeof bytes) > 0)
        read_ones++;
    printf("read %d; ", read_ones);
    {
        drmVBlank wait = {
            .request = {.type = DRM_VBLANK_RELATIVE | DRM_VBLANK_EVENT, .sequence = 1}};

        printf("then %s\n", said(drmWaitVBlank(fd, &wait)));
    }
}

/* A descriptor whose exporter has closed its file. */
static void orphan(void)
{
    int fd = opened(), other = opened(), prime = -1;
    uint32_t handle, pitch, imported = 0;
    uint64_t size, offset;

    drmModeCreateDumbBuffer(fd, 64, 64, 32, 0, &handle, &pitch, &size);
    drmPrimeHandleToFD(fd, handle, DRM_CLOEXEC | DRM_RDWR, &prime);
    close(fd);
    printf("import after the exporter's close: %s, ",
           said(drmPrimeFDToHandle(other, prime, &imported)));
    printf("map %s\n", said(drmModeMapDumbBuffer(other, imported, &offset)));
}

/* Opened again by its path, a node is another client, which isn't master. */
static void reopened(void)
{
    const char *const paths[] = {"/proc/self/fd/%d", "/dev/fd/%d", "/proc/thread-self/fd/%d"};
    int fd = opened(), other;
    char path[64];
    size_t at;

    for (at = 0; at < sizeof paths / sizeof paths[0]; at++) {
        snprintf(path, sizeof path, paths[at], fd);
        other = open(path, O_RDWR | O_CLOEXEC);
        printf("opens %s, ", said(other < 0));
        printf("is master %d, ", drmIsMaster(other));
        close(other);
    }
    printf("the first is master %d\n", drmIsMaster(fd));
}

/* Where libdrm finds the device */
static void looks(void)
{
    int folder = open("/sys/dev/char/226:0", O_RDONLY | O_DIRECTORY | O_CLOEXEC);
    struct dirent *entry, own;
    DIR *stream = opendir("/dev/dri");
    long place;
    int count = 0;

    printf("opens a link to a folder %s, ", said(folder < 0));
    printf("its file %s, ", said(openat(folder, "uevent", O_RDONLY) < 0));
    printf("changes the mode %s, ", said(chmod("/dev/dri/card0", 0600)));
    printf("owner %s, ", said(chown("/dev/dri/card0", 0, 0)));
    printf("no node's mode %s\n", said(chmod("/dev/dri/card7", 0600)));
    while ((entry = readdir(stream)) != NULL)
        count += entry->d_name[0] != '.';
    rewinddir(stream);
    place = telldir(stream);
    while ((entry = readdir(stream)) != NULL && entry->d_name[0] == '.')
        place = telldir(stream);
    printf("%d entries, %s, ", count, entry == NULL ? "none" : entry->d_name);
    seekdir(stream, place);
    entry = readdir(stream);
    printf("again %s, ", entry == NULL ? "none" : entry->d_name);
    rewinddir(stream);
    count = 0;
#pragma GCC diagnostic ignored "-Wdeprecated-declarations"
    while (readdir_r(stream, &own, &entry) == 0 && entry != NULL)
        count += entry->d_name[0] != '.';
    printf("%d entries\n", count);
    closedir(stream);
}

/* Wrong addresses of a struct, of a list that is read, and of one that is written */
static void addresses(void)
{
    struct drm_mode_card_res resources = {.crtc_id_ptr = 16, .count_crtcs = 8};
    struct drm_mode_create_blob blob = {.data = 16, .length = 8};
    struct drm_mode_atomic commit = {.objs_ptr = 16, .count_props_ptr = 16, .count_objs = 2};
    void *constant = mmap(NULL, 4096, PROT_READ, MAP_PRIVATE | MAP_ANONYMOUS, -1, 0);
    int fd = opened();

    drmSetClientCap(fd, DRM_CLIENT_CAP_ATOMIC, 1);
    printf("struct %s, ", said(ioctl(fd, DRM_IOCTL_MODE_GETRESOURCES, (void *)16)));
    printf("none %s, ", said(ioctl(fd, DRM_IOCTL_MODE_GETRESOURCES, NULL)));
    printf("constant %s, ", said(ioctl(fd, DRM_IOCTL_MODE_GETRESOURCES, constant)));
    printf("written %s, ", said(ioctl(fd, DRM_IOCTL_MODE_GETRESOURCES, &resources)));
    printf("read %s, ", said(ioctl(fd, DRM_IOCTL_MODE_CREATEPROPBLOB, &blob)));
    printf("commit %s\n", said(ioctl(fd, DRM_IOCTL_MODE_ATOMIC, &commit)));
}

/* A process is stopped while it maps buffers, and continues. */
static void stopped(void)
{
    int fd = opened(), round, status, stops = 0;
    uint32_t handle, pitch;
    uint64_t size, offset;
    pid_t child;

    drmModeCreateDumbBuffer(fd, 64, 64, 32, 0, &handle, &pitch, &size);
    drmModeMapDumbBuffer(fd, handle, &offset);
    fflush(stdout);
    child = fork();
    for (; child == 0;) {
        void *mapped = mmap(NULL, size, PROT_READ, MAP_SHARED, fd, (off_t)offset);

        if (mapped == MAP_FAILED)
            _exit(1);
        munmap(mapped, size);
    }
    for (round = 0; round < 8; round++) {
        usleep(10000);
        if (child > 1)
            kill(child, SIGSTOP);
        for (status = 0; status < 100 && waitpid(child, &(int){0}, WUNTRACED | WNOHANG) == 0;
             status++)
            usleep(10000);
        stops += status < 100;
        kill(child, SIGCONT);
    }
    kill(child, SIGKILL);
    waitpid(child, &status, 0);
    printf("stops %d of 8, killed by %d\n", stops, WTERMSIG(status));
}

/* Standard error is closed, so that a node could get its number, or nothing reads it. */
static void traced(void)
{
    int pair[2], fd, again;
    uint64_t value;

    close(STDERR_FILENO);
    fd = opened();
    drmGetCap(fd, 999, &value);
    printf("node %d, master %d, ", fd, drmIsMaster(fd));
    again = fcntl(fd, F_DUPFD, 10);
    if (pipe(pair) != 0)
        exit(2);
    dup2(pair[1], STDERR_FILENO);
    close(pair[0]);
    drmGetCap(again, 999, &value);
    printf("master %d\n", drmIsMaster(again));
}

static void waits(void)
{
    int fd = opened();
    drmVBlank wait = {.request = {.type = DRM_VBLANK_RELATIVE, .sequence = 6}};
    struct timespec begun, ended;
    long took;

    lit(fd, 0, 0);
    clock_gettime(CLOCK_MONOTONIC, &begun);
    printf("wait %s, ", said(drmWaitVBlank(fd, &wait)));
    clock_gettime(CLOCK_MONOTONIC, &ended);
    took = (ended.tv_sec - begun.tv_sec) * 1000 + (ended.tv_nsec - begun.tv_nsec) / 1000000;
    printf("about six periods %d\n", took > 60 && took < 200);
}

int main(int count, char **words)
{
    static const struct {
        const char *name;
        void (*run)(void);
    } cases[] = {{"view", view},
                 {"fork", fork_events},
                 {"passed", passed_events},
                 {"mapping", mapping},
                 {"master", master},
                 {"sequences", sequences},
                 {"busy", busy},
                 {"killed", killed},
                 {"reopen", reopen},
                 {"reopen-ended", reopen_ended},
                 {"next-master", next_master},
                 {"handler", handler},
                 {"limit", limit},
                 {"forked", forked},
                 {"room", room},
                 {"orphan", orphan},
                 {"waits", waits},
                 {"reopened", reopened},
                 {"shows", shows},
                 {"killed-waiting", killed_waiting},
                 {"looks", looks},
                 {"addresses", addresses},
                 {"stopped", stopped},
                 {"traced", traced},
                 {"look", look},
                 {"look-leased", look_leased},
                 {"sequence", sequence},
                 {"held-flip", held_flip}};
    size_t at;

    for (at = 0; count == 2 && at < sizeof cases / sizeof cases[0]; at++) {
        if (strcmp(words[1], cases[at].name) == 0) {
            cases[at].run();
            fflush(stdout);
            return 0;
        }
    }
    return 2;
}
