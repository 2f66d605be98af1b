/* For tests: carries out scripts through libdrm alone, and writes the answers as docs/SCRIPTS.md
 * has them.
 *
 * A refusal is `denied ERRNO`, and a client has no number: libdrm tells no more. `open L lease T`
 * takes the descriptor of the T-th lease that was made, and a PRIME token T stands for the T-th
 * descriptor that was exported.
 */
#include <errno.h>
#include <fcntl.h>
#include <stdbool.h>
#include <stdint.h>
#include <stdio.h>
#include <stdlib.h>
#include <string.h>
#include <sys/stat.h>
#include <unistd.h>
#include <xf86drm.h>
#include <xf86drmMode.h>

#define MOST 64

/* The descriptors of labels, of leases and of PRIME tokens, and how many leases and tokens were
 * made. */
static int labels[26], leases[MOST], tokens[MOST];
static unsigned lease_count, token_count;

static void denied(int error)
{
    printf("denied %d\n", error);
}

/* What came of a call that answers nothing: some give the error as a negative number, and some in
 * errno. */
static void done(int result)
{
    if (result == 0)
        puts("done");
    else
        denied(result == -1 ? errno : -result);
}

static void number(int result, uint64_t value)
{
    if (result == 0)
        printf("number %llu\n", (unsigned long long)value);
    else
        done(result);
}

/* A list of ids as a word, with what stands before it. */
static void list(const char *before, const uint32_t *ids, uint32_t count)
{
    uint32_t at;

    printf("%s%s", before, count == 0 ? "-" : "");
    for (at = 0; at < count; at++)
        printf("%s%u", at == 0 ? "" : ",", (unsigned)ids[at]);
}

static void version(int fd, const uint64_t *words)
{
    drmVersionPtr found = drmGetVersion(fd);

    (void)words;
    if (found == NULL)
        denied(errno);
    else
        printf("version %d %d %d\n", found->version_major, found->version_minor,
               found->version_patchlevel);
    drmFreeVersion(found);
}

static void get_magic(int fd, const uint64_t *words)
{
    drm_magic_t magic = 0;
    int result = drmGetMagic(fd, &magic);

    (void)words;
    number(result, magic);
}

static void auth_magic(int fd, const uint64_t *words)
{
    done(drmAuthMagic(fd, (drm_magic_t)words[0]));
}

static void set_master(int fd, const uint64_t *words)
{
    (void)words;
    done(drmSetMaster(fd));
}

static void drop_master(int fd, const uint64_t *words)
{
    (void)words;
    done(drmDropMaster(fd));
}

static void gem_close(int fd, const uint64_t *words)
{
    done(drmCloseBufferHandle(fd, (uint32_t)words[0]));
}

static void gem_flink(int fd, const uint64_t *words)
{
    struct drm_gem_flink flink = {.handle = (uint32_t)words[0]};
    int result = drmIoctl(fd, DRM_IOCTL_GEM_FLINK, &flink);

    number(result, flink.name);
}

static void gem_open(int fd, const uint64_t *words)
{
    struct drm_gem_open opened = {.name = (uint32_t)words[0]};

    if (drmIoctl(fd, DRM_IOCTL_GEM_OPEN, &opened) != 0)
        denied(errno);
    else
        printf("buffer %u %llu\n", (unsigned)opened.handle, (unsigned long long)opened.size);
}

static void prime_export(int fd, const uint64_t *words)
{
    int exported;
    int result = drmPrimeHandleToFD(fd, (uint32_t)words[0], DRM_CLOEXEC | DRM_RDWR, &exported);

    if (result == 0)
        tokens[++token_count] = exported;
    number(result, token_count);
}

/* The size is that of the descriptor, as of a dma-buf. */
static void prime_import(int fd, const uint64_t *words)
{
    int token = words[0] > 0 && words[0] <= token_count ? tokens[words[0]] : -1;
    uint32_t handle;
    int result = drmPrimeFDToHandle(fd, token, &handle);

    if (result == 0)
        printf("buffer %u %lld\n", (unsigned)handle, (long long)lseek(token, 0, SEEK_END));
    else
        done(result);
}

static void get_cap(int fd, const uint64_t *words)
{
    uint64_t value = 0;
    int result = drmGetCap(fd, words[0], &value);

    number(result, value);
}

static void set_client_cap(int fd, const uint64_t *words)
{
    done(drmSetClientCap(fd, words[0], words[1]));
}

static void getresources(int fd, const uint64_t *words)
{
    drmModeRes *found = drmModeGetResources(fd);

    (void)words;
    if (found == NULL) {
        denied(errno);
        return;
    }
    list("crtcs ", found->crtcs, (uint32_t)found->count_crtcs);
    list(" connectors ", found->connectors, (uint32_t)found->count_connectors);
    list(" encoders ", found->encoders, (uint32_t)found->count_encoders);
    list(" framebuffers ", found->fbs, (uint32_t)found->count_fbs);
    puts("");
    drmModeFreeResources(found);
}

static void getcrtc(int fd, const uint64_t *words)
{
    drmModeCrtc *found = drmModeGetCrtc(fd, (uint32_t)words[0]);

    number(found == NULL ? -1 : 0, found == NULL ? 0 : found->buffer_id);
    drmModeFreeCrtc(found);
}

/* With a framebuffer there is a mode. One pixel is in each. */
static void setcrtc(int fd, const uint64_t *words)
{
    drmModeModeInfo mode = {.clock = 1,
                            .hdisplay = 1,
                            .hsync_start = 1,
                            .hsync_end = 1,
                            .htotal = 64,
                            .vdisplay = 1,
                            .vsync_start = 1,
                            .vsync_end = 1,
                            .vtotal = 64};
    uint32_t connector = (uint32_t)words[2];

    done(drmModeSetCrtc(fd, (uint32_t)words[0], (uint32_t)words[1], 0, 0, &connector,
                        connector != 0, words[1] != 0 ? &mode : NULL));
}

static void getencoder(int fd, const uint64_t *words)
{
    drmModeEncoder *found = drmModeGetEncoder(fd, (uint32_t)words[0]);

    number(found == NULL ? -1 : 0, found == NULL ? 0 : found->possible_crtcs);
    drmModeFreeEncoder(found);
}

static void getconnector(int fd, const uint64_t *words)
{
    drmModeConnector *found = drmModeGetConnector(fd, (uint32_t)words[0]);

    number(found == NULL ? -1 : 0,
           found == NULL || found->count_encoders != 1 ? 0 : found->encoders[0]);
    drmModeFreeConnector(found);
}

static void getplaneresources(int fd, const uint64_t *words)
{
    drmModePlaneRes *found = drmModeGetPlaneResources(fd);

    (void)words;
    if (found == NULL) {
        denied(errno);
        return;
    }
    list("list ", found->planes, found->count_planes);
    puts("");
    drmModeFreePlaneResources(found);
}

static void getplane(int fd, const uint64_t *words)
{
    drmModePlane *found = drmModeGetPlane(fd, (uint32_t)words[0]);

    if (found == NULL)
        denied(errno);
    else
        printf("plane %u %u\n", (unsigned)found->fb_id, (unsigned)found->possible_crtcs);
    drmModeFreePlane(found);
}

static void setplane(int fd, const uint64_t *words)
{
    const uint32_t side = 1;

    done(drmModeSetPlane(fd, (uint32_t)words[0], (uint32_t)words[1], (uint32_t)words[2], 0, 0, 0,
                         side, side, 0, 0, side << 16, side << 16));
}

static void getfb(int fd, const uint64_t *words)
{
    drmModeFB *found = drmModeGetFB(fd, (uint32_t)words[0]);

    if (found == NULL)
        denied(errno);
    else
        printf("framebuffer %u %u %u %u %u\n", (unsigned)found->width, (unsigned)found->height,
               (unsigned)found->pitch, (unsigned)found->bpp, (unsigned)found->handle);
    drmModeFreeFB(found);
}

static void addfb(int fd, const uint64_t *words)
{
    struct drm_mode_fb_cmd made = {.width = (uint32_t)words[0],
                                   .height = (uint32_t)words[1],
                                   .pitch = (uint32_t)words[2],
                                   .bpp = (uint32_t)words[3],
                                   .depth = 24,
                                   .handle = (uint32_t)words[4]};
    int result = drmIoctl(fd, DRM_IOCTL_MODE_ADDFB, &made);

    number(result, made.fb_id);
}

static void rmfb(int fd, const uint64_t *words)
{
    done(drmModeRmFB(fd, (uint32_t)words[0]));
}

static void create_dumb(int fd, const uint64_t *words)
{
    struct drm_mode_create_dumb made = {
        .width = (uint32_t)words[0], .height = (uint32_t)words[1], .bpp = (uint32_t)words[2]};

    if (drmIoctl(fd, DRM_IOCTL_MODE_CREATE_DUMB, &made) != 0)
        denied(errno);
    else
        printf("dumb %u %u %llu\n", (unsigned)made.handle, (unsigned)made.pitch,
               (unsigned long long)made.size);
}

/* A buffer of a size alone, which libdrm has no call for, as a dumb buffer of one line. */
static void buf_create(int fd, const uint64_t *words)
{
    struct drm_mode_create_dumb made = {.width = (uint32_t)words[0], .height = 1, .bpp = 8};

    if (drmIoctl(fd, DRM_IOCTL_MODE_CREATE_DUMB, &made) != 0)
        denied(errno);
    else
        printf("buffer %u %llu\n", (unsigned)made.handle, (unsigned long long)made.size);
}

static void destroy_dumb(int fd, const uint64_t *words)
{
    done(drmModeDestroyDumbBuffer(fd, (uint32_t)words[0]));
}

static void list_lessees(int fd, const uint64_t *words)
{
    drmModeLesseeListPtr found = drmModeListLessees(fd);

    (void)words;
    if (found == NULL) {
        denied(errno);
        return;
    }
    list("list ", found->lessees, found->count);
    puts("");
    drmFree(found);
}

static void get_lease(int fd, const uint64_t *words)
{
    drmModeObjectListPtr found = drmModeGetLease(fd);

    (void)words;
    if (found == NULL) {
        denied(errno);
        return;
    }
    list("list ", found->objects, found->count);
    puts("");
    drmFree(found);
}

static void revoke_lease(int fd, const uint64_t *words)
{
    done(drmModeRevokeLease(fd, (uint32_t)words[0]));
}

static void create_lease(int fd, const uint64_t *words, size_t count)
{
    uint32_t ids[MOST], lessee;
    size_t at;
    int lease;

    for (at = 0; at < count; at++)
        ids[at] = (uint32_t)words[at];
    lease = drmModeCreateLease(fd, ids, (int)count, O_CLOEXEC, &lessee);
    if (lease < 0) {
        denied(lease == -1 ? errno : -lease);
        return;
    }
    leases[++lease_count] = lease;
    printf("lease %u %u\n", (unsigned)lessee, lease_count);
}

static const struct {
    const char *word;
    void (*call)(int fd, const uint64_t *words);
} calls[] = {
    {"version", version},
    {"get_magic", get_magic},
    {"auth_magic", auth_magic},
    {"set_master", set_master},
    {"drop_master", drop_master},
    {"gem_close", gem_close},
    {"gem_flink", gem_flink},
    {"gem_open", gem_open},
    {"prime_export", prime_export},
    {"prime_import", prime_import},
    {"get_cap", get_cap},
    {"set_client_cap", set_client_cap},
    {"getresources", getresources},
    {"getcrtc", getcrtc},
    {"setcrtc", setcrtc},
    {"getencoder", getencoder},
    {"getconnector", getconnector},
    {"getplaneresources", getplaneresources},
    {"getplane", getplane},
    {"setplane", setplane},
    {"getfb", getfb},
    {"addfb", addfb},
    {"rmfb", rmfb},
    {"create_dumb", create_dumb},
    {"buf_create", buf_create},
    {"destroy_dumb", destroy_dumb},
    {"list_lessees", list_lessees},
    {"get_lease", get_lease},
    {"revoke_lease", revoke_lease},
};

/* The descriptor of an opening: of a node, or of the lease that was made as the so many-th, once.
 */
static int opened(const char *what, uint64_t lease)
{
    if (strcmp(what, "card") == 0)
        return open("/dev/dri/card0", O_RDWR | O_CLOEXEC);
    if (strcmp(what, "render") == 0)
        return open("/dev/dri/renderD128", O_RDWR | O_CLOEXEC);
    if (strcmp(what, "root") == 0)
        return open(getenv("DRM_SERVER_ROOT"), O_RDWR | O_CLOEXEC);
    if (strcmp(what, "lease") == 0 && lease > 0 && lease <= lease_count && leases[lease] >= 0) {
        int fd = leases[lease];

        leases[lease] = -1;
        return fd;
    }
    errno = ENOENT;
    return -1;
}

/* `open` of a script opens with universal planes on, `open2` with universal planes off, as a
 * program does. */
static void open_label(char label, const char *what, uint64_t lease, bool universal)
{
    int fd = opened(what, lease);

    if (fd < 0
        || (universal && strcmp(what, "render") != 0
            && drmSetClientCap(fd, DRM_CLIENT_CAP_UNIVERSAL_PLANES, 1) != 0)) {
        denied(errno);
        return;
    }
    labels[label - 'a'] = fd;
    puts("client");
}

static void close_label(char label)
{
    if (close(labels[label - 'a']) == 0)
        puts("closed");
    else
        denied(errno);
    labels[label - 'a'] = -1;
}

static void call(char label, const char *word, const uint64_t *words, size_t count)
{
    size_t at;

    if (strcmp(word, "create_lease") == 0) {
        create_lease(labels[label - 'a'], words, count);
        return;
    }
    for (at = 0; at < sizeof calls / sizeof calls[0]; at++) {
        if (strcmp(calls[at].word, word) == 0) {
            calls[at].call(labels[label - 'a'], words);
            return;
        }
    }
    printf("no call %s\n", word);
}

static void carry_out(char *line)
{
    char *words[MOST] = {NULL};
    uint64_t numbers[MOST] = {0};
    size_t count = 0, at;
    char *word;

    for (word = strtok(line, " \n"); word != NULL && count < MOST; word = strtok(NULL, " \n"))
        words[count++] = word;
    for (at = 2; at < count; at++)
        numbers[at] = strtoull(words[at], NULL, 10);
    if (count < 2)
        return;
    if (strcmp(words[0], "open") == 0 || strcmp(words[0], "open2") == 0)
        open_label(words[1][0], words[2], count > 3 ? numbers[3] : 0,
                   strcmp(words[0], "open") == 0);
    else if (strcmp(words[0], "close") == 0)
        close_label(words[1][0]);
    else
        call(words[0][0], words[1], numbers + 2, count - 2);
    fflush(stdout);
}

int main(void)
{
    char line[256];

    memset(labels, -1, sizeof labels);
    while (fgets(line, sizeof line, stdin) != NULL)
        carry_out(line);
    return 0;
}
