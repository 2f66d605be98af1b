/* For tests: the ways by which programs find, open and use the nodes, each with what it finds. */
#define _GNU_SOURCE
#include <dirent.h>
#include <errno.h>
#include <fcntl.h>
#include <glob.h>
#include <stdio.h>
#include <stdlib.h>
#include <string.h>
#include <sys/stat.h>
#include <sys/syscall.h>
#include <sys/uio.h>
#include <unistd.h>
#include <xf86drm.h>

static void say(const char *what, int failed)
{
    printf("%s: %s\n", what, failed ? strerrorname_np(errno) : "done");
}

/* Opens a node, and asks it for its version. */
static void try_node(const char *what, int fd)
{
    drmVersion *version = fd < 0 ? NULL : drmGetVersion(fd);

    printf("%s: %s\n", what, version != NULL ? version->name : strerrorname_np(errno));
    drmFreeVersion(version);
    if (fd >= 0)
        close(fd);
}

static void try_pattern(const char *pattern)
{
    glob_t found;
    size_t at;
    int failed = glob(pattern, 0, NULL, &found);

    printf("%s:", pattern);
    for (at = 0; !failed && at < found.gl_pathc; at++)
        printf(" %s", found.gl_pathv[at]);
    printf("%s\n", failed == GLOB_NOMATCH ? " nothing" : "");
    if (!failed)
        globfree(&found);
}

static void list(const char *what, DIR *stream)
{
    struct dirent *entry;

    printf("%s:", what);
    while (stream != NULL && (entry = readdir(stream)) != NULL)
        printf(" %s", entry->d_name);
    printf("\n");
    if (stream != NULL)
        closedir(stream);
}

static void find_nodes(void)
{
    int folder = open("/dev/dri", O_RDONLY | O_DIRECTORY | O_CLOEXEC);
    int dev = open("/dev", O_PATH | O_DIRECTORY | O_CLOEXEC);
    struct stat status;
    DIR *stream;

    try_pattern("/dev/dri/*");
    try_pattern("/dev/dri/card[0-9]");
    try_pattern("/dev/dri/by-path/*");
    try_node("doubled slashes", open("/dev//dri///card0", O_RDWR));
    try_node("dots", open("/dev/./dri/../dri/renderD128", O_RDWR));
    try_node("from /dev", openat(dev, "dri/card0", O_RDWR));
    try_node("from /dev/dri", openat(folder, "card0", O_RDWR));
    try_node("above /dev/dri", openat(folder, "../dri/card0", O_RDWR));
    try_node("another node", openat(folder, "card1", O_RDWR));
    say("is there", fstatat(folder, "card0", &status, 0) || !S_ISCHR(status.st_mode));
    say("may be written", faccessat(folder, "card0", W_OK, 0));
    say("a folder", fstat(folder, &status) || !S_ISDIR(status.st_mode));
    say("a folder to write", open("/dev/dri", O_RDWR) < 0);
    stream = opendir("/dev/dri");
    try_node("from a listed folder", openat(dirfd(stream), "card0", O_RDWR));
    closedir(stream);
    list("an open folder", fdopendir(folder));
    if (chdir("/dev") == 0) {
        try_node("from the working folder", open("dri/card0", O_RDWR));
        try_node("from the working folder, by dots", open("./../dev/dri/card0", O_RDWR));
        try_pattern("dri/*");
        say("nothing there", access("dri/card7", F_OK));
    }
    say("another file", access("null", F_OK));
}

static void write_bytes(void)
{
    int fd = open("/dev/dri/card0", O_RDWR | O_CLOEXEC);
    struct iovec part = {"bytes", 5};

    say("write", write(fd, "bytes", 5) != 5);
    say("writev", writev(fd, &part, 1) != 5);
    say("pwrite", pwrite(fd, "bytes", 5, 0) != 5);
    say("by its number", syscall(SYS_write, fd, "bytes", (size_t)5) != 5);
    try_node("afterwards", fd);
}

static void call_by_number(void)
{
    int fd = open("/dev/dri/card0", O_RDWR | O_CLOEXEC);
    struct drm_get_cap cap = {.capability = DRM_CAP_PRIME};

    say("ioctl", (int)syscall(SYS_ioctl, fd, DRM_IOCTL_GET_CAP, &cap));
    printf("its answer: %d\n", (int)cap.value);
    cap.capability = 99;
    say("a refused ioctl", (int)syscall(SYS_ioctl, fd, DRM_IOCTL_GET_CAP, &cap));
    printf("another call: %d\n", syscall(SYS_getpid) == getpid());
    say("a failing call", (int)syscall(SYS_fchdir, -1));
    say("closes", (int)syscall(SYS_close, fd));
    say("closes again", (int)syscall(SYS_close, fd));
}

int main(int count, char **words)
{
    const char *what = count > 1 ? words[1] : "";

    if (strcmp(what, "paths") == 0)
        find_nodes();
    else if (strcmp(what, "writes") == 0)
        write_bytes();
    else if (strcmp(what, "numbers") == 0)
        call_by_number();
    return 0;
}
