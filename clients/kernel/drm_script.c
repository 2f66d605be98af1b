// Runs scripts on a real DRM device, and prints the answers in a script's words (README.md).
#include <errno.h>
#include <stdio.h>
#include <stdlib.h>
#include <string.h>
#include <sys/resource.h>
#include <sys/wait.h>
#include <unistd.h>

#include "devices.h"
#include "lines.h"
#include "session.h"

#define DESCRIPTORS 4096

static const char usage[] =
    "usage: drm_script [--driver NAME | --card NODE] [--topology] [FILE..]\n"
    "\n"
    "Runs each FILE, or standard input, as a script on a DRM device. A line `= NAME` in a file "
    "begins\n"
    "another script. For each line of a script, the number of the line and the answer are "
    "printed.\n"
    "\n"
    "  --driver NAME   the device that has this driver\n"
    "  --card NODE     the device with this primary node, by default /dev/dri/card0\n"
    "  --topology      prints the device's mode objects as a topology file, and runs nothing\n";

struct options {
    const char *driver;
    const char *card;
    int topology;
    int first_file;
};

// A line of a script. Returns whether the script continues.
static bool run_line(struct session *session, unsigned number, char *text)
{
    struct line line;

    read_line(&line, text);
    if (line.kind == LINE_EMPTY || line.kind == LINE_LIMITS)
        return true;
    if (line.kind == LINE_MALFORMED) {
        printf("%u malformed\n", number);
        return false;
    }
    carry_out(session, &line);
    printf("%u %s\n", number, session->answer);
    return true;
}

static void run_lines(const struct device *device, char *text)
{
    struct session *session = create_session(device, geteuid() == 0);
    unsigned number = 1;
    char *line;

    while (session && (line = strsep(&text, "\n")) != NULL && run_line(session, number, line))
        number++;
    if (!session)
        printf("no memory\n");
}

// Each script has its own process, so that its clients are closed before the next script begins.
static int run_script(const struct device *device, const char *name, char *text)
{
    int status = 0;
    pid_t child;

    printf("= %s\n", name);
    fflush(stdout);
    child = fork();
    if (child == 0) {
        run_lines(device, text);
        exit(fflush(stdout) == 0 ? 0 : 1);
    }
    if (child < 0 || waitpid(child, &status, 0) < 0 || status != 0) {
        printf("ended with status %d\n", status);
        return 1;
    }
    return 0;
}

// The next line `= NAME`, or a null pointer.
static char *find_name(char *text)
{
    char *end = strstr(text, "\n= ");

    if (strncmp(text, "= ", 2) == 0)
        return text;
    return end ? end + 1 : NULL;
}

// The scripts of a text. What precedes the first line `= NAME` is a script with the file's name.
static int run_text(const struct device *device, const char *name, char *text)
{
    int failed = 0;

    while (text) {
        char *line = find_name(text);

        if (line)
            *line = '\0';
        if (*text)
            failed |= run_script(device, name, text);
        name = line ? line + 2 : name;
        text = line ? strchr(line + 2, '\n') : NULL;
        if (text)
            *text++ = '\0';
    }
    return failed;
}

// The text of a file, or a null pointer with errno set.
static char *read_whole(FILE *file)
{
    size_t size = 0, room = 1 << 16;
    char *text = malloc(room);

    while (text) {
        size_t taken = fread(text + size, 1, room - size - 1, file);
        char *larger = text;

        size += taken;
        text[size] = '\0';
        if (taken == 0)
            break;
        if (size + 1 == room)
            larger = realloc(text, room *= 2);
        if (!larger)
            free(text);
        text = larger;
    }
    return text;
}

static int run_file(const struct device *device, const char *path)
{
    FILE *file = strcmp(path, "-") == 0 ? stdin : fopen(path, "r");
    char *text = file ? read_whole(file) : NULL;
    int failed = 1;

    if (text)
        failed = run_text(device, path, text);
    else
        fprintf(stderr, "drm_script: %s: %s\n", path, strerror(errno));
    free(text);
    if (file && file != stdin)
        fclose(file);
    return failed;
}

static bool read_options(struct options *options, int count, char **words)
{
    int i = 1;

    while (i < count && strncmp(words[i], "--", 2) == 0) {
        if (strcmp(words[i], "--topology") == 0)
            options->topology = 1;
        else if (strcmp(words[i], "--driver") == 0 && i + 1 < count)
            options->driver = words[++i];
        else if (strcmp(words[i], "--card") == 0 && i + 1 < count)
            options->card = words[++i];
        else
            return false;
        i++;
    }
    options->first_file = i;
    return true;
}

static bool choose_device(struct device *device, const struct options *options)
{
    if (options->driver)
        return find_device(device, options->driver);
    return read_named_device(device, options->card);
}

int main(int count, char **words)
{
    struct rlimit descriptors = {DESCRIPTORS, DESCRIPTORS};
    struct options options = {NULL, "/dev/dri/card0", 0, 0};
    static struct device device;
    int failed = 0, i;

    if (!read_options(&options, count, words)) {
        fputs(usage, stderr);
        return 2;
    }
    if (!choose_device(&device, &options)) {
        fprintf(stderr, "drm_script: no such device: %s\n",
                options.driver ? options.driver : options.card);
        return 1;
    }
    setrlimit(RLIMIT_NOFILE, &descriptors);
    if (options.topology) {
        print_topology(&device);
        return 0;
    }
    for (i = options.first_file; i < count; i++)
        failed |= run_file(&device, words[i]);
    if (options.first_file == count)
        failed = run_file(&device, "-");
    return failed;
}
