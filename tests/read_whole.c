/* Reads a file as the runner of scripts on a kernel does: read_whole FILE MOST, which may have MOST
 * bytes at once. Prints what it read, or the error, and how many blocks of memory are left. */
#include <errno.h>
#include <stdio.h>
#include <stdlib.h>
#include <string.h>

static size_t most;
static int blocks;

static void *limited_realloc(void *block, size_t size)
{
    void *larger = size > most ? NULL : realloc(block, size);

    if (larger == NULL)
        errno = ENOMEM;
    blocks += block == NULL && larger != NULL;
    return larger;
}

static void counted_free(void *block)
{
    blocks -= block != NULL;
    free(block);
}

#define malloc(size) limited_realloc(NULL, size)
#define realloc limited_realloc
#define free counted_free
#define main run_scripts
#include "drm_script.c"
#undef main

int main(int count, char **words)
{
    FILE *file = count == 3 ? fopen(words[1], "r") : NULL;
    char *text;

    if (file == NULL)
        return 2;
    most = strtoul(words[2], NULL, 10);
    text = read_whole(file);
    printf("%s\n", text == NULL ? strerror(errno) : strrchr(text, ' ') + 1);
    free(text);
    printf("%d blocks\n", blocks);
    return fclose(file);
}
