/*
 * The numbers of a script and those of the kernel. A number that the kernel allocates is bound to
 * the script's at its first use: to the number that the line expects or, if it expects none, to the
 * lowest one that is not bound.
 */
#ifndef DRM_SCRIPT_NUMBERS_H
#define DRM_SCRIPT_NUMBERS_H

#include <stdbool.h>
#include <stdint.h>

#define MOST_NUMBERS 4096

struct pair {
    uint32_t script;
    uint32_t kernel;
};

struct numbers {
    unsigned count;
    /* the lowest number that an allocation gets, if no answer is expected */
    uint32_t first;
    struct pair pairs[MOST_NUMBERS];
};

/* Binds a kernel's number to the script's, or to the lowest free one if that is 0. Returns the
 * script's number. */
uint32_t bind_number(struct numbers *numbers, uint32_t script, uint32_t kernel);

/* Unbinds a number of the script. */
void unbind_number(struct numbers *numbers, uint32_t script);

/* Looks up the kernel's number. Returns whether the script's one is bound. */
bool find_kernel_number(const struct numbers *numbers, uint32_t script, uint32_t *kernel);

/* Looks up the script's number. Returns whether the kernel's one is bound. */
bool find_script_number(const struct numbers *numbers, uint32_t kernel, uint32_t *script);

#endif
