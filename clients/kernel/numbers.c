// The numbers of a script and those of the kernel.
#include "numbers.h"

static void remove_pairs(struct numbers *numbers, uint32_t script, uint32_t kernel)
{
    unsigned kept = 0, i;

    for (i = 0; i < numbers->count; i++) {
        struct pair pair = numbers->pairs[i];

        if (pair.script != script && pair.kernel != kernel)
            numbers->pairs[kept++] = pair;
    }
    numbers->count = kept;
}

static uint32_t lowest_free(const struct numbers *numbers)
{
    uint32_t free = numbers->first, kernel;

    while (find_kernel_number(numbers, free, &kernel))
        free++;
    return free;
}

uint32_t bind_number(struct numbers *numbers, uint32_t script, uint32_t kernel)
{
    if (script == 0)
        script = lowest_free(numbers);
    remove_pairs(numbers, script, kernel);
    if (numbers->count < MOST_NUMBERS)
        numbers->pairs[numbers->count++] = (struct pair){script, kernel};
    return script;
}

void unbind_number(struct numbers *numbers, uint32_t script)
{
    unsigned kept = 0, i;

    for (i = 0; i < numbers->count; i++) {
        if (numbers->pairs[i].script != script)
            numbers->pairs[kept++] = numbers->pairs[i];
    }
    numbers->count = kept;
}

bool find_kernel_number(const struct numbers *numbers, uint32_t script, uint32_t *kernel)
{
    unsigned i;

    for (i = 0; i < numbers->count; i++) {
        if (numbers->pairs[i].script == script) {
            *kernel = numbers->pairs[i].kernel;
            return true;
        }
    }
    return false;
}

bool find_script_number(const struct numbers *numbers, uint32_t kernel, uint32_t *script)
{
    unsigned i;

    for (i = 0; i < numbers->count; i++) {
        if (numbers->pairs[i].kernel == kernel) {
            *script = numbers->pairs[i].script;
            return true;
        }
    }
    return false;
}
