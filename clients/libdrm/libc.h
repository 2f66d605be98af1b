/* The C library's own functions of the names that this library defines. Each file includes this
 * header, or one that does, first. */
#ifndef ZIRKOSHE_LIBDRM_LIBC_H
#define ZIRKOSHE_LIBDRM_LIBC_H

#ifndef _GNU_SOURCE
#define _GNU_SOURCE
#endif
/* Sizes have 64 bits in any case. This definition would rename functions. */
#undef _FILE_OFFSET_BITS

#include <dlfcn.h>
#include <poll.h>
#include <stdatomic.h>
#include <stddef.h>
#include <sys/types.h>

/* Numbers of descriptors that are this library's own begin here, out of the program's way. */
#define LEAST_HIDDEN 512

/* What the program sees of this library, and another name by which it sees a function. (Headers
 * declare some of these names with other types of the same form.) */
#define SHOWN __attribute__((visibility("default")))
#if __has_attribute(copy)
#define AS(name) __attribute__((alias(#name), copy(name)))
#else
#define AS(name) __attribute__((alias(#name)))
#endif
#define ALSO(other, name) extern __typeof__(name) also_##other __asm__(#other) SHOWN AS(name)

/* The next function of this name after this library, looked up once at each place. */
#define REAL(name)                                                                                 \
    __extension__({                                                                                \
        static _Atomic(void *) known_function;                                                     \
        void *next_function = atomic_load_explicit(&known_function, memory_order_relaxed);         \
        if (next_function == NULL) {                                                               \
            next_function = dlsym(RTLD_NEXT, #name);                                               \
            atomic_store_explicit(&known_function, next_function, memory_order_relaxed);           \
        }                                                                                          \
        (__typeof__(&name))next_function;                                                          \
    })

/* Reads a link as it is. */
ssize_t libc_readlink(const char *path, char *target, size_t size);

#endif
