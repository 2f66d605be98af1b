/* The filter of system calls. The supervisor answers openings, looks at files, the requests of DRM,
 * of PRIME descriptors and of fences, and mappings at offsets of 4 GiB or more. */
#include "supervisor.h"

#include <drm.h>
#include <linux/audit.h>
#include <linux/dma-buf.h>
#include <linux/filter.h>
#include <linux/sync_file.h>
#include <sys/prctl.h>
#include <sys/syscall.h>

#if defined __x86_64__
#define ARCHITECTURE AUDIT_ARCH_X86_64
#elif defined __aarch64__
#define ARCHITECTURE AUDIT_ARCH_AARCH64
#else
#error "this is for x86-64 and ARM of 64 bits"
#endif

/* Older headers do not have it. Without this flag, a signal interrupts a call that is being
 * answered, and the kernel repeats the call. */
#ifndef SECCOMP_FILTER_FLAG_WAIT_KILLABLE_RECV
#define SECCOMP_FILTER_FLAG_WAIT_KILLABLE_RECV (1UL << 5)
#endif

/* The size of the lower half of an argument, which is first */
#define HALF 4

#define LOAD_AT(offset) BPF_STMT(BPF_LD | BPF_W | BPF_ABS, offset)
#define LOAD(field) LOAD_AT(offsetof(struct seccomp_data, field))
#define LOAD_UPPER(field) LOAD_AT(offsetof(struct seccomp_data, field) + HALF)
#define IF_EQUAL(value, then, otherwise) BPF_JUMP(BPF_JMP | BPF_JEQ | BPF_K, value, then, otherwise)
#define RETURN(verdict) BPF_STMT(BPF_RET | BPF_K, verdict)

/* The calls that the supervisor answers whatever their arguments are */
static const int answered[] = {
#ifdef __NR_open
    __NR_open,       __NR_stat,       __NR_lstat,      __NR_access,   __NR_readlink,
    __NR_chmod,      __NR_chown,      __NR_lchown,
#endif
    __NR_openat,     __NR_fstat,      __NR_newfstatat, __NR_statx,    __NR_faccessat,
    __NR_faccessat2, __NR_readlinkat, __NR_fchmodat,   __NR_fchownat,
};

#define ANSWERED (sizeof answered / sizeof answered[0])

static const struct sock_filter head[] = {
    LOAD(arch),
    IF_EQUAL(ARCHITECTURE, 1, 0),
    RETURN(SECCOMP_RET_ALLOW),
    LOAD(nr),
};

static const struct sock_filter tail[] = {
    IF_EQUAL(__NR_mmap, 6, 0),
    IF_EQUAL(__NR_ioctl, 0, 7),
    LOAD(args[1]), /* its lower half */
    BPF_STMT(BPF_ALU | BPF_AND | BPF_K, 0xff << _IOC_TYPESHIFT),
    IF_EQUAL(DRM_IOCTL_BASE << _IOC_TYPESHIFT, 5, 0),
    IF_EQUAL(SYNC_IOC_MAGIC << _IOC_TYPESHIFT, 4, 0),
    IF_EQUAL(DMA_BUF_BASE << _IOC_TYPESHIFT, 3, 2),
    LOAD_UPPER(args[5]), /* of the offset */
    IF_EQUAL(0, 0, 1),
    RETURN(SECCOMP_RET_ALLOW),
    RETURN(SECCOMP_RET_USER_NOTIF),
};

#define HEAD (sizeof head / sizeof head[0])
#define TAIL (sizeof tail / sizeof tail[0])

/* Writes the filter. A jump counts the rules between its own and the last one. */
static void make_rules(struct sock_filter *rules)
{
    size_t at;

    memcpy(rules, head, sizeof head);
    for (at = 0; at < ANSWERED; at++) {
        uint8_t to_last = (uint8_t)(ANSWERED - at - 1 + TAIL - 1);

        rules[HEAD + at] = (struct sock_filter)IF_EQUAL((uint32_t)answered[at], to_last, 0);
    }
    memcpy(rules + HEAD + ANSWERED, tail, sizeof tail);
}

int begin_filter(void)
{
    struct sock_filter rules[HEAD + ANSWERED + TAIL];
    struct sock_fprog program = {sizeof rules / sizeof rules[0], rules};
    unsigned long flags = SECCOMP_FILTER_FLAG_NEW_LISTENER;
    long listener;

    make_rules(rules);
    if (prctl(PR_SET_NO_NEW_PRIVS, 1, 0, 0, 0) != 0)
        return -errno;
    listener = syscall(__NR_seccomp, SECCOMP_SET_MODE_FILTER,
                       flags | SECCOMP_FILTER_FLAG_WAIT_KILLABLE_RECV, &program);
    if (listener < 0 && errno == EINVAL)
        listener = syscall(__NR_seccomp, SECCOMP_SET_MODE_FILTER, flags, &program);
    return listener < 0 ? -errno : (int)listener;
}
