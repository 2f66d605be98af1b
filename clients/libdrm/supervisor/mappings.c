/* Maps memory in a caller. The supervisor traces the caller and changes its registers, so that the
 * caller makes the system calls. */
#include "supervisor.h"

#include <elf.h>
#include <sys/ptrace.h>
#include <sys/syscall.h>
#include <sys/uio.h>
#include <sys/user.h>
#include <sys/wait.h>

/* The signal of a stop at a system call, with PTRACE_O_TRACESYSGOOD */
#define CALL_STOP (SIGTRAP | 0x80)
#define WORDS 6

#if defined __x86_64__
#define CALL_LENGTH 2 /* of the instruction that makes a system call */

static void set_call(struct user_regs_struct *registers, long number, const uint64_t *words)
{
    registers->rip -= CALL_LENGTH;
    registers->rax = (unsigned long long)number;
    registers->rdi = words[0];
    registers->rsi = words[1];
    registers->rdx = words[2];
    registers->r10 = words[3];
    registers->r8 = words[4];
    registers->r9 = words[5];
}

static int64_t result_of(const struct user_regs_struct *registers)
{
    return (int64_t)registers->rax;
}

/* Without the number, the kernel does not repeat the call. */
static void set_result(struct user_regs_struct *registers, int64_t result)
{
    registers->rax = (unsigned long long)result;
    registers->orig_rax = (unsigned long long)-1;
}
#elif defined __aarch64__
#define CALL_LENGTH 4
#define NUMBER 8

static void set_call(struct user_regs_struct *registers, long number, const uint64_t *words)
{
    registers->pc -= CALL_LENGTH;
    registers->regs[NUMBER] = (unsigned long long)number;
    memcpy(registers->regs, words, WORDS * sizeof *words);
}

static int64_t result_of(const struct user_regs_struct *registers)
{
    return (int64_t)registers->regs[0];
}

static void set_result(struct user_regs_struct *registers, int64_t result)
{
    registers->regs[0] = (unsigned long long)result;
}
#endif

static bool get_registers(pid_t task, struct user_regs_struct *registers)
{
    struct iovec room = {registers, sizeof *registers};

    return ptrace(PTRACE_GETREGSET, task, (void *)NT_PRSTATUS, &room) == 0;
}

static bool set_registers(pid_t task, struct user_regs_struct *registers)
{
    struct iovec room = {registers, sizeof *registers};

    return ptrace(PTRACE_SETREGSET, task, (void *)NT_PRSTATUS, &room) == 0;
}

/* Waits until the task stops, and returns the signal. Returns -1 if the task has ended, and does
 * not reap it. */
static int wait_for_stop(pid_t task)
{
    siginfo_t found;

    memset(&found, 0, sizeof found);
    while (waitid(P_PID, (id_t)task, &found, WSTOPPED | WEXITED | WNOWAIT | __WALL) != 0) {
        if (errno != EINTR)
            return -1;
    }
    return found.si_code == CLD_TRAPPED || found.si_code == CLD_STOPPED ? found.si_status : -1;
}

/* Resumes the task until its next stop at a system call. All signals are blocked but SIGSTOP, which
 * stops the other threads now, and this one afterwards. */
static bool run_to_call(pid_t task)
{
    int stop = 0;

    while (stop != CALL_STOP) {
        long injected = stop == SIGSTOP ? SIGSTOP : 0;

        if (ptrace(PTRACE_SYSCALL, task, NULL, injected) != 0)
            return false;
        stop = wait_for_stop(task);
        if (stop < 0)
            return false;
    }
    return true;
}

/* Has a task make a system call. The task is stopped after another one. */
static int64_t make_call(pid_t task, long number, const uint64_t *words)
{
    struct user_regs_struct registers;

    if (!get_registers(task, &registers))
        return -ESRCH;
    set_result(&registers, 0);
    set_call(&registers, number, words);
    /* the task stops before the call and after it */
    if (!set_registers(task, &registers) || !run_to_call(task) || !run_to_call(task)
        || !get_registers(task, &registers))
        return -ESRCH;
    return result_of(&registers);
}

static int64_t map_and_close(pid_t task, const uint64_t *words)
{
    const uint64_t closed[WORDS] = {words[4]};
    int64_t mapped = make_call(task, SYS_mmap, words);

    make_call(task, SYS_close, closed);
    return mapped;
}

int mapping_begin(pid_t task)
{
    return ptrace(PTRACE_SEIZE, task, NULL, (void *)PTRACE_O_TRACESYSGOOD) == 0 ? 0 : -EPERM;
}

void mapping_stop(pid_t task)
{
    ptrace(PTRACE_INTERRUPT, task, NULL, NULL);
}

void mapping_end(pid_t task, const uint64_t *words, int failed)
{
    struct user_regs_struct registers;
    uint64_t all = UINT64_MAX, before;
    int64_t result = failed;

    if (wait_for_stop(task) < 0 || !get_registers(task, &registers))
        return;
    /* block signals, so that no handler runs in between */
    ptrace(PTRACE_GETSIGMASK, task, (void *)sizeof before, &before);
    ptrace(PTRACE_SETSIGMASK, task, (void *)sizeof all, &all);
    if (!failed)
        result = map_and_close(task, words);
    set_result(&registers, result);
    set_registers(task, &registers);
    ptrace(PTRACE_SETSIGMASK, task, (void *)sizeof before, &before);
    ptrace(PTRACE_DETACH, task, NULL, NULL);
}
