/* tracer PROGRAM WORD..: runs the program and changes its system calls as the environment says. A program that is
   linked statically takes no preload, so what it is to meet is changed below it. A number is 0 where it is absent:

   READ_BYTES     where it isn't 0, the most bytes that a read of standard input gives
   FAIL_READ      the number of the read of standard input that fails
   WRITE_BYTES    where it isn't 0, the most bytes that a write to standard output takes
   FAIL_WRITE     the number of the write to standard output that fails
   EMPTY_WRITE    the number of the write to standard output that takes nothing
   REFUSE_MEMORY  the number of the allocation that is refused, as all behind it are: where one kind of request is refused
                  the C library tries another, so the program wouldn't learn of one alone
   REFUSE_MARK    the file that is created where an allocation is refused
   COUNT_ALLOCATIONS  the file that gets the number of allocations at the end

   An allocation is a request to the system for memory: a brk that raises the break, an mmap of no file, an mremap to more.
   They are counted from the first instruction of `main`: those before it are the C library's, which ends the process
   in its own way where it gets none.

   The status is the program's, or 128 and the number of the signal that ended it; 125 where it can't be traced. The
   program ends when the tracer does. It is one for Linux on x86-64 that reads and writes by `read` and `write`. It has
   to be of one thread and to start no other: the calls that are looked at would fail there. */
#define _GNU_SOURCE
#include <errno.h>
#include <fcntl.h>
#include <linux/filter.h>
#include <linux/seccomp.h>
#include <signal.h>
#include <stddef.h>
#include <stdint.h>
#include <stdio.h>
#include <stdlib.h>
#include <string.h>
#include <sys/auxv.h>
#include <sys/mman.h>
#include <sys/prctl.h>
#include <sys/ptrace.h>
#include <sys/syscall.h>
#include <sys/user.h>
#include <sys/wait.h>
#include <unistd.h>

enum { CAN_NOT_TRACE = 125 };
typedef struct user_regs_struct registers;

static unsigned long read_bytes, fail_read, write_bytes, fail_write, empty_write, refuse_memory;
static const char *mark, *count;
static unsigned long reads, writes, allocations;
static unsigned long long top;   /* the break */
static unsigned long long begin; /* the address of `main` */
static long hidden;              /* what stands there in place of the breakpoint */
static int begun;
static registers given; /* the registers of the call that the program makes, before it is changed */

static _Noreturn void stop(const char *why)
{
    fprintf(stderr, "tracer: %s: %s\n", why, strerror(errno));
    exit(CAN_NOT_TRACE);
}

/* what a variable says, which the program then doesn't see */
static const char *taken(const char *name)
{
    const char *text = getenv(name);
    unsetenv(name);
    return text;
}

static unsigned long number(const char *name)
{
    const char *text = taken(name);
    return text ? strtoul(text, NULL, 10) : 0;
}

static int counts_allocations(void)
{
    return refuse_memory || count;
}

/* ---- the filter: the kernel stops the program at these calls alone, so that the rest costs nothing */

static struct sock_filter filter[32];
static unsigned short filled;

static void put(struct sock_filter instruction)
{
    filter[filled++] = instruction;
}

/* passes over the next instructions unless what was loaded is the number */
static void skip_unless(unsigned int number, unsigned char instructions)
{
    put((struct sock_filter)BPF_JUMP(BPF_JMP | BPF_JEQ | BPF_K, number, 0, instructions));
}

static void load(size_t place)
{
    put((struct sock_filter)BPF_STMT(BPF_LD | BPF_W | BPF_ABS, (unsigned int)place));
}

static void give(unsigned int what)
{
    put((struct sock_filter)BPF_STMT(BPF_RET | BPF_K, what));
}

static void stop_at(unsigned int call)
{
    load(offsetof(struct seccomp_data, nr));
    skip_unless(call, 1);
    give(SECCOMP_RET_TRACE);
}

/* stops at a call whose first word is the file; its number has no more than the lower half of that */
static void stop_at_file(unsigned int call, unsigned int file)
{
    load(offsetof(struct seccomp_data, nr));
    skip_unless(call, 3);
    load(offsetof(struct seccomp_data, args));
    skip_unless(file, 1);
    give(SECCOMP_RET_TRACE);
}

static int filters(void)
{
    if (read_bytes || fail_read)
        stop_at_file(SYS_read, STDIN_FILENO);
    if (write_bytes || fail_write || empty_write)
        stop_at_file(SYS_write, STDOUT_FILENO);
    if (counts_allocations()) {
        stop_at(SYS_brk);
        stop_at(SYS_mmap);
        stop_at(SYS_mremap);
    }
    give(SECCOMP_RET_ALLOW);
    struct sock_fprog all = {filled, filter};
    return prctl(PR_SET_NO_NEW_PRIVS, 1, 0, 0, 0) == 0 && prctl(PR_SET_SECCOMP, SECCOMP_MODE_FILTER, &all) == 0;
}

/* ---- the first instruction of `main` */

static unsigned long long entry_of(pid_t program)
{
    char name[64];
    unsigned long long pair[2], entry = 0;
    snprintf(name, sizeof name, "/proc/%d/auxv", (int)program);
    FILE *vector = fopen(name, "r");
    while (vector && !entry && fread(pair, sizeof pair, 1, vector) == 1)
        entry = pair[0] == AT_ENTRY ? pair[1] : 0;
    if (vector)
        fclose(vector);
    return entry;
}

/* A program may have lost its names, but the code at its entry hands `main` to the C library in the register rdi, by a
   `mov` of its address or by `lea`. */
static unsigned long long main_of(pid_t program)
{
    unsigned long long entry = entry_of(program);
    unsigned char code[64];
    for (size_t i = 0; i < sizeof code; i += sizeof(long)) {
        long word = ptrace(PTRACE_PEEKTEXT, program, entry + i, 0);
        memcpy(code + i, &word, sizeof word);
    }
    for (size_t i = 0; i + 7 <= sizeof code; i++) {
        int32_t address;
        memcpy(&address, code + i + 3, sizeof address);
        if (memcmp(code + i, "\x48\xc7\xc7", 3) == 0)
            return (unsigned long long)address;
        if (memcmp(code + i, "\x48\x8d\x3d", 3) == 0)
            return entry + i + 7 + (unsigned long long)address;
    }
    return 0;
}

static void await_main(pid_t program)
{
    if (!counts_allocations())
        return;
    begin = main_of(program);
    errno = 0;
    hidden = ptrace(PTRACE_PEEKTEXT, program, begin, 0);
    if (errno != 0 || ptrace(PTRACE_POKETEXT, program, begin, (hidden & ~0xffL) | 0xcc) != 0)
        stop("the program's main isn't found");
}

/* whether the program stopped at `main`, which then begins */
static int begins(pid_t program)
{
    registers now;
    ptrace(PTRACE_GETREGS, program, 0, &now);
    if (begun || now.rip != begin + 1)
        return 0;
    begun = 1;
    now.rip = begin;
    ptrace(PTRACE_POKETEXT, program, begin, hidden);
    ptrace(PTRACE_SETREGS, program, 0, &now);
    return 1;
}

/* ---- the calls */

/* the call isn't made, and gives this */
static void answer(registers *call, long value)
{
    call->orig_rax = -1ULL;
    call->rax = (unsigned long long)value;
}

static void shorten(registers *call, unsigned long most)
{
    if (most && call->rdx > most)
        call->rdx = most;
}

static void change_read(registers *call)
{
    if (++reads == fail_read)
        answer(call, -EIO);
    else
        shorten(call, read_bytes);
}

static void change_write(registers *call)
{
    if (++writes == fail_write)
        answer(call, -EIO);
    else if (writes == empty_write)
        answer(call, 0);
    else
        shorten(call, write_bytes);
}

static int is_allocation(const registers *call)
{
    switch (call->orig_rax) {
    case SYS_brk:
        return call->rdi > top;
    case SYS_mmap:
        return (call->r10 & MAP_ANONYMOUS) != 0;
    default:
        return call->rdx > call->rsi; /* SYS_mremap, from the bytes of rsi to those of rdx */
    }
}

static void refuse(registers *call)
{
    if (mark) {
        int file = open(mark, O_CREAT | O_WRONLY, 0600);
        if (file >= 0)
            close(file);
    }
    /* a brk that is refused gives the break that is */
    answer(call, call->orig_rax == SYS_brk ? (long)top : -ENOMEM);
}

static void change_memory(registers *call)
{
    if (begun && is_allocation(call) && ++allocations >= refuse_memory && refuse_memory)
        refuse(call);
}

/* changes a call before it is made; tells whether it is to be looked at when it has been made */
static int enter(pid_t program)
{
    ptrace(PTRACE_GETREGS, program, 0, &given);
    registers call = given;
    switch (call.orig_rax) {
    case SYS_read:
        change_read(&call);
        break;
    case SYS_write:
        change_write(&call);
        break;
    default:
        change_memory(&call);
    }
    ptrace(PTRACE_SETREGS, program, 0, &call);
    return call.orig_rax == SYS_brk || call.rdx != given.rdx;
}

/* looks at a call that was made: the program finds its words where it left them, as compilers count on that */
static void leave(pid_t program)
{
    registers now;
    ptrace(PTRACE_GETREGS, program, 0, &now);
    if (given.orig_rax == SYS_brk)
        top = now.rax;
    now.rdx = given.rdx;
    ptrace(PTRACE_SETREGS, program, 0, &now);
}

/* ---- the program */

static pid_t start(char **words)
{
    pid_t program = fork();
    if (program < 0)
        stop("no process");
    if (program == 0) {
        if (ptrace(PTRACE_TRACEME, 0, 0, 0) != 0)
            stop("ptrace");
        raise(SIGSTOP); /* until the options stand */
        if (!filters())
            stop("seccomp");
        execvp(words[0], words);
        stop(words[0]);
    }
    int status;
    if (waitpid(program, &status, 0) != program || !WIFSTOPPED(status))
        exit(CAN_NOT_TRACE);
    int options = PTRACE_O_EXITKILL | PTRACE_O_TRACEEXEC | PTRACE_O_TRACESECCOMP | PTRACE_O_TRACESYSGOOD;
    if (ptrace(PTRACE_SETOPTIONS, program, 0, options) != 0)
        stop("ptrace");
    return program;
}

/* lets the program run to its end, from stop to stop; its signals are passed on */
static int follow(pid_t program)
{
    int status, passed = 0, leaves = 0;
    for (;;) {
        ptrace(leaves ? PTRACE_SYSCALL : PTRACE_CONT, program, 0, passed);
        if (waitpid(program, &status, 0) != program)
            stop("the program is lost");
        if (WIFEXITED(status))
            return WEXITSTATUS(status);
        if (WIFSIGNALED(status))
            return 128 + WTERMSIG(status);
        passed = 0;
        leaves = 0;
        if (status >> 8 == (SIGTRAP | PTRACE_EVENT_EXEC << 8))
            await_main(program);
        else if (status >> 8 == (SIGTRAP | PTRACE_EVENT_SECCOMP << 8))
            leaves = enter(program);
        else if (WSTOPSIG(status) == (SIGTRAP | 0x80))
            leave(program);
        else if (WSTOPSIG(status) != SIGTRAP || !begins(program))
            passed = WSTOPSIG(status);
    }
}

int main(int words, char **word)
{
    if (words < 2) {
        fputs("tracer: PROGRAM WORD..\n", stderr);
        return CAN_NOT_TRACE;
    }
    read_bytes = number("READ_BYTES");
    fail_read = number("FAIL_READ");
    write_bytes = number("WRITE_BYTES");
    fail_write = number("FAIL_WRITE");
    empty_write = number("EMPTY_WRITE");
    refuse_memory = number("REFUSE_MEMORY");
    mark = taken("REFUSE_MARK");
    count = taken("COUNT_ALLOCATIONS");
    int status = follow(start(word + 1));
    FILE *file = count ? fopen(count, "w") : NULL;
    if (file) {
        fprintf(file, "%lu\n", allocations);
        fclose(file);
    }
    return status;
}
