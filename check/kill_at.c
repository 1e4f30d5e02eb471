/* Runs a program and counts the calls of it and of all that it starts that change a disk, or send a message; before the
 * one with a given number it kills the program, or the process that makes the call.
 *
 *     kill_at NUMBER all|one LOG PROGRAM ARGUMENT ..
 *
 * With `one` the calls of PROGRAM itself aren't counted, and the process that makes the call is killed alone. NUMBER 0
 * kills nothing. LOG gets a line a call: its number, the process's name, the call, and what it is about. SIGTERM goes on
 * to the program, whose status is this one's. x86-64 and Linux alone.
 */
#define _GNU_SOURCE
#include <errno.h>
#include <fcntl.h>
#include <linux/audit.h>
#include <linux/filter.h>
#include <linux/seccomp.h>
#include <signal.h>
#include <stddef.h>
#include <stdio.h>
#include <stdlib.h>
#include <string.h>
#include <sys/prctl.h>
#include <sys/ptrace.h>
#include <sys/syscall.h>
#include <sys/uio.h>
#include <sys/user.h>
#include <sys/wait.h>
#include <unistd.h>

enum { HANDLE, FIRST, SECOND };

static const struct {
    int number, about;
    const char *name;
} calls[] = {
    {SYS_write, HANDLE, "write"},       {SYS_pwrite64, HANDLE, "pwrite64"},   {SYS_writev, HANDLE, "writev"},
    {SYS_fsync, HANDLE, "fsync"},       {SYS_fdatasync, HANDLE, "fdatasync"}, {SYS_ftruncate, HANDLE, "ftruncate"},
    {SYS_fallocate, HANDLE, "fallocate"}, {SYS_sendmsg, HANDLE, "sendmsg"},   {SYS_sendto, HANDLE, "sendto"},
    {SYS_rename, FIRST, "rename"},      {SYS_renameat, SECOND, "renameat"},   {SYS_renameat2, SECOND, "renameat2"},
    {SYS_unlink, FIRST, "unlink"},      {SYS_unlinkat, SECOND, "unlinkat"},   {SYS_rmdir, FIRST, "rmdir"},
    {SYS_mkdir, FIRST, "mkdir"},        {SYS_mkdirat, SECOND, "mkdirat"},     {SYS_link, FIRST, "link"},
    {SYS_linkat, SECOND, "linkat"},     {SYS_symlink, FIRST, "symlink"},      {SYS_symlinkat, FIRST, "symlinkat"},
};
enum { CALLS = sizeof calls / sizeof *calls };

static pid_t program;

static void pass_on(int number) { kill(program, number); }

/* Installs the filter by which the kernel stops at each of the calls, and at `openat` where it makes a file. */
static void filter(void) {
    struct sock_filter code[2 * CALLS + 8];
    int at = 0;
    code[at++] = (struct sock_filter)BPF_STMT(BPF_LD | BPF_W | BPF_ABS, offsetof(struct seccomp_data, nr));
    for (int i = 0; i < CALLS; i++) {
        code[at++] = (struct sock_filter)BPF_JUMP(BPF_JMP | BPF_JEQ | BPF_K, calls[i].number, 0, 1);
        code[at++] = (struct sock_filter)BPF_STMT(BPF_RET | BPF_K, SECCOMP_RET_TRACE);
    }
    code[at++] = (struct sock_filter)BPF_JUMP(BPF_JMP | BPF_JEQ | BPF_K, SYS_openat, 0, 3);
    code[at++] = (struct sock_filter)BPF_STMT(BPF_LD | BPF_W | BPF_ABS, offsetof(struct seccomp_data, args[2]));
    code[at++] = (struct sock_filter)BPF_JUMP(BPF_JMP | BPF_JSET | BPF_K, O_CREAT, 0, 1);
    code[at++] = (struct sock_filter)BPF_STMT(BPF_RET | BPF_K, SECCOMP_RET_TRACE);
    code[at++] = (struct sock_filter)BPF_STMT(BPF_RET | BPF_K, SECCOMP_RET_ALLOW);
    struct sock_fprog all = {at, code};
    if (prctl(PR_SET_NO_NEW_PRIVS, 1, 0, 0, 0) || prctl(PR_SET_SECCOMP, SECCOMP_MODE_FILTER, &all)) {
        perror("kill_at: seccomp");
        exit(125);
    }
}

/* Writes what a call is about: the file of a handle, or the path that an argument points to. */
static void about(pid_t pid, const struct user_regs_struct *regs, int kind, char *text, size_t size) {
    char path[64];
    if (kind == HANDLE) {
        snprintf(path, sizeof path, "/proc/%d/fd/%d", pid, (int)regs->rdi);
        ssize_t length = readlink(path, text, size - 1);
        text[length > 0 ? length : 0] = 0;
        return;
    }
    struct iovec mine = {text, size - 1}, its = {(void *)(kind == FIRST ? regs->rdi : regs->rsi), size - 1};
    its.iov_len = 4096 - ((unsigned long)its.iov_base & 4095) < size - 1
                      ? 4096 - ((unsigned long)its.iov_base & 4095) : size - 1;
    ssize_t length = process_vm_readv(pid, &mine, 1, &its, 1, 0);
    text[length > 0 ? length : 0] = 0;
}

static void name_of(pid_t pid, char *name, size_t size) {
    char path[64];
    snprintf(path, sizeof path, "/proc/%d/comm", pid);
    FILE *file = fopen(path, "r");
    if (!file || !fgets(name, size, file)) strcpy(name, "?");
    name[strcspn(name, "\n")] = 0;
    if (file) fclose(file);
}

int main(int count, char **words) {
    if (count < 5) return 125;
    long number = atol(words[1]), seen = 0;
    int alone = !strcmp(words[2], "one"), status, ended = 125;
    FILE *log = fopen(words[3], "a");
    program = fork();
    if (!program) {
        ptrace(PTRACE_TRACEME, 0, 0, 0);
        raise(SIGSTOP);
        filter();
        execvp(words[4], words + 4);
        _exit(126);
    }
    waitpid(program, &status, 0);
    ptrace(PTRACE_SETOPTIONS, program, 0, PTRACE_O_TRACESECCOMP | PTRACE_O_TRACEFORK | PTRACE_O_TRACEVFORK |
                                              PTRACE_O_TRACECLONE | PTRACE_O_TRACEEXEC);
    ptrace(PTRACE_CONT, program, 0, 0);
    signal(SIGTERM, pass_on);
    for (;;) {
        pid_t pid = waitpid(-1, &status, __WALL);
        if (pid < 0 && errno == EINTR) continue;
        if (pid < 0) break;
        if (WIFEXITED(status) || WIFSIGNALED(status)) {
            if (pid == program) ended = WIFEXITED(status) ? WEXITSTATUS(status) : 128 + WTERMSIG(status);
            continue;
        }
        int stop = WSTOPSIG(status), event = status >> 16, pass = 0;
        if (event == PTRACE_EVENT_SECCOMP && log) {
            struct user_regs_struct regs;
            char text[256] = "", name[32];
            if (!ptrace(PTRACE_GETREGS, pid, 0, &regs)) {
                int i = 0;
                while (i < CALLS && calls[i].number != (int)regs.orig_rax) i++;
                about(pid, &regs, i < CALLS ? calls[i].about : SECOND, text, sizeof text);
                name_of(pid, name, sizeof name);
                /* bwrap changes no disk but makes the room of a job, step by step. */
                if (strcmp(name, "bwrap") && (!alone || pid != program)) {
                    seen++;
                    text[strcspn(text, "\n")] = 0;
                    fprintf(log, "%ld\t%s\t%s\t%s\n", seen, pid == program ? "service" : name,
                            i < CALLS ? calls[i].name : "create", text);
                    fflush(log);
                    if (seen == number) kill(alone ? pid : program, SIGKILL);
                }
            }
        } else if (!event && stop != SIGTRAP && stop != SIGSTOP) {
            pass = stop;
        }
        ptrace(PTRACE_CONT, pid, 0, pass);
    }
    return ended;
}
