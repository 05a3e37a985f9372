/* watch FILE COMMAND..: runs a command and leaves in FILE 'SECONDS MEMORY', the processor's time that it took and the most memory that it
 * held, in kB.
 * watch --stack FILE COMMAND..: paints the command's stack before its first instruction, and leaves in FILE how many bytes of it were
 * overwritten when it ended: all that was used below its arguments and environment, by the loader and the C library too.
 * The command is traced (ptrace), which stops it at its start and at its end alone. Exit status: the command's; 125 if it can't be watched. */
#define _GNU_SOURCE
#include <elf.h>
#include <errno.h>
#include <fcntl.h>
#include <signal.h>
#include <stdint.h>
#include <stdio.h>
#include <stdlib.h>
#include <string.h>
#include <sys/ptrace.h>
#include <sys/uio.h>
#include <sys/user.h>
#include <sys/wait.h>
#include <unistd.h>

enum { PAINT = 0xA5 };

static void die(const char *what) {
    fprintf(stderr, "watch: %s: %s\n", what, strerror(errno));
    exit(125);
}

static uint64_t stack_pointer(pid_t pid) {
    struct user_regs_struct regs;
    struct iovec at = {&regs, sizeof regs};
    if (ptrace(PTRACE_GETREGSET, pid, NT_PRSTATUS, &at)) die("registers");
#ifdef __x86_64__
    return regs.rsp;
#else
    return regs.sp;
#endif
}

static FILE *opened(pid_t pid, const char *name) {
    char path[64];
    snprintf(path, sizeof path, "/proc/%d/%s", pid, name);
    FILE *file = fopen(path, "r+");
    if (!file) file = fopen(path, "r");
    if (!file) die(path);
    return file;
}

/* Where the stack's mapping begins now. */
static uint64_t stack_start(pid_t pid) {
    char line[512];
    unsigned long start = 0, from;
    FILE *maps = opened(pid, "maps");
    while (fgets(line, sizeof line, maps))
        if (strstr(line, "[stack]") && sscanf(line, "%lx-", &from) == 1) start = from;
    fclose(maps);
    if (!start) die("no stack");
    return start;
}

/* The most memory that the process held, in kB. */
static long held(pid_t pid) {
    char line[512];
    long kb = 0;
    FILE *status = opened(pid, "status");
    while (fgets(line, sizeof line, status)) sscanf(line, "VmHWM: %ld", &kb);
    fclose(status);
    return kb;
}

/* Reads or writes `size` bytes of the process at `at`. */
static void memory(pid_t pid, uint64_t at, uint8_t *bytes, size_t size, int write) {
    char path[64];
    snprintf(path, sizeof path, "/proc/%d/mem", pid);
    int file = open(path, O_RDWR);
    ssize_t n = write ? pwrite(file, bytes, size, (off_t)at) : pread(file, bytes, size, (off_t)at);
    if (file < 0 || n != (ssize_t)size) die("its memory");
    close(file);
}

/* The seconds that the process has spent on a processor: other work beside it is not counted. */
static double spent(pid_t pid) {
    unsigned long long ns = 0;
    FILE *file = opened(pid, "schedstat");
    if (fscanf(file, "%llu", &ns) != 1) die("its time");
    fclose(file);
    return (double)ns / 1e9;
}

/* Lets it run to its next stop of this kind; other signals are handed on. */
static void run_to_end(pid_t pid) {
    int status, signal = 0;
    for (;;) {
        if (ptrace(PTRACE_CONT, pid, 0, signal) || waitpid(pid, &status, 0) != pid) die("run");
        if (!WIFSTOPPED(status)) { errno = 0; die("it ended unseen"); }
        if (status >> 8 == (SIGTRAP | PTRACE_EVENT_EXIT << 8)) return;
        signal = WSTOPSIG(status);
    }
}

int main(int words, char **word) {
    int stack = words > 1 && !strcmp(word[1], "--stack"), status;
    if (words < 3 + stack) {
        fprintf(stderr, "usage: watch [--stack] FILE COMMAND..\n");
        return 125;
    }
    pid_t pid = fork();
    if (pid < 0) die("fork");
    if (pid == 0) {
        if (ptrace(PTRACE_TRACEME, 0, 0, 0)) die("trace");
        execv(word[2 + stack], word + 2 + stack);
        die(word[2 + stack]);
    }
    if (waitpid(pid, &status, 0) != pid || !WIFSTOPPED(status)) die("start");
    if (ptrace(PTRACE_SETOPTIONS, pid, 0, PTRACE_O_TRACEEXIT | PTRACE_O_EXITKILL)) die("options");

    uint64_t top = stack_pointer(pid), start = stack_start(pid);
    size_t size = top - start, low = 0;
    uint8_t *bytes = malloc(size);
    if (!bytes) die("memory");
    memset(bytes, PAINT, size);
    if (stack) memory(pid, start, bytes, size, 1);

    double before = spent(pid);
    run_to_end(pid);
    double seconds = spent(pid) - before;

    FILE *out = fopen(word[1 + stack], "w");
    if (!out) die(word[1 + stack]);
    if (stack) {
        uint64_t grown = start - stack_start(pid); /* what was added below the paint counts whole */
        memory(pid, start, bytes, size, 0);
        while (low < size && bytes[low] == PAINT) low++;
        fprintf(out, "%zu\n", size - low + grown);
    } else {
        fprintf(out, "%.6f %ld\n", seconds, held(pid));
    }
    fclose(out);
    ptrace(PTRACE_CONT, pid, 0, 0);
    if (waitpid(pid, &status, 0) != pid) die("end");
    return WIFEXITED(status) ? WEXITSTATUS(status) : 128 + WTERMSIG(status);
}
