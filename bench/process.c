/* See process.h. */
#define _GNU_SOURCE
#include "process.h"

#include <fcntl.h>
#include <stdio.h>
#include <stdlib.h>
#include <sys/ptrace.h>
#include <sys/resource.h>
#include <sys/wait.h>
#include <unistd.h>

static _Noreturn void fail(const char *what, const char *problem) {
    fprintf(stderr, "%s: %s\n", what, problem);
    exit(1);
}

/* A program that is watched stops once it is loaded. */
static pid_t start(const char *program, const char *input, const char *output, int watched) {
    pid_t child = fork();
    if (child < 0) fail(program, "it could not be started");
    if (child == 0) {
        int in = open(input, O_RDONLY), out = open(output, O_WRONLY | O_CREAT | O_TRUNC, 0666);
        if (in < 0 || out < 0 || dup2(in, 0) < 0 || dup2(out, 1) < 0) _exit(126);
        if (watched && ptrace(PTRACE_TRACEME, 0, 0, 0) < 0) _exit(125);
        execl(program, program, (char *)0);
        _exit(127);
    }
    return child;
}

static double in_seconds(struct timeval time) { return (double)time.tv_sec + 1e-6 * (double)time.tv_usec; }

/* Waits for a program's end, and gives its processor time. */
static double end(pid_t child, const char *program) {
    struct rusage usage;
    int status;
    if (wait4(child, &status, 0, &usage) < 0 || !WIFEXITED(status) || WEXITSTATUS(status)) fail(program, "it did not end well");
    return in_seconds(usage.ru_utime) + in_seconds(usage.ru_stime);
}

double processor_seconds(const char *program, const char *input, const char *output) { return end(start(program, input, output, 0), program); }

static void wait_for_stop(pid_t child, const char *program) {
    int status;
    if (waitpid(child, &status, 0) < 0 || !WIFSTOPPED(status)) fail(program, "it could not be watched");
}

/* Has a stopped program go on. */
static void go_on(pid_t child, const char *program) {
    if (ptrace(PTRACE_CONT, child, 0, 0) < 0) fail(program, "it could not be watched");
}

/* What a process has had at the most. */
static double peak_of(pid_t child) {
    char path[64], line[256];
    double peak = 0;
    snprintf(path, sizeof path, "/proc/%d/status", (int)child);
    FILE *file = fopen(path, "r");
    if (!file) fail(path, "it could not be read");
    while (fgets(line, sizeof line, file) && sscanf(line, "VmHWM: %lf", &peak) != 1) continue;
    fclose(file);
    if (peak == 0) fail(path, "it tells no peak");
    return peak;
}

/* The system is asked when the program is about to end: what it tells afterwards is never less than this program's own memory, as whose copy the other began. */
double peak_kibibytes(const char *program, const char *input, const char *output) {
    pid_t child = start(program, input, output, 1);
    wait_for_stop(child, program);
    if (ptrace(PTRACE_SETOPTIONS, child, 0, PTRACE_O_EXITKILL | PTRACE_O_TRACEEXIT) < 0) fail(program, "it could not be watched");
    go_on(child, program);
    wait_for_stop(child, program);
    double peak = peak_of(child);
    go_on(child, program);
    end(child, program);
    return peak;
}
