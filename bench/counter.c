/* See counter.h. */
#define _GNU_SOURCE
#include "counter.h"

#include <linux/perf_event.h>
#include <stdint.h>
#include <stdio.h>
#include <string.h>
#include <sys/syscall.h>
#include <time.h>
#include <unistd.h>

/* The processor's own count of this process's cycles; -1 where the machine does not tell. */
static int cycle_counter(void) {
    static int counter = -2;
    if (counter == -2) {
        struct perf_event_attr what;
        memset(&what, 0, sizeof what);
        what.size = sizeof what;
        what.type = PERF_TYPE_HARDWARE;
        what.config = PERF_COUNT_HW_CPU_CYCLES;
        what.exclude_kernel = 1;
        what.exclude_hv = 1;
        counter = (int)syscall(SYS_perf_event_open, &what, 0, -1, -1, 0);
    }
    return counter;
}

static double seconds(clockid_t clock) {
    struct timespec now;
    clock_gettime(clock, &now);
    return (double)now.tv_sec + 1e-9 * (double)now.tv_nsec;
}

#if defined(__x86_64__)
enum { ADDITIONS = 2000000, TRIES = 50 };

static const char *const fallback = "ticks";
static double ticks(void) { return (double)__builtin_ia32_rdtsc(); }

/* Ticks a second, found once, in a twentieth of one. */
static double tick_rate(void) {
    static double rate;
    if (rate == 0) {
        double start = seconds(CLOCK_MONOTONIC), first = ticks(), now;
        do now = seconds(CLOCK_MONOTONIC);
        while (now - start < 0.05);
        rate = (ticks() - first) / (now - start);
    }
    return rate;
}

/* Ticks of additions of which each waits for the one before it, and so takes a cycle. */
static double ticks_of_additions(void) {
    uint64_t sum = 0, one = 1;
    double start = ticks();
    for (int i = 0; i < ADDITIONS; i += 100) __asm__ volatile(".rept 100\n\tadd %1, %0\n\t.endr" : "+r"(sum) : "r"(one));
    return ticks() - start;
}

static void print_fallback(void) {
    double least = ticks_of_additions(), gigahertz = 1e-9 * tick_rate();
    for (int i = 0; i < TRIES; i++) {
        double taken = ticks_of_additions();
        if (taken < least) least = taken;
    }
    printf("This machine does not tell a process its cycles. In their place stand ticks: processor time at the %.2f GHz of the time stamp counter, whatever the\n"
           "processor's clock is. They are not the same, and table 5 has cycles. By a chain of additions, a cycle each, the clock was at %.2f GHz: some %.2f cycles to a tick.\n",
           gigahertz, gigahertz * ADDITIONS / least, ADDITIONS / least);
}
#else
static const char *const fallback = "-";
static double tick_rate(void) { return 0; }
static void print_fallback(void) { puts("This machine tells a process neither its cycles nor ticks of a time stamp counter, so there are none."); }
#endif

struct reading read_counters(void) {
    struct reading reading = {seconds(CLOCK_PROCESS_CPUTIME_ID), 0};
    uint64_t cycles;
    if (cycle_counter() < 0) reading.count = reading.seconds * tick_rate();
    else if (read(cycle_counter(), &cycles, sizeof cycles) == sizeof cycles) reading.count = (double)cycles;
    return reading;
}

const char *counter_unit(void) { return cycle_counter() < 0 ? fallback : "cycles"; }

void print_counter(void) {
    if (cycle_counter() < 0) print_fallback();
    else puts("Cycles are the processor's own count for this process, as table 5's are.");
}
