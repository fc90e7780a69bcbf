/* The program rampscript beside the same in plain C (script.c): the time of a script's line, lines a second, and peak memory for a short script and a long one.
 * A program is timed from its start to its end. */
#include "measure.h"
#include "parts.h"
#include "process.h"

#include <inttypes.h>
#include <stdio.h>
#include <stdlib.h>

enum { TICKETS = 16, NAMES = 1, SHORT = 20000, LONG = 200000, PATH = 4096 };

/* A script, the two programs that run it, and what they took. */
struct script {
    char path[PATH];
    int lines;
    const char *programs[SIDES];
    struct figure line, rate, peak;
};

static void fail(const char *what) {
    perror(what);
    exit(1);
}

/* Eight bytes that look like any others (splitmix64), so that no digit can be guessed from those before it. */
static uint64_t next_word(uint64_t *state) {
    uint64_t z = *state += 0x9e3779b97f4a7c15u;
    z = (z ^ z >> 30) * 0xbf58476d1ce4e5b9u;
    z = (z ^ z >> 27) * 0x94d049bb133111ebu;
    return z ^ z >> 31;
}

static void write_words(FILE *file, uint64_t *state, int words) {
    for (int i = 0; i < words; i++) fprintf(file, "%016" PRIx64, next_word(state));
}

/* Sixteen MACs, with tags of sixteen bytes, and feeds of 32 bytes to each in turn. */
static void write_script(const char *path, int feeds) {
    FILE *file = fopen(path, "w");
    uint64_t state = 1;
    if (!file) fail(path);
    fputs("call number bytes\n", file);
    for (int i = 0; i < TICKETS; i++) {
        fputs("open 2 ", file);
        write_words(file, &state, 2);
        fputs("10\n", file);
    }
    for (int i = 0; i < feeds; i++) {
        fprintf(file, "feed %d ", 1 + i % TICKETS);
        write_words(file, &state, 4);
        fputc('\n', file);
    }
    if (ferror(file) || fclose(file)) fail(path);
}

static void time_run(enum side side, int pair, void *with) {
    struct script *s = with;
    double seconds = processor_seconds(s->programs[side], s->path, "/dev/null");
    s->line.of[side][pair] = 1e9 * seconds / s->lines;
    s->rate.of[side][pair] = s->lines / seconds;
}

static void weigh_run(enum side side, int pair, void *with) {
    struct script *s = with;
    s->peak.of[side][pair] = peak_kibibytes(s->programs[side], s->path, "/dev/null");
}

/* Whether two files hold the same, and more than the lines of names. */
static int same(const char *a, const char *b) {
    FILE *x = fopen(a, "r"), *y = fopen(b, "r");
    long length = 0;
    int c, d;
    if (!x) fail(a);
    if (!y) fail(b);
    do {
        c = getc(x);
        d = getc(y);
        length++;
    } while (c == d && c != EOF);
    fclose(x);
    fclose(y);
    return c == d && length > 1000;
}

/* Writes the script, and holds what the two programs print for it to each other. */
static void prepare(struct script *s, int feeds, int pairs, const char *proved, const char *plain, const char *folder) {
    char printed[SIDES][PATH];
    s->lines = NAMES + TICKETS + feeds;
    s->programs[PROVED] = proved;
    s->programs[PLAIN] = plain;
    s->line.pairs = s->rate.pairs = s->peak.pairs = pairs;
    snprintf(s->path, PATH, "%s/%d.script", folder, feeds);
    write_script(s->path, feeds);
    for (int side = 0; side < SIDES; side++) {
        snprintf(printed[side], PATH, "%s/%d.printed", folder, side);
        processor_seconds(s->programs[side], s->path, printed[side]);
    }
    if (same(printed[PROVED], printed[PLAIN])) return;
    fprintf(stderr, "the two programs differ on %s: %s and %s\n", s->path, printed[PROVED], printed[PLAIN]);
    exit(1);
}

void script_rows(int pairs, const char *proved, const char *plain, const char *folder) {
    static const struct row line = {"script, feed of 32 bytes", 0, 1, {0, 0}}, rate = {"script, speed", 0, 1, {0, 0}};
    static const struct row peaks[2] = {{"script, peak, 200,017 lines", 0, 1, {0, 0}}, {"script, peak, 20,017 lines", 0, 1, {0, 0}}};
    static struct script scripts[2];
    prepare(&scripts[0], LONG, pairs, proved, plain, folder);
    prepare(&scripts[1], SHORT, pairs, proved, plain, folder);
    alternate(pairs, time_run, &scripts[0]);
    print_row(&line, "ns", &scripts[0].line, 0);
    print_row(&rate, "lines/s", &scripts[0].rate, 0);
    for (int i = 0; i < 2; i++) {
        alternate(pairs, weigh_run, &scripts[i]);
        print_row(&peaks[i], "KiB", &scripts[i].peak, 0);
    }
}
