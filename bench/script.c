/* The script program in plain C, the peer of rampscript: it reads the same lines from standard input and prints the same answers. */
#include "load.h"
#include "plain.h"

#include <errno.h>
#include <stdlib.h>
#include <string.h>
#include <unistd.h>

enum { TICKETS = 16, MOST_FED = 16777216, MOST_BYTES = 1024, MOST_LINES = 1000000, LONGEST_LINE = 2100, LONGEST_ANSWER = 2100, BUFFER = 65536 };

/* The six modes, by number; number 0 is none. A run has `rounds` rounds, but the first and the last block's have all twelve. The tag length of a MAC comes to its start
 * word, in bits, and to the most that is drawn. */
struct mode {
    uint32_t feed_rate, draw_rate, key, most_drawn;
    uint64_t start;
    int rounds;
};

enum { MODES = 6, MAC = 2, SHORTEST_TAG = 8, LONGEST_TAG = 16, ALL = 12 };

static const struct mode modes[MODES + 1] = {
    {0, 0, 0, 0, 0, 0},
    {32, 16, 16, 1048576, 0x80808c0000000000u, 12},
    {32, 16, 16, 0, 0x80808c0000000000u, 12},
    {8, 8, 0, 32, 0x00400c0000000100u, 12},
    {8, 8, 0, 1048576, 0x00400c0000000000u, 12},
    {8, 8, 0, 32, 0x00400c0400000100u, 8},
    {8, 8, 0, 1048576, 0x00400c0400000000u, 8},
};

/* A free place has ticket 0. */
struct record {
    uint64_t words[5], runs;
    uint32_t ticket, mode, fed, drawn, most_drawn;
    int feeding;
};

static struct {
    struct record records[TICKETS];
    uint32_t issued;
    uint64_t closed_runs;
} hub;

/* A line's bytes, which become the answer's. */
static uint8_t bytes[MOST_BYTES];

static char output[BUFFER];
static size_t filled;

static void flush(void) {
    for (size_t done = 0; done < filled;) {
        ssize_t n = write(STDOUT_FILENO, output + done, filled - done);
        if (n < 0 && errno == EINTR) continue;
        if (n <= 0) exit(1);
        done += (size_t)n;
    }
    filled = 0;
}

static void put(const char *text, size_t length) {
    memcpy(output + filled, text, length);
    filled += length;
}

/* An answer: its word and number, and how many bytes it has. */
struct answer {
    const char *word;
    uint64_t number;
    size_t count;
};

static struct answer ok(uint64_t number) { return (struct answer){"ok", number, 0}; }
static struct answer no(uint32_t refusal) { return (struct answer){"no", refusal, 0}; }
static struct answer stop(uint32_t line) { return (struct answer){"stop", line, 0}; }

static void print(struct answer answer) {
    static const char digits[] = "0123456789abcdef";
    char decimal[20];
    size_t n = sizeof decimal;
    if (BUFFER - filled < LONGEST_ANSWER) flush();
    put(answer.word, strlen(answer.word));
    put(" ", 1);
    do decimal[--n] = (char)('0' + answer.number % 10);
    while (answer.number /= 10);
    put(decimal + n, sizeof decimal - n);
    put(" ", 1);
    if (answer.count == 0) put("-", 1);
    for (size_t i = 0; i < answer.count; i++) {
        output[filled++] = digits[bytes[i] >> 4];
        output[filled++] = digits[bytes[i] & 15];
    }
    put("\n", 1);
}

static void run(struct record *r, int rounds) {
    plain_permute(r->words, rounds);
    r->runs++;
}

static void xor_byte(struct record *r, uint32_t at, uint8_t byte) { r->words[at / 8] ^= (uint64_t)byte << (56 - at % 8 * 8); }

static void feed(struct record *r, size_t count) {
    uint32_t rate = modes[r->mode].feed_rate, at = r->fed % rate;
    int rounds = modes[r->mode].rounds;
    size_t i = 0;
    r->fed += (uint32_t)count;
    while (i < count) {
        if (at == 0 && count - i >= rate) {
            for (uint32_t j = 0; j < rate / 8; j++, i += 8) r->words[j] ^= load(bytes + i);
            run(r, rounds);
        } else {
            xor_byte(r, at++, bytes[i++]);
            if (at == rate) {
                run(r, rounds);
                at = 0;
            }
        }
    }
}

static void end_feeding(struct record *r) {
    if (!r->feeding) return;
    r->feeding = 0;
    xor_byte(r, r->fed % modes[r->mode].feed_rate, 0x80);
    if (modes[r->mode].key) r->words[4] ^= 1;
    run(r, ALL);
}

static uint8_t output_byte(const struct record *r, uint32_t at) { return (uint8_t)(r->words[at / 8] >> (56 - at % 8 * 8)); }

static void draw(struct record *r, size_t count) {
    uint32_t rate = modes[r->mode].draw_rate;
    for (size_t i = 0; i < count; i++, r->drawn++) {
        uint32_t at = r->drawn % rate;
        if (at == 0 && r->drawn) run(r, modes[r->mode].rounds);
        bytes[i] = output_byte(r, at);
    }
}

static int tag_matches(const struct record *r, size_t count) {
    uint8_t difference = 0;
    for (uint32_t i = 0; i < count; i++) difference |= bytes[i] ^ output_byte(r, i);
    return difference == 0;
}

/* Closes a record's ticket, and gives its run count. */
static uint64_t release(struct record *r) {
    r->ticket = 0;
    hub.closed_runs += r->runs;
    return r->runs;
}

/* Finds an open ticket's record; gives the refusal, or 0. */
static uint32_t find(uint32_t ticket, struct record **r) {
    if (ticket == 0 || ticket > hub.issued) return 11;
    for (*r = hub.records; *r < hub.records + TICKETS; ++*r) {
        if ((*r)->ticket == ticket) return 0;
    }
    return 12;
}

/* The calls. */
static struct answer call_open(uint32_t mode, size_t count) {
    struct record *r = hub.records;
    /* The last byte is a MAC's tag length. */
    uint32_t tag = mode == MAC && count ? bytes[--count] : 0;
    if (mode < 1 || mode > MODES) return no(1);
    if (count != modes[mode].key) return no(2);
    if (mode == MAC && (tag < SHORTEST_TAG || tag > LONGEST_TAG)) return no(21);
    if (hub.issued == UINT32_MAX) return no(14);
    while (r < hub.records + TICKETS && r->ticket) r++;
    if (r == hub.records + TICKETS) return no(13);
    *r = (struct record){.words = {modes[mode].start + 8 * tag}, .ticket = ++hub.issued, .mode = mode, .most_drawn = modes[mode].most_drawn + tag, .feeding = 1};
    if (count) {
        r->words[1] = load(bytes);
        r->words[2] = load(bytes + 8);
    }
    run(r, ALL);
    return ok(r->ticket);
}

static struct answer call_feed(struct record *r, size_t count) {
    if (!r->feeding) return no(15);
    if (r->fed + count > MOST_FED) return no(16);
    feed(r, count);
    return ok(r->runs);
}

static struct answer call_draw(struct record *r, size_t count) {
    if (r->drawn + count > r->most_drawn) return no(17);
    end_feeding(r);
    draw(r, count);
    return (struct answer){"ok", r->runs, count};
}

static struct answer call_check(struct record *r, size_t tag) {
    if (r->mode != MAC) return no(18);
    if (tag != r->most_drawn) return no(4);
    end_feeding(r);
    const char *verdict = tag_matches(r, tag) ? "pass" : "fail";
    return (struct answer){verdict, release(r), 0};
}

static struct answer call_close(struct record *r, size_t none) {
    (void)none;
    return ok(release(r));
}

/* A call on a ticket. */
static inline struct answer on(uint32_t ticket, struct answer (*call)(struct record *, size_t), size_t count) {
    struct record *r;
    uint32_t refusal = find(ticket, &r);
    return refusal ? no(refusal) : call(r, count);
}

static struct answer call_sum(void) {
    uint64_t sum = hub.closed_runs;
    for (int i = 0; i < TICKETS; i++) {
        if (hub.records[i].ticket) sum += hub.records[i].runs;
    }
    return ok(sum);
}

/* A digit's value, or 16. */
static unsigned digit(uint8_t c) {
    if (c >= '0' && c <= '9') return c - '0';
    if (c >= 'a' && c <= 'f') return c - 'a' + 10u;
    return 16;
}

/* Reads a number up to the space after it; gives what follows the space, or 0. */
static const uint8_t *read_number(const uint8_t *p, const uint8_t *end, uint32_t *number) {
    uint64_t n = 0;
    const uint8_t *first = p;
    for (; p < end && *p >= '0' && *p <= '9'; p++) {
        n = 10 * n + (*p - '0');
        if (n > UINT32_MAX) return 0;
    }
    if (p == first || (*first == '0' && p - first > 1) || p == end || *p != ' ') return 0;
    *number = (uint32_t)n;
    return p + 1;
}

/* Reads the rest of a line as bytes; gives whether it is that. */
static int read_bytes(const uint8_t *p, const uint8_t *end, size_t *count) {
    size_t n = (size_t)(end - p);
    *count = 0;
    if (n == 1 && *p == '-') return 1;
    if (n == 0 || n % 2 || n > 2 * MOST_BYTES) return 0;
    for (; p < end; p += 2) {
        unsigned high = digit(p[0]), low = digit(p[1]);
        if ((high | low) & 16) return 0;
        bytes[(*count)++] = (uint8_t)(high << 4 | low);
    }
    return 1;
}

/* Runs a line of values; gives whether it is well-formed. */
static int run_line(const uint8_t *p, const uint8_t *end) {
    static const struct {
        char name[8];
        size_t length;
    } calls[] = {{"open ", 5}, {"feed ", 5}, {"draw ", 5}, {"check ", 6}, {"close ", 6}, {"sum ", 4}};
    size_t which = 0, count;
    uint32_t number;
    struct answer answer;
    while (which < 6 && ((size_t)(end - p) < calls[which].length || memcmp(p, calls[which].name, calls[which].length))) which++;
    if (which == 6) return 0;
    p = read_number(p + calls[which].length, end, &number);
    if (!p || !read_bytes(p, end, &count)) return 0;
    switch (which) {
    case 0: answer = call_open(number, count); break;
    case 1: answer = on(number, call_feed, count); break;
    case 2:
        if (count != 2) return 0;
        count = (size_t)bytes[0] << 8 | bytes[1];
        if (count > MOST_BYTES) return 0;
        answer = on(number, call_draw, count);
        break;
    case 3: answer = on(number, call_check, count); break;
    case 4:
        if (count) return 0;
        answer = on(number, call_close, count);
        break;
    default:
        if (number || count) return 0;
        answer = call_sum();
    }
    print(answer);
    return 1;
}

/* Line 1 is the line of names. Gives whether to go on. */
static int take_line(uint32_t line, const uint8_t *p, const uint8_t *end) {
    static const char names[] = "call number bytes";
    size_t length = (size_t)(end - p);
    int right = line == 1 ? length == sizeof names - 1 && memcmp(p, names, length) == 0 : line <= MOST_LINES && length <= LONGEST_LINE && run_line(p, end);
    if (!right) print(stop(line));
    return right;
}

int main(void) {
    static uint8_t input[BUFFER];
    size_t begin = 0, end = 0;
    uint32_t line = 1;
    put("answer number bytes\n", 20);
    for (;;) {
        const uint8_t *newline = memchr(input + begin, '\n', end - begin);
        if (newline) {
            if (!take_line(line++, input + begin, newline)) break;
            begin = (size_t)(newline - input) + 1;
            continue;
        }
        if (end - begin > LONGEST_LINE) {
            print(stop(line));
            break;
        }
        flush();
        memmove(input, input + begin, end - begin);
        end -= begin;
        begin = 0;
        ssize_t n = read(STDIN_FILENO, input + end, BUFFER - end);
        if (n < 0 && errno == EINTR) continue;
        if (n < 0) return 1;
        if (n == 0) {
            if (end > 0 || line == 1) take_line(line, input, input + end);
            break;
        }
        end += (size_t)n;
    }
    flush();
    return 0;
}
