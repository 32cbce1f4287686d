/* lockstep [--exact] [--some] [--only NUMBER] SEED SEQUENCES   random sequences; 0 sequences: without end
 * lockstep [--exact] sweeps SEED                               whole ranges, one after the other
 * lockstep [--exact] published FILE                            published vectors: tests/published.txt
 *
 * --exact lends each buffer in memory of its very length, for a memory checker. --some lets a run pass in which not everything
 * was seen. --only runs one sequence, by its number. Ends with 0 if all agreed and everything was seen, and otherwise with 1. */
#define _POSIX_C_SOURCE 199309L /* for isatty */
#include "lockstep.h"

#include <inttypes.h>
#include <signal.h>
#include <stdio.h>
#include <stdlib.h>
#include <string.h>
#include <time.h>
#include <unistd.h>

enum { SECONDS_BETWEEN_LINES = 10 };

struct options {
    int is_some, is_only, is_sweeps;
    const char *published;
    uint64_t only, seed, sequences;
};

static void run_sequence(uint64_t seed, uint64_t sequence) {
    static struct bus bus;
    static struct call c;
    unsigned count;
    begin_sequence(seed, sequence, &bus);
    count = draw_call_count();
    for (unsigned number = 0; number < count; number++) {
        char where[96];
        uint8_t answer;
        draw_call(&c, &bus);
        snprintf(where, sizeof where, "seed %" PRIu64 ", sequence %" PRIu64 ", call %u", seed, sequence, number);
        answer = call_both(&c, where);
        follow_bus(&c, &bus, answer, where);
        count_call(&c, &bus, answer);
        remember(&c, answer);
        bus.device = c.device;
        bus.book = c.book;
    }
}

static void print_run(uint64_t seed, uint64_t sequences, time_t start) {
    printf("seed %" PRIu64 ": %" PRIu64 " sequences, %" PRIu64 " calls to each, no difference, %.0f s", seed, sequences,
           calls_counted(), difftime(time(NULL), start));
}

/* That the run lives: on a terminal one line, written over every second, and elsewhere a line now and then. */
static void print_progress(uint64_t seed, uint64_t sequences, time_t start) {
    static time_t last;
    int is_terminal = isatty(STDOUT_FILENO);
    time_t now = time(NULL);
    if (!last) last = start;
    if (difftime(now, last) < (is_terminal ? 1 : SECONDS_BETWEEN_LINES)) return;
    last = now;
    if (is_terminal) fputs("\r", stdout);
    print_run(seed, sequences, start);
    if (!is_terminal) putchar('\n');
    fflush(stdout);
}

static volatile sig_atomic_t is_stopped;

static void stop(int signal) { is_stopped = signal; }

/* A run without end is stopped from outside, and then says what it has seen. */
static int run_random(const struct options *o) {
    time_t start = time(NULL);
    uint64_t i = 0;
    if (!o->sequences) signal(SIGINT, stop), signal(SIGTERM, stop);
    for (; !is_stopped && (!o->sequences || i < o->sequences); i++) {
        run_sequence(o->seed, i);
        print_progress(o->seed, i + 1, start);
    }
    putchar('\n');
    print_counts();
    print_digest();
    print_run(o->seed, i, start);
    putchar('\n');
    return is_anything_missing() && !o->is_some && o->sequences;
}

static int run_only(const struct options *o) {
    run_sequence(o->seed, o->only);
    printf("seed %" PRIu64 ", sequence %" PRIu64 ": %" PRIu64 " calls to each, no difference\n", o->seed, o->only,
           calls_counted());
    return 0;
}

static uint64_t parse(const char *text) {
    char *end;
    uint64_t number = strtoull(text, &end, 0);
    if (*text && !*end) return number;
    fprintf(stderr, "no number: %s\n", text);
    exit(2);
}

static void usage(void) {
    fputs("usage: lockstep [--exact] [--some] [--only NUMBER] SEED SEQUENCES\n"
          "       lockstep [--exact] sweeps SEED\n"
          "       lockstep [--exact] published FILE\n", stderr);
    exit(2);
}

static struct options read_options(int count, char **words) {
    struct options o = {0, 0, 0, NULL, 0, 0, 0};
    int i = 1;
    for (; i < count && !strncmp(words[i], "--", 2); i++) {
        if (!strcmp(words[i], "--exact")) lend_exactly = 1;
        else if (!strcmp(words[i], "--some")) o.is_some = 1;
        else if (!strcmp(words[i], "--only") && i + 1 < count) o.is_only = 1, o.only = parse(words[++i]);
        else usage();
    }
    if (i + 2 == count && !strcmp(words[i], "published")) return o.published = words[i + 1], o;
    o.is_sweeps = i + 2 == count && !strcmp(words[i], "sweeps");
    if (o.is_sweeps) return o.seed = parse(words[i + 1]), o;
    if (i + 2 != count && !(o.is_only && i + 1 == count)) usage();
    o.seed = parse(words[i]);
    if (i + 2 == count) o.sequences = parse(words[i + 1]);
    return o;
}

int main(int count, char **words) {
    struct options o = read_options(count, words);
    if (o.published) return run_published(o.published);
    if (o.is_sweeps) return run_sweeps(o.seed);
    return o.is_only ? run_only(&o) : run_random(&o);
}
