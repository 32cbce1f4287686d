/* Calling both and comparing what they leave. */
#include "lockstep.h"

#include <inttypes.h>
#include <stdio.h>
#include <stdlib.h>
#include <string.h>

int lend_exactly = 0;

/* ---- a call before it is made */

static uint8_t storage[MAX_BUFFERS][LARGEST];
static uint8_t stored_byte;

static void point_into_storage(struct call *c) {
    struct piece device = {(uint8_t *)&c->device, sizeof c->device}, book = {(uint8_t *)&c->book, sizeof c->book};
    c->piece[THE_RECORD] = c->function->record == A_DEVICE ? device : book;
    c->piece[THE_BYTE] = (struct piece){&stored_byte, 1};
    for (size_t i = 0; i < MAX_BUFFERS; i++) c->piece[BUFFERS + i] = (struct piece){storage[i], c->function->buffers[i].length};
}

void blank_call(struct call *c, const struct function *f) {
    memset(c, 0, sizeof *c);
    c->function = f;
    point_into_storage(c);
}

void set_length(struct call *c, size_t buffer, she_length length) { c->piece[BUFFERS + buffer].length = length; }

int has_right_lengths(const struct call *c) {
    for (size_t i = 0; i < buffer_count(c->function); i++)
        if (c->piece[BUFFERS + i].length != c->function->buffers[i].length) return 0;
    return 1;
}

static size_t piece_count(const struct call *c) { return BUFFERS + buffer_count(c->function); }

static const char *piece_name(const struct call *c, size_t piece) {
    if (piece == THE_RECORD) return c->function->record == A_DEVICE ? "the device" : "the book";
    if (piece == THE_BYTE) return "the verdict or status";
    return c->function->buffers[piece - BUFFERS].name;
}

/* ---- lending: the pieces lie in one arena with guard bytes between them, or each in memory of its very length */

enum { GUARD = 24, ARENA = sizeof(struct bus) + 1 + 2 * LARGEST + 4 * 64 + (PIECES + 1) * (GUARD + 8) };

struct side {
    const char *name;
    uint8_t *arena;
    struct lent lent;
};

static struct side sides[2] = {{"first", NULL, {{{0}}, {0}}}, {"second", NULL, {{{0}}, {0}}}};

static uint8_t guard_byte(size_t at) { return (uint8_t)(0xC5 ^ at * 29); }

static void *must(void *memory) {
    if (memory) return memory;
    fputs("out of memory\n", stderr);
    exit(2);
}

/* No byte more than asked for, and for none still a pointer. */
static uint8_t *exact_memory(size_t length) {
    void *memory = malloc(length);
    return memory || length ? must(memory) : must(malloc(1));
}

/* The first guard ends where the record begins, at a multiple of 8; one before numbers is as much longer as these need. */
static size_t place_after(const struct call *c, size_t piece, size_t at) {
    size_t unit = piece < BUFFERS ? 1 : c->function->buffers[piece - BUFFERS].unit;
    return (at + GUARD + unit - 1) / unit * unit;
}

static size_t put_guard(struct side *s, size_t from, size_t to) {
    for (size_t at = from; at < to; at++) s->arena[at] = guard_byte(at);
    return to;
}

static void lend_from_arena(struct side *s, const struct call *c) {
    size_t at = 0;
    if (!s->arena) s->arena = must(malloc(ARENA));
    for (size_t i = 0; i < piece_count(c); i++) {
        at = put_guard(s, at, place_after(c, i, at));
        s->lent.piece[i].bytes = s->arena + at;
        at += c->piece[i].length;
        if (at + GUARD + 8 > ARENA) must(NULL);
    }
    put_guard(s, at, at + GUARD);
}

static void lend(struct side *s, const struct call *c) {
    if (!lend_exactly) lend_from_arena(s, c);
    for (size_t i = 0; i < piece_count(c); i++) {
        struct piece *p = &s->lent.piece[i];
        p->length = c->piece[i].length;
        if (lend_exactly) p->bytes = exact_memory(p->length);
        memcpy(p->bytes, c->piece[i].bytes, p->length);
    }
    memcpy(s->lent.number, c->number, sizeof c->number);
}

static void take_back(struct side *s, const struct call *c) {
    if (!lend_exactly) return;
    for (size_t i = 0; i < piece_count(c); i++) free(s->lent.piece[i].bytes);
}

/* ---- telling of a difference */

static void print_hex(const uint8_t *bytes, size_t length) {
    enum { SHOWN = GARAGE_BOOK_BYTES };
    for (size_t i = 0; i < length && i < SHOWN; i++) printf("%02x", bytes[i]);
    if (length > SHOWN) printf("...");
    printf(" (%zu bytes)\n", length);
}

static void print_call(const struct call *c, const char *when) {
    printf("%s\n", c->function->name);
    for (size_t i = 0; c->function->numbers[i] != NO_NUMBER; i++)
        printf("  %s = %" PRIu64 " (0x%" PRIx64 ")\n", number_name(c->function->numbers[i]), c->number[i], c->number[i]);
    for (size_t i = 0; i < piece_count(c); i++) {
        printf("  %s %s: ", piece_name(c, i), when);
        print_hex(c->piece[i].bytes, c->piece[i].length);
    }
}

static void print_after(const struct call *c) {
    for (size_t s = 0; s < 2; s++)
        for (size_t i = 0; i < piece_count(c); i++) {
            printf("  %s after, by the %s: ", piece_name(c, i), sides[s].name);
            print_hex(sides[s].lent.piece[i].bytes, sides[s].lent.piece[i].length);
        }
}

struct verdict {
    const struct call *call;
    const char *where;
    uint8_t answer[2];
};

static void fail(const struct verdict *v, const char *what) {
    printf("DIFFERENCE: %s\n%s\n", v->where, what);
    printf("answers: first %u, second %u\n", v->answer[0], v->answer[1]);
    print_call(v->call, "before");
    print_after(v->call);
    exit(1);
}

void fail_alike(const struct call *after, const char *where, const char *what) {
    printf("WRONG, BY BOTH ALIKE: %s\n%s\n", where, what);
    print_call(after, "after");
    exit(1);
}

static void fail_at(const struct verdict *v, const char *what, size_t piece, size_t at) {
    char text[128];
    snprintf(text, sizeof text, "%s: %s, byte %zu", what, piece_name(v->call, piece), at);
    fail(v, text);
}

/* ---- comparing */

/* Where two texts differ first, or their length. */
static size_t agreement(const uint8_t *a, const uint8_t *b, size_t length) {
    size_t i = 0;
    if (!memcmp(a, b, length)) return length;
    while (a[i] == b[i]) i++;
    return i;
}

static void compare_sides(const struct verdict *v) {
    if (v->answer[0] != v->answer[1]) fail(v, "the answers differ");
    for (size_t i = 0; i < piece_count(v->call); i++) {
        size_t length = v->call->piece[i].length;
        size_t at = agreement(sides[0].lent.piece[i].bytes, sides[1].lent.piece[i].bytes, length);
        if (at < length) fail_at(v, "the two leave something else", i, at);
    }
}

static void compare_guards(const struct verdict *v, const struct side *s) {
    size_t count = piece_count(v->call), at = 0;
    for (size_t i = 0; i <= count; i++) {
        size_t from = at, to = i < count ? (size_t)(s->lent.piece[i].bytes - s->arena) : at + GUARD;
        for (; at < to; at++)
            if (s->arena[at] != guard_byte(at)) fail_at(v, "a byte was written beyond", i ? i - 1 : i, at - from);
        if (i < count) at += v->call->piece[i].length;
    }
}

/* What must be as it was: all after a refusal, and otherwise what is only read. */
static int must_stay(const struct call *c, size_t piece, uint8_t answer) {
    if (piece == THE_BYTE) return !c->function->has_byte;
    if (piece == THE_RECORD) return answer != SHE_NO_ERROR;
    return answer != SHE_NO_ERROR || !c->function->buffers[piece - BUFFERS].is_written;
}

/* What must stand there where something must: what stood there before, and after a refused opening nothing. */
static const uint8_t *due(const struct call *c, size_t piece) {
    static const uint8_t blank[sizeof(struct garage_book)];
    return piece == THE_RECORD && c->function->record == NEW_BOOK ? blank : c->piece[piece].bytes;
}

static void compare_with_before(const struct verdict *v, const struct side *s, uint8_t answer) {
    for (size_t i = 0; i < piece_count(v->call); i++) {
        size_t length = v->call->piece[i].length;
        size_t at = agreement(s->lent.piece[i].bytes, due(v->call, i), length);
        if (must_stay(v->call, i, answer) && at < length) fail_at(v, "something is not as it must be", i, at);
    }
    if (v->call->function->has_byte && answer != SHE_NO_ERROR && *s->lent.piece[THE_BYTE].bytes)
        fail(v, "the verdict or status beside a refusal isn't 0");
}

static void compare(const struct verdict *v) {
    compare_sides(v);
    for (size_t s = 0; s < 2; s++) {
        if (v->answer[s] > SHE_GENERAL_ERROR) fail(v, "an answer above 12");
        if (!(v->call->function->answers >> v->answer[s] & 1)) fail(v, "an answer that it cannot give");
        if (!lend_exactly) compare_guards(v, &sides[s]);
        compare_with_before(v, &sides[s], v->answer[s]);
    }
}

static void keep_outcome(struct call *c) {
    for (size_t i = 0; i < piece_count(c); i++) memcpy(c->piece[i].bytes, sides[0].lent.piece[i].bytes, c->piece[i].length);
}

/* ---- a number made of all that was left (FNV-1a), which is the same for the same run on any machine */

static uint64_t digest = 0xCBF29CE484222325u;

static void digest_byte(uint8_t byte) { digest = (digest ^ byte) * 0x100000001B3u; }

static void digest_outcome(const struct call *c, uint8_t answer) {
    digest_byte(answer);
    for (size_t i = 0; i < piece_count(c); i++)
        for (size_t k = 0; k < c->piece[i].length; k++) digest_byte(c->piece[i].bytes[k]);
}

void print_digest(void) { printf("digest %016" PRIx64 "\n", digest); }

uint8_t call_both(struct call *c, const char *where) {
    struct verdict v = {c, where, {0, 0}};
    lend(&sides[0], c);
    lend(&sides[1], c);
    v.answer[0] = c->function->first(&sides[0].lent);
    v.answer[1] = c->function->second(&sides[1].lent);
    compare(&v);
    keep_outcome(c);
    digest_outcome(c, v.answer[0]);
    take_back(&sides[0], c);
    take_back(&sides[1], c);
    return v.answer[0];
}
