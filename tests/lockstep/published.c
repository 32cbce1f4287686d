/* Published vectors, through both. The head of tests/published.txt says how its lines are to be read; one that names a routine which
 * neither header has is for the program `vectors`, and is passed over here. */
#include "lockstep.h"

#include <stdio.h>
#include <stdlib.h>
#include <string.h>

enum { MAX_NAME = 32, MAX_BYTES = 256, MAX_VALUES = 128, MAX_WORDS = 16, MAX_LINE = 256 };

struct value {
    char name[MAX_NAME];
    uint8_t bytes[MAX_BYTES];
    size_t length;
};

/* A line as words, and where one of them is `>` or `=`. */
struct line {
    char *words[MAX_WORDS];
    size_t count;
};

static struct value values[MAX_VALUES];
static size_t value_count;
static struct she_device device;
static struct garage_book book;
static char where[MAX_LINE]; /* the group's heading, and the line */
static unsigned calls, looks;

static void no_such(const char *what) {
    printf("CANNOT BE READ: %s: %s\n", where, what);
    exit(1);
}

static int is_word(const struct line *l, size_t at, const char *word) { return at < l->count && !strcmp(l->words[at], word); }

/* ---- values */

static int digit(char c) {
    if (c >= '0' && c <= '9') return c - '0';
    return c >= 'a' && c <= 'f' ? c - 'a' + 10 : -1;
}

static int is_hex(const char *word) {
    size_t n = 0;
    while (digit(word[n]) >= 0) n++;
    return !word[n] && n % 2 == 0;
}

static void add_bytes(struct value *to, const uint8_t *bytes, size_t length) {
    if (to->length + length > MAX_BYTES) no_such("a value as long as that");
    memcpy(to->bytes + to->length, bytes, length);
    to->length += length;
}

/* The last value that was given this name. */
static const struct value *named(const char *name) {
    for (size_t i = value_count; i-- > 0;)
        if (!strcmp(values[i].name, name)) return &values[i];
    no_such(name);
    return NULL;
}

static void add_word(struct value *to, const char *word) {
    if (!is_hex(word)) {
        const struct value *v = named(word);
        add_bytes(to, v->bytes, v->length);
        return;
    }
    for (size_t i = 0; word[i]; i += 2) {
        uint8_t byte = (uint8_t)(digit(word[i]) << 4 | digit(word[i + 1]));
        add_bytes(to, &byte, 1);
    }
}

static struct value value_of(const char *word) {
    struct value v = {"", {0}, 0};
    add_word(&v, word);
    return v;
}

static void name_value(const struct line *l) {
    struct value v = {"", {0}, 0};
    if (value_count == MAX_VALUES) no_such("room for another value");
    snprintf(v.name, sizeof v.name, "%s", l->words[0]);
    for (size_t i = 2; i < l->count; i++) add_word(&v, l->words[i]);
    values[value_count++] = v;
}

static uint64_t number_of(const char *word) {
    char *end;
    uint64_t number = strtoull(word, &end, 10);
    if (*end) no_such(word);
    return number;
}

/* ---- the record */

#define FIELD(name, each) {#name, offsetof(struct she_device, name), each}

/* Where a field begins, and how many bytes of it each slot has; 0 where it is no slot's. */
static const struct field {
    const char *name;
    size_t offset, each;
} fields[] = {FIELD(keys, 16), FIELD(counters, 4), FIELD(flags, 1), FIELD(empty, 1), FIELD(seed, 0), FIELD(state, 0), FIELD(rngkey, 0)};

static const struct field *field_named(const char *name) {
    for (size_t i = 0; i < sizeof fields / sizeof *fields; i++)
        if (!strcmp(fields[i].name, name)) return &fields[i];
    no_such(name);
    return NULL;
}

/* A counter lies in the record as the machine has it. */
static struct value value_in(const struct field *f, const char *word) {
    struct value v = {"", {0}, 0};
    uint32_t counter;
    if (f->offset != offsetof(struct she_device, counters)) return value_of(word);
    counter = (uint32_t)number_of(word);
    add_bytes(&v, (const uint8_t *)&counter, sizeof counter);
    return v;
}

static int look_or_let(const struct line *l) {
    const struct field *f = field_named(l->words[1]);
    const struct value v = value_in(f, l->words[l->count - 1]);
    uint8_t *place = (uint8_t *)&device + f->offset + (f->each ? f->each * number_of(l->words[2]) : 0);
    looks++;
    if (is_word(l, 0, "let")) memcpy(place, v.bytes, v.length);
    return !memcmp(place, v.bytes, v.length);
}

/* ---- calls */

/* A message ends somewhere in its last block; the rest of the block holds bits that mustn't count. */
static size_t fill_last_block(uint8_t *bytes, size_t length) {
    size_t whole = length ? (length + 15) / 16 * 16 : 16;
    memset(bytes + length, 0xEE, whole - length);
    return whole;
}

/* The next word of the line that stands for a buffer, past the sign before what comes out. */
static const char *next_word(const struct line *l, size_t *at) {
    if (is_word(l, *at, ">")) ++*at;
    if (*at >= l->count) no_such("a buffer less than the function takes");
    return l->words[(*at)++];
}

/* The numbers come first, and the buffers in the order of the parameters. */
static size_t lay_numbers(struct call *c, const struct line *l) {
    size_t at = 1;
    for (size_t i = 0; c->function->numbers[i] != NO_NUMBER; i++) c->number[i] = number_of(next_word(l, &at));
    return at;
}

static void lay_buffers(struct call *c, const struct line *l, size_t at) {
    *c->piece[THE_BYTE].bytes = 0xEE;
    for (size_t i = 0; i < buffer_count(c->function); i++) {
        struct piece *p = &c->piece[BUFFERS + i];
        const struct value v = value_of(next_word(l, &at));
        p->length = v.length;
        memcpy(p->bytes, v.bytes, v.length);
        if (!strcmp(c->function->buffers[i].name, "message")) p->length = fill_last_block(p->bytes, p->length);
        if (c->function->buffers[i].is_written) memset(p->bytes, 0xEE, p->length);
    }
}

static int is_as_printed(const struct call *c, const struct line *l, size_t at) {
    for (size_t i = 0; i < buffer_count(c->function); i++) {
        const struct value v = value_of(next_word(l, &at));
        if (memcmp(c->piece[BUFFERS + i].bytes, v.bytes, v.length)) return 0;
    }
    if (c->function->has_byte) return *c->piece[THE_BYTE].bytes == !strcmp(next_word(l, &at), "yes");
    if (at < l->count) no_such("a buffer more than the function takes");
    return 1;
}

static int run_call(const struct function *f, const struct line *l) {
    static struct call c;
    uint8_t answer;
    size_t at;
    blank_call(&c, f);
    c.device = device;
    c.book = book;
    at = lay_numbers(&c, l);
    lay_buffers(&c, l, at);
    answer = call_both(&c, where);
    device = c.device;
    book = c.book;
    calls++;
    return answer == SHE_NO_ERROR && is_as_printed(&c, l, at);
}

/* ---- lines */

static int run_line(const struct line *l) {
    const struct function *f;
    if (is_word(l, 1, "=")) return name_value(l), 1;
    if (is_word(l, 0, "holds") || is_word(l, 0, "let")) return look_or_let(l);
    f = function_named(l->words[0]);
    return !f || run_call(f, l);
}

static struct line words_of(char *text) {
    struct line l = {{NULL}, 0};
    for (char *word = strtok(text, " \n"); word; word = strtok(NULL, " \n")) {
        if (l.count == MAX_WORDS) no_such("a line of so many words");
        l.words[l.count++] = word;
    }
    return l;
}

int run_published(const char *path) {
    char text[MAX_LINE], heading[MAX_LINE] = "";
    FILE *file = fopen(path, "r");
    if (!file) return printf("cannot open %s\n", path), 1;
    memset(&device, 0, sizeof device);
    memset(&book, 0, sizeof book);
    while (fgets(text, sizeof text, file)) {
        struct line l;
        if (*text == '[') snprintf(heading, sizeof heading, "%.*s", (int)strcspn(text + 1, "]"), text + 1);
        if (strchr("#[\n", *text)) continue;
        snprintf(where, sizeof where, "%.110s: %.120s", heading, text);
        where[strcspn(where, "\n")] = 0;
        l = words_of(text);
        if (!run_line(&l)) return printf("NOT AS PUBLISHED: %s\n", where), fclose(file), 1;
    }
    fclose(file);
    if (!calls || !looks) return printf("NOTHING PUBLISHED in %s\n", path), 1;
    printf("published vectors: %u calls to each and %u lines on the record, all as printed\n", calls, looks);
    return 0;
}
