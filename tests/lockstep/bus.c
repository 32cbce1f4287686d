/* Book and board together: what the book writes is carried to the board, and what the board gives for it to the book. Messages and
 * proofs get lost on the way, the board is reset and its slots are locked, and one of the two may know more than the other. But
 * where both are in step, the board must take the message, and the book must say yes and have then what the board has: that is what
 * the book is for, and a fault of both libraries alike is no difference between them. */
#include "lockstep.h"

#include <string.h>

extern __typeof__(she_get_status) second_get_status;

/* The last message for a target, the key under which it was written, and the last proof that the board gave for one, with the key
 * and the counter that it then had. */
static struct letter {
    struct message message;
    uint8_t key[16];
    struct proof proof;
    uint8_t new_key[16];
    uint32_t new_counter;
    int is_written, is_taken, has_proof;
} letters[SHE_SLOTS];
static uint32_t latest;

void clear_bus(void) {
    memset(letters, 0, sizeof letters);
    latest = 0;
}

uint32_t latest_target(void) { return latest; }

const struct message *letter_to(uint32_t target) { return letters[target].is_written ? &letters[target].message : NULL; }

const struct proof *proof_from(uint32_t target) { return letters[target].has_proof ? &letters[target].proof : NULL; }

/* ---- what is carried */

static struct message message_of(struct call *c) {
    struct message m;
    memcpy(m.m1, bytes_of(c, "m1"), sizeof m.m1);
    memcpy(m.m2, bytes_of(c, "m2"), sizeof m.m2);
    memcpy(m.m3, bytes_of(c, "m3"), sizeof m.m3);
    return m;
}

static struct proof proof_of(struct call *c) {
    struct proof p;
    memcpy(p.m4, bytes_of(c, "m4"), sizeof p.m4);
    memcpy(p.m5, bytes_of(c, "m5"), sizeof p.m5);
    return p;
}

/* The key that counts for a message, in the book. */
static void key_in_book(const struct garage_book *b, uint32_t authority, uint8_t *key) {
    memcpy(key, b->keys + 16 * authority, 16);
    if (!b->held[authority]) memset(key, 0xFF, 16);
}

static void keep_letter(struct call *after, const struct garage_book *before) {
    struct letter *l;
    latest = (uint32_t)*number_in(after, TARGET);
    l = &letters[latest];
    l->message = message_of(after);
    key_in_book(before, (uint32_t)*number_in(after, AUTHORITY), l->key);
    l->is_written = 1;
    l->is_taken = 0;
}

/* The letter that a load brings, unchanged, or none. */
static struct letter *letter_of(struct call *c) {
    struct message m = message_of(c);
    struct letter *l = &letters[m.m1[15] / 16 % SHE_SLOTS];
    return l->is_written && !memcmp(&l->message, &m, sizeof m) ? l : NULL;
}

static void keep_proof(struct call *after) {
    struct letter *l = letter_of(after);
    if (!l) return;
    l->proof = proof_of(after);
    memcpy(l->new_key, after->device.keys + 16 * (l - letters), 16);
    l->new_counter = after->device.counters[l - letters];
    l->is_taken = l->has_proof = 1;
}

/* ---- what must be */

int has_failed(const struct she_device *d) { return d->marks[SHE_MARK_SECURE_BOOT] && !d->marks[SHE_MARK_BOOT_OK]; }

static int is_locked(const struct she_device *d, uint32_t slot) {
    return (d->marks[SHE_MARK_DEBUGGER] && d->flags[slot] & SHE_DEBUGGER) || (has_failed(d) && d->flags[slot] & SHE_BOOT);
}

static int is_made(const struct she_device *d) {
    struct she_device copy = *d;
    uint8_t status;
    return second_get_status(&copy, &status) == SHE_NO_ERROR;
}

static int agree_on_key(const struct bus *b, uint32_t slot) {
    return b->book.held[slot] == !b->device.empty[slot] && !memcmp(b->book.keys + 16 * slot, b->device.keys + 16 * slot, 16);
}

/* Of the message that waits for a target: what it was written with is what both have now. */
static int are_in_step(const struct bus *b, uint32_t target, const uint8_t *key) {
    uint32_t authority = b->book.authorities[target];
    uint8_t now[16];
    key_in_book(&b->book, authority, now);
    return is_made(&b->device) && !memcmp(b->book.uid, b->device.uid, SHE_UID) && agree_on_key(b, authority) &&
           b->book.counters[target] == b->device.counters[target] && !memcmp(key, now, sizeof now);
}

static int must_be_taken(const struct letter *l, const struct bus *b) {
    uint32_t target = (uint32_t)(l - letters);
    return b->book.waits[target] && are_in_step(b, target, l->key) && !(b->device.flags[target] & SHE_WRITE) &&
           !is_locked(&b->device, b->book.authorities[target]);
}

static void look_at_load(struct call *after, const struct bus *before, uint8_t answer, const char *where) {
    const struct letter *l = has_right_lengths(after) ? letter_of(after) : NULL;
    if (!l) return;
    after->traits |= BY_THE_BOOK;
    if (!must_be_taken(l, before)) return;
    after->traits |= IN_STEP;
    if (answer != SHE_NO_ERROR) fail_alike(after, where, "the board refused what the book wrote, though they are in step");
}

/* Whether a yes has left in the book what the board then had. */
static int has_caught_up(const struct garage_book *b, uint32_t target) {
    const struct letter *l = &letters[target];
    return b->held[target] && !memcmp(b->keys + 16 * target, l->new_key, 16) && b->counters[target] == l->new_counter;
}

static void look_at_judge(struct call *after, const struct bus *before, uint8_t answer, const char *where) {
    uint32_t target = (uint32_t)*number_in(after, TARGET);
    int is_yes = *after->piece[THE_BYTE].bytes, is_the_boards;
    struct proof p = proof_of(after);
    if (answer != SHE_NO_ERROR) return;
    if (is_yes && !before->book.waits[target]) fail_alike(after, where, "a yes, though nothing waits");
    is_the_boards = letters[target].has_proof && !memcmp(&p, &letters[target].proof, sizeof p);
    if (is_the_boards) after->traits |= letters[target].is_taken ? OF_THE_BOARD : OUTDATED;
    if (!letters[target].is_taken || !before->book.waits[target]) return;
    if (is_yes && !is_the_boards) fail_alike(after, where, "a yes to another proof than the board's");
    if (is_the_boards && !is_yes) fail_alike(after, where, "a no to the board's own proof");
    if (is_yes && !has_caught_up(&after->book, target)) fail_alike(after, where, "a yes, but the book hasn't what the board has");
}

void follow_bus(struct call *after, const struct bus *before, uint8_t answer, const char *where) {
    if (is_named(after, "load_key")) look_at_load(after, before, answer, where);
    if (is_named(after, "garage_judge")) look_at_judge(after, before, answer, where);
    if (is_named(after, "garage_open")) clear_bus();
    if (answer != SHE_NO_ERROR) return;
    if (is_named(after, "garage_write")) keep_letter(after, &before->book);
    if (is_named(after, "load_key")) keep_proof(after);
}
