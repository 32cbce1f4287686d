/* Books, and what is asked of them. As with records, what is drawn may look into the book: a proof is mostly that of a message that
 * waits, or such a one with a single thing wrong. */
#include "lockstep.h"

#include <string.h>

extern __typeof__(she_write_proof) second_write_proof;

/* ---- numbers */

/* 0x11, 0x101, 0x10001 and the like. */
uint64_t widen(uint64_t number) {
    uint64_t wide = number | (uint64_t)1 << (4 + below(28));
    if (one_in(4)) return 0xFFFFFFF0 | number;
    return one_in(8) ? 0xFFFFFFFF : wide;
}

/* ---- books */

static int keeps_counter(size_t slot) { return slot != SHE_SECRET_KEY && slot != SHE_RAM_KEY; }

static void forget_key(struct garage_book *b, size_t slot) {
    b->held[slot] = 0;
    memset(b->keys + 16 * slot, 0, 16);
}

void open_book(struct garage_book *b, const struct she_device *d) {
    memset(b, 0, sizeof *b);
    memcpy(b->keys, d->keys, sizeof b->keys);
    memcpy(b->counters, d->counters, sizeof b->counters);
    memcpy(b->uid, d->uid, sizeof b->uid);
    for (size_t slot = 0; slot < SHE_SLOTS; slot++) b->held[slot] = !d->empty[slot];
    b->marks[0] = 1;
}

/* Where the book has the authority's key, and the counter goes on. */
static void let_wait(struct garage_book *b, uint32_t target) {
    uint32_t authority = draw_authority(target);
    if (!b->held[authority] && authority != target) return;
    if (b->counters[target] == SHE_MAX_COUNTER) return;
    b->waits[target] = 1;
    b->authorities[target] = (uint8_t)authority;
    b->newcounters[target] = keeps_counter(target) ? b->counters[target] + 1 : 0;
    fill(b->newkeys + 16 * target, 16);
}

/* Now and then it says something else of a slot than the board, or is about another bus. */
void rich_book(struct garage_book *b, const struct she_device *d) {
    open_book(b, d);
    for (size_t slot = 0; slot < SHE_SLOTS; slot++) {
        if (one_in(8)) forget_key(b, slot);
        if (one_in(8) && keeps_counter(slot)) b->counters[slot] = draw_stored_counter();
    }
    for (uint32_t target = 1; target < SHE_SLOTS; target++)
        if (one_in(2)) let_wait(b, target);
    if (one_in(12)) flip_any_bit(b->uid, SHE_UID);
}

/* A slot for which something waits, or nothing does. */
static uint32_t draw_line(const struct garage_book *b, uint8_t waits) {
    uint32_t slot = 1 + (uint32_t)below(14);
    for (unsigned tries = 0; tries < 14 && b->waits[slot] != waits; tries++) slot = slot == 14 ? 1 : slot + 1;
    return slot;
}

static void spoil_waiting(struct garage_book *b) {
    uint32_t slot = draw_line(b, 1), other = slot == SHE_RAM_KEY ? SHE_SECRET_KEY : SHE_MASTER_ECU_KEY;
    switch (below(7)) {
    case 0: b->authorities[slot] = (uint8_t)below(16); break;
    case 1: b->authorities[slot] = (uint8_t)other, forget_key(b, other); break;
    case 2: b->newcounters[slot]++; break;
    case 3: b->newcounters[slot] = b->counters[slot]; break;
    case 4: b->counters[slot] ^= 1u << below(28); break;
    case 5: b->newcounters[slot] = 1 + (b->counters[slot] = SHE_MAX_COUNTER); break;
    default: b->waits[slot] = spoiled_mark(1);
    }
}

static void spoil_idle(struct garage_book *b) {
    static const uint32_t wide[] = {SHE_MAX_COUNTER + 1, SHE_MAX_COUNTER + 2, 0x80000000, 0xFFFFFFFF};
    uint32_t slot = draw_line(b, 0), end = one_in(2) ? SHE_SECRET_KEY : SHE_RAM_KEY;
    switch (below(6)) {
    case 0: b->authorities[slot] = (uint8_t)(1 + below(255)); break;
    case 1: b->newcounters[slot] = one_in(2) ? b->counters[slot] + 1 : (uint32_t)draw(); break;
    case 2: flip_any_bit(b->newkeys + 16 * slot, 16); break;
    case 3: b->waits[slot] = spoiled_mark(0); break;
    case 4: b->counters[slot] = ONE_OF(wide); break;
    default: b->counters[end] = one_in(2) ? 1 : draw_stored_counter();
    }
}

static void spoil_book(struct garage_book *b) {
    size_t slot = below(SHE_SLOTS), mark = one_in(2) ? 0 : below(GARAGE_MARKS);
    switch (below(13)) {
    case 0: case 1: b->marks[mark] = spoiled_mark(b->marks[mark]); break;
    case 2: memset(b->uid, 0, sizeof b->uid); break;
    case 3: b->held[slot] = spoiled_mark(b->held[slot]); break;
    case 4: flip_any_bit(b->keys + 16 * slot, 16); break;
    case 5: case 6: case 7: case 8: spoil_waiting(b); break;
    case 9: case 10: case 11: spoil_idle(b); break;
    default: flip_any_bit((uint8_t *)b, sizeof *b);
    }
}

void spoiled_book(struct garage_book *b, const struct she_device *d) {
    rich_book(b, d);
    do spoil_book(b);
    while (one_in(6));
}

/* ---- opening: mostly with what the board holds, and any bytes in the place of a key that it hasn't */

static void spoil_opening(uint8_t *uid, uint8_t *held, uint32_t *counters) {
    static const uint32_t wide[] = {SHE_MAX_COUNTER, SHE_MAX_COUNTER + 1, SHE_MAX_COUNTER + 2, 0x80000000, 0xFFFFFFFF};
    size_t slot = below(SHE_SLOTS), place = below(GARAGE_COUNTERS);
    switch (below(4)) {
    case 0: memset(uid, 0, SHE_UID); break;
    case 1: memset(uid, 0, SHE_UID), flip_any_bit(uid, SHE_UID); break;
    case 2: held[slot] = spoiled_mark(held[slot]); break;
    default: counters[place] = ONE_OF(wide);
    }
}

void draw_open(struct call *c) {
    uint8_t *uid, *keys, *held;
    uint32_t counters[GARAGE_COUNTERS];
    fill_buffers(c);
    uid = bytes_of(c, "uid"), keys = bytes_of(c, "keys"), held = bytes_of(c, "held");
    memcpy(uid, c->device.uid, SHE_UID);
    memcpy(counters, c->device.counters + 1, sizeof counters);
    for (size_t slot = 0; slot < SHE_SLOTS; slot++) {
        held[slot] = !c->device.empty[slot] && !one_in(12);
        if (held[slot]) memcpy(keys + 16 * slot, c->device.keys + 16 * slot, 16);
    }
    if (one_in(3)) spoil_opening(uid, held, counters);
    put(c, "counters", (const uint8_t *)counters, sizeof counters);
}

/* ---- writing */

static void draw_new_key(struct call *c, uint32_t target) {
    const struct garage_book *b = &c->book;
    if (one_in(8)) put(c, "new_key", (one_in(2) ? b->keys : b->newkeys) + 16 * target, 16);
}

void draw_write(struct call *c) {
    uint32_t target = draw_target(), authority = draw_authority(target);
    fill_buffers(c);
    draw_new_key(c, target);
    if (!c->book.held[authority]) authority = draw_authority(target);
    if (one_in(14)) target = (uint32_t)below(16);
    if (one_in(14)) authority = (uint32_t)below(16);
    *number_in(c, TARGET) = one_in(16) ? widen(target) : target;
    *number_in(c, AUTHORITY) = one_in(16) ? widen(authority) : authority;
    *number_in(c, FLAGS) = one_in(12) ? draw_wide_flags() : one_in(12) ? below(41) : draw_flags();
}

/* ---- judging */

int awaited_proof(struct proof *p, const struct garage_book *b, uint32_t target) {
    const uint8_t *new_key = b->newkeys + 16 * target;
    if (b->waits[target] != 1) return 0;
    return second_write_proof(b->uid, SHE_UID, target, b->authorities[target], b->newcounters[target], new_key, 16, p->m4,
                              sizeof p->m4, p->m5, sizeof p->m5) == SHE_NO_ERROR;
}

void put_proof(struct call *c, const struct proof *p) {
    put(c, "m4", p->m4, sizeof p->m4);
    put(c, "m5", p->m5, sizeof p->m5);
}

/* The proof of what waits for a target, had one thing of it been another. */
static void draw_other_proof(struct proof *p, const struct garage_book *book, uint32_t target) {
    struct garage_book b = *book;
    switch (below(4)) {
    case 0: b.authorities[target] = (uint8_t)draw_authority(target); break;
    case 1: b.newcounters[target] += one_in(2) ? 1 : -1u; break;
    case 2: flip_any_bit(b.uid, SHE_UID); break;
    default: memcpy(b.newkeys + 16 * target, b.keys + 16 * target, 16);
    }
    awaited_proof(p, &b, target);
}

static void exchange_half(struct proof *p, const struct proof *other) {
    if (one_in(2)) memcpy(p->m4, other->m4, sizeof p->m4);
    else memcpy(p->m5, other->m5, sizeof p->m5);
}

static void take_board_proof(struct proof *p, uint32_t target) {
    const struct proof *given = proof_from(target);
    if (given) *p = *given;
}

/* The right one, the board's last, or one that is nearly so. */
static void draw_proof(struct proof *p, const struct proof *right, const struct garage_book *b, uint32_t target) {
    struct proof other;
    uint64_t kind = below(16);
    *p = *right;
    if (kind < 8) take_board_proof(p, target);
    if (kind == 8 || kind == 9) draw_other_proof(p, b, target);
    if (kind == 10 && awaited_proof(&other, b, draw_line(b, 1))) exchange_half(p, &other);
    if (kind == 11) fill((uint8_t *)&other, sizeof other), exchange_half(p, &other);
    if (one_in(4)) flip_any_bit((uint8_t *)p, sizeof *p);
}

static unsigned bits_between(const uint8_t *a, const uint8_t *b, size_t length) {
    unsigned count = 0;
    for (size_t i = 0; i < 8 * length; i++) count += (a[i / 8] ^ b[i / 8]) >> i % 8 & 1;
    return count;
}

static unsigned traits_of(const struct proof *p, const struct proof *right) {
    unsigned m4 = bits_between(p->m4, right->m4, sizeof p->m4), m5 = bits_between(p->m5, right->m5, sizeof p->m5);
    if (m4 && m5) return 0;
    return (m4 == 1 ? A_BIT_OF_M4 : m4 ? OTHER_M4 : 0) | (m5 == 1 ? A_BIT_OF_M5 : m5 ? OTHER_M5 : 0);
}

/* The target of the last message, whether it waits still or not; or any other. */
static uint32_t draw_judged(const struct garage_book *b) {
    uint64_t kind = below(8);
    if (kind < 4 && latest_target()) return latest_target();
    return draw_line(b, kind < 7);
}

/* Mostly the target that the proof is for, and at times another. */
static uint64_t draw_named(const struct garage_book *b, uint32_t target) {
    uint64_t kind = below(16);
    if (kind < 2) return draw_line(b, 1);
    if (kind == 2) return below(18);
    return kind == 3 ? widen(target) : target;
}

void draw_judge(struct call *c) {
    uint32_t target = draw_judged(&c->book);
    uint64_t named = draw_named(&c->book, target);
    struct proof right, p;
    fill((uint8_t *)&right, sizeof right);
    awaited_proof(&right, &c->book, target);
    fill_buffers(c);
    draw_proof(&p, &right, &c->book, target);
    put_proof(c, &p);
    *number_in(c, TARGET) = named;
    if (named == target) c->traits = traits_of(&p, &right);
    else if (!memcmp(&p, &right, sizeof p)) c->traits = OF_ANOTHER;
}
