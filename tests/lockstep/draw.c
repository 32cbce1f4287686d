/* Random sequences. The record is plain data, so that what is drawn may look into it: half of the work here is to find the keys,
 * counters and identities with which a message would be accepted, and the other half is to spoil one thing or another. */
#include "lockstep.h"

#include <string.h>

/* The tools for building messages are the second's; published.c holds both to the published ones. */
extern __typeof__(she_kdf) second_kdf;
extern __typeof__(she_cbc_encrypt) second_cbc_encrypt;
extern __typeof__(she_cmac) second_cmac;
extern __typeof__(she_secure_boot) second_secure_boot;

/* ---- numbers: mostly such as have a meaning, now and then too wide for their place */

static uint64_t draw_wide_slot(void) {
    static const uint64_t wide[] = {0x104, 0x111, 0x10E, 256, 255, 0xFFFFFFFF, 0x10004, 0x80000005, 0x0F, 0x11, 0x1E, 0x41};
    return one_in(4) ? 256 + (below(0xFFFFFF00) & 0xFFFFFF0F) : ONE_OF(wide);
}

static uint64_t draw_filled_slot(const struct she_device *d) {
    uint64_t slot = 2 + below(13);
    for (unsigned tries = 0; tries < 13 && (d->empty[slot] || slot == SHE_BOOT_MAC); tries++) slot = slot == 14 ? 2 : slot + 1;
    return slot;
}

static uint64_t draw_slot(const struct she_device *d) {
    uint64_t kind = below(16);
    if (kind < 9) return draw_filled_slot(d);
    if (kind < 12) return SHE_KEY_1 + below(11);
    if (kind < 14) return below(16);
    return kind == 14 ? below(256) : draw_wide_slot();
}

static uint64_t draw_long_bits(void) {
    static const uint64_t ends[] = {SHE_MAX_BITS, SHE_MAX_BITS, SHE_MAX_BITS + 1, SHE_MAX_BITS - 1, SHE_MAX_BITS - 127};
    return one_in(3) ? below(SHE_MAX_BITS) : ONE_OF(ends);
}

static uint64_t draw_bits(void) {
    static const uint64_t wide[] = {0x100000008, UINT64_MAX, UINT64_MAX - 7, UINT64_MAX - 127, 0x100000000, 0x8000000000000000,
                                    0x100080000};
    if (one_in(50)) return draw_long_bits();
    if (one_in(30)) return one_in(3) ? (uint64_t)1 << (32 + below(32)) | 200 : ONE_OF(wide);
    if (one_in(6)) return 128 * below(5);
    if (one_in(6)) return 128 * below(5) + 1;
    if (one_in(6)) return 128 * below(5) + 127;
    return below(601);
}

static uint64_t draw_mac_bits(void) {
    static const uint64_t wide[] = {128, 129, 255, 256, 0x17F, 0x80000000, 0xFFFFFFFF};
    if (one_in(16)) return one_in(2) ? 0x100 + below(128) : ONE_OF(wide);
    return one_in(5) ? 0 : below(131);
}

static uint64_t draw_wide_counter(void) {
    static const uint64_t wide[] = {SHE_MAX_COUNTER, 0x10000000, 0x10000001, 0x100000001, 0x100000000, UINT64_MAX,
                                    0x8000000000000000};
    return ONE_OF(wide);
}

uint64_t draw_wide_flags(void) {
    static const uint64_t wide[] = {32, 0x103, 0xFFFFFFFF, 64, 128, 255, 0x80000000};
    return one_in(3) ? 0x100 + below(32) : ONE_OF(wide);
}

/* ---- bootloaders: a board has its own, with which it boots again and again, so that what was learnt agrees */

static uint8_t bootloader[SHE_MAX_BOOTLOADER];
static she_length bootloader_length;

static void draw_bootloader(void) {
    static const she_length ends[] = {1, 15, 16, 17, 32}, longest[] = {SHE_MAX_BOOTLOADER - 1, SHE_MAX_BOOTLOADER};
    bootloader_length = one_in(100) ? ONE_OF(longest) : one_in(3) ? ONE_OF(ends) : 1 + below(80);
    fill(bootloader, bootloader_length);
}

void begin_board(uint64_t seed, uint64_t number) {
    seed_random(seed, number);
    draw_bootloader();
}

/* ---- records */

/* Made, and nothing in it that would have to be drawn. */
static void bare_record(struct she_device *d) {
    memset(d, 0, sizeof *d);
    memset(d->empty + 1, 1, SHE_SLOTS - 1);
    d->uid[0] = 1;
    d->marks[SHE_MARK_MADE] = 1;
}

/* What a board with this BOOT_MAC_KEY learns of its bootloader. */
static void learnt_mac(const struct she_device *d, uint8_t *mac) {
    struct she_device other;
    bare_record(&other);
    other.empty[SHE_BOOT_MAC_KEY] = 0;
    memcpy(other.keys + 16 * SHE_BOOT_MAC_KEY, d->keys + 16 * SHE_BOOT_MAC_KEY, 16);
    second_secure_boot(&other, bootloader, bootloader_length);
    memcpy(mac, other.keys + 16 * SHE_BOOT_MAC, 16);
}

/* For BOOT_MAC mostly that of the board's bootloader, at times with one bit wrong. */
static void draw_key(const struct she_device *d, uint32_t slot, uint8_t *key) {
    fill(key, 16);
    if (slot != SHE_BOOT_MAC || one_in(4)) return;
    learnt_mac(d, key);
    if (one_in(3)) flip_bit(key, one_in(2) ? 127 : below(128));
}

/* WRITE ends all that can happen to a slot, so it is drawn less often. */
uint8_t draw_flags(void) {
    uint8_t flags = (uint8_t)below(32);
    if (one_in(3)) return 0;
    return one_in(6) ? flags : flags & (uint8_t)~SHE_WRITE;
}

uint32_t draw_stored_counter(void) {
    static const uint32_t ends[] = {0, 1, 2, 5, SHE_MAX_COUNTER, SHE_MAX_COUNTER - 1, SHE_MAX_COUNTER - 3};
    return one_in(3) ? (uint32_t)below(SHE_MAX_COUNTER) : ONE_OF(ends);
}

void make_record(struct she_device *d) {
    bare_record(d);
    fill(d->keys, 16);
    fill(d->uid, sizeof d->uid);
    fill(d->seed, sizeof d->seed);
    d->uid[below(SHE_UID)] |= 1;
}

static void fill_slot(struct she_device *d, size_t slot) {
    d->empty[slot] = 0;
    draw_key(d, (uint32_t)slot, d->keys + 16 * slot);
    if (slot == SHE_RAM_KEY) {
        d->marks[SHE_MARK_PLAIN] = (uint8_t)below(2);
        return;
    }
    d->counters[slot] = draw_stored_counter();
    d->flags[slot] = draw_flags() & second_flags_of((uint32_t)slot);
}

/* A record that many loads may have left, and with any of the marks of booting and of those that mean nothing yet. */
void rich_record(struct she_device *d) {
    make_record(d);
    for (size_t slot = 1; slot < SHE_SLOTS; slot++)
        if (below(10) < 7) fill_slot(d, slot);
    for (size_t mark = SHE_MARK_BOOTED; mark < SHE_MARKS; mark++) d->marks[mark] = (uint8_t)below(2);
    d->marks[SHE_MARK_DEBUGGER] = (uint8_t)below(2);
    d->marks[SHE_MARK_RANDOM] = (uint8_t)below(2);
    if (!d->marks[SHE_MARK_RANDOM]) return;
    fill(d->state, sizeof d->state);
    fill(d->rngkey, sizeof d->rngkey);
}

/* A byte that is no mark, or the other mark. */
uint8_t spoiled_mark(uint8_t mark) {
    static const uint8_t none[] = {2, 3, 128, 254, 255};
    return one_in(3) ? (uint8_t)!mark : ONE_OF(none);
}

static void spoil_record(struct she_device *d) {
    static const uint32_t counters[] = {1, SHE_MAX_COUNTER, SHE_MAX_COUNTER + 1, 0x80000000, 0xFFFFFFFF};
    size_t slot = one_in(4) ? 14 * below(2) : below(SHE_SLOTS), mark = below(SHE_MARKS);
    switch (below(14)) {
    case 0: case 1: case 2: case 3: d->marks[mark] = spoiled_mark(d->marks[mark]); break;
    case 4: case 5: d->empty[slot] = spoiled_mark(d->empty[slot]); break;
    case 6: memset(d->uid, 0, sizeof d->uid); break;
    case 7: d->counters[slot] = ONE_OF(counters); break;
    case 8: case 9: flip_any_bit(&d->flags[slot], 1); break;
    case 10: flip_any_bit(d->keys + 16 * slot, 16); break;
    case 11: flip_any_bit(d->state, 16); break;
    case 12: flip_any_bit(d->rngkey, 16); break;
    default: flip_any_bit((uint8_t *)d, sizeof *d);
    }
}

static void spoiled_record(struct she_device *d) {
    (one_in(3) ? make_record : rich_record)(d);
    do spoil_record(d);
    while (one_in(4));
}

static int is_short;
static int has_book;     /* otherwise the sequence is the board's alone */
static const char *next; /* the function that is called next, or NULL for any */

/* Making comes as the first call, to a record that may have held anything. */
static void draw_record(struct she_device *d) {
    uint64_t kind = below(100);
    next = kind < 37 ? "make" : NULL;
    is_short = kind >= 74;
    if (kind < 10) fill((uint8_t *)d, sizeof *d);
    else if (kind < 27) memset(d, 0, sizeof *d);
    else if (kind < 74) rich_record(d);
    else if (kind < 96) spoiled_record(d);
    else if (kind < 98) memset(d, 0, sizeof *d);
    else fill((uint8_t *)d, sizeof *d);
}

/* A board as firmware has it, and a book about it. Opening comes as the first call to one that may be anything, and judging to one
 * that is spoiled: before anything else happens to it. */
static void draw_bus(struct bus *b) {
    uint64_t kind = below(100);
    is_short = kind >= 65;
    next = kind < 15 ? "garage_open" : is_short ? "garage_judge" : NULL;
    (one_in(3) ? make_record : rich_record)(&b->device);
    if (kind < 10 || kind >= 98) fill((uint8_t *)&b->book, sizeof b->book);
    else if (kind < 15 || kind >= 96) memset(&b->book, 0, sizeof b->book);
    else (kind < 35 ? open_book : kind < 65 ? rich_book : spoiled_book)(&b->book, &b->device);
}

/* ---- key messages */

static struct message remembered[16];
static size_t remembered_count;

static void remember_message(const uint8_t *m1, const uint8_t *m2, const uint8_t *m3) {
    struct message *m = &remembered[remembered_count++ % LENGTH(remembered)];
    memcpy(m->m1, m1, sizeof m->m1);
    memcpy(m->m2, m2, sizeof m->m2);
    memcpy(m->m3, m3, sizeof m->m3);
}

/* A few slots are drawn more often, so that the same one is loaded again and again. */
uint32_t draw_target(void) {
    static const uint32_t often[] = {1, 1, 2, 3, 4, 4, 5, 14, 14};
    return one_in(3) ? 1 + (uint32_t)below(14) : ONE_OF(often);
}

uint32_t draw_authority(uint32_t target) {
    if (target == SHE_RAM_KEY) return one_in(2) ? 0 : SHE_KEY_1 + (uint32_t)below(10);
    if (target == SHE_BOOT_MAC) return 1 + (uint32_t)below(2);
    return one_in(2) ? SHE_MASTER_ECU_KEY : target;
}

static void plan_pair(struct plan *p, const struct she_device *d) {
    for (unsigned tries = 0; tries < 2; tries++) {
        p->target = draw_target();
        p->authority = draw_authority(p->target);
        if (p->authority == p->target || !d->empty[p->authority]) break;
    }
    if (!one_in(14)) return;
    p->target = (uint32_t)below(16);
    p->authority = (uint32_t)below(16);
}

static void plan_identity(struct plan *p, const struct she_device *d) {
    uint64_t kind = below(20);
    memcpy(p->uid, d->uid, SHE_UID);
    if (kind < 5) memset(p->uid, 0, SHE_UID);
    if (kind == 5) flip_any_bit(p->uid, SHE_UID);
    if (kind == 6) fill(p->uid, SHE_UID);
    if (memcmp(p->uid, d->uid, SHE_UID) && kind >= 5) p->traits |= OTHER_BOARD;
    if (kind < 5 && p->target < SHE_SLOTS && d->flags[p->target] & SHE_WILDCARD) p->traits |= FORBIDDEN_WILDCARD;
}

/* The key that counts is FF all over for an empty slot. The wrong ones include what lies in such a slot, zeros. */
static void plan_key(struct plan *p, const struct she_device *d) {
    size_t slot = p->authority < SHE_SLOTS ? p->authority : 0;
    uint8_t right[16];
    memcpy(right, d->keys + 16 * slot, 16);
    if (d->empty[slot]) memset(right, 0xFF, 16);
    memcpy(p->key, right, 16);
    if (one_in(20)) memset(p->key, one_in(2) ? 0xFF : 0, 16);
    if (one_in(40)) fill(p->key, 16);
    if (memcmp(p->key, right, 16)) p->traits |= FORGED;
}

static uint32_t draw_counter(uint32_t stored) {
    switch (below(24)) {
    case 0: case 1: return stored;
    case 2: return stored ? stored - 1 : 0;
    case 3: return (uint32_t)below((uint64_t)stored + 1);
    case 4: return one_in(3) ? SHE_MAX_COUNTER : 0;
    case 5: return one_in(3) ? (uint32_t)below(SHE_MAX_COUNTER) : 1;
    case 6: return stored ^ (1u << below(28)); /* far above or far below */
    case 7: case 8: return stored + 1 + (uint32_t)below(300);
    default: return stored + 1;
    }
}

static void plan_first_block(struct plan *p, const struct she_device *d) {
    uint32_t stored = p->target < SHE_SLOTS ? d->counters[p->target] & SHE_MAX_COUNTER : 0;
    p->counter = draw_counter(stored);
    if (p->counter > SHE_MAX_COUNTER) p->counter = SHE_MAX_COUNTER;
    if (p->target != SHE_RAM_KEY && p->counter <= stored) p->traits |= NOT_NEWER;
    p->flags = draw_flags();
    if (p->flags & ~second_flags_of(p->target)) p->traits |= DROPPED_FLAG;
    memset(p->filler, 0, sizeof p->filler);
    if (!one_in(14)) return;
    flip_bit(p->filler, 1 + below(95));
    p->traits |= FILLED;
}

void plan_message(struct plan *p, const struct she_device *d) {
    p->traits = 0;
    plan_pair(p, d);
    plan_identity(p, d);
    plan_key(p, d);
    plan_first_block(p, d);
    draw_key(d, p->target, p->new_key);
}

/* The message by hand, since the writers would write neither such pairs nor such fillings. */
void build_message(const struct plan *p, struct message *m) {
    static const uint8_t enc_c[16] = {1, 1, 0x53, 0x48, 0x45, 0, 0x80, 0, 0, 0, 0, 0, 0, 0, 0, 0xB0};
    static const uint8_t mac_c[16] = {1, 2, 0x53, 0x48, 0x45, 0, 0x80, 0, 0, 0, 0, 0, 0, 0, 0, 0xB0};
    static const uint8_t zeros[16];
    uint8_t k1[16], k2[16], clear[32], signed_text[48];
    uint32_t head = p->counter << 4 | p->flags >> 1;
    memcpy(m->m1, p->uid, SHE_UID);
    m->m1[15] = (uint8_t)(16 * p->target + p->authority);
    for (size_t i = 0; i < 4; i++) clear[i] = (uint8_t)(head >> (24 - 8 * i));
    memcpy(clear + 4, p->filler, 12);
    clear[4] |= (uint8_t)((p->flags & SHE_WILDCARD) << 7);
    memcpy(clear + 16, p->new_key, 16);
    second_kdf(p->key, 16, enc_c, 16, k1, 16);
    second_kdf(p->key, 16, mac_c, 16, k2, 16);
    second_cbc_encrypt(k1, 16, zeros, 16, clear, 32, m->m2, 32);
    memcpy(signed_text, m->m1, 16);
    memcpy(signed_text + 16, m->m2, 32);
    second_cmac(k2, 16, 8 * 48, signed_text, 48, m->m3, 16);
}

static void damage_message(struct message *m) {
    if (one_in(4)) m->m1[15] = (uint8_t)draw();
    else flip_any_bit((uint8_t *)m, sizeof *m);
}

/* ---- lengths and buffers */

uint8_t *bytes_of(struct call *c, const char *name) {
    for (size_t i = 0; i < buffer_count(c->function); i++)
        if (!strcmp(c->function->buffers[i].name, name)) return c->piece[BUFFERS + i].bytes;
    return NULL;
}

void put(struct call *c, const char *name, const uint8_t *bytes, size_t length) {
    uint8_t *to = bytes_of(c, name);
    if (to) memcpy(to, bytes, length);
}

static void set_open_lengths(struct call *c, she_length length) {
    for (size_t i = 0; i < buffer_count(c->function); i++)
        if (!c->function->buffers[i].length) set_length(c, i, length);
}

void fill_buffers(struct call *c) {
    for (size_t i = 0; i < buffer_count(c->function); i++) fill(c->piece[BUFFERS + i].bytes, c->piece[BUFFERS + i].length);
}

uint64_t *number_in(struct call *c, enum number_kind kind) {
    size_t i = 0;
    while (c->function->numbers[i] != kind) i++;
    return &c->number[i];
}

static void draw_number(struct call *c, size_t i) {
    switch (c->function->numbers[i]) {
    case SLOT: c->number[i] = draw_slot(&c->device); break;
    case BITS: c->number[i] = draw_bits(); break;
    case MAC_BITS: c->number[i] = draw_mac_bits(); break;
    default: break; /* those of the writers and of the book are drawn together */
    }
}

void draw_plain(struct call *c) { fill_buffers(c); }

static she_length draw_cbc_length(void) {
    static const she_length ends[] = {16 * SHE_MAX_BLOCKS, 16 * (SHE_MAX_BLOCKS + 1), 16 * SHE_MAX_BLOCKS - 1,
                                      16 * SHE_MAX_BLOCKS + 1};
    if (one_in(60)) return one_in(3) ? 16 * (1 + below(SHE_MAX_BLOCKS)) : ONE_OF(ends);
    return one_in(16) ? below(130) : 16 * (1 + below(8));
}

void draw_cbc(struct call *c) {
    set_open_lengths(c, draw_cbc_length());
    fill_buffers(c);
}

/* Bits beyond all limits come with a message that would fit if their upper part were lost, or if rounding up went around. */
static she_length message_length(uint64_t bits) {
    if (bits > SHE_MAX_BITS + 128) bits &= one_in(2) ? 0x3FF : 0;
    return 16 * (bits ? (bits + 127) / 128 : 1);
}

void draw_mac(struct call *c) {
    set_open_lengths(c, message_length(*number_in(c, BITS)));
    fill_buffers(c);
}

/* Which of the MAC's bits to spoil: the last compared, the first not compared, or any. */
static void spoil_mac(struct call *c, uint8_t *mac, uint64_t mac_bits) {
    uint64_t compared = mac_bits && mac_bits < 128 ? mac_bits : 128;
    uint64_t bit = one_in(2) ? compared - 1 : one_in(2) ? compared : below(128);
    if (bit >= 128) return;
    flip_bit(mac, bit);
    if (bit >= compared) c->traits |= WRONG_AFTER;
    if (bit == compared - 1) c->traits |= WRONG_IN_LAST;
}

void draw_verify(struct call *c) {
    uint64_t slot = *number_in(c, SLOT), bits = *number_in(c, BITS);
    const struct piece *message = &c->piece[BUFFERS];
    uint8_t mac[16];
    draw_mac(c);
    if (slot >= SHE_SLOTS || one_in(10)) return;
    if (second_cmac(c->device.keys + 16 * slot, 16, bits, message->bytes, message->length, mac, 16) != SHE_NO_ERROR) return;
    if (below(3)) spoil_mac(c, mac, *number_in(c, MAC_BITS));
    put(c, "mac", mac, sizeof mac);
}

/* Mostly the board's own bootloader, at times with one bit wrong; now and then another. */
void draw_boot(struct call *c) {
    static const she_length ends[] = {0, 1, 15, 16, 17, SHE_MAX_BOOTLOADER - 1, SHE_MAX_BOOTLOADER, SHE_MAX_BOOTLOADER + 1};
    set_open_lengths(c, bootloader_length);
    put(c, "bootloader", bootloader, bootloader_length);
    if (one_in(4)) flip_any_bit(bytes_of(c, "bootloader"), bootloader_length);
    if (!one_in(60)) return;
    set_open_lengths(c, ONE_OF(ends));
    fill_buffers(c);
}

void draw_make(struct call *c) {
    uint8_t *uid = bytes_of(c, "uid");
    fill_buffers(c);
    if (!one_in(6)) return;
    memset(uid, 0, SHE_UID);
    if (one_in(2)) flip_any_bit(uid, SHE_UID);
}

void draw_writer(struct call *c) {
    struct plan p;
    fill_buffers(c);
    plan_message(&p, &c->device);
    *number_in(c, TARGET) = one_in(16) ? draw_wide_slot() : p.target;
    *number_in(c, AUTHORITY) = one_in(16) ? draw_wide_slot() : p.authority;
    *number_in(c, COUNTER) = one_in(12) ? draw_wide_counter() : p.counter;
    if (!strcmp(c->function->name, "write_key")) *number_in(c, FLAGS) = one_in(12) ? draw_wide_flags() : p.flags;
    put(c, "uid", p.uid, sizeof p.uid);
    put(c, "authority_key", p.key, sizeof p.key);
    put(c, "new_key", p.new_key, sizeof p.new_key);
}

void put_message(struct call *c, const struct message *m) {
    put(c, "m1", m->m1, sizeof m->m1);
    put(c, "m2", m->m2, sizeof m->m2);
    put(c, "m3", m->m3, sizeof m->m3);
}

/* One that the book wrote, mostly the last. */
static int draw_letter(struct message *m) {
    const struct message *letter = letter_to(one_in(4) ? (uint32_t)below(SHE_SLOTS) : latest_target());
    if (letter) *m = *letter;
    return letter != NULL;
}

void draw_load(struct call *c) {
    struct message m;
    fill_buffers(c);
    if (has_book && below(5) && draw_letter(&m)) {
        c->traits = 0;
    } else if (remembered_count && one_in(6)) {
        m = remembered[below(remembered_count < LENGTH(remembered) ? remembered_count : LENGTH(remembered))];
        c->traits = REPLAYED;
    } else {
        struct plan p;
        plan_message(&p, &c->device);
        build_message(&p, &m);
        c->traits = p.traits;
    }
    if (one_in(10)) {
        damage_message(&m);
        c->traits |= FORGED;
    }
    put_message(c, &m);
}

/* ---- sequences */

static void spoil_length(struct call *c) {
    static const she_length others[] = {0, 1, 15, 16, 17, 31, 32, 33, 48, 64};
    size_t count = buffer_count(c->function), i = count ? below(count) : 0, unit = c->function->buffers[i].unit;
    struct piece *p = &c->piece[BUFFERS + i];
    she_length was = p->length, now = ONE_OF(others) * unit;
    if (!count) return;
    if (one_in(2)) now = was && one_in(2) ? was - unit : was + unit;
    if (now > LARGEST) return;
    if (now > was) fill(p->bytes + was, now - was);
    p->length = now;
}

static unsigned weight_of(const struct function *f) { return f->record == A_DEVICE || has_book ? f->weight : 0; }

static const struct function *draw_function(void) {
    uint64_t sum = 0, drawn;
    for (size_t i = 0; i < function_count; i++) sum += weight_of(&functions[i]);
    drawn = below(sum);
    for (size_t i = 0;; i++) {
        if (drawn < weight_of(&functions[i])) return &functions[i];
        drawn -= weight_of(&functions[i]);
    }
}

/* What is called then: firmware boots after a reset, and says how the later stages went; a message that the foreman writes is
 * mostly carried to the board, and the proof to him. */
static const char *draw_next(const char *name) {
    static const char *const ends[] = {"boot_failure", "boot_ok"};
    if (!strcmp(name, "reset") && one_in(2)) return "secure_boot";
    if (!strcmp(name, "secure_boot") && one_in(3)) return ONE_OF(ends);
    if (!strcmp(name, "garage_write") && below(4)) return "load_key";
    if (!strcmp(name, "load_key") && has_book && below(4)) return "garage_judge";
    return NULL;
}

void begin_sequence(uint64_t seed, uint64_t sequence, struct bus *bus) {
    begin_board(seed, sequence);
    remembered_count = 0;
    clear_bus();
    memset(bus, 0, sizeof *bus);
    has_book = one_in(3);
    has_book ? draw_bus(bus) : draw_record(&bus->device);
}

/* On a record that isn't made, or a book that isn't open, nearly all is refused alike, so that less is tried. */
unsigned draw_call_count(void) { return is_short ? 4 + (unsigned)below(8) : 20 + (unsigned)below(41); }

void prepare_call(struct call *c, const struct function *f, const struct bus *bus, const uint64_t *numbers) {
    blank_call(c, f);
    c->device = bus->device;
    c->book = bus->book;
    fill(c->piece[THE_BYTE].bytes, 1);
    for (size_t i = 0; f->numbers[i] != NO_NUMBER; i++) numbers ? (void)(c->number[i] = numbers[i]) : draw_number(c, i);
    f->draw(c);
}

void draw_call(struct call *c, const struct bus *bus) {
    prepare_call(c, next ? function_named(next) : draw_function(), bus, NULL);
    if (one_in(14)) spoil_length(c);
    next = draw_next(c->function->name);
}

void remember(struct call *after, uint8_t answer) {
    const uint8_t *m1 = bytes_of(after, "m1"), *m2 = bytes_of(after, "m2"), *m3 = bytes_of(after, "m3");
    if (answer == SHE_NO_ERROR && m1) remember_message(m1, m2, m3);
}
