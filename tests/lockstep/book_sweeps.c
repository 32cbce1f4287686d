/* What of the book is small enough to be tried whole: every value of every byte, every pair, every flag, every bit of a proof. */
#include "lockstep.h"

#include <string.h>

static struct call c;

static void prepare(const char *name, const struct bus *bus) { prepare_call(&c, function_named(name), bus, NULL); }

static void run(void) { run_in_sweep(&c, NULL); }

/* Which books count as open: 0 is no target, but first comes 12. */
void sweep_books(const struct bus *bus) {
    prepare("garage_judge", bus);
    c.number[0] = 0;
    for (size_t at = 0; at < sizeof c.book; at++) {
        for (unsigned value = 0; value < 256; value++) {
            c.piece[THE_RECORD].bytes[at] = (uint8_t)value;
            *c.piece[THE_BYTE].bytes = 1;
            run();
        }
        c.book = bus->book;
    }
}

/* One bit of every byte, with calls that would do something otherwise. */
void sweep_changed_books(const struct bus *bus) {
    static const char *const names[] = {"garage_open", "garage_write", "garage_judge"};
    for (size_t at = 0; at < sizeof c.book; at++)
        for (size_t i = 0; i < LENGTH(names); i++) {
            prepare(names[i], bus);
            flip_any_bit((uint8_t *)&c.book + at, 1);
            run();
        }
}

void sweep_pairs(const struct bus *bus) {
    prepare("garage_write", bus);
    for (unsigned i = 0; i < 256 * 256; i++) {
        c.book = bus->book;
        c.number[0] = i / 256;
        c.number[1] = i % 256;
        c.number[2] = i % 32;
        run();
    }
}

static uint32_t own_authority(uint32_t target) {
    return target == SHE_RAM_KEY ? SHE_SECRET_KEY : target == SHE_BOOT_MAC ? SHE_BOOT_MAC_KEY : target;
}

void sweep_written_flags(const struct bus *bus) {
    static const uint64_t wide[] = {0x100, 0x101, 0x11F, 0x10001, 0x1000001F, 0x80000000, 0xFFFFFFE0, 0xFFFFFFFF};
    enum { NARROW = 41, ALL = NARROW + LENGTH(wide) };
    for (uint32_t i = 0; i < 14 * ALL; i++) {
        uint32_t target = 1 + i / ALL;
        prepare("garage_write", bus);
        c.number[0] = target;
        c.number[1] = own_authority(target);
        c.number[2] = i % ALL < NARROW ? i % ALL : wide[i % ALL - NARROW];
        run();
    }
}

/* Every counter at which something may turn, written on and with a proof judged. */
void sweep_written_counters(const struct bus *bus) {
    static const uint32_t counters[] = {0, 1, 15, 16, 255, 256, 0xFFFF, 0x10000, 0xFFFFFF, 0x1000000, SHE_MAX_COUNTER - 2,
                                        SHE_MAX_COUNTER - 1, SHE_MAX_COUNTER, SHE_MAX_COUNTER + 1, 0xFFFFFFFF};
    for (size_t i = 0; i < SHE_SLOTS * LENGTH(counters); i++) {
        struct bus b = *bus;
        uint32_t target = (uint32_t)(i % SHE_SLOTS);
        struct proof p;
        open_book(&b.book, &b.device);
        b.book.counters[target] = counters[i / SHE_SLOTS];
        prepare("garage_write", &b);
        c.number[0] = target;
        c.number[1] = own_authority(target);
        c.number[2] = 0;
        run();
        b.book = c.book;
        if (!awaited_proof(&p, &b.book, target)) continue;
        prepare("garage_judge", &b);
        put_proof(&c, &p);
        c.number[0] = target;
        run();
    }
}

static void prepare_opening(const struct bus *bus) {
    uint32_t counters[GARAGE_COUNTERS] = {0};
    prepare("garage_open", bus);
    memcpy(bytes_of(&c, "uid"), bus->device.uid, SHE_UID);
    memset(bytes_of(&c, "held"), 1, SHE_SLOTS);
    put(&c, "counters", (const uint8_t *)counters, sizeof counters);
}

/* Every byte of a mark, every counter at which something may turn, and every UID with one bit set. */
void sweep_openings(const struct bus *bus) {
    static const uint32_t counters[] = {0, 1, SHE_MAX_COUNTER - 1, SHE_MAX_COUNTER, SHE_MAX_COUNTER + 1, 0x7FFFFFFF, 0x80000000,
                                        0xFFFFFFFF};
    for (unsigned i = 0; i < SHE_SLOTS * 256; i++) {
        prepare_opening(bus);
        bytes_of(&c, "held")[i / 256] = (uint8_t)i;
        run();
    }
    for (size_t i = 0; i < GARAGE_COUNTERS * LENGTH(counters); i++) {
        prepare_opening(bus);
        memcpy(bytes_of(&c, "counters") + 4 * (i / LENGTH(counters)), &counters[i % LENGTH(counters)], 4);
        run();
    }
    for (size_t bit = 0; bit <= 8 * SHE_UID; bit++) {
        prepare_opening(bus);
        memset(bytes_of(&c, "uid"), 0, SHE_UID);
        if (bit < 8 * SHE_UID) flip_bit(bytes_of(&c, "uid"), bit);
        run();
    }
}

/* The proof of what waits, with every bit turned over and with none, for every target that has one; and named for every other. */
void sweep_proofs(const struct bus *bus) {
    enum { BITS_OF_PROOF = 8 * sizeof(struct proof) };
    for (uint32_t target = 1; target < SHE_SLOTS; target++) {
        struct proof right, p;
        if (!awaited_proof(&right, &bus->book, target)) continue;
        for (size_t bit = 0; bit <= BITS_OF_PROOF + 32; bit++) {
            p = right;
            prepare("garage_judge", bus);
            if (bit < BITS_OF_PROOF) flip_bit((uint8_t *)&p, bit);
            put_proof(&c, &p);
            c.number[0] = bit <= BITS_OF_PROOF ? target : bit - BITS_OF_PROOF - 1;
            if (bit == BITS_OF_PROOF + 32) c.number[0] = widen(target);
            run();
        }
    }
}

/* ---- book and board together */

/* The call that is prepared, which leaves board and book anew. */
static void step(struct bus *b) {
    run_in_sweep(&c, b);
    b->device = c.device;
    b->book = c.book;
}

static void step_with_proof(struct bus *b, uint32_t target) {
    const struct proof *p = proof_from(target);
    prepare("garage_judge", b);
    c.number[0] = target;
    if (p) put_proof(&c, p);
    step(b);
}

/* Written, carried, and judged twice; and all once more. */
static void travel(struct bus *b, uint32_t target, uint32_t authority) {
    for (unsigned time = 0; time < 2; time++) {
        const struct message *m;
        prepare("garage_write", b);
        c.number[0] = target;
        c.number[1] = authority;
        c.number[2] &= SHE_ALL_FLAGS & ~(unsigned)SHE_WRITE;
        step(b);
        m = letter_to(target);
        if (!m) return;
        prepare("load_key", b);
        put_message(&c, m);
        step(b);
        step_with_proof(b, target);
        step_with_proof(b, target);
    }
}

/* Every slot that isn't empty with this flag, if it has it. */
static void flag_all(struct she_device *d, uint8_t flag) {
    for (uint32_t slot = 1; slot < SHE_SLOTS; slot++)
        if (!d->empty[slot]) d->flags[slot] |= flag & second_flags_of(slot);
}

/* Every pair of slots, on a board as it is, with a debugger, after a bad boot, and where WRITE protects all. */
void sweep_journeys(const struct bus *bus) {
    static const uint8_t flags[] = {0, SHE_DEBUGGER, SHE_BOOT, SHE_WRITE};
    for (unsigned i = 0; i < LENGTH(flags) * SHE_SLOTS * SHE_SLOTS; i++) {
        struct bus b = *bus;
        uint8_t flag = flags[i / SHE_SLOTS / SHE_SLOTS];
        b.device.marks[SHE_MARK_DEBUGGER] = flag == SHE_DEBUGGER;
        b.device.marks[SHE_MARK_SECURE_BOOT] = flag == SHE_BOOT;
        b.device.marks[SHE_MARK_BOOT_OK] = 0;
        flag_all(&b.device, flag);
        open_book(&b.book, &b.device);
        clear_bus();
        travel(&b, i % SHE_SLOTS, i / SHE_SLOTS % SHE_SLOTS);
    }
}
