/* What is small enough to be tried whole: every value of every byte of a record, every slot, every pair, every bit. */
#include "lockstep.h"

#include <inttypes.h>
#include <stdio.h>
#include <string.h>

extern __typeof__(she_cmac) second_cmac;

static struct bus bus; /* the board that is swept with, and the book */
static struct call c;
static const char *sweep;
static uint64_t seed, calls;

void run_in_sweep(struct call *call, const struct bus *before) {
    char where[96];
    uint8_t answer;
    snprintf(where, sizeof where, "sweep of %s, seed %" PRIu64 ", call %" PRIu64, sweep, seed, calls++);
    answer = call_both(call, where);
    if (before) follow_bus(call, before, answer, where);
}

static void run(void) { run_in_sweep(&c, NULL); }

/* A call to this board, beside the book. */
static void prepare(const struct function *f, const struct she_device *d, const uint64_t *numbers) {
    bus.device = *d;
    prepare_call(&c, f, &bus, numbers);
}

/* The device is left as the call leaves it. */
static void run_on(struct she_device *d) {
    run();
    *d = c.device;
}

static int takes(const struct function *f, enum number_kind kind) {
    for (size_t i = 0; f->numbers[i] != NO_NUMBER; i++)
        if (f->numbers[i] == kind) return 1;
    return 0;
}

/* Marks, counters, flags: which records count as made. */
static void sweep_record(const struct she_device *d) {
    const struct function *f = function_named("get_status");
    for (size_t at = 0; at < sizeof *d; at++)
        for (unsigned value = 0; value < 256; value++) {
            prepare(f, d, NULL);
            c.piece[THE_RECORD].bytes[at] = (uint8_t)value;
            run();
        }
}

/* The marks from one on to another, which is left out, on or off as the bits of a number. */
static void put_marks(struct she_device *d, size_t from, size_t to, unsigned set) {
    for (size_t mark = from; mark < to; mark++) d->marks[mark] = set >> (mark - from) & 1;
}

/* Every function with every set of the marks that mean something on, and the others as the record has them: what counts as made,
 * and what becomes of each mark. */
static void sweep_marks(const struct she_device *d) {
    for (const struct function *f = functions; f < functions + function_count; f++)
        for (unsigned set = 0; f->record == A_DEVICE && set < 1u << FIRST_UNNAMED; set++) {
            prepare(f, d, NULL);
            put_marks(&c.device, 0, FIRST_UNNAMED, set);
            run();
        }
}

static void sweep_slots(const struct she_device *d) {
    static const uint32_t wide[] = {0x104, 0x10D, 0x10E, 0x10004, 0x1000004, 0x80000004, 0xFFFFFFF4, 0xFFFFFFFF};
    for (const struct function *f = functions; f < functions + function_count; f++)
        for (size_t i = 0; takes(f, SLOT) && i < 256 + LENGTH(wide); i++) {
            uint64_t numbers[MAX_NUMBERS] = {i < 256 ? i : wide[i - 256], i, i % 128, 0};
            prepare(f, d, numbers);
            run();
        }
}

static void sweep_writers(const struct she_device *d) {
    static const uint32_t slots[] = {0, 1, 2, 3, 4, 5, 6, 7, 8, 9, 10, 11, 12, 13, 14, 15, 16, 17, 30, 255, 256, 257, 260, 270,
                                     0x10004, 0xFFFFFFFF};
    for (const struct function *f = functions; f < functions + function_count; f++)
        for (size_t i = 0; takes(f, TARGET) && i < LENGTH(slots) * LENGTH(slots); i++) {
            prepare(f, d, NULL);
            c.number[0] = slots[i / LENGTH(slots)];
            c.number[1] = slots[i % LENGTH(slots)];
            run();
        }
}

static void plan_load(struct plan *p, const struct she_device *d, uint32_t target, uint32_t authority) {
    plan_message(p, d);
    memcpy(p->uid, d->uid, sizeof p->uid);
    memset(p->filler, 0, sizeof p->filler);
    p->target = target;
    p->authority = authority;
    p->counter = target < SHE_SLOTS && d->counters[target] < SHE_MAX_COUNTER ? d->counters[target] + 1 : SHE_MAX_COUNTER;
    memset(p->key, 0xFF, sizeof p->key);
    if (authority < SHE_SLOTS && !d->empty[authority]) memcpy(p->key, d->keys + 16 * authority, 16);
}

static void run_load(const struct plan *p, const struct she_device *d) {
    struct message m;
    prepare(function_named("load_key"), d, NULL);
    build_message(p, &m);
    put_message(&c, &m);
    run();
}

/* Every slot byte with a message that its authority has sealed, to this board and to any. */
static void sweep_slot_bytes(const struct she_device *d) {
    for (unsigned slots = 0; slots < 512; slots++) {
        struct plan p;
        plan_load(&p, d, slots / 16 % 16, slots % 16);
        if (slots >= 256) memset(p.uid, 0, sizeof p.uid);
        run_load(&p, d);
    }
}

/* Every slot with every set of flags, by itself or by SECRET_KEY. */
static void sweep_flags(const struct she_device *d) {
    for (unsigned i = 0; i < 14 * 32; i++) {
        struct plan p;
        uint32_t target = 1 + i / 32;
        plan_load(&p, d, target, target == SHE_RAM_KEY ? 0 : target == SHE_BOOT_MAC ? 2 : target);
        p.flags = i % 32;
        run_load(&p, d);
    }
}

/* Every one of the 95 bits, for a slot with a counter and for RAM_KEY. */
static void sweep_filler(const struct she_device *d) {
    for (unsigned bit = 33; bit < 128; bit++)
        for (unsigned ram = 0; ram < 2; ram++) {
            struct plan p;
            plan_load(&p, d, ram ? SHE_RAM_KEY : SHE_KEY_1, ram ? SHE_SECRET_KEY : SHE_KEY_1);
            p.filler[bit / 8 - 4] = (uint8_t)(0x80 >> bit % 8);
            run_load(&p, d);
        }
}

/* Every bit of M1, M2 and M3 turned over after sealing. */
static void sweep_damage(const struct she_device *d) {
    for (size_t bit = 0; bit < 8 * sizeof(struct message); bit++) {
        struct plan p;
        struct message m;
        plan_load(&p, d, SHE_RAM_KEY, SHE_SECRET_KEY);
        prepare(function_named("load_key"), d, NULL);
        build_message(&p, &m);
        flip_bit((uint8_t *)&m, bit);
        put_message(&c, &m);
        run();
    }
}

/* Every counter at which something may turn, against every other. */
static void sweep_counters(const struct she_device *d) {
    static const uint32_t counters[] = {0, 1, 2, 15, 16, 255, 256, 0xFFFF, 0x10000, 0xFFFFFF, 0x1000000, SHE_MAX_COUNTER - 1,
                                        SHE_MAX_COUNTER};
    for (size_t i = 0; i < LENGTH(counters) * LENGTH(counters) * SHE_SLOTS; i++) {
        struct she_device other = *d;
        struct plan p;
        uint32_t target = (uint32_t)(i % SHE_SLOTS);
        if (target != SHE_SECRET_KEY && target != SHE_RAM_KEY && !d->empty[target])
            other.counters[target] = counters[i / SHE_SLOTS % LENGTH(counters)];
        plan_load(&p, &other, target, target == SHE_RAM_KEY ? SHE_SECRET_KEY : target);
        p.counter = counters[i / SHE_SLOTS / LENGTH(counters)];
        run_load(&p, &other);
    }
}

/* Every length of a compared MAC with every single bit of it wrong, and none. */
static void sweep_mac_bits(const struct she_device *made) {
    struct she_device d = *made;
    d.empty[SHE_RAM_KEY] = 0;
    for (unsigned i = 0; i < 130 * 129; i++) {
        uint64_t numbers[MAX_NUMBERS] = {SHE_RAM_KEY, i % 300, i / 129, 0};
        uint8_t mac[16];
        prepare(function_named("verify_mac"), &d, numbers);
        second_cmac(d.keys + 16 * SHE_RAM_KEY, 16, numbers[1], c.piece[BUFFERS].bytes, c.piece[BUFFERS].length, mac, 16);
        if (i % 129 < 128) flip_bit(mac, i % 129);
        put(&c, "mac", mac, sizeof mac);
        run();
    }
}

/* Every slot filled and with these flags, as far as it keeps them; of the KEY_n every second one is for MACs. */
static struct she_device flagged(const struct she_device *made, unsigned flags) {
    struct she_device d = *made;
    for (uint32_t slot = SHE_MASTER_ECU_KEY; slot < SHE_SLOTS; slot++) {
        d.empty[slot] = 0;
        d.flags[slot] = (uint8_t)(flags | (slot % 2 ? SHE_KEY_USAGE : 0)) & second_flags_of(slot);
    }
    return d;
}

/* A function that a lock can refuse, with this slot to use or to load by itself. */
static void run_lockable(const struct function *f, const struct she_device *d, uint32_t slot) {
    uint64_t numbers[MAX_NUMBERS] = {slot, 128, 0, 0};
    struct plan p;
    if (!strcmp(f->name, "load_key")) {
        plan_load(&p, d, slot, slot);
        run_load(&p, d);
        return;
    }
    prepare(f, d, numbers);
    run();
}

/* Every set of the marks of booting, with a debugger and without, and with every set of the flags that lock. */
static void sweep_locks(const struct she_device *made) {
    enum { BOOT_SETS = 1 << (FIRST_UNNAMED - SHE_MARK_BOOTED) };
    static const uint32_t slots[] = {SHE_MASTER_ECU_KEY, SHE_BOOT_MAC_KEY, SHE_KEY_1, SHE_KEY_1 + 1, SHE_RAM_KEY};
    for (unsigned i = 0; i < 8 * BOOT_SETS; i++) {
        struct she_device d = flagged(made, i % 4 * SHE_DEBUGGER); /* BOOT is the flag after it */
        d.marks[SHE_MARK_DEBUGGER] = i / 4 % 2;
        put_marks(&d, SHE_MARK_BOOTED, FIRST_UNNAMED, i / 8);
        for (const struct function *f = functions; f < functions + function_count; f++)
            for (size_t k = 0; f->answers >> SHE_KEY_NOT_AVAILABLE & 1 && k < LENGTH(slots); k++) run_lockable(f, &d, slots[k]);
    }
}

/* With some BOOT_MAC_KEY, and without a BOOT_MAC. */
static struct she_device unlearnt(const struct she_device *made) {
    struct she_device d = *made;
    d.empty[SHE_BOOT_MAC_KEY] = 0;
    memcpy(d.keys + 16 * SHE_BOOT_MAC_KEY, d.keys, 16);
    d.empty[SHE_BOOT_MAC] = 1;
    d.counters[SHE_BOOT_MAC] = d.flags[SHE_BOOT_MAC] = 0;
    memset(d.keys + 16 * SHE_BOOT_MAC, 0, 16);
    return d;
}

/* A reset, and a boot with these bytes. */
static void run_boot(struct she_device *d, const uint8_t *bootloader, size_t length) {
    prepare(function_named("reset"), d, NULL);
    run_on(d);
    prepare(function_named("secure_boot"), d, NULL);
    put(&c, "bootloader", bootloader, length);
    set_length(&c, 0, length);
    run_on(d);
}

/* Every length at which something may turn: learnt, found again, and with a bit changed. */
static void sweep_bootloaders(const struct she_device *made) {
    static const size_t lengths[] = {0, 1, 15, 16, 17, SHE_MAX_BOOTLOADER - 1, SHE_MAX_BOOTLOADER, SHE_MAX_BOOTLOADER + 1};
    static uint8_t bootloader[LARGEST];
    for (size_t i = 0; i < sizeof bootloader; i++) bootloader[i] = (uint8_t)(i * 29 ^ i >> 8);
    for (size_t i = 0; i < LENGTH(lengths); i++) {
        struct she_device d = unlearnt(made);
        run_boot(&d, bootloader, lengths[i]);
        run_boot(&d, bootloader, lengths[i]);
        flip_bit(bootloader, 4 * lengths[i]);
        run_boot(&d, bootloader, lengths[i]);
    }
}

/* Every bit of a bootloader that ends within a block, and every bit of its BOOT_MAC. */
static void sweep_boot_bits(const struct she_device *made) {
    uint8_t bootloader[33] = {0};
    struct she_device learnt = unlearnt(made), d;
    run_boot(&learnt, bootloader, sizeof bootloader);
    for (size_t bit = 0; bit < 8 * sizeof bootloader; bit++) {
        d = learnt;
        flip_bit(bootloader, bit);
        run_boot(&d, bootloader, sizeof bootloader);
        flip_bit(bootloader, bit);
    }
    for (size_t bit = 0; bit < 128; bit++) {
        d = learnt;
        flip_bit(d.keys + 16 * SHE_BOOT_MAC, bit);
        run_boot(&d, bootloader, sizeof bootloader);
    }
}

static void sweep_bits(const struct she_device *d) {
    for (uint64_t bits = 0; bits < 1200; bits++) {
        prepare(function_named("cmac"), d, &bits);
        run();
    }
}

/* Every buffer of every function at every small length, the others being right. */
static void sweep_lengths(const struct she_device *d) {
    for (const struct function *f = functions; f < functions + function_count; f++)
        for (size_t i = 0; i < buffer_count(f) * 70; i++) {
            prepare(f, d, NULL);
            she_length length = f->buffers[i / 70].unit * (i % 70);
            memset(c.piece[BUFFERS + i / 70].bytes, 0x5A, length);
            set_length(&c, i / 70, length);
            run();
        }
}

/* Each is of a board, or of a board and a book, and is run with so many of these. The largest two make do with a book that is as
 * opened and one in which messages wait. */
static const struct {
    const char *name;
    uint64_t records;
    void (*of_board)(const struct she_device *);
    void (*of_bus)(const struct bus *);
} sweeps[] = {
    {"records", 6, sweep_record, NULL},
    {"marks", 6, sweep_marks, NULL},
    {"slots", 6, sweep_slots, NULL},
    {"writers", 6, sweep_writers, NULL},
    {"slot bytes", 6, sweep_slot_bytes, NULL},
    {"flags", 6, sweep_flags, NULL},
    {"filler", 6, sweep_filler, NULL},
    {"damage", 6, sweep_damage, NULL},
    {"counters", 6, sweep_counters, NULL},
    {"bits compared", 6, sweep_mac_bits, NULL},
    {"bits", 6, sweep_bits, NULL},
    {"lengths", 6, sweep_lengths, NULL},
    {"boot bits", 6, sweep_boot_bits, NULL},
    {"locks", 6, sweep_locks, NULL},
    {"bootloaders", 6, sweep_bootloaders, NULL},
    {"books", 2, NULL, sweep_books},
    {"changed books", 6, NULL, sweep_changed_books},
    {"pairs", 2, NULL, sweep_pairs},
    {"written flags", 6, NULL, sweep_written_flags},
    {"written counters", 6, NULL, sweep_written_counters},
    {"openings", 6, NULL, sweep_openings},
    {"proofs", 6, NULL, sweep_proofs},
    {"journeys", 6, NULL, sweep_journeys},
};

static void run_sweep(size_t i) {
    sweep = sweeps[i].name;
    calls = 0;
    for (uint64_t k = 0; k < sweeps[i].records; k++) {
        struct bus drawn;
        begin_board(seed, k);
        (k % 3 ? rich_record : make_record)(&drawn.device);
        (k % 3 ? rich_book : open_book)(&drawn.book, &drawn.device);
        bus = drawn;
        if (sweeps[i].of_board) sweeps[i].of_board(&drawn.device);
        else sweeps[i].of_bus(&drawn);
    }
    printf("sweep of %s: %" PRIu64 " calls to each, no difference\n", sweep, calls);
}

int run_sweeps(uint64_t from) {
    uint64_t all = 0;
    seed = from;
    for (size_t i = 0; i < LENGTH(sweeps); i++) {
        run_sweep(i);
        all += calls;
    }
    print_digest();
    printf("%zu sweeps: %" PRIu64 " calls to each, no difference\n", LENGTH(sweeps), all);
    return 0;
}
