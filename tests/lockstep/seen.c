/* What was seen: how often each function gave each answer, and how often what is hard to come by came. A run in which something
 * of this is missing has tested less than it says, and fails. */
#include "lockstep.h"

#include <inttypes.h>
#include <stdio.h>
#include <string.h>

extern __typeof__(garage_judge) second_garage_judge;

enum { ANSWERS = SHE_GENERAL_ERROR + 1, MOST_FUNCTIONS = 64 };

static uint64_t answered[MOST_FUNCTIONS][ANSWERS];
static uint64_t calls;

#define SIGHTS(X) \
    X(VERDICT_YES, "VERIFY_MAC: yes") \
    X(VERDICT_NO, "VERIFY_MAC: no") \
    X(YES_THOUGH_WRONG_AFTER, "VERIFY_MAC: yes, with a MAC wrong after the bits compared") \
    X(NO_FOR_LAST_BIT, "VERIFY_MAC: no, for the last bit compared alone") \
    X(VERIFIED_BY_BOOT_MAC_KEY, "VERIFY_MAC: with BOOT_MAC_KEY") \
    X(STATUS_0, "GET_STATUS: 0") \
    X(STATUS_4, "GET_STATUS: 4, the bootloader learnt") \
    X(STATUS_10, "GET_STATUS: 10, the boot failed") \
    X(STATUS_18, "GET_STATUS: 18, the bootloader agreed") \
    X(STATUS_26, "GET_STATUS: 26, and the boot finished") \
    X(STATUS_32, "GET_STATUS: 32") \
    X(STATUS_64, "GET_STATUS: 64") \
    X(STATUS_96, "GET_STATUS: 96") \
    X(MARKED_BUT_NOT_MADE, "GET_STATUS: 12, though the made mark is on") \
    X(RESET_WITH_UNNAMED, "RESET: with a mark on that means nothing yet") \
    X(MADE_OVER_UNNAMED, "MAKE: over a mark on that means nothing yet") \
    X(LEARNT, "SECURE_BOOT: learnt") \
    X(AGREED, "SECURE_BOOT: agreed") \
    X(FAILED, "SECURE_BOOT: failed") \
    X(FAILED_OVER_OK, "SECURE_BOOT: failed, with BOOT_OK on before") \
    X(LONGEST_BOOT, "SECURE_BOOT: of 65,536 bytes") \
    X(TOO_LONG_BOOT, "SECURE_BOOT: of 65,537 bytes refused") \
    X(EMPTY_BOOT, "SECURE_BOOT: of 0 bytes refused") \
    X(FAILURE_AFTER_OK, "BOOT_FAILURE: 1 after BOOT_OK") \
    X(OK_AFTER_FAILURE, "BOOT_OK: 1 after a boot that failed") \
    X(LOCKED_BY_BOOT, "a slot locked by BOOT alone") \
    X(ID_WITHOUT_MAC, "GET_ID: without a MASTER_ECU_KEY") \
    X(EMPTY_MAC, "a MAC of 0 bits") \
    X(UNEVEN_MAC, "a MAC of bits that fill no byte") \
    X(LONGEST_MAC, "a MAC of 524,288 bits") \
    X(TOO_LONG_MAC, "a MAC of 524,289 bits refused") \
    X(LONGEST_CBC, "CBC of 4,096 blocks") \
    X(TOO_LONG_CBC, "CBC of 4,097 blocks refused") \
    X(WIDE_SLOT, "a slot of more than 255 refused as none") \
    X(LOADED_BY_EMPTY_SELF, "LOAD_KEY: by the target itself, empty") \
    X(LOADED_BY_FULL_SELF, "LOAD_KEY: by the target itself, not empty") \
    X(LOADED_BY_WILDCARD, "LOAD_KEY: by wildcard, not RAM_KEY") \
    X(LOADED_RAM_BY_WILDCARD, "LOAD_KEY: RAM_KEY by wildcard") \
    X(LOADED_RAM_BY_SECRET, "LOAD_KEY: RAM_KEY by SECRET_KEY") \
    X(LOADED_RAM_BY_KEY_N, "LOAD_KEY: RAM_KEY by KEY_n") \
    X(LOADED_RAM_BY_MAC_KEY, "LOAD_KEY: RAM_KEY by a KEY_n with KEY_USAGE") \
    X(LOADED_OVER_PLAIN, "LOAD_KEY: over a plain RAM_KEY") \
    X(LOADED_LARGEST, "LOAD_KEY: with the largest counter") \
    X(LOADED_DROPPING, "LOAD_KEY: with a flag that the slot hasn't") \
    X(LOADED_LOCKED_BY_DEBUGGER, "LOAD_KEY: into a slot that DEBUGGER locks") \
    X(LOADED_LOCKED_BY_BOOT, "LOAD_KEY: into a slot that BOOT locks") \
    X(LOADED_AGAIN, "LOAD_KEY: a message written or used before") \
    X(REFUSED_FORGED, "LOAD_KEY: 7 for a wrong M3 alone") \
    X(REFUSED_OTHER_BOARD, "LOAD_KEY: 7 for another board's UID' alone") \
    X(REFUSED_WILDCARD, "LOAD_KEY: 7 for a forbidden wildcard alone") \
    X(REFUSED_FILLED, "LOAD_KEY: 7 for the 95 bits alone") \
    X(REFUSED_NOT_NEWER, "LOAD_KEY: 7 for the counter alone") \
    X(REFUSED_AGAIN, "LOAD_KEY: 7 for a message written or used before") \
    X(OPENED_OVER_WAITING, "garage_open: over a book in which something waits") \
    X(OPENED_WITHOUT_KEY, "garage_open: with bytes in the place of a key that isn't held") \
    X(BLANKED, "garage_open: 12, over an open book") \
    X(REFUSED_ZERO_UID, "garage_open: 12 for a UID of zeros alone") \
    X(REFUSED_MARK, "garage_open: 12 for a mark alone") \
    X(REFUSED_COUNTER, "garage_open: 12 for a counter alone") \
    X(MARKED_BUT_NOT_OPEN, "garage_judge: 12, though the marks are those of an open book") \
    X(WRITTEN_BY_UNHELD_SELF, "garage_write: by the target itself, not held") \
    X(WRITTEN_BY_HELD_SELF, "garage_write: by the target itself, held") \
    X(WRITTEN_FOR_RAM_BY_SECRET, "garage_write: for RAM_KEY by SECRET_KEY") \
    X(WRITTEN_FOR_RAM_BY_KEY_N, "garage_write: for RAM_KEY by KEY_n") \
    X(WRITTEN_LARGEST, "garage_write: with the largest counter") \
    X(WRITTEN_OVER_WAITING, "garage_write: in place of a message that waits") \
    X(REFUSED_WIDE_TARGET, "garage_write: 3 for a target of more than 255") \
    X(REFUSED_FLAGS, "garage_write: 12 for flags alone") \
    X(YES_TO_BOARD, "garage_judge: yes to the board's proof") \
    X(YES_FOR_RAM, "garage_judge: yes for RAM_KEY") \
    X(YES_WITH_LARGEST, "garage_judge: yes with the largest counter") \
    X(NO_AGAIN, "garage_judge: no to the board's proof a second time") \
    X(NO_TO_OUTDATED, "garage_judge: no to the board's proof for a message that was replaced") \
    X(NO_TO_ANOTHER, "garage_judge: no to the proof for another target, though something waits") \
    X(NO_FOR_A_BIT_OF_M4, "garage_judge: no for a bit of M4 alone") \
    X(NO_FOR_A_BIT_OF_M5, "garage_judge: no for a bit of M5 alone") \
    X(NO_FOR_M4, "garage_judge: no for an M4 of something else") \
    X(NO_FOR_M5, "garage_judge: no for an M5 of something else") \
    X(LETTER_IN_STEP, "LOAD_KEY: the book's message, book and board in step") \
    X(LETTER_PROTECTED, "LOAD_KEY: 6 to the book's message") \
    X(LETTER_LOCKED, "LOAD_KEY: 2 to the book's message") \
    X(LETTER_LATE, "LOAD_KEY: 7 to the book's message, as the proof for the one before was lost")

#define NAME(name, text) name,
#define TEXT(name, text) text,
enum sight { SIGHTS(NAME) SIGHT_COUNT };
static const char *const sight_texts[] = {SIGHTS(TEXT)};
static uint64_t seen[SIGHT_COUNT];

static void see(enum sight sight, int is_seen) { seen[sight] += is_seen != 0; }

static uint64_t number_of(const struct call *c, enum number_kind kind, uint64_t otherwise) {
    for (size_t i = 0; c->function->numbers[i] != NO_NUMBER; i++)
        if (c->function->numbers[i] == kind) return c->number[i];
    return otherwise;
}

static void look_at_verify(const struct call *c, uint8_t answer) {
    uint8_t verdict = *c->piece[THE_BYTE].bytes;
    if (answer != SHE_NO_ERROR) return;
    see(VERDICT_YES, verdict == 1);
    see(VERDICT_NO, verdict == 0);
    see(YES_THOUGH_WRONG_AFTER, verdict == 1 && c->traits & WRONG_AFTER);
    see(NO_FOR_LAST_BIT, verdict == 0 && c->traits & WRONG_IN_LAST);
    see(VERIFIED_BY_BOOT_MAC_KEY, number_of(c, SLOT, 0) == SHE_BOOT_MAC_KEY);
}

static void look_at_status(const struct call *c, uint8_t answer) {
    uint8_t status = *c->piece[THE_BYTE].bytes;
    see(MARKED_BUT_NOT_MADE, answer != SHE_NO_ERROR && c->device.marks[SHE_MARK_MADE] == 1);
    if (answer != SHE_NO_ERROR) return;
    see(STATUS_0, status == 0);
    see(STATUS_4, status == 4);
    see(STATUS_10, status == 10);
    see(STATUS_18, status == 18);
    see(STATUS_26, status == 26);
    see(STATUS_32, status == 32);
    see(STATUS_64, status == 64);
    see(STATUS_96, status == 96);
}

static int has_unnamed(const struct she_device *d) {
    for (size_t mark = FIRST_UNNAMED; mark < SHE_MARKS; mark++)
        if (d->marks[mark]) return 1;
    return 0;
}

static void look_at_boot(const struct call *c, const struct she_device *before, uint8_t answer) {
    she_length length = c->piece[BUFFERS].length;
    int is_done = answer == SHE_NO_ERROR, is_check = is_done && !before->empty[SHE_BOOT_MAC];
    int is_ok = c->device.marks[SHE_MARK_BOOT_OK];
    see(LEARNT, is_done && !is_check);
    see(AGREED, is_check && is_ok);
    see(FAILED, is_check && !is_ok);
    see(FAILED_OVER_OK, is_check && !is_ok && before->marks[SHE_MARK_BOOT_OK]);
    see(LONGEST_BOOT, is_done && length == SHE_MAX_BOOTLOADER);
    see(TOO_LONG_BOOT, answer == SHE_GENERAL_ERROR && length == SHE_MAX_BOOTLOADER + 1);
    see(EMPTY_BOOT, answer == SHE_GENERAL_ERROR && length == 0);
}

static void look_at_mac(const struct call *c, uint8_t answer) {
    uint64_t bits = number_of(c, BITS, UINT64_MAX);
    see(EMPTY_MAC, answer == SHE_NO_ERROR && bits == 0);
    see(UNEVEN_MAC, answer == SHE_NO_ERROR && bits <= SHE_MAX_BITS && bits % 8);
    see(LONGEST_MAC, answer == SHE_NO_ERROR && bits == SHE_MAX_BITS);
    see(TOO_LONG_MAC, answer == SHE_GENERAL_ERROR && bits == SHE_MAX_BITS + 1);
}

static void look_at_cbc(const struct call *c, uint8_t answer) {
    const struct piece *in = &c->piece[BUFFERS + 1 + (c->function->numbers[0] == NO_NUMBER)];
    if (!strstr(c->function->name, "cbc")) return;
    see(LONGEST_CBC, answer == SHE_NO_ERROR && in->length == 16 * SHE_MAX_BLOCKS);
    see(TOO_LONG_CBC, answer == SHE_GENERAL_ERROR && in->length == 16 * (SHE_MAX_BLOCKS + 1));
}

static int is_zero(const uint8_t *bytes, size_t length) {
    for (size_t i = 0; i < length; i++)
        if (bytes[i]) return 0;
    return 1;
}

static void look_at_loaded(const struct call *c, const struct she_device *before) {
    const uint8_t *m1 = c->piece[BUFFERS].bytes;
    unsigned target = m1[15] / 16, authority = m1[15] % 16;
    int into_ram = target == SHE_RAM_KEY, by_key_n = authority >= SHE_KEY_1;
    see(LOADED_BY_EMPTY_SELF, target == authority && before->empty[target]);
    see(LOADED_BY_FULL_SELF, target == authority && !before->empty[target]);
    see(LOADED_BY_WILDCARD, !into_ram && is_zero(m1, SHE_UID));
    see(LOADED_RAM_BY_WILDCARD, into_ram && is_zero(m1, SHE_UID));
    see(LOADED_RAM_BY_SECRET, into_ram && !by_key_n);
    see(LOADED_RAM_BY_KEY_N, into_ram && by_key_n);
    see(LOADED_RAM_BY_MAC_KEY, into_ram && before->flags[authority] & SHE_KEY_USAGE);
    see(LOADED_OVER_PLAIN, into_ram && before->marks[SHE_MARK_PLAIN]);
    see(LOADED_LARGEST, c->device.counters[target] == SHE_MAX_COUNTER);
    see(LOADED_DROPPING, c->traits & DROPPED_FLAG && !into_ram);
    see(LOADED_LOCKED_BY_DEBUGGER, before->marks[SHE_MARK_DEBUGGER] && before->flags[target] & SHE_DEBUGGER);
    see(LOADED_LOCKED_BY_BOOT, has_failed(before) && before->flags[target] & SHE_BOOT);
    see(LOADED_AGAIN, c->traits & REPLAYED);
}

static void look_at_refused(const struct call *c) {
    unsigned faults = c->traits & (FAULTS | REPLAYED);
    see(REFUSED_FORGED, faults == FORGED);
    see(REFUSED_OTHER_BOARD, faults == OTHER_BOARD);
    see(REFUSED_WILDCARD, faults == FORBIDDEN_WILDCARD);
    see(REFUSED_FILLED, faults == FILLED);
    see(REFUSED_NOT_NEWER, faults == NOT_NEWER);
    see(REFUSED_AGAIN, faults == REPLAYED);
}

static int has_right_marks(const struct garage_book *b) { return b->marks[0] == 1 && is_zero(b->marks + 1, GARAGE_MARKS - 1); }

/* By the second: a book that isn't open is told before a target that is none. */
static int is_open(const struct garage_book *b) {
    struct garage_book copy = *b;
    uint8_t m4[SHE_TWO_BLOCKS] = {0}, m5[SHE_BLOCK] = {0}, verdict;
    return second_garage_judge(&copy, 0, m4, sizeof m4, m5, sizeof m5, &verdict) == SHE_KEY_INVALID;
}

/* Of uid, keys, held and counters the first three; what is left is the counters. */
static void look_at_open(const struct call *c, const struct garage_book *before, uint8_t answer) {
    const struct piece *buffer = &c->piece[BUFFERS];
    const uint8_t *held = buffer[2].bytes;
    int is_refused = answer != SHE_NO_ERROR, has_bytes = 0, has_marks = 1;
    if (!has_right_lengths(c)) return;
    for (size_t slot = 0; slot < SHE_SLOTS; slot++) {
        has_bytes |= !held[slot] && !is_zero(buffer[1].bytes + 16 * slot, 16);
        has_marks &= held[slot] <= 1;
    }
    see(OPENED_OVER_WAITING, !is_refused && !is_zero(before->waits, SHE_SLOTS) && is_open(before));
    see(OPENED_WITHOUT_KEY, !is_refused && has_bytes);
    see(BLANKED, is_refused && is_open(before));
    see(REFUSED_ZERO_UID, is_refused && has_marks && is_zero(buffer[0].bytes, SHE_UID));
    see(REFUSED_MARK, is_refused && !has_marks);
    see(REFUSED_COUNTER, is_refused && has_marks && !is_zero(buffer[0].bytes, SHE_UID));
}

static void look_at_write(const struct call *c, const struct garage_book *before, uint8_t answer) {
    uint64_t target = c->number[0], authority = c->number[1];
    int is_own = target == authority, for_ram = target == SHE_RAM_KEY;
    see(REFUSED_WIDE_TARGET, answer == SHE_KEY_INVALID && target > 255);
    see(REFUSED_FLAGS, answer == SHE_GENERAL_ERROR && has_right_lengths(c) && is_open(before));
    if (answer != SHE_NO_ERROR) return;
    see(WRITTEN_BY_UNHELD_SELF, is_own && !before->held[target]);
    see(WRITTEN_BY_HELD_SELF, is_own && before->held[target]);
    see(WRITTEN_FOR_RAM_BY_SECRET, for_ram && authority == SHE_SECRET_KEY);
    see(WRITTEN_FOR_RAM_BY_KEY_N, for_ram && authority != SHE_SECRET_KEY);
    see(WRITTEN_LARGEST, c->book.newcounters[target] == SHE_MAX_COUNTER);
    see(WRITTEN_OVER_WAITING, before->waits[target]);
}

static void look_at_judge(const struct call *c, const struct garage_book *before, uint8_t answer) {
    uint64_t target = c->number[0];
    int is_yes = *c->piece[THE_BYTE].bytes, waits;
    see(MARKED_BUT_NOT_OPEN, answer == SHE_GENERAL_ERROR && has_right_marks(before) && has_right_lengths(c));
    if (answer != SHE_NO_ERROR) return;
    waits = before->waits[target];
    see(YES_TO_BOARD, is_yes && c->traits & OF_THE_BOARD);
    see(YES_FOR_RAM, is_yes && target == SHE_RAM_KEY);
    see(YES_WITH_LARGEST, is_yes && c->book.counters[target] == SHE_MAX_COUNTER);
    see(NO_AGAIN, !waits && c->traits & OF_THE_BOARD);
    see(NO_TO_OUTDATED, !is_yes && waits && c->traits & OUTDATED);
    see(NO_TO_ANOTHER, !is_yes && waits && c->traits & OF_ANOTHER);
    see(NO_FOR_A_BIT_OF_M4, !is_yes && waits && c->traits & A_BIT_OF_M4);
    see(NO_FOR_A_BIT_OF_M5, !is_yes && waits && c->traits & A_BIT_OF_M5);
    see(NO_FOR_M4, !is_yes && waits && c->traits & OTHER_M4);
    see(NO_FOR_M5, !is_yes && waits && c->traits & OTHER_M5);
}

/* The board keeps a counter that the book has only for the message that it wrote anew. */
static void look_at_letter(const struct call *c, const struct bus *before, uint8_t answer) {
    uint8_t target = c->piece[BUFFERS].bytes[15] / 16;
    if (!(c->traits & BY_THE_BOOK)) return;
    see(LETTER_IN_STEP, answer == SHE_NO_ERROR && c->traits & IN_STEP);
    see(LETTER_PROTECTED, answer == SHE_KEY_WRITE_PROTECTED);
    see(LETTER_LOCKED, answer == SHE_KEY_NOT_AVAILABLE);
    see(LETTER_LATE, answer == SHE_KEY_UPDATE_ERROR && before->book.waits[target] &&
        before->device.counters[target] == before->book.newcounters[target]);
}

void count_call(const struct call *after, const struct bus *bus, uint8_t answer) {
    const struct she_device *before = &bus->device;
    answered[after->function - functions][answer]++;
    calls++;
    if (is_named(after, "verify_mac")) look_at_verify(after, answer);
    if (is_named(after, "get_status")) look_at_status(after, answer);
    if (is_named(after, "reset")) see(RESET_WITH_UNNAMED, answer == SHE_NO_ERROR && has_unnamed(before));
    if (is_named(after, "make")) see(MADE_OVER_UNNAMED, answer == SHE_NO_ERROR && has_unnamed(before));
    if (is_named(after, "secure_boot")) look_at_boot(after, before, answer);
    if (is_named(after, "boot_failure")) see(FAILURE_AFTER_OK, answer == SHE_SEQUENCE_ERROR && !has_failed(before));
    if (is_named(after, "boot_ok")) see(OK_AFTER_FAILURE, answer == SHE_SEQUENCE_ERROR && has_failed(before));
    if (is_named(after, "get_id")) see(ID_WITHOUT_MAC, answer == SHE_NO_ERROR && before->empty[SHE_MASTER_ECU_KEY]);
    if (is_named(after, "load_key") && answer == SHE_NO_ERROR) look_at_loaded(after, before);
    if (is_named(after, "load_key") && answer == SHE_KEY_UPDATE_ERROR) look_at_refused(after);
    /* without a debugger nothing but BOOT locks */
    see(LOCKED_BY_BOOT, answer == SHE_KEY_NOT_AVAILABLE && !before->marks[SHE_MARK_DEBUGGER]);
    see(WIDE_SLOT, answer == SHE_KEY_INVALID && number_of(after, SLOT, 0) > 255);
    look_at_mac(after, answer);
    look_at_cbc(after, answer);
    if (is_named(after, "garage_open")) look_at_open(after, &bus->book, answer);
    if (is_named(after, "garage_write")) look_at_write(after, &bus->book, answer);
    if (is_named(after, "garage_judge")) look_at_judge(after, &bus->book, answer);
    if (is_named(after, "load_key")) look_at_letter(after, bus, answer);
}

uint64_t calls_counted(void) { return calls; }

/* Answers 9 to 11 aren't given by anything yet, so they have no column. */
static const unsigned columns[] = {0, 1, 2, 3, 4, 5, 6, 7, 8, 12};
enum { COLUMNS = sizeof columns / sizeof *columns };

void print_counts(void) {
    printf("%-16s", "answers");
    for (size_t k = 0; k < COLUMNS; k++) printf("%10u", columns[k]);
    putchar('\n');
    for (size_t i = 0; i < function_count; i++) {
        printf("%-16s", functions[i].name);
        for (size_t k = 0; k < COLUMNS; k++)
            if (functions[i].answers >> columns[k] & 1) printf("%10" PRIu64, answered[i][columns[k]]);
            else printf("%10s", "-");
        putchar('\n');
    }
    for (size_t i = 0; i < SIGHT_COUNT; i++) printf("%10" PRIu64 "  %s\n", seen[i], sight_texts[i]);
}

int is_anything_missing(void) {
    int missing = 0;
    for (size_t i = 0; i < function_count; i++)
        for (unsigned answer = 0; answer < ANSWERS; answer++)
            if (functions[i].answers >> answer & 1 && !answered[i][answer])
                missing = 1, printf("MISSING: %s never answered %u\n", functions[i].name, answer);
    for (size_t i = 0; i < SIGHT_COUNT; i++)
        if (!seen[i]) missing = 1, printf("MISSING: %s\n", sight_texts[i]);
    return missing;
}
