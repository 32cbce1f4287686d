/* The one place that says what the functions of she.h and garage.h are. */
#include "lockstep.h"

#include <string.h>

#define A(number) (1u << (number))
#define USES_A_SLOT (A(0) | A(2) | A(3) | A(4) | A(12))

#define R(name, length) {#name, 0, length, 1},
#define W(name, length) {#name, 1, length, 1},
#define NUMBERS(name, count) {#name, 0, 4 * (count), 4},
#define NONE {0},
#define N(kind) kind,
#define M1_TO_M3(way) way(m1, 16) way(m2, 32) way(m3, 16)
#define M4_AND_M5(way) way(m4, 32) way(m5, 16)

/* Arguments: the record, the byte, buffer i with its length, buffer i of numbers with how many they are, number i. */
#define DEVICE (struct she_device *)(void *)l->piece[THE_RECORD].bytes
#define BOOK (struct garage_book *)(void *)l->piece[THE_RECORD].bytes
#define BYTE l->piece[THE_BYTE].bytes
#define B(i) l->piece[BUFFERS + (i)].bytes, l->piece[BUFFERS + (i)].length
#define C(i) (const uint32_t *)(void *)l->piece[BUFFERS + (i)].bytes, l->piece[BUFFERS + (i)].length / 4
#define I(i) l->number[i]

/* X(name, buffers, numbers, has a byte, answers by the paper, weight, what draws its inputs, arguments), for what she.h declares;
 * for what garage.h declares G, with the record before */
#define FUNCTIONS(X, G) \
    X(aes_encrypt, R(key, 16) R(block, 16) W(out, 16), N(NO_NUMBER), 0, A(0) | A(12), 2, draw_plain, (B(0), B(1), B(2))) \
    X(aes_decrypt, R(key, 16) R(block, 16) W(out, 16), N(NO_NUMBER), 0, A(0) | A(12), 2, draw_plain, (B(0), B(1), B(2))) \
    X(cbc_encrypt, R(key, 16) R(iv, 16) R(in, 0) W(out, 0), N(NO_NUMBER), 0, A(0) | A(12), 2, draw_cbc, \
      (B(0), B(1), B(2), B(3))) \
    X(cbc_decrypt, R(key, 16) R(iv, 16) R(in, 0) W(out, 0), N(NO_NUMBER), 0, A(0) | A(12), 2, draw_cbc, \
      (B(0), B(1), B(2), B(3))) \
    X(cmac, R(key, 16) R(message, 0) W(out, 16), N(BITS), 0, A(0) | A(12), 3, draw_mac, (B(0), I(0), B(1), B(2))) \
    X(kdf, R(key, 16) R(constant, 16) W(out, 16), N(NO_NUMBER), 0, A(0) | A(12), 2, draw_plain, (B(0), B(1), B(2))) \
    X(write_key, R(uid, 15) R(authority_key, 16) R(new_key, 16) M1_TO_M3(W), N(TARGET) N(AUTHORITY) N(COUNTER) N(FLAGS), 0, \
      A(0) | A(3) | A(12), 6, draw_writer, (B(0), I(0), I(1), B(1), I(2), I(3), B(2), B(3), B(4), B(5))) \
    X(write_key_short, R(uid, 15) R(authority_key, 16) R(new_key, 16) M1_TO_M3(W), N(TARGET) N(AUTHORITY) N(COUNTER), 0, \
      A(0) | A(3) | A(12), 3, draw_writer, (B(0), I(0), I(1), B(1), I(2), B(2), B(3), B(4), B(5))) \
    X(fleet_sheet, R(authority_key, 16) R(new_key, 16) M1_TO_M3(W), N(TARGET) N(AUTHORITY) N(COUNTER), 0, \
      A(0) | A(3) | A(12), 3, draw_writer, (I(0), I(1), B(0), I(2), B(1), B(2), B(3), B(4))) \
    X(write_proof, R(uid, 15) R(new_key, 16) M4_AND_M5(W), N(TARGET) N(AUTHORITY) N(COUNTER), 0, \
      A(0) | A(3) | A(12), 3, draw_writer, (B(0), I(0), I(1), I(2), B(1), B(2), B(3))) \
    X(make, R(uid, 15) R(secret_key, 16) R(seed, 16), N(NO_NUMBER), 0, A(0) | A(12), 1, draw_make, \
      (DEVICE, B(0), B(1), B(2))) \
    X(reset, NONE, N(NO_NUMBER), 0, A(0) | A(12), 4, draw_plain, (DEVICE)) \
    X(attach_debugger, NONE, N(NO_NUMBER), 0, A(0) | A(12), 4, draw_plain, (DEVICE)) \
    X(enc_ecb, R(in, 16) W(out, 16), N(SLOT), 0, USES_A_SLOT, 6, draw_plain, (DEVICE, I(0), B(0), B(1))) \
    X(dec_ecb, R(in, 16) W(out, 16), N(SLOT), 0, USES_A_SLOT, 6, draw_plain, (DEVICE, I(0), B(0), B(1))) \
    X(enc_cbc, R(iv, 16) R(in, 0) W(out, 0), N(SLOT), 0, USES_A_SLOT, 6, draw_cbc, (DEVICE, I(0), B(0), B(1), B(2))) \
    X(dec_cbc, R(iv, 16) R(in, 0) W(out, 0), N(SLOT), 0, USES_A_SLOT, 6, draw_cbc, (DEVICE, I(0), B(0), B(1), B(2))) \
    X(generate_mac, R(message, 0) W(mac, 16), N(SLOT) N(BITS), 0, USES_A_SLOT, 6, draw_mac, \
      (DEVICE, I(0), I(1), B(0), B(1))) \
    X(verify_mac, R(message, 0) R(mac, 16), N(SLOT) N(BITS) N(MAC_BITS), 1, USES_A_SLOT, 10, draw_verify, \
      (DEVICE, I(0), I(1), B(0), B(1), I(2), BYTE)) \
    X(load_key, M1_TO_M3(R) M4_AND_M5(W), N(NO_NUMBER), 0, A(0) | A(2) | A(3) | A(4) | A(6) | A(7) | A(12), 50, draw_load, \
      (DEVICE, B(0), B(1), B(2), B(3), B(4))) \
    X(load_plain_key, R(key, 16), N(NO_NUMBER), 0, A(0) | A(12), 6, draw_plain, (DEVICE, B(0))) \
    X(export_ram_key, M1_TO_M3(W) M4_AND_M5(W), N(NO_NUMBER), 0, A(0) | A(3) | A(4) | A(12), 7, draw_plain, \
      (DEVICE, B(0), B(1), B(2), B(3), B(4))) \
    X(init_rng, NONE, N(NO_NUMBER), 0, A(0) | A(1) | A(12), 5, draw_plain, (DEVICE)) \
    X(extend_seed, R(entropy, 16), N(NO_NUMBER), 0, A(0) | A(8) | A(12), 4, draw_plain, (DEVICE, B(0))) \
    X(rnd, W(out, 16), N(NO_NUMBER), 0, A(0) | A(8) | A(12), 5, draw_plain, (DEVICE, B(0))) \
    X(secure_boot, R(bootloader, 0), N(NO_NUMBER), 0, A(0) | A(1) | A(2) | A(5) | A(12), 10, draw_boot, (DEVICE, B(0))) \
    X(boot_failure, NONE, N(NO_NUMBER), 0, A(0) | A(1) | A(5) | A(12), 4, draw_plain, (DEVICE)) \
    X(boot_ok, NONE, N(NO_NUMBER), 0, A(0) | A(1) | A(5) | A(12), 4, draw_plain, (DEVICE)) \
    X(get_status, NONE, N(NO_NUMBER), 1, A(0) | A(12), 5, draw_plain, (DEVICE, BYTE)) \
    X(get_id, R(challenge, 16) W(out, 32), N(NO_NUMBER), 0, A(0) | A(2) | A(12), 5, draw_plain, (DEVICE, B(0), B(1))) \
    G(NEW_BOOK, garage_open, R(uid, 15) R(keys, 240) R(held, 15) NUMBERS(counters, 13), N(NO_NUMBER), 0, A(0) | A(12), 10, \
      draw_open, (BOOK, B(0), B(1), B(2), C(3))) \
    G(A_BOOK, garage_write, R(new_key, 16) M1_TO_M3(W), N(TARGET) N(AUTHORITY) N(FLAGS), 0, \
      A(0) | A(3) | A(4) | A(7) | A(12), 60, draw_write, (BOOK, I(0), I(1), I(2), B(0), B(1), B(2), B(3))) \
    G(A_BOOK, garage_judge, M4_AND_M5(R), N(TARGET), 1, A(0) | A(3) | A(12), 30, draw_judge, (BOOK, I(0), B(0), B(1), BYTE))

#define SIDES(first, name, arguments) \
    extern __typeof__(first) second_##name; \
    static uint8_t first_##name(struct lent *l) { return first arguments; } \
    static uint8_t other_##name(struct lent *l) { return second_##name arguments; }
#define SHE(name, buffers, numbers, has_byte, answers, weight, draw, arguments) SIDES(she_##name, name, arguments)
#define GARAGE(record, name, buffers, numbers, has_byte, answers, weight, draw, arguments) SIDES(name, name, arguments)
FUNCTIONS(SHE, GARAGE)

#define SHE_ROW(name, buffers, numbers, has_byte, answers, weight, draw, arguments) \
    {#name, A_DEVICE, {buffers}, {numbers}, has_byte, answers, weight, draw, first_##name, other_##name},
#define GARAGE_ROW(record, name, buffers, numbers, has_byte, answers, weight, draw, arguments) \
    {#name, record, {buffers}, {numbers}, has_byte, answers, weight, draw, first_##name, other_##name},
const struct function functions[] = {FUNCTIONS(SHE_ROW, GARAGE_ROW)};
const size_t function_count = LENGTH(functions);

const struct function *function_named(const char *name) {
    for (size_t i = 0; i < function_count; i++)
        if (!strcmp(functions[i].name, name)) return &functions[i];
    return NULL;
}

int is_named(const struct call *c, const char *name) { return !strcmp(c->function->name, name); }

size_t buffer_count(const struct function *f) {
    size_t n = 0;
    while (n < MAX_BUFFERS && f->buffers[n].name) n++;
    return n;
}

const char *number_name(enum number_kind kind) {
    static const char *const names[] = {"", "slot", "target", "authority", "bits", "mac_bits", "counter", "flags"};
    return names[kind];
}
