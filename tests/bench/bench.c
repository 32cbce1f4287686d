/* Our AES-128, its modes, key messages and commands beside BearSSL's and libtomcrypt's, in one run, as Markdown tables.
 *
 * All of them are checked to give the same bytes first. Each time is the best of ROUNDS rounds, and each round measures
 * everything once, so that a slow moment of the machine falls on all alike. Blocks are chained, each the input of the next.
 * The bare engine is called through the crate `bench`, all else as firmware and the foreman call it, through she.h and garage.h.
 *
 * BearSSL has no call for one block: its CBC over 64 KiB stands in, which adds an exclusive or of 16 bytes a block. It has no
 * CMAC either, and its CBC-MAC stands in, which leaves out the subkeys, two blocks in 4,096. Key messages are made and opened
 * of the peers' blocks and key schedules here, as many of them as ours takes: 10 blocks and 6 schedules for M1 to M3; 18 blocks,
 * two of them backwards, and 12 schedules for LOAD_KEY. What LOAD_KEY asks besides, the peers are spared. So they are with
 * SECURE_BOOT, for which the MAC of as many bytes stands in. Where a peer has key schedules of one direction, it makes the one that
 * it needs; ours has one for both.
 *
 * --quick measures in few rounds, leaves the stack out, which a sanitizer couldn't follow, and holds no time against its limit.
 */
#include "garage.h"
#include "she.h"
#include <bearssl.h>
#include <stdint.h>
#include <stdio.h>
#include <stdlib.h>
#include <string.h>
#include <time.h>
#include <tomcrypt.h>
#include <ucontext.h>

enum { BLOCKS = 4096, MESSAGES = 256, ROUNDS = 100, QUICK_ROUNDS = 2 };

/* What 001, 4.3 allows for a MAC of 128 KiB, in milliseconds; how many hundredths more than the bare cipher SECURE_BOOT may take
 * for a block; how many times as long as without it a message or a proof may take with the book; and what a command may take
 * besides its cryptography. */
enum { LONG_MILLISECONDS = 10, BOOT_PERCENT = 5, BOOK_TIMES = 2, COMMAND_NANOSECONDS = 1000 };

void bench_schedule(const uint8_t key[16], uint8_t schedule[176]);
void bench_encrypt(const uint8_t schedule[176], const uint8_t block[16], uint8_t out[16]);
void bench_decrypt(const uint8_t schedule[176], const uint8_t block[16], uint8_t out[16]);
void bench_encrypt_keyed(const uint8_t key[16], const uint8_t block[16], uint8_t out[16]);

static uint8_t key[16], iv[16], text[16 * BLOCKS], other_text[16 * BLOCKS], schedule[176], mac[16];
static br_aes_small_cbcenc_keys small_enc;
static br_aes_small_cbcdec_keys small_dec;
static br_aes_big_cbcenc_keys big_enc;
static br_aes_big_cbcdec_keys big_dec;
static br_aes_small_ctrcbc_keys small_mac;
static br_aes_big_ctrcbc_keys big_mac;
static symmetric_key tom;
static symmetric_CBC tom_cbc;
static int tom_aes;

/* Every answer of ours, and whatever a peer refuses: what is measured is what succeeds. */
static uint8_t refused;

static void must_succeed(const char *what)
{
    if (refused != 0) {
        fprintf(stderr, "bench: %s is refused\n", what);
        exit(1);
    }
}

static void make_keys(void)
{
    bench_schedule(key, schedule);
    br_aes_small_cbcenc_init(&small_enc, key, 16);
    br_aes_small_cbcdec_init(&small_dec, key, 16);
    br_aes_big_cbcenc_init(&big_enc, key, 16);
    br_aes_big_cbcdec_init(&big_dec, key, 16);
    br_aes_small_ctrcbc_init(&small_mac, key, 16);
    br_aes_big_ctrcbc_init(&big_mac, key, 16);
    aes_setup(key, 16, 0, &tom);
    tom_aes = register_cipher(&aes_desc);
    cbc_start(tom_aes, iv, key, 16, 0, &tom_cbc);
}

/* ---- devices: `device` is the one in use, and goes back to `fresh` before each measurement, by the copying that she.h allows */

static struct she_device device, fresh, started, learnt, booted;
static uint8_t uid[15] = {1}, master[16], row[MESSAGES][64], text_mac[16];

static uint8_t write_message(uint32_t target, uint32_t authority, const uint8_t secret[16], uint64_t counter, uint32_t flags,
                             uint8_t m[64])
{
    return she_write_key(uid, 15, target, authority, secret, 16, counter, flags, key, 16, m, 16, m + 16, 32, m + 48, 16);
}

static uint8_t load_message(const uint8_t m[64], uint8_t proof[48])
{
    return she_load_key(&device, m, 16, m + 16, 32, m + 48, 16, proof, 32, proof + 32, 16);
}

/* Brings `key` into a slot by MASTER_ECU_KEY, as which the sender takes `authority`. */
static void bring_key(uint32_t slot, const uint8_t authority[16])
{
    uint8_t m[64], proof[48];
    refused |= write_message(slot, SHE_MASTER_ECU_KEY, authority, 1, 0, m);
    refused |= load_message(m, proof);
}

/* A device with all that the commands need: MASTER_ECU_KEY, which an empty slot takes under sixteen times FF, BOOT_MAC_KEY and
 * RAM_KEY, all of them `key`. `started` is the same with random numbers. `learnt` has learnt a bootloader, here `iv`, and was then
 * reset; and `booted` is that one again, once it has found this bootloader right. */
static void make_devices(void)
{
    uint8_t first[16];
    memset(first, 0xff, 16);
    memcpy(master, key, 16);
    refused |= she_make(&device, uid, 15, key, 16, iv, 16);
    bring_key(SHE_MASTER_ECU_KEY, first);
    bring_key(SHE_BOOT_MAC_KEY, master);
    refused |= she_load_plain_key(&device, key, 16);
    fresh = device;
    refused |= she_init_rng(&device);
    started = device;
    device = fresh;
    refused |= she_secure_boot(&device, iv, 16);
    refused |= she_reset(&device);
    learnt = device;
    refused |= she_secure_boot(&device, iv, 16);
    booted = device;
    device = fresh;
    must_succeed("making a device");
}

/* Messages for KEY_1 of `fresh`, loaded one after the other: the counter rises, and WRITE isn't set, which would end it. */
static void write_row(void)
{
    for (uint32_t i = 0; i < MESSAGES; i++)
        refused |= write_message(SHE_KEY_1, SHE_MASTER_ECU_KEY, master, i + 1, i % SHE_WRITE, row[i]);
    must_succeed("a key message");
}

/* ---- what is measured: BLOCKS times each */

static void chain(void (*step)(const uint8_t *, const uint8_t *, uint8_t *), const uint8_t *with)
{
    uint8_t even[16], odd[16];
    memcpy(even, text, 16);
    for (int i = 0; i < BLOCKS; i += 2) {
        step(with, even, odd);
        step(with, odd, even);
    }
    memcpy(text, even, 16);
}

static void she_step(const uint8_t *k, const uint8_t *in, uint8_t *out) { refused |= she_aes_encrypt(k, 16, in, 16, out, 16); }

static void our_encrypt(void) { chain(bench_encrypt, schedule); }
static void our_decrypt(void) { chain(bench_decrypt, schedule); }
static void our_keyed(void) { chain(bench_encrypt_keyed, key); }
static void our_aes_encrypt(void) { chain(she_step, key); }
static void our_schedule(void)
{
    for (int i = 0; i < BLOCKS; i++) {
        bench_schedule(key, schedule);
        memcpy(key, schedule + 160, 16);
    }
}

static void our_cbc_encrypt(void)
{
    refused |= she_cbc_encrypt(key, 16, iv, 16, text, sizeof text, other_text, sizeof other_text);
}
static void our_cbc_decrypt(void)
{
    refused |= she_cbc_decrypt(key, 16, iv, 16, text, sizeof text, other_text, sizeof other_text);
}
static void our_cmac(void) { refused |= she_cmac(key, 16, 8 * sizeof text, text, sizeof text, mac, 16); }
static void our_long_mac(void)
{
    our_cmac();
    refused |= she_cmac(key, 16, 8 * sizeof other_text, other_text, sizeof other_text, mac, 16);
}

/* SECURE_BOOT succeeds once after a reset, so each has a record of its own that has just been reset. The copy counts with it. */
static void secure_boot(const uint8_t *bootloader)
{
    device = learnt;
    refused |= she_secure_boot(&device, bootloader, sizeof text);
}
static void our_secure_boot(void) { secure_boot(text); }
static void our_long_boot(void)
{
    secure_boot(text);
    secure_boot(other_text);
}

#define BEARSSL(kind)                                                                                     \
    static void kind##_encrypt(void) { br_aes_##kind##_cbcenc_run(&kind##_enc, iv, text, sizeof text); } \
    static void kind##_decrypt(void) { br_aes_##kind##_cbcdec_run(&kind##_dec, iv, text, sizeof text); } \
    static void kind##_cmac(void) { br_aes_##kind##_ctrcbc_mac(&kind##_mac, mac, text, sizeof text); }    \
    static void kind##_long_mac(void)                                                                    \
    {                                                                                                    \
        kind##_cmac();                                                                                   \
        br_aes_##kind##_ctrcbc_mac(&kind##_mac, mac, other_text, sizeof other_text);                     \
    }                                                                                                    \
    static void kind##_schedule(void)                                                                    \
    {                                                                                                    \
        for (int i = 0; i < BLOCKS; i++) {                                                               \
            br_aes_##kind##_cbcenc_init(&kind##_enc, key, 16);                                           \
            memcpy(key, (uint8_t *)kind##_enc.skey + 160, 16);                                           \
        }                                                                                                \
    }                                                                                                    \
    static void kind##_keyed(void)                                                                       \
    {                                                                                                    \
        for (int i = 0; i < BLOCKS; i++) {                                                               \
            br_aes_##kind##_cbcenc_init(&kind##_enc, key, 16);                                           \
            br_aes_##kind##_cbcenc_run(&kind##_enc, iv, text, 16);                                       \
        }                                                                                                \
    }
BEARSSL(small)
BEARSSL(big)

static void tom_encrypt(void)
{
    for (int i = 0; i < BLOCKS; i++)
        aes_ecb_encrypt(text, text, &tom);
}
static void tom_decrypt(void)
{
    for (int i = 0; i < BLOCKS; i++)
        aes_ecb_decrypt(text, text, &tom);
}
static void tom_cbc_encrypt(void) { cbc_encrypt(text, other_text, sizeof text, &tom_cbc); }
static void tom_cbc_decrypt(void) { cbc_decrypt(text, other_text, sizeof text, &tom_cbc); }
static void tom_omac(const uint8_t *message)
{
    unsigned long length = 16;
    omac_memory(tom_aes, key, 16, message, sizeof text, mac, &length);
}
static void tom_cmac(void) { tom_omac(text); }
static void tom_long_mac(void)
{
    tom_omac(text);
    tom_omac(other_text);
}
static void tom_schedule(void)
{
    for (int i = 0; i < BLOCKS; i++) {
        aes_enc_setup(key, 16, 0, &tom);
        memcpy(key, tom.rijndael.eK + 40, 16);
    }
}
static void tom_keyed(void)
{
    for (int i = 0; i < BLOCKS; i++) {
        aes_enc_setup(key, 16, 0, &tom);
        aes_enc_ecb_encrypt(text, text, &tom);
    }
}

/* ---- key messages: M1 to M3 one after the other, for slot 4 by slot 1, and M3 is then the authority's key; and the loading of a
 * row of them, which gives M4 and M5 */

static uint8_t messages[64], secret[16], proofs[48];

#define THREE messages, 16, messages + 16, 32, messages + 48, 16
#define PROOF proofs, 32, proofs + 32, 16

static void our_message(void)
{
    for (int i = 0; i < MESSAGES; i++) {
        refused |= write_message(SHE_KEY_1, SHE_MASTER_ECU_KEY, secret, (uint64_t)i, i % 32, messages);
        memcpy(secret, messages + 48, 16);
    }
}

static void our_load(void)
{
    for (int i = 0; i < MESSAGES; i++)
        refused |= load_message(row[i], proofs);
}

struct engine {
    void (*set)(const uint8_t key[16]);
    void (*block)(uint8_t block[16]);
    void (*open)(const uint8_t key[16], uint8_t two[32]); /* CBC decrypt of two blocks with an IV of zeros */
};

static void add(uint8_t to[16], const uint8_t other[16])
{
    for (int i = 0; i < 16; i++)
        to[i] ^= other[i];
}

static void peer_kdf(const struct engine *e, const uint8_t from[16], uint8_t number, uint8_t out[16])
{
    const uint8_t constant[16] = {1, number, 0x53, 0x48, 0x45, 0, 0x80, 0, 0, 0, 0, 0, 0, 0, 0, 0xb0};
    const uint8_t *parts[2] = {from, constant};
    memset(out, 0, 16);
    for (int i = 0; i < 2; i++) {
        uint8_t c[16];
        memcpy(c, parts[i], 16);
        e->set(out);
        e->block(c);
        add(out, c);
        add(out, parts[i]);
    }
}

/* CMAC of whole blocks: one block for the subkey, and one for each of theirs. */
static void peer_cmac(const struct engine *e, const uint8_t k[16], const uint8_t *message, int blocks, uint8_t out[16])
{
    uint8_t subkey[16] = {0};
    e->set(k);
    e->block(subkey);
    uint8_t carry = subkey[0] >> 7;
    for (int i = 0; i < 16; i++)
        subkey[i] = (uint8_t)(subkey[i] << 1 | (i < 15 ? subkey[i + 1] >> 7 : 0));
    subkey[15] ^= carry * 0x87;
    memset(out, 0, 16);
    for (int i = 0; i < blocks; i++) {
        add(out, message + 16 * i);
        if (i == blocks - 1)
            add(out, subkey);
        e->block(out);
    }
}

static void peer_write(const struct engine *e, uint32_t counter, uint8_t flags, uint8_t m[64])
{
    uint64_t head = (uint64_t)counter << 12 | (uint64_t)flags << 7;
    uint8_t k1[16], k2[16];
    peer_kdf(e, secret, 1, k1);
    peer_kdf(e, secret, 2, k2);
    memcpy(m, uid, 15);
    m[15] = 0x41;
    memset(m + 16, 0, 16);
    for (int i = 0; i < 5; i++)
        m[16 + i] = (uint8_t)(head >> 8 * (4 - i));
    memcpy(m + 32, key, 16);
    e->set(k1);
    e->block(m + 16);
    add(m + 32, m + 16);
    e->block(m + 32);
    peer_cmac(e, k2, m, 3, m + 48);
}

/* M4 names the board and the slots as M1 does here, and then has the counter, a bit of 1 and zeros under K3; M5 is its MAC. */
static void peer_prove(const struct engine *e, const uint8_t m1[16], const uint8_t clear[32], uint8_t proof[48])
{
    uint8_t k3[16], k4[16];
    peer_kdf(e, clear + 16, 1, k3);
    peer_kdf(e, clear + 16, 2, k4);
    memcpy(proof, m1, 16);
    memset(proof + 16, 0, 16);
    memcpy(proof + 16, clear, 4);
    proof[19] = (proof[19] & 0xf0) | 8;
    e->set(k3);
    e->block(proof + 16);
    peer_cmac(e, k4, proof, 2, proof + 32);
}

/* Answers 1 to a message that is forged, and else 0. */
static uint8_t peer_load(const struct engine *e, const uint8_t authority[16], const uint8_t m[64], uint8_t proof[48])
{
    uint8_t k1[16], k2[16], m3[16], clear[32];
    peer_kdf(e, authority, 1, k1);
    peer_kdf(e, authority, 2, k2);
    peer_cmac(e, k2, m, 3, m3);
    if (memcmp(m3, m + 48, 16) != 0)
        return 1;
    memcpy(clear, m + 16, 32);
    e->open(k1, clear);
    peer_prove(e, m, clear, proof);
    return 0;
}

static void peer_messages(const struct engine *e)
{
    for (int i = 0; i < MESSAGES; i++) {
        peer_write(e, (uint32_t)i, i % 32, messages);
        memcpy(secret, messages + 48, 16);
    }
}

static void peer_loads(const struct engine *e)
{
    for (int i = 0; i < MESSAGES; i++)
        refused |= peer_load(e, master, row[i], proofs);
}

#define ENGINE(kind)                                                                                 \
    static void kind##_set(const uint8_t k[16]) { br_aes_##kind##_cbcenc_init(&kind##_enc, k, 16); } \
    static void kind##_block(uint8_t block[16])                                                      \
    {                                                                                                \
        uint8_t zero[16] = {0};                                                                      \
        br_aes_##kind##_cbcenc_run(&kind##_enc, zero, block, 16);                                    \
    }                                                                                                \
    static void kind##_open(const uint8_t k[16], uint8_t two[32])                                    \
    {                                                                                                \
        uint8_t zero[16] = {0};                                                                      \
        br_aes_##kind##_cbcdec_init(&kind##_dec, k, 16);                                             \
        br_aes_##kind##_cbcdec_run(&kind##_dec, zero, two, 32);                                      \
    }                                                                                                \
    static const struct engine kind##_engine = {kind##_set, kind##_block, kind##_open};              \
    static void kind##_message(void) { peer_messages(&kind##_engine); }                              \
    static void kind##_load(void) { peer_loads(&kind##_engine); }
ENGINE(small)
ENGINE(big)

static void tom_set(const uint8_t k[16]) { aes_enc_setup(k, 16, 0, &tom); }
static void tom_block(uint8_t block[16]) { aes_enc_ecb_encrypt(block, block, &tom); }
static void tom_open(const uint8_t k[16], uint8_t two[32])
{
    uint8_t first[16];
    memcpy(first, two, 16);
    aes_setup(k, 16, 0, &tom);
    aes_ecb_decrypt(two, two, &tom);
    aes_ecb_decrypt(two + 16, two + 16, &tom);
    add(two + 16, first);
}
static const struct engine tom_engine = {tom_set, tom_block, tom_open};
static void tom_message(void) { peer_messages(&tom_engine); }
static void tom_load(void) { peer_loads(&tom_engine); }

enum { OURS, SMALL, BIG, TOM, WHO };
enum {
    ENCRYPT, DECRYPT, SCHEDULE, KEYED, AES_ENCRYPT, CBC_ENCRYPT, CBC_DECRYPT, CMAC, SECURE_BOOT, MESSAGE, LOAD,
    LONG_MAC, LONG_BOOT, /* from here on by 128 KiB */
    WORK
};

static const struct {
    const char *name;
    int count;
    void (*run[WHO])(void);
} work[WORK] = {
    [ENCRYPT] = {"encrypt a block", BLOCKS, {our_encrypt, small_encrypt, big_encrypt, tom_encrypt}},
    [DECRYPT] = {"decrypt a block", BLOCKS, {our_decrypt, small_decrypt, big_decrypt, tom_decrypt}},
    [SCHEDULE] = {"key schedule", BLOCKS, {our_schedule, small_schedule, big_schedule, tom_schedule}},
    [KEYED] = {"schedule and encrypt", BLOCKS, {our_keyed, small_keyed, big_keyed, tom_keyed}},
    [AES_ENCRYPT] = {"`she_aes_encrypt`", BLOCKS, {our_aes_encrypt, small_keyed, big_keyed, tom_keyed}},
    [CBC_ENCRYPT] = {"`she_cbc_encrypt`, a block", BLOCKS, {our_cbc_encrypt, small_encrypt, big_encrypt, tom_cbc_encrypt}},
    [CBC_DECRYPT] = {"`she_cbc_decrypt`, a block", BLOCKS, {our_cbc_decrypt, small_decrypt, big_decrypt, tom_cbc_decrypt}},
    [CMAC] = {"`she_cmac`, a block", BLOCKS, {our_cmac, small_cmac, big_cmac, tom_cmac}},
    [SECURE_BOOT] = {"`she_secure_boot`, a block", BLOCKS, {our_secure_boot, small_cmac, big_cmac, tom_cmac}},
    [MESSAGE] = {"`she_write_key`", MESSAGES, {our_message, small_message, big_message, tom_message}},
    [LOAD] = {"`she_load_key`", MESSAGES, {our_load, small_load, big_load, tom_load}},
    [LONG_MAC] = {"MAC of 128 KiB, as two of 64 KiB", 1, {our_long_mac, small_long_mac, big_long_mac, tom_long_mac}},
    [LONG_BOOT] = {"SECURE_BOOT of 128 KiB, as two of 64 KiB", 1, {our_long_boot, small_long_mac, big_long_mac, tom_long_mac}},
};

/* ---- commands, which no peer has */

static void ecb_step(const uint8_t *unused, const uint8_t *in, uint8_t *out)
{
    (void)unused; /* the key lies in the device */
    refused |= she_enc_ecb(&device, SHE_RAM_KEY, in, 16, out, 16);
}

static void our_status(void)
{
    uint8_t status;
    for (int i = 0; i < BLOCKS; i++)
        refused |= she_get_status(&device, &status);
}

static void our_reset(void)
{
    for (int i = 0; i < BLOCKS; i++)
        refused |= she_reset(&device);
}

static void our_plain_key(void)
{
    for (int i = 0; i < BLOCKS; i++)
        refused |= she_load_plain_key(&device, text + 16 * i, 16);
}

static void our_ecb(void) { chain(ecb_step, key); }

/* ---- the book: `book` is the one in use, and goes back to `waiting`, where a message waits for every target, before each
 * measurement: a fuller one there is not, and the test that it counts as open has most to do */

static struct garage_book book, waiting;
static uint8_t known_keys[GARAGE_KEYS], held[SHE_SLOTS], waiting_proof[48];
static uint32_t last_counters[GARAGE_COUNTERS];

#define KNOWN uid, 15, known_keys, GARAGE_KEYS, held, SHE_SLOTS, last_counters, GARAGE_COUNTERS

/* All keys of the bus are known, each the same as MASTER_ECU_KEY, and the last counters, all of them this one. */
static uint8_t open_book(uint32_t last)
{
    for (int slot = 0; slot < SHE_SLOTS; slot++)
        memcpy(known_keys + 16 * slot, master, 16);
    memset(held, 1, sizeof held);
    for (int i = 0; i < GARAGE_COUNTERS; i++)
        last_counters[i] = last;
    return garage_open(&book, KNOWN);
}

static uint8_t write_by_book(uint32_t target, uint32_t authority, uint32_t flags)
{
    return garage_write(&book, target, authority, flags, secret, 16, THREE);
}

static uint8_t write_proof(uint64_t counter)
{
    return she_write_proof(uid, 15, SHE_KEY_1, SHE_MASTER_ECU_KEY, counter, secret, 16, PROOF);
}

/* 0 where the book says yes. */
static uint8_t judge_by_book(const uint8_t proof[48])
{
    uint8_t verdict, number = garage_judge(&book, SHE_KEY_1, proof, 32, proof + 32, 16, &verdict);
    return number | (verdict ^ 1);
}

static void make_book(void)
{
    refused |= open_book(0);
    for (uint32_t target = SHE_MASTER_ECU_KEY; target < SHE_RAM_KEY; target++)
        refused |= write_by_book(target, SHE_MASTER_ECU_KEY, 0);
    refused |= write_by_book(SHE_RAM_KEY, SHE_SECRET_KEY, 0);
    waiting = book;
    refused |= write_proof(1);
    memcpy(waiting_proof, proofs, sizeof proofs);
    must_succeed("a book");
}

static void our_open(void)
{
    for (int i = 0; i < BLOCKS; i++)
        refused |= garage_open(&book, KNOWN);
}

static void book_write(void)
{
    for (int i = 0; i < MESSAGES; i++) {
        refused |= write_by_book(SHE_KEY_1, SHE_MASTER_ECU_KEY, i % 32);
        memcpy(secret, messages + 48, 16);
    }
}

/* A yes ends the waiting, so each has a book of its own. The copy counts with it. */
static void book_judge(void)
{
    for (int i = 0; i < MESSAGES; i++) {
        book = waiting;
        refused |= judge_by_book(waiting_proof);
    }
}

static void our_proof(void)
{
    for (int i = 0; i < MESSAGES; i++) {
        refused |= write_proof((uint64_t)i);
        memcpy(secret, proofs + 32, 16);
    }
}

enum { WITH, WITHOUT, WAYS };
enum { BOOK_WRITE, BOOK_JUDGE, BOOK_CALLS };

static const struct {
    const char *name;
    void (*run[WAYS])(void);
} book_calls[BOOK_CALLS] = {
    [BOOK_WRITE] = {"`garage_write` beside `she_write_key`", {book_write, our_message}},
    [BOOK_JUDGE] = {"`garage_judge`, a yes, beside `she_write_proof`", {book_judge, our_proof}},
};

enum { STATUS, RESET, PLAIN_KEY, ECB, OPEN, COMMANDS };

static const struct {
    const char *name;
    void (*run)(void);
} commands[COMMANDS] = {
    [STATUS] = {"`she_get_status`", our_status},
    [RESET] = {"`she_reset`", our_reset},
    [PLAIN_KEY] = {"`she_load_plain_key`", our_plain_key},
    [ECB] = {"`she_enc_ecb`, less schedule and encrypt", our_ecb},
    [OPEN] = {"`garage_open`", our_open},
};

/* ---- the same bytes from all */

static void must_agree_all(const char *what, const uint8_t *a, const uint8_t *b, size_t length)
{
    if (memcmp(a, b, length) != 0) {
        fprintf(stderr, "bench: %s: the engines disagree\n", what);
        exit(1);
    }
}

static void must_agree(const char *what, const uint8_t *a, const uint8_t *b) { must_agree_all(what, a, b, 16); }

static void check_engine(const uint8_t block[16])
{
    uint8_t cipher[16], other[16], zero[16];
    bench_encrypt(schedule, block, cipher);
    memcpy(other, block, 16), memset(zero, 0, 16);
    br_aes_small_cbcenc_run(&small_enc, zero, other, 16);
    must_agree("encrypt, aes_small", cipher, other);
    memcpy(other, block, 16), memset(zero, 0, 16);
    br_aes_big_cbcenc_run(&big_enc, zero, other, 16);
    must_agree("encrypt, aes_big", cipher, other);
    aes_ecb_encrypt(block, other, &tom);
    must_agree("encrypt, libtomcrypt", cipher, other);
    bench_encrypt_keyed(key, block, other);
    must_agree("schedule and encrypt", cipher, other);
    refused |= she_aes_encrypt(key, 16, block, 16, other, 16);
    must_agree("she_aes_encrypt", cipher, other);
    bench_decrypt(schedule, cipher, other);
    must_agree("decrypt", block, other);
    bench_decrypt(schedule, block, other);
    aes_ecb_decrypt(block, cipher, &tom);
    must_agree("decrypt, libtomcrypt", cipher, other);
    must_succeed("a block");
}

/* BearSSL's modes, of which two stand in for one block and a third for CMAC: its CBC-MAC is the last block of its CBC. */
static void check_bearssl(size_t whole)
{
    uint8_t ours[16 * 9], theirs[16 * 9], last[16], start[16];
#define CHECK_BEARSSL(kind)                                                                  \
    refused |= she_cbc_encrypt(key, 16, iv, 16, text, whole, ours, whole);                   \
    memcpy(theirs, text, whole), memcpy(start, iv, 16);                                      \
    br_aes_##kind##_cbcenc_run(&kind##_enc, start, theirs, whole);                           \
    must_agree_all("CBC encrypt, aes_" #kind, ours, theirs, whole);                          \
    memcpy(last, iv, 16);                                                                    \
    br_aes_##kind##_ctrcbc_mac(&kind##_mac, last, text, whole);                              \
    must_agree("CBC-MAC, aes_" #kind, ours + whole - 16, last);                              \
    refused |= she_cbc_decrypt(key, 16, iv, 16, text, whole, ours, whole);                   \
    memcpy(theirs, text, whole), memcpy(start, iv, 16);                                      \
    br_aes_##kind##_cbcdec_run(&kind##_dec, start, theirs, whole);                           \
    must_agree_all("CBC decrypt, aes_" #kind, ours, theirs, whole);
    CHECK_BEARSSL(small)
    CHECK_BEARSSL(big)
}

/* The modes, on so many bytes of text, of which CMAC takes all and CBC the whole blocks. */
static void check_modes(size_t bytes)
{
    size_t whole = bytes / 16 * 16, padded = bytes == 0 ? 16 : (bytes + 15) / 16 * 16;
    uint8_t ours[16 * 9], theirs[16 * 9];
    unsigned long length = 16;
    for (size_t i = 0; i < padded; i++)
        text[i] = (uint8_t)rand();
    refused |= she_cmac(key, 16, 8 * bytes, text, padded, ours, 16);
    omac_memory(tom_aes, key, 16, text, bytes, theirs, &length);
    must_agree("CMAC, libtomcrypt", ours, theirs);
    refused |= she_cbc_encrypt(key, 16, iv, 16, text, whole, ours, whole);
    cbc_setiv(iv, 16, &tom_cbc);
    cbc_encrypt(text, theirs, whole, &tom_cbc);
    must_agree_all("CBC encrypt, libtomcrypt", ours, theirs, whole);
    refused |= she_cbc_decrypt(key, 16, iv, 16, text, whole, ours, whole);
    cbc_setiv(iv, 16, &tom_cbc);
    cbc_decrypt(text, theirs, whole, &tom_cbc);
    must_agree_all("CBC decrypt, libtomcrypt", ours, theirs, whole);
    check_bearssl(whole);
    must_succeed("a mode");
}

static void check_commands(const uint8_t block[16])
{
    uint8_t cipher[16], other[16], status;
    uid[0] = (uint8_t)(1 + rand() % 255);
    make_devices();
    bench_encrypt(schedule, block, cipher);
    refused |= she_enc_ecb(&device, SHE_RAM_KEY, block, 16, other, 16);
    must_agree("ENC_ECB with a plain key", cipher, other);
    refused |= she_get_status(&device, &status);
    refused |= status; /* neither random numbers nor a debugger */
    refused |= she_reset(&device);
    must_succeed("a command");
}

/* What is learnt is the CMAC of twelve zero bytes, SIZE and the bootloader, and after a reset it is found right. */
static void check_boot(size_t bytes)
{
    uint8_t measured[16 + 16 * 9] = {0}, theirs[16], status;
    unsigned long length = 16;
    measured[15] = (uint8_t)bytes;
    memcpy(measured + 16, text, bytes);
    omac_memory(tom_aes, key, 16, measured, 16 + bytes, theirs, &length);
    device = fresh;
    refused |= she_secure_boot(&device, text, bytes);
    must_agree("SECURE_BOOT, libtomcrypt", device.keys + 16 * SHE_BOOT_MAC, theirs);
    refused |= she_reset(&device);
    refused |= she_secure_boot(&device, text, bytes);
    refused |= she_get_status(&device, &status);
    refused |= status ^ (SHE_STATUS_SECURE_BOOT | SHE_STATUS_BOOT_OK);
    must_succeed("SECURE_BOOT");
}

static void check_message(const char *what, const struct engine *e, uint32_t counter, uint8_t flags)
{
    uint8_t ours[64], theirs[64];
    refused |= write_message(SHE_KEY_1, SHE_MASTER_ECU_KEY, secret, counter, flags, ours);
    must_succeed("a key message");
    peer_write(e, counter, flags, theirs);
    must_agree_all(what, ours, theirs, 64);
}

/* KEY_1 is loaded with a key that is none of the device's, and a counter above 0, as a board that never had it asks. */
static void check_load(const char *what, const struct engine *e, uint32_t counter, uint8_t flags)
{
    uint8_t m[64], ours[48], theirs[48], forged[48];
    device = fresh;
    refused |= she_write_key(uid, 15, SHE_KEY_1, SHE_MASTER_ECU_KEY, master, 16, counter, flags, secret, 16, m, 16, m + 16, 32,
                             m + 48, 16);
    refused |= load_message(m, ours);
    refused |= peer_load(e, master, m, theirs);
    must_succeed("LOAD_KEY");
    must_agree_all(what, ours, theirs, 48);
    m[rand() % 64] ^= 1;
    if (peer_load(e, master, m, forged) == 0) {
        fprintf(stderr, "bench: %s: a forged message is taken\n", what);
        exit(1);
    }
}

/* The book writes what is written without it, and finds that proof right. */
static void check_book(uint32_t last, uint8_t flags)
{
    uint8_t bare[64];
    refused |= open_book(last);
    refused |= write_by_book(SHE_KEY_1, SHE_MASTER_ECU_KEY, flags);
    refused |= she_write_key(uid, 15, SHE_KEY_1, SHE_MASTER_ECU_KEY, master, 16, last + 1, flags, secret, 16, bare, 16, bare + 16,
                             32, bare + 48, 16);
    must_agree_all("garage_write", messages, bare, 64);
    refused |= write_proof(last + 1);
    refused |= judge_by_book(proofs);
    must_succeed("a call of the book");
}

static void check(void)
{
    uint8_t block[16];
    for (int i = 0; i < 1000; i++) {
        for (int k = 0; k < 16; k++) {
            key[k] = (uint8_t)rand();
            iv[k] = (uint8_t)rand();
            block[k] = (uint8_t)rand();
        }
        make_keys();
        check_engine(block);
        check_modes(16 + (size_t)i % 128);
        check_commands(block);
        check_boot(16 + (size_t)i % 128);
        memcpy(secret, block, 16);
        check_message("key message, aes_small", &small_engine, (uint32_t)rand() % 0x10000000, i % 32);
        check_message("key message, aes_big", &big_engine, 0xfffffff - (uint32_t)i, i % 32);
        check_message("key message, libtomcrypt", &tom_engine, (uint32_t)i, i % 32);
        check_load("LOAD_KEY, aes_small", &small_engine, 1 + (uint32_t)rand() % 0xfffffff, i % 32);
        check_load("LOAD_KEY, aes_big", &big_engine, 0xfffffff - (uint32_t)i, i % 32);
        check_load("LOAD_KEY, libtomcrypt", &tom_engine, (uint32_t)i + 1, i % 32);
        check_book((uint32_t)rand() % 0xfffffff, i % 32);
    }
}

/* ---- times */

static double best[WORK][WHO], best_command[COMMANDS], best_book[BOOK_CALLS][WAYS];

static double now(void)
{
    struct timespec t;
    clock_gettime(CLOCK_MONOTONIC, &t);
    return (double)t.tv_sec * 1e9 + (double)t.tv_nsec;
}

/* Keeps the best of the rounds, in nanoseconds each. */
static void measure(int round, const char *name, void (*run)(void), int count, double *least)
{
    device = fresh;
    book = waiting;
    double start = now();
    run();
    double took = (now() - start) / count;
    must_succeed(name);
    if (round == 0 || took < *least)
        *least = took;
}

static void measure_all(int rounds)
{
    for (int round = 0; round < rounds; round++) {
        for (int i = 0; i < WORK; i++)
            for (int who = 0; who < WHO; who++)
                measure(round, work[i].name, work[i].run[who], work[i].count, &best[i][who]);
        for (int i = 0; i < COMMANDS; i++)
            measure(round, commands[i].name, commands[i].run, BLOCKS, &best_command[i]);
        for (int i = 0; i < BOOK_CALLS; i++)
            for (int way = 0; way < WAYS; way++)
                measure(round, book_calls[i].name, book_calls[i].run[way], MESSAGES, &best_book[i][way]);
    }
    best_command[ECB] -= best[KEYED][OURS];
}

static void print_work(int rounds)
{
    printf("| nanoseconds, best of %d rounds | ours | aes_small | aes_big | libtomcrypt"
           " | ours / aes_small | ours / aes_big | ours / libtomcrypt |\n"
           "|---|--:|--:|--:|--:|--:|--:|--:|\n",
           rounds);
    for (int i = 0; i < LONG_MAC; i++) {
        const double *b = best[i];
        printf("| %s | %.1f | %.1f | %.1f | %.1f | %.2f | %.2f | %.2f |\n", work[i].name, b[OURS], b[SMALL], b[BIG], b[TOM],
               b[OURS] / b[SMALL], b[OURS] / b[BIG], b[OURS] / b[TOM]);
    }
}

static void print_long(void)
{
    printf("\n| milliseconds | ours | aes_small | aes_big | libtomcrypt | allowed |\n|---|--:|--:|--:|--:|--:|\n");
    for (int i = LONG_MAC; i < WORK; i++) {
        printf("| %s", work[i].name);
        for (int who = 0; who < WHO; who++)
            printf(" | %.3f", best[i][who] / 1e6);
        printf(" | %d |\n", LONG_MILLISECONDS);
    }
}

static double ours_of(int encrypted, int decrypted, int schedules)
{
    return encrypted * best[ENCRYPT][OURS] + decrypted * best[DECRYPT][OURS] + schedules * best[SCHEDULE][OURS];
}

static double boot_ratio(void) { return best[SECURE_BOOT][OURS] / ours_of(1, 0, 0); }

/* What ours costs besides the blocks and key schedules in it. */
static void print_overhead(void)
{
    printf("\n| ours against its own blocks and key schedules | ratio |\n|---|--:|\n");
    printf("| `she_aes_encrypt`: 1 block, 1 schedule | %.3f |\n", best[AES_ENCRYPT][OURS] / ours_of(1, 0, 1));
    printf("| `she_cbc_encrypt`, a block of 4,096 | %.3f |\n", best[CBC_ENCRYPT][OURS] / ours_of(1, 0, 0));
    printf("| `she_cbc_decrypt`, a block of 4,096 | %.3f |\n", best[CBC_DECRYPT][OURS] / ours_of(0, 1, 0));
    printf("| `she_cmac`, a block of 4,096 | %.3f |\n", best[CMAC][OURS] / ours_of(1, 0, 0));
    printf("| `she_secure_boot`, a block of 4,096; 1.%02d is allowed | %.3f |\n", BOOT_PERCENT, boot_ratio());
    printf("| `she_write_key`: 10 blocks, 6 schedules | %.3f |\n", best[MESSAGE][OURS] / ours_of(10, 0, 6));
    printf("| `she_load_key`: 16 blocks, 2 backwards, 12 schedules | %.3f |\n", best[LOAD][OURS] / ours_of(16, 2, 12));
}

static void print_commands(void)
{
    printf("\n| a command besides its cryptography | nanoseconds | must be under |\n|---|--:|--:|\n");
    for (int i = 0; i < COMMANDS; i++)
        printf("| %s | %.1f | %d |\n", commands[i].name, best_command[i], COMMAND_NANOSECONDS);
}

static double book_ratio(int i) { return best_book[i][WITH] / best_book[i][WITHOUT]; }

static void print_book(void)
{
    printf("\n| nanoseconds | with the book | without | ratio | at most |\n|---|--:|--:|--:|--:|\n");
    for (int i = 0; i < BOOK_CALLS; i++)
        printf("| %s | %.1f | %.1f | %.2f | %d |\n", book_calls[i].name, best_book[i][WITH], best_book[i][WITHOUT], book_ratio(i),
               BOOK_TIMES);
}

/* ---- stack: each function runs on a stack of its own that is painted before, and looked at after.
 *
 * What counts is the lowest byte that lost its paint, up to a multiple of 16, less the same of a call of a function that does
 * nothing. It is painted twice, in two colours, so that a byte written in the one colour shows in the other. So the figure has
 * the frames of the function and of all that it calls (memcpy too), and the arguments that are passed on the stack. Two things
 * it can't see: what a frame reserves at its lower end and doesn't write, and ways through a function other than the one taken,
 * which is that of success, on long inputs. So SHE_STACK_BYTES and GARAGE_STACK_BYTES have room above it. Another compiler or
 * processor has other frames. */

enum { STACK = 65536 };

static _Alignas(16) uint8_t stack[STACK];
static ucontext_t outside, inside;
static uint8_t (*on_stack)(void), answer, byte; /* what is called, its answer, and a verdict or a status */

#define BUFFERS text, sizeof text, other_text, sizeof other_text
#define SHE_CALLS(CALL)                                                                                                     \
    CALL(she_aes_encrypt, fresh, key, 16, text, 16, mac, 16)                                                                \
    CALL(she_aes_decrypt, fresh, key, 16, text, 16, mac, 16)                                                                \
    CALL(she_cbc_encrypt, fresh, key, 16, iv, 16, BUFFERS)                                                                  \
    CALL(she_cbc_decrypt, fresh, key, 16, iv, 16, BUFFERS)                                                                  \
    CALL(she_cmac, fresh, key, 16, 8 * sizeof text, text, sizeof text, mac, 16)                                             \
    CALL(she_kdf, fresh, key, 16, text, 16, mac, 16)                                                                        \
    CALL(she_write_key, fresh, uid, 15, SHE_KEY_1, SHE_MASTER_ECU_KEY, master, 16, 1, SHE_ALL_FLAGS, key, 16, THREE)        \
    CALL(she_write_key_short, fresh, uid, 15, SHE_KEY_1, SHE_MASTER_ECU_KEY, master, 16, 1, key, 16, THREE)                 \
    CALL(she_fleet_sheet, fresh, SHE_KEY_1, SHE_MASTER_ECU_KEY, master, 16, 1, key, 16, THREE)                              \
    CALL(she_write_proof, fresh, uid, 15, SHE_KEY_1, SHE_MASTER_ECU_KEY, 1, key, 16, PROOF)                                 \
    CALL(she_make, fresh, &device, uid, 15, key, 16, iv, 16)                                                                \
    CALL(she_reset, started, &device)                                                                                       \
    CALL(she_attach_debugger, fresh, &device)                                                                               \
    CALL(she_enc_ecb, fresh, &device, SHE_RAM_KEY, text, 16, mac, 16)                                                       \
    CALL(she_dec_ecb, fresh, &device, SHE_RAM_KEY, text, 16, mac, 16)                                                       \
    CALL(she_enc_cbc, fresh, &device, SHE_RAM_KEY, iv, 16, BUFFERS)                                                         \
    CALL(she_dec_cbc, fresh, &device, SHE_RAM_KEY, iv, 16, BUFFERS)                                                         \
    CALL(she_generate_mac, fresh, &device, SHE_RAM_KEY, 8 * sizeof text, text, sizeof text, mac, 16)                        \
    CALL(she_verify_mac, fresh, &device, SHE_RAM_KEY, 8 * sizeof text, text, sizeof text, text_mac, 16, 0, &byte)           \
    CALL(she_load_key, fresh, &device, row[0], 16, row[0] + 16, 32, row[0] + 48, 16, PROOF)                                 \
    CALL(she_load_plain_key, fresh, &device, key, 16)                                                                       \
    CALL(she_export_ram_key, fresh, &device, THREE, PROOF)                                                                  \
    CALL(she_init_rng, fresh, &device)                                                                                      \
    CALL(she_extend_seed, started, &device, key, 16)                                                                        \
    CALL(she_rnd, started, &device, mac, 16)                                                                                \
    CALL(she_secure_boot, learnt, &device, text, sizeof text)                                                               \
    CALL(she_boot_failure, booted, &device)                                                                                 \
    CALL(she_boot_ok, booted, &device)                                                                                      \
    CALL(she_get_status, started, &device, &byte)                                                                           \
    CALL(she_get_id, started, &device, key, 16, proofs, 32)
#define GARAGE_CALLS(CALL)                                                                                                  \
    CALL(garage_open, fresh, &book, KNOWN)                                                                                  \
    CALL(garage_write, fresh, &book, SHE_KEY_1, SHE_MASTER_ECU_KEY, SHE_ALL_FLAGS, key, 16, THREE)                          \
    CALL(garage_judge, fresh, &book, SHE_KEY_1, waiting_proof, 32, waiting_proof + 32, 16, &byte)

/* What follows the call keeps the compiler from jumping to the function, so that all have the same small frame above. */
#define DEFINE(function, from, ...)         \
    static uint8_t call_##function(void)    \
    {                                       \
        uint8_t a = function(__VA_ARGS__);  \
        __asm__ volatile("" : "+r"(a));     \
        return a;                           \
    }
SHE_CALLS(DEFINE)
GARAGE_CALLS(DEFINE)

#define NAME(function, from, ...) {#function, call_##function, &from},
#define LAST {NULL, NULL, NULL}
static const struct call {
    const char *name;
    uint8_t (*run)(void);
    const struct she_device *from; /* the device that it needs */
} she_calls[] = {SHE_CALLS(NAME) LAST}, garage_calls[] = {GARAGE_CALLS(NAME) LAST};

static __attribute__((noinline)) uint8_t nothing(void)
{
    __asm__ volatile(""); /* or the call would be left out */
    return 0;
}
DEFINE(nothing, fresh)

static void call_it(void) { answer = on_stack(); }

static size_t touched(uint8_t (*run)(void), const struct she_device *from, uint8_t paint)
{
    size_t untouched = 0;
    device = *from;
    book = waiting;
    memset(stack, paint, sizeof stack);
    getcontext(&inside);
    inside.uc_stack.ss_sp = stack;
    inside.uc_stack.ss_size = sizeof stack;
    inside.uc_link = &outside;
    on_stack = run;
    makecontext(&inside, call_it, 0);
    swapcontext(&outside, &inside);
    refused |= answer;
    while (untouched < sizeof stack && stack[untouched] == paint)
        untouched++;
    return (sizeof stack - untouched + 15) / 16 * 16;
}

/* The first call stands outside, so that what the linker does at a function's first call is done with. */
static size_t depth(const char *name, uint8_t (*run)(void), const struct she_device *from)
{
    device = *from;
    book = waiting;
    refused |= run();
    size_t one = touched(run, from, 0xa5), other = touched(run, from, 0x5a);
    must_succeed(name);
    return one > other ? one : other;
}

/* The calls of a library against the room that its header asks for. Says whether one goes deeper. */
static int print_stack(const struct call *calls, const char *room, size_t allowed)
{
    size_t empty = depth("an empty call", call_nothing, &fresh), most = 0;
    printf("\n| stack | bytes |\n|---|--:|\n");
    for (const struct call *call = calls; call->name != NULL; call++) {
        size_t bytes = depth(call->name, call->run, call->from) - empty;
        printf("| `%s` | %zu |\n", call->name, bytes);
        if (bytes > most)
            most = bytes;
    }
    printf("| the most of all | %zu |\n", most);
    printf("| %s | %zu |\n", room, allowed);
    if (most > allowed)
        fprintf(stderr, "bench: the stack goes deeper than %s\n", room);
    return most > allowed;
}

/* Whether what was measured keeps what is promised. */
static int judge(void)
{
    int wrong = 0;
    for (int i = 0; i < COMMANDS; i++)
        if (best_command[i] >= COMMAND_NANOSECONDS)
            wrong = fprintf(stderr, "bench: %s takes %d ns or more\n", commands[i].name, COMMAND_NANOSECONDS);
    for (int i = LONG_MAC; i < WORK; i++)
        if (best[i][OURS] >= LONG_MILLISECONDS * 1e6)
            wrong = fprintf(stderr, "bench: %s takes %d ms or more\n", work[i].name, LONG_MILLISECONDS);
    if (boot_ratio() > 1 + BOOT_PERCENT / 100.0)
        wrong = fprintf(stderr, "bench: SECURE_BOOT takes over %d %% more for a block than the bare cipher\n", BOOT_PERCENT);
    for (int i = 0; i < BOOK_CALLS; i++)
        if (book_ratio(i) > BOOK_TIMES)
            wrong = fprintf(stderr, "bench: %s takes over %d times as long\n", book_calls[i].name, BOOK_TIMES);
    return wrong != 0;
}

int main(int arguments, char **argument)
{
    int quick = arguments == 2 && strcmp(argument[1], "--quick") == 0, rounds = quick ? QUICK_ROUNDS : ROUNDS;
    check();
    make_keys();
    make_devices();
    make_book();
    write_row();
    measure_all(rounds);
    print_work(rounds);
    print_long();
    print_overhead();
    print_commands();
    print_book();
    if (quick)
        return 0;
    refused |= she_cmac(master, 16, 8 * sizeof text, text, sizeof text, text_mac, 16); /* for she_verify_mac to find right */
    int deep = print_stack(she_calls, "`SHE_STACK_BYTES` of she.h", SHE_STACK_BYTES);
    deep |= print_stack(garage_calls, "`GARAGE_STACK_BYTES` of garage.h", GARAGE_STACK_BYTES);
    return judge() | deep;
}
