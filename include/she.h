/* A software Secure Hardware Extension: AES-128, CBC, CMAC, key messages, and a device that holds keys and answers commands.
 *
 * C99, and usable from C++. Link with libshe.a, of which there is one for x86-64 and one for 64-bit Arm under Linux; for a 32-bit
 * controller there is none yet. The library calls nothing but memcpy, memset and the like, keeps no state of its own, and needs no
 * setting up.
 *
 * Every function returns an answer of enum she_answer. Any answer but SHE_NO_ERROR leaves the device and every lent buffer as
 * they were, and sets a verdict or a status beside it to 0. Any slot number, length, counter, flags and record may be passed: the
 * library refuses what is wrong by itself, and a number too wide for its place is refused as what it is, never cut.
 *
 * What the caller owes, as C can say it and the library cannot look:
 *   - every pointer is valid for the length given beside it, and never null, also where that length is 0;
 *   - a buffer that is written to, and the device, overlap nothing else of the same call (so lend no part of the device);
 *   - a device stands where its type may stand (at a multiple of 4), and no other call uses it meanwhile;
 *   - there is room on the stack: SHE_STACK_BYTES below the caller's frame (docs/PERFORMANCE.md has what each function takes). */
#ifndef SHE_H
#define SHE_H

#include <stddef.h>
#include <stdint.h>

#ifdef __cplusplus
extern "C" {
#endif

/* The length of a lent buffer in bytes: 64 bits on every machine, also where a size_t has 32. */
typedef uint64_t she_length;

enum she_answer {
    SHE_NO_ERROR = 0,
    SHE_SEQUENCE_ERROR = 1,      /* a second INIT_RNG or SECURE_BOOT since reset, or booting is finished */
    SHE_KEY_NOT_AVAILABLE = 2,   /* the slot is locked: by DEBUGGER while a debugger is attached, or by BOOT after a bad boot */
    SHE_KEY_INVALID = 3,         /* no such slot, not its role, not an allowed pair */
    SHE_KEY_EMPTY = 4,           /* the slot is empty */
    SHE_NO_SECURE_BOOT = 5,      /* there is no BOOT_MAC_KEY, or no bootloader was checked */
    SHE_KEY_WRITE_PROTECTED = 6, /* the target has WRITE set */
    SHE_KEY_UPDATE_ERROR = 7,    /* the key message is refused: she_load_key has the reasons */
    SHE_RNG_SEED = 8,            /* RND or EXTEND_SEED before INIT_RNG */
    SHE_NO_DEBUGGING = 9,        /* not given yet */
    SHE_BUSY = 10,               /* not given yet */
    SHE_MEMORY_FAILURE = 11,     /* not given yet */
    SHE_GENERAL_ERROR = 12       /* a wrong length, or a device that isn't made */
};

/* Slots. 15 and above are none. */
enum she_slot {
    SHE_SECRET_KEY = 0,
    SHE_MASTER_ECU_KEY = 1,
    SHE_BOOT_MAC_KEY = 2,
    SHE_BOOT_MAC = 3,
    SHE_KEY_1 = 4, /* up to SHE_KEY_10, one after the other */
    SHE_KEY_10 = 13,
    SHE_RAM_KEY = 14,
    SHE_SLOTS = 15
};

/* Flags of a slot, added up. */
enum she_flag { SHE_WILDCARD = 1, SHE_KEY_USAGE = 2, SHE_DEBUGGER = 4, SHE_BOOT = 8, SHE_WRITE = 16, SHE_ALL_FLAGS = 31 };

/* Marks of a device, each a byte: 1 for on, 0 for off. The places 9 and 10 mean nothing yet: she_make and she_reset leave them 0,
 * and every other call leaves them as they are. */
enum she_mark {
    SHE_MARK_RANDOM = 0,        /* she_init_rng was called since reset */
    SHE_MARK_PLAIN = 1,         /* RAM_KEY came in plain */
    SHE_MARK_DEBUGGER = 2,      /* a debugger is attached */
    SHE_MARK_MADE = 3,          /* the device is made */
    SHE_MARK_BOOTED = 4,        /* she_secure_boot succeeded since reset */
    SHE_MARK_SECURE_BOOT = 5,   /* it checked the bootloader against BOOT_MAC */
    SHE_MARK_BOOT_INIT = 6,     /* it learnt the bootloader: there was no BOOT_MAC */
    SHE_MARK_BOOT_FINISHED = 7, /* the check failed, or she_boot_failure or she_boot_ok was called */
    SHE_MARK_BOOT_OK = 8,       /* the check succeeded, and she_boot_failure wasn't called */
    SHE_MARKS = 11
};

/* Bits of the status, one for each mark that it shows. */
enum she_status_bit {
    SHE_STATUS_SECURE_BOOT = 2,
    SHE_STATUS_BOOT_INIT = 4,
    SHE_STATUS_BOOT_FINISHED = 8,
    SHE_STATUS_BOOT_OK = 16,
    SHE_STATUS_RANDOM = 32,
    SHE_STATUS_DEBUGGER = 64
};

enum {
    SHE_BLOCK = 16,                /* bytes of a block, a key, an IV, a MAC, a seed, M1, M3 and M5 */
    SHE_UID = 15,                  /* bytes of a UID */
    SHE_TWO_BLOCKS = 32,           /* bytes of M2 and M4, and of what GET_ID gives */
    SHE_MAX_BLOCKS = 4096,         /* blocks that one CBC takes */
    SHE_MAX_BITS = 524288,         /* bits that one MAC takes */
    SHE_MAX_BOOTLOADER = 65536,    /* bytes of the longest bootloader */
    SHE_MAX_COUNTER = 268435455,   /* the largest counter of a key message */
    SHE_DEVICE_BYTES = 404,        /* bytes of a device, which its parts fill without a gap */
    SHE_STACK_BYTES = 4096         /* room on the stack; 2,944 is the most that was measured, in she_load_key */
};

/* The device. It is lent to every command and changed in place, and it may be copied, compared and stored as it is. To make one,
 * hand any record to she_make. Nothing in it is believed unseen: a record that breaks the rules of a made device (a mark that is
 * neither 0 nor 1, a flag that its slot hasn't, an empty slot that isn't zero and the like) counts as not made, and every command
 * answers 12 to it. Its keys lie open in it: whoever can read the record has its keys. */
struct she_device {
    uint8_t keys[16 * SHE_SLOTS];  /* sixteen bytes a slot */
    uint32_t counters[SHE_SLOTS];  /* SECRET_KEY and RAM_KEY have none, and 0 here */
    uint8_t flags[SHE_SLOTS];      /* likewise */
    uint8_t empty[SHE_SLOTS];      /* 1: the slot is empty */
    uint8_t uid[SHE_UID];
    uint8_t seed[SHE_BLOCK];       /* of the random numbers; outlives a reset */
    uint8_t state[SHE_BLOCK];      /* zero, as the next, before she_init_rng */
    uint8_t rngkey[SHE_BLOCK];
    uint8_t marks[SHE_MARKS];      /* in the places of enum she_mark */
};

/* ---- algorithms. Answers: 12 for a wrong length */

/* One block under a key: 16 bytes of each in, 16 out. */
uint8_t she_aes_encrypt(const uint8_t *key, she_length key_len, const uint8_t *block, she_length block_len,
                        uint8_t *out, she_length out_len);
uint8_t she_aes_decrypt(const uint8_t *key, she_length key_len, const uint8_t *block, she_length block_len,
                        uint8_t *out, she_length out_len);

/* CBC of 1 to 4,096 blocks: a key and an IV of 16 bytes, and the output as long as the input. */
uint8_t she_cbc_encrypt(const uint8_t *key, she_length key_len, const uint8_t *iv, she_length iv_len,
                        const uint8_t *in, she_length in_len, uint8_t *out, she_length out_len);
uint8_t she_cbc_decrypt(const uint8_t *key, she_length key_len, const uint8_t *iv, she_length iv_len,
                        const uint8_t *in, she_length in_len, uint8_t *out, she_length out_len);

/* CMAC of the first `bits` bits of a message, 0 to 524,288. The message lent has 16 * max(1, bits / 128 rounded up) bytes;
 * what stands in it after `bits` doesn't count. 16 bytes out. */
uint8_t she_cmac(const uint8_t *key, she_length key_len, uint64_t bits, const uint8_t *message, she_length message_len,
                 uint8_t *out, she_length out_len);

/* SHE's key derivation: a key and a constant of 16 bytes, 16 bytes out. */
uint8_t she_kdf(const uint8_t *key, she_length key_len, const uint8_t *constant, she_length constant_len,
                uint8_t *out, she_length out_len);

/* ---- key messages, for the sender. Answers: 12 for a wrong length, a counter above 268,435,455 or flags above 31; 3 for a slot
 * or a pair of slots that isn't allowed */

/* M1 (16 bytes), M2 (32) and M3 (16), which bring new_key (16) into the slot `target` of the board with this UID (15; zeros: of
 * any board), under the key (16) of the slot `authority`. Flags are those of enum she_flag, added. */
uint8_t she_write_key(const uint8_t *uid, she_length uid_len, uint32_t target, uint32_t authority,
                      const uint8_t *authority_key, she_length authority_key_len, uint64_t counter, uint32_t flags,
                      const uint8_t *new_key, she_length new_key_len, uint8_t *m1, she_length m1_len,
                      uint8_t *m2, she_length m2_len, uint8_t *m3, she_length m3_len);

/* The same without flags. */
uint8_t she_write_key_short(const uint8_t *uid, she_length uid_len, uint32_t target, uint32_t authority,
                            const uint8_t *authority_key, she_length authority_key_len, uint64_t counter,
                            const uint8_t *new_key, she_length new_key_len, uint8_t *m1, she_length m1_len,
                            uint8_t *m2, she_length m2_len, uint8_t *m3, she_length m3_len);

/* The same without a UID: one message for every board. */
uint8_t she_fleet_sheet(uint32_t target, uint32_t authority, const uint8_t *authority_key, she_length authority_key_len,
                        uint64_t counter, const uint8_t *new_key, she_length new_key_len, uint8_t *m1, she_length m1_len,
                        uint8_t *m2, she_length m2_len, uint8_t *m3, she_length m3_len);

/* The proof, M4 (32 bytes) and M5 (16), with which the board with this UID (15) shows that it took such a message: what the sender
 * compares with the board's own. */
uint8_t she_write_proof(const uint8_t *uid, she_length uid_len, uint32_t target, uint32_t authority, uint64_t counter,
                        const uint8_t *new_key, she_length new_key_len, uint8_t *m4, she_length m4_len,
                        uint8_t *m5, she_length m5_len);

/* ---- the device. Every command answers 12 to a device that isn't made and to a wrong length, and then what is named beside it */

/* Makes a device anew, whatever the record held: a UID of 15 bytes that aren't all zero, a SECRET_KEY and a seed of 16. A
 * refusal (12) leaves the record as it was. Made over a device in use, it empties every slot but SECRET_KEY and starts all counters
 * at 0 again: old key messages, which the counters kept out, can be taken once more. */
uint8_t she_make(struct she_device *device, const uint8_t *uid, she_length uid_len,
                 const uint8_t *secret_key, she_length secret_key_len, const uint8_t *seed, she_length seed_len);

/* What loss of power does: RAM_KEY, the random numbers and every mark but that of a made device go, and with the marks the debugger
 * and all that booting found; all else stays, also a BOOT_MAC that was learnt. */
uint8_t she_reset(struct she_device *device);

/* The bench call: a debugger is attached, until reset. Slots with DEBUGGER set are locked meanwhile. */
uint8_t she_attach_debugger(struct she_device *device);

/* One block with the key of a slot (KEY_n with KEY_USAGE 0, RAM_KEY): 16 bytes in and out. Answers: 3, 4, 2. */
uint8_t she_enc_ecb(struct she_device *device, uint32_t slot, const uint8_t *in, she_length in_len,
                    uint8_t *out, she_length out_len);
uint8_t she_dec_ecb(struct she_device *device, uint32_t slot, const uint8_t *in, she_length in_len,
                    uint8_t *out, she_length out_len);

/* CBC with the key of such a slot: an IV of 16 bytes, 1 to 4,096 blocks, the output as long as the input. Answers: 3, 4, 2. */
uint8_t she_enc_cbc(struct she_device *device, uint32_t slot, const uint8_t *iv, she_length iv_len,
                    const uint8_t *in, she_length in_len, uint8_t *out, she_length out_len);
uint8_t she_dec_cbc(struct she_device *device, uint32_t slot, const uint8_t *iv, she_length iv_len,
                    const uint8_t *in, she_length in_len, uint8_t *out, she_length out_len);

/* CMAC with the key of a slot (KEY_n with KEY_USAGE 1, RAM_KEY); lengths as for she_cmac, 16 bytes out. Answers: 3, 4, 2. */
uint8_t she_generate_mac(struct she_device *device, uint32_t slot, uint64_t bits, const uint8_t *message, she_length message_len,
                         uint8_t *mac, she_length mac_len);

/* Whether a MAC of 16 bytes is that of a message, in its first mac_bits bits (0: all 128; up to 127), with the key of such a slot
 * or of BOOT_MAC_KEY. *verdict becomes 1 for yes, and 0 for no and for any refusal; the answer to a no is 0 too, as the question
 * was answered. (VERIFICATION_STATUS of the SHE specification is the other way round: 0 there is yes.) Answers: 3, 4, 2. */
uint8_t she_verify_mac(struct she_device *device, uint32_t slot, uint64_t bits, const uint8_t *message, she_length message_len,
                       const uint8_t *mac, she_length mac_len, uint32_t mac_bits, uint8_t *verdict);

/* Takes a key message: M1 (16 bytes), M2 (32) and M3 (16) in; the proof for the sender, M4 (32) and M5 (16), out. Answers: 3 for a
 * pair that isn't allowed, 6 for a target with WRITE set, 4 and 2 for an authority that is empty (and not the target itself) or
 * locked, whatever the target. Then 7, in this order: M3 is not the MAC of M1 and M2 under the authority's key (a byte was changed,
 * or the key is another); the UID is neither the board's nor all zero, or it is all zero and the target has WILDCARD set; the bits
 * of M2 after the flags are not all zero; the counter is not greater than the target's. RAM_KEY takes the zero UID and any
 * counter. */
uint8_t she_load_key(struct she_device *device, const uint8_t *m1, she_length m1_len, const uint8_t *m2, she_length m2_len,
                     const uint8_t *m3, she_length m3_len, uint8_t *m4, she_length m4_len, uint8_t *m5, she_length m5_len);

/* A key of 16 bytes into RAM_KEY, as plain. */
uint8_t she_load_plain_key(struct she_device *device, const uint8_t *key, she_length key_len);

/* RAM_KEY, if it was loaded plain, as a key message of 16, 32, 16, 32 and 16 bytes that this device will take again. Answers: 4
 * for no key, 3 for one that isn't plain. */
uint8_t she_export_ram_key(struct she_device *device, uint8_t *m1, she_length m1_len, uint8_t *m2, she_length m2_len,
                           uint8_t *m3, she_length m3_len, uint8_t *m4, she_length m4_len, uint8_t *m5, she_length m5_len);

/* Starts the random numbers, once after each reset. Answers: 1 for a second time. */
uint8_t she_init_rng(struct she_device *device);

/* Stirs 16 bytes into the random numbers. Answers: 8 before she_init_rng. */
uint8_t she_extend_seed(struct she_device *device, const uint8_t *entropy, she_length entropy_len);

/* The next 16 random bytes. Answers: 8 before she_init_rng. */
uint8_t she_rnd(struct she_device *device, uint8_t *out, she_length out_len);

/* The boot check, once after each reset, over a bootloader of 1 to 65,536 bytes. Its MAC is the CMAC under BOOT_MAC_KEY of twelve
 * zero bytes, SIZE and the bootloader; SIZE is the bootloader's length in bytes, as four bytes, the most significant first. The
 * answer is 0 in each of three ways, and the status tells which one it was:
 *   - BOOT_MAC is empty, as on the first boot with a BOOT_MAC_KEY: the board learns. The MAC becomes BOOT_MAC, with counter 0 and
 *     no flags, and BOOT_INIT is set. Nothing was checked, and nothing will be before the next reset.
 *   - BOOT_MAC is the MAC, in all its bits: SECURE_BOOT and BOOT_OK are set, BOOT_FINISHED is not.
 *   - BOOT_MAC is another: SECURE_BOOT and BOOT_FINISHED are set, BOOT_OK is not.
 * While SECURE_BOOT is set and BOOT_OK is not, slots with BOOT set are locked; before the check they are open. Reset undoes all of
 * this but the BOOT_MAC. Answers: 1 for a second time, 5 for no BOOT_MAC_KEY, 2 for a BOOT_MAC_KEY or a BOOT_MAC that is locked. */
uint8_t she_secure_boot(struct she_device *device, const uint8_t *bootloader, she_length bootloader_len);

/* How the stages of booting after the bootloader went, once and only after a check that succeeded. Both set BOOT_FINISHED.
 * she_boot_failure clears BOOT_OK, so that slots with BOOT set are locked until reset; after she_boot_ok they stay open until
 * then. Answers: 5 where no bootloader was checked since reset, also where one was learnt; 1 where booting is finished. */
uint8_t she_boot_failure(struct she_device *device);
uint8_t she_boot_ok(struct she_device *device);

/* The status, of enum she_status_bit; *status becomes 0 where this is refused. */
uint8_t she_get_status(struct she_device *device, uint8_t *status);

/* The UID, the status and a MAC of a challenge (16 bytes) and these under MASTER_ECU_KEY, 32 bytes; the MAC is zeros while there is
 * no such key. Answers: 2. */
uint8_t she_get_id(struct she_device *device, const uint8_t *challenge, she_length challenge_len, uint8_t *out, she_length out_len);

/* The record's layout is the library's. garage.h says so of its record by the same word. */
#if defined(__cplusplus) && __cplusplus >= 201103L
#define SHE_LAYOUT(what, holds) static_assert(holds, #what)
#elif defined(__STDC_VERSION__) && __STDC_VERSION__ >= 201112L
#define SHE_LAYOUT(what, holds) _Static_assert(holds, #what)
#else
#define SHE_LAYOUT(what, holds) typedef char she_layout_of_##what[(holds) ? 1 : -1]
#endif
SHE_LAYOUT(size, sizeof(struct she_device) == SHE_DEVICE_BYTES);
SHE_LAYOUT(keys, offsetof(struct she_device, keys) == 0);
SHE_LAYOUT(counters, offsetof(struct she_device, counters) == 240);
SHE_LAYOUT(flags, offsetof(struct she_device, flags) == 300);
SHE_LAYOUT(empty, offsetof(struct she_device, empty) == 315);
SHE_LAYOUT(uid, offsetof(struct she_device, uid) == 330);
SHE_LAYOUT(seed, offsetof(struct she_device, seed) == 345);
SHE_LAYOUT(state, offsetof(struct she_device, state) == 361);
SHE_LAYOUT(rngkey, offsetof(struct she_device, rngkey) == 377);
SHE_LAYOUT(marks, offsetof(struct she_device, marks) == 393);

#ifdef __cplusplus
}
#endif

#endif
