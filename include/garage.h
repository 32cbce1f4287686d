/* The foreman's book about one bus: it writes the key messages for that bus, and judges the proofs that come back.
 *
 * C99, and usable from C++. Link with libgarage.a, of which there is one for x86-64 and one for 64-bit Arm under Linux. The numbers
 * of answers, slots and flags are those of she.h; nothing of libshe.a is needed, and it may be linked beside. The library calls
 * nothing but memcpy, memset and the like, keeps no state of its own, and needs no setting up.
 *
 * Every function returns an answer of enum she_answer. Any answer but SHE_NO_ERROR leaves every lent buffer as it was, sets a
 * verdict beside it to 0, and leaves the book as it was too, but for garage_open, which blanks it. Any target, authority, flags,
 * length and record may be passed: the library refuses what is wrong by itself, and a number too wide for its place is refused as
 * what it is, never cut. So target 0x11 is no target, and not slot 1.
 *
 * For each function and all inputs it is proved that the answer, the verdict, the book and every byte of each lent buffer are what
 * is said here. Nothing is proved about time, nor about what a call leaves on the stack, where keys have been.
 *
 * What the caller owes, as C can say it and the library cannot look:
 *   - every pointer is valid for the length given beside it, and never null, also where that length is 0;
 *   - a buffer that is written to, the verdict and the book overlap nothing else of the same call (so lend no part of the book);
 *   - the book and the counters stand where their types may stand (at a multiple of 4), and no other call uses the book meanwhile;
 *   - there is room on the stack: GARAGE_STACK_BYTES below the caller (docs/PERFORMANCE.md has what each function takes). */
#ifndef GARAGE_H
#define GARAGE_H

#include "she.h"

#ifdef __cplusplus
extern "C" {
#endif

enum {
    GARAGE_KEYS = 240,        /* bytes of the keys of all slots, sixteen a slot */
    GARAGE_COUNTERS = 13,     /* counters that a book is opened with, those of slots 1 to 13 */
    GARAGE_MARKS = 4,         /* marks of a book */
    GARAGE_BOOK_BYTES = 664,  /* bytes of a book, which its parts fill without a gap */
    GARAGE_STACK_BYTES = 8192 /* room on the stack; 3,408 is the most that was measured, in garage_write */
};

/* The book: for one bus its UID, for each slot the key or none, its last counter, and at most one message that waits for its proof.
 * It is lent to every call and changed in place, and it may be copied, compared and stored as it is. A copy older than a yes lacks
 * that key and that counter, and the bus refuses what is written from it for that slot, or under its key.
 *
 * To get one, hand any record to garage_open. Nothing in it is believed unseen: a record counts as open only if its marks are 1, 0,
 * 0 and 0, its UID isn't all zero, and each line is one that the calls can have left: held and waits are 0 or 1, a key that isn't
 * held is zero, no counter is above 268,435,455, and where a message waits it is one that could be written now, with the next
 * counter; where none waits, the rest of it is zero. To any other record, as to the blank book, which is all zero, every call but
 * garage_open answers 12.
 *
 * Its keys lie open in it: whoever can read the record has the keys of the bus, also those that are still on their way. Keep it
 * where nobody else reads, and wipe it after use, by a way that the compiler doesn't leave out: a garage_open that is refused, as
 * for a length of 0, is one. */
struct garage_book {
    uint8_t keys[GARAGE_KEYS];        /* zero where none is held */
    uint8_t newkeys[GARAGE_KEYS];     /* that which a waiting message brings */
    uint32_t counters[SHE_SLOTS];     /* the last one; SECRET_KEY and RAM_KEY have none, and 0 here */
    uint32_t newcounters[SHE_SLOTS];  /* that of a waiting message */
    uint8_t held[SHE_SLOTS];          /* 1: the key is held */
    uint8_t waits[SHE_SLOTS];         /* 1: a message waits for its proof */
    uint8_t authorities[SHE_SLOTS];   /* that of a waiting message */
    uint8_t uid[SHE_UID];
    uint8_t marks[GARAGE_MARKS];      /* 1, 0, 0, 0 in an open book */
};

/* Opens a book, whatever the record held, with nothing waiting: the UID of the bus (15 bytes); the keys of slots 0 to 14 (240
 * bytes, sixteen a slot); for each of these slots a mark (15 bytes), 1 where its key is held and 0 where there is none or it isn't
 * known; the last counters of slots 1 to 13 (13 numbers: counters_len counts numbers, not bytes). What stands in the place of a key
 * that isn't held doesn't count. Answers: 12 for a wrong length, then a UID of zeros, then a mark that is neither 0 nor 1, then a
 * counter above 268,435,455.
 *
 * A refusal blanks the record, other than with she_make, which leaves it: so no message can be written by mistake from the book of
 * the bus before. Open a book anew also after a key came to the bus by another way than this book, as by a fleet sheet: key and
 * counter of that slot are others then. */
uint8_t garage_open(struct garage_book *book, const uint8_t *uid, she_length uid_len, const uint8_t *keys, she_length keys_len,
                    const uint8_t *held, she_length held_len, const uint32_t *counters, she_length counters_len);

/* Writes M1 (16 bytes), M2 (32) and M3 (16), which bring new_key (16) into the slot `target` of the bus, under the key that the
 * book has for the slot `authority`, with the last counter of the target plus one (0 for RAM_KEY). Flags are those of enum
 * she_flag, added. Where the target is its own authority and its key isn't held, it counts as empty, which is sixteen bytes of FF.
 * Answers, in this order: 12 for a book that isn't open, a wrong length, flags above 31; 3 for a pair that isn't allowed; 4 for an
 * authority whose key isn't held and that isn't the target; 7 for a counter that would pass 268,435,455.
 *
 * The message then waits for its proof, in place of one that waited for that target. The counter of the book moves only with a yes,
 * so a message that never arrived is simply written anew. With the same key, authority and flags it is the same message again, byte
 * for byte, as long as the authority's key is the same, and either copy may arrive. With anything else it is another message of the
 * same counter, and only the newest waits: the one that was replaced must not be delivered any more. The bus would take it, and
 * then refuse the newest, and book and bus would be out of step.
 * If the bus answers 7 to a message that was written anew, it may have taken the one before, and only its proof was lost. Then open
 * the book anew with that message's key and counter.
 * The book doesn't know which flags the bus keeps: for a slot with WRITE set it writes a message, and the bus refuses it. */
uint8_t garage_write(struct garage_book *book, uint32_t target, uint32_t authority, uint32_t flags, const uint8_t *new_key,
                     she_length new_key_len, uint8_t *m1, she_length m1_len, uint8_t *m2, she_length m2_len,
                     uint8_t *m3, she_length m3_len);

/* Whether M4 (32 bytes) and M5 (16) are the proof that the bus has taken the message that waits for `target`. *verdict becomes 1
 * for yes, and 0 for no and for any refusal; the answer to a no is 0 too, as the question was answered. Answers, in this order: 12
 * for a book that isn't open or a wrong length; 3 for a target outside 1 to 14.
 *
 * It is yes exactly when a message waits for that target and M4 and M5 are, in all their bytes, what the board with the book's UID
 * writes when it has taken that message. Then the new key and its counter are put in the book, and nothing waits for the target any
 * more: the same proof again, with no new message between, gets a no. A no changes nothing, and a message waits on. The target is
 * named by the caller and not read from M4: the question is whether this message arrived, and bytes from outside must not choose
 * which line of the book they change.
 *
 * A yes says that these are the right bytes. That nobody can have made them who hasn't the new key rests on AES, and on no proof
 * here. M4 and M5 are made from UID, target, authority, counter and new key, and so a yes doesn't tell the flags; nor, for RAM_KEY,
 * whose counter is always 0, whether it was this time or an earlier one that the bus took that key. */
uint8_t garage_judge(struct garage_book *book, uint32_t target, const uint8_t *m4, she_length m4_len, const uint8_t *m5,
                     she_length m5_len, uint8_t *verdict);

/* The record's layout is the library's. */
SHE_LAYOUT(book, sizeof(struct garage_book) == GARAGE_BOOK_BYTES);
SHE_LAYOUT(book_keys, offsetof(struct garage_book, keys) == 0);
SHE_LAYOUT(book_newkeys, offsetof(struct garage_book, newkeys) == 240);
SHE_LAYOUT(book_counters, offsetof(struct garage_book, counters) == 480);
SHE_LAYOUT(book_newcounters, offsetof(struct garage_book, newcounters) == 540);
SHE_LAYOUT(book_held, offsetof(struct garage_book, held) == 600);
SHE_LAYOUT(book_waits, offsetof(struct garage_book, waits) == 615);
SHE_LAYOUT(book_authorities, offsetof(struct garage_book, authorities) == 630);
SHE_LAYOUT(book_uid, offsetof(struct garage_book, uid) == 645);
SHE_LAYOUT(book_marks, offsetof(struct garage_book, marks) == 660);

#ifdef __cplusplus
}
#endif

#endif
