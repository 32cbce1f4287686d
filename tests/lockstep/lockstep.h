/* Two side by side: the libraries behind she.h and garage.h, and a second one that shares nothing with them, whose functions are
 * named second_* and take the same parameters. Every call is made to both, each on its own copy of everything lent, and whatever
 * either leaves behind is compared. */
#ifndef LOCKSTEP_H
#define LOCKSTEP_H

#include "garage.h"

#define LENGTH(array) (sizeof(array) / sizeof *(array))

enum {
    MAX_BUFFERS = 6,
    MAX_NUMBERS = 4,
    LARGEST = 16 * (SHE_MAX_BLOCKS + 1), /* bytes of the longest buffer ever lent: one block too many */
    FIRST_UNNAMED = SHE_MARK_BOOT_OK + 1 /* of a record's marks: from here on they mean nothing yet */
};

/* A board, and the foreman's book about its bus. */
struct bus {
    struct she_device device;
    struct garage_book book;
};

/* What is lent to a call: its record, the byte for a verdict or a status, and the buffers in the order of the parameters. */
enum { THE_RECORD, THE_BYTE, BUFFERS, PIECES = BUFFERS + MAX_BUFFERS };

struct piece {
    uint8_t *bytes;
    she_length length; /* in bytes */
};

/* One side's copies for one call. */
struct lent {
    struct piece piece[PIECES];
    uint64_t number[MAX_NUMBERS];
};

enum number_kind { NO_NUMBER, SLOT, TARGET, AUTHORITY, BITS, MAC_BITS, COUNTER, FLAGS };

struct buffer {
    const char *name;
    int is_written;
    she_length length; /* in bytes; 0: as the other parameters demand, or as it comes */
    size_t unit;       /* bytes of one of what it holds: 1, or 4 where it holds numbers */
};

/* The record that a function takes. What a NEW_BOOK held doesn't count, and it is blank after a refusal. */
enum record_kind { A_DEVICE, A_BOOK, NEW_BOOK };

struct call;

/* A function of the headers: its parameters, the answers that it can give by the paper, how often it is drawn, what draws its
 * inputs, and how both sides are called. */
struct function {
    const char *name;
    enum record_kind record;
    struct buffer buffers[MAX_BUFFERS + 1];
    enum number_kind numbers[MAX_NUMBERS + 1];
    int has_byte;
    unsigned answers;
    unsigned weight;
    void (*draw)(struct call *);
    uint8_t (*first)(struct lent *);
    uint8_t (*second)(struct lent *);
};

/* A call: what each side will find in its copies, and afterwards what both left there. */
struct call {
    const struct function *function;
    struct piece piece[PIECES];
    uint64_t number[MAX_NUMBERS];
    struct she_device device;
    struct garage_book book;
    unsigned traits; /* what is known of it beside, of enum trait, for the count of what was seen */
};

enum trait {
    FORGED = 1,              /* a key message with a wrong M3 */
    OTHER_BOARD = 2,         /* with another board's UID' */
    FORBIDDEN_WILDCARD = 4,  /* with the wildcard, for a slot that has WILDCARD set */
    FILLED = 8,              /* with some of the 95 bits set, and the right M3 */
    NOT_NEWER = 16,          /* with a counter that isn't greater than the stored one */
    FAULTS = 31,
    DROPPED_FLAG = 32,       /* with a flag that the slot hasn't */
    REPLAYED = 64,           /* a message that was used or written before */
    WRONG_AFTER = 128,       /* a MAC that is wrong, but only after the bits compared */
    WRONG_IN_LAST = 256,     /* a MAC that is wrong in the last of the bits compared, and nowhere else */
    A_BIT_OF_M4 = 512,       /* the proof of what waits, but for one bit of M4 */
    A_BIT_OF_M5 = 1024,      /* or of M5 */
    OTHER_M4 = 2048,         /* with the right M5, and an M4 that is wrong in more bits */
    OTHER_M5 = 4096,         /* and the other way round */
    OF_ANOTHER = 8192,       /* a proof for another target */
    BY_THE_BOOK = 16384,     /* the last key message that the book wrote for a target */
    IN_STEP = 32768,         /* and the board must take it */
    OF_THE_BOARD = 65536,    /* what the board gave for the last message that the book wrote */
    OUTDATED = 131072        /* or for one before, which was replaced */
};

/* ---- functions.c: the one table of functions */
extern const struct function functions[];
extern const size_t function_count;
const struct function *function_named(const char *name);
int is_named(const struct call *c, const char *name); /* by its function */
size_t buffer_count(const struct function *f);
const char *number_name(enum number_kind kind);

/* ---- random.c: random numbers. No expression may draw twice in an order that C leaves open: the same seed must give the same run
 * everywhere */
void seed_random(uint64_t seed, uint64_t number);
uint64_t draw(void);
uint64_t below(uint64_t n);
int one_in(uint64_t n);
#define ONE_OF(array) (array)[below(LENGTH(array))]
void fill(uint8_t *bytes, size_t length);
void flip_bit(uint8_t *bytes, size_t bit); /* from the most significant of the first byte on */
void flip_any_bit(uint8_t *bytes, size_t length);

/* ---- both.c: calling both and comparing */
extern int lend_exactly; /* each buffer by malloc at its very length, for a memory checker, and without guards */
void blank_call(struct call *c, const struct function *f);
void set_length(struct call *c, size_t buffer, she_length length);
int has_right_lengths(const struct call *c); /* of a function whose buffers all have theirs */
/* Makes the call to both. On agreement the outcome is in the call itself: record, byte and buffers as they were left. On a
 * difference it prints all it knows, with `where` for a first line, and ends the program. */
uint8_t call_both(struct call *c, const char *where);
/* For what both did alike, and nevertheless wrongly: prints and ends as a difference does. */
void fail_alike(const struct call *after, const char *where, const char *what);
void print_digest(void); /* of all that calls have left so far */

/* ---- draw.c: random sequences. The same seed and number give the same sequence, whatever ran before */
void begin_sequence(uint64_t seed, uint64_t sequence, struct bus *bus);
unsigned draw_call_count(void);
void draw_call(struct call *c, const struct bus *bus);
void remember(struct call *after, uint8_t answer); /* key messages that succeeded come again */

/* Its parts, for those who want something particular. */
void begin_board(uint64_t seed, uint64_t number); /* the random numbers, and a bootloader to boot with again and again */
void make_record(struct she_device *d); /* as made */
void rich_record(struct she_device *d); /* as many loads may have left it */
/* A call with right lengths and with these numbers, or with drawn ones for NULL. */
void prepare_call(struct call *c, const struct function *f, const struct bus *bus, const uint64_t *numbers);

struct plan {
    uint8_t uid[SHE_UID];
    uint32_t target, authority;
    uint8_t key[16];
    uint32_t counter;
    uint8_t flags;
    uint8_t filler[12]; /* the last 95 bits of the first block, in bytes 4 to 15 */
    uint8_t new_key[16];
    unsigned traits;
};

struct message {
    uint8_t m1[16], m2[32], m3[16];
};

void plan_message(struct plan *p, const struct she_device *d);
void build_message(const struct plan *p, struct message *m);
void put_message(struct call *c, const struct message *m);
uint8_t *bytes_of(struct call *c, const char *buffer); /* NULL: it has no such buffer */
void put(struct call *c, const char *buffer, const uint8_t *bytes, size_t length);
void fill_buffers(struct call *c);
uint64_t *number_in(struct call *c, enum number_kind kind);
uint8_t draw_flags(void);
uint64_t draw_wide_flags(void);
uint32_t draw_stored_counter(void);
uint8_t spoiled_mark(uint8_t mark);
uint32_t draw_target(void);
uint32_t draw_authority(uint32_t target); /* one that is allowed */

void draw_plain(struct call *c);
void draw_cbc(struct call *c);
void draw_mac(struct call *c);
void draw_verify(struct call *c);
void draw_make(struct call *c);
void draw_writer(struct call *c);
void draw_load(struct call *c);
void draw_boot(struct call *c);

/* The flags that a slot keeps, as the second has them: she.h has no such function. */
uint8_t second_flags_of(uint32_t slot);

/* ---- book.c: books, and what is asked of them */
void open_book(struct garage_book *b, const struct she_device *d); /* in step with the board, nothing waiting */
void rich_book(struct garage_book *b, const struct she_device *d); /* as many calls may have left it */
void spoiled_book(struct garage_book *b, const struct she_device *d);
uint64_t widen(uint64_t number); /* the same in its last digit, and too wide */

struct proof {
    uint8_t m4[32], m5[16];
};

int awaited_proof(struct proof *p, const struct garage_book *b, uint32_t target); /* 0: nothing waits */
void put_proof(struct call *c, const struct proof *p);

void draw_open(struct call *c);
void draw_write(struct call *c);
void draw_judge(struct call *c);

/* ---- bus.c: what the book writes goes to the board, and the board's proofs to the book */
void clear_bus(void);
uint32_t latest_target(void);                         /* of the messages that the book wrote */
const struct message *letter_to(uint32_t target);     /* the last one for a target, or NULL */
const struct proof *proof_from(uint32_t target);      /* the last that the board gave for one, or NULL */
int has_failed(const struct she_device *d);           /* whether BOOT locks */
/* After each call: keeps what is carried on, and fails where book and board are in step and yet one refuses the other. */
void follow_bus(struct call *after, const struct bus *before, uint8_t answer, const char *where);

/* ---- seen.c: what was seen, and what ought to have been */
void count_call(const struct call *after, const struct bus *before, uint8_t answer);
uint64_t calls_counted(void);
void print_counts(void);
int is_anything_missing(void); /* says what */

/* ---- published.c: published vectors, of a file */
int run_published(const char *path);

/* ---- sweeps.c: what is small enough to be tried whole */
int run_sweeps(uint64_t seed);
void run_in_sweep(struct call *c, const struct bus *before); /* follows the bus, if there is one */

/* ---- book_sweeps.c: those of the book */
void sweep_books(const struct bus *bus);
void sweep_changed_books(const struct bus *bus);
void sweep_pairs(const struct bus *bus);
void sweep_written_flags(const struct bus *bus);
void sweep_written_counters(const struct bus *bus);
void sweep_openings(const struct bus *bus);
void sweep_proofs(const struct bus *bus);
void sweep_journeys(const struct bus *bus);

#endif
