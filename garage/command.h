/* What the files of the command `garage` share, also with `garage-board`, a board to try it on. */
#ifndef COMMAND_H
#define COMMAND_H

#include "garage.h"

#include <errno.h>
#include <fcntl.h>
#include <getopt.h>
#include <inttypes.h>
#include <stdbool.h>
#include <stdio.h>
#include <string.h>
#include <unistd.h>

#define WHOLE(buffer) (buffer), sizeof(buffer)

/* ---- tell.c: what is said, and room for what must not be told */
struct text {
    size_t length;
    char bytes[4096];
};
extern const char *program;                                            /* its name */
enum { DONE = 0, NO = 1, REFUSED = 2 };                                /* exit status */
_Noreturn void leave(int status);                                      /* wipes the keys, and ends the program */
_Noreturn void refuse(enum she_answer answer, const char *why, ...);   /* a line on standard error; what new_file made is removed */
void add(struct text *text, const char *format, ...);
void add_hex(struct text *text, const uint8_t *bytes, size_t count);
int new_file(const char *prefix, int number);                          /* PREFIX.m1 to m3; standard output if the prefix is null */
bool write_text(int file, const struct text *text);
void print(int file, const struct text *text);
void print_hex(int file, const uint8_t *bytes, size_t count);          /* a line */
void *secret(size_t size);                                             /* zeroed room for keys */
uint8_t wiped(uint8_t answer);                                         /* a library's, when the stack that it took is wiped */

/* ---- words.c: slots, flags, numbers and digits, each with one spelling */
extern const char *const slot_names[SHE_SLOTS + 1], hex_digits[];
char *next_word(char **at, const char *between);                       /* cut out of a text, in which the place moves on */
bool is_number(const char *word, uint32_t *number);
bool is_hex(const char *word, uint8_t *bytes, size_t count);           /* just as many digits, which are read */
uint32_t find_slot(const char *word);                                  /* by its number or name; SHE_SLOTS for another word */
uint32_t slot_of(const char *word);                                    /* likewise, but another word is refused */
uint32_t find_flag(const char *word);                                  /* by its name; 0 for another word */
uint32_t flags_of(char **words);                                       /* up to a null; another word, or one twice, is refused */
void add_flags(struct text *text, uint32_t flags);

/* ---- input.c: bytes in hexadecimal digits, and texts from outside; what isn't right is refused */
void take_bytes(const char *what, const char *word, uint8_t *bytes, size_t count); /* digits, or from where take_key has them */
void take_key(const char *what, const char *path, uint8_t *key);       /* - is standard input; null has the system make one */
void end_of_input(void);                                               /* no word may be left on standard input */
char *read_text(const char *what, const char *path, int file, struct text *text);

/* ---- store.c: a file that is locked until the program ends, and replaced whole */
void lock_file(const char *path);
void read_locked(struct text *text);
void save_locked(const struct text *text, bool is_new);                /* a new one must not be there yet */

/* ---- book.c: the foreman's book as a text */
enum { TIME = 20 };                  /* characters of 2026-11-16T08:05:12Z */
struct book {
    struct garage_book garage;
    uint32_t flags[SHE_SLOTS];       /* of the message that waits */
    char since[SHE_SLOTS][TIME + 1]; /* when it was written */
};
struct book *open_book(const char *path);
void save_book(const struct book *book, bool is_new);
void add_book(struct text *text, const struct book *book, bool shows_keys);

/* ---- command.c: a command line, its verb, and the help */
enum { HELP, MOST_OPTIONS = 4 };                                       /* the first option of every program */
extern const char *given[MOST_OPTIONS];                                /* an option's value, "" if it has none; null if not given */
struct verb {
    const char *name;
    int least, most;                                                   /* words */
    unsigned options;                                                  /* those that it takes, a bit each */
    void (*perform)(char **words);                                     /* a null follows the last */
    const char *help;                                                  /* its first line is the usage */
};
_Noreturn void command(const char *name, const char *about, const struct verb *verbs, const struct option *options, int count,
                       char **words);

#endif
