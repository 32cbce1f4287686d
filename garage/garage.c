/* The foreman's verbs. What comes from outside is read before the book is locked; and a book that has changed is saved before
 * anything is printed, so that no message exists that the book doesn't know. */
#include "command.h"

#include <time.h>

enum { KEY = HELP + 1, TO, KEYS };
static const struct option options[] = {{"help", no_argument, NULL, HELP}, {"key", required_argument, NULL, KEY},
                                        {"to", required_argument, NULL, TO}, {"keys", no_argument, NULL, KEYS}, {0}};

/* SLOT@COUNTER, SLOT@COUNTER=FILE, or SLOT=FILE for one that has no counter. Nobody may guess a counter, so none may be missing. */
static void take_known(const char *word, struct garage_book *known)
{
    static uint8_t named[SHE_SLOTS];
    char *file = strcpy(secret(strlen(word) + 1), word), *counter = strsep(&file, "="); /* each null if its sign isn't there */
    uint32_t slot = slot_of(strsep(&counter, "@"));
    bool has_counter = slot != SHE_SECRET_KEY && slot != SHE_RAM_KEY;
    if (named[slot]++ > 0)
        refuse(SHE_GENERAL_ERROR, "%s is named twice", slot_names[slot]);
    if (has_counter ? counter == NULL : counter != NULL || file == NULL)
        refuse(SHE_GENERAL_ERROR, "'%.99s' should be %s%s", word, slot_names[slot], has_counter ? "@COUNTER[=FILE]" : "=FILE");
    if (has_counter && (!is_number(counter, &known->counters[slot]) || known->counters[slot] > SHE_MAX_COUNTER))
        refuse(SHE_GENERAL_ERROR, "'%.200s' is no counter: a counter is a number from 0 to %d", counter, SHE_MAX_COUNTER);
    known->held[slot] = file != NULL;
    if (file != NULL)
        take_key(slot_names[slot], file, known->keys + SHE_BLOCK * slot);
}

static void new_book(char **words)
{
    struct garage_book *known = secret(sizeof *known);
    struct book *book = secret(sizeof *book);
    take_bytes("the UID", words[1], known->uid, SHE_UID);
    for (int i = 2; words[i] != NULL; i++)
        take_known(words[i], known);
    uint8_t answer = wiped(garage_open(&book->garage, known->uid, SHE_UID, known->keys, GARAGE_KEYS, known->held, SHE_SLOTS,
                                       known->counters + SHE_MASTER_ECU_KEY, GARAGE_COUNTERS));
    if (answer != SHE_NO_ERROR)
        refuse(answer, "no bus has a UID of zeros");
    lock_file(words[0]);
    save_book(book, true);
}

static void show_book(char **words)
{
    struct text *text = secret(sizeof *text);
    add_book(text, open_book(words[0]), given[KEYS] != NULL);
    print(STDOUT_FILENO, text);
}

static const char *const why_not[] = {
    [SHE_KEY_INVALID] = "no key message has that target and that authority",
    [SHE_KEY_EMPTY] = "the book has no key for that authority, or no proof of it yet",
    [SHE_KEY_UPDATE_ERROR] = "the counter of that target is used up",
    [SHE_GENERAL_ERROR] = "the library refuses it",
};

static void time_now(char text[TIME + 1])
{
    time_t now = time(NULL);
    const struct tm *parts = gmtime(&now);
    if (parts == NULL || strftime(text, TIME + 1, "%Y-%m-%dT%H:%M:%SZ", parts) != TIME)
        refuse(SHE_GENERAL_ERROR, "the clock of this machine shows no year of four digits");
}

/* Without a key the one that waits is taken, if one does: so who repeats a command gets the same message again, and no key that the
 * bus may have taken is forgotten. The files are made first, so that a name that can't be had refuses all of it. */
static void write_message(char **words)
{
    uint32_t target = slot_of(words[1]), authority = slot_of(words[2]), flags = flags_of(words + 3);
    uint8_t *key = secret(SHE_BLOCK), m1[SHE_BLOCK], m2[SHE_TWO_BLOCKS], m3[SHE_BLOCK];
    take_key("the new key", given[KEY], key);
    int files[3];
    for (int i = 0; i < 3; i++)
        files[i] = new_file(given[TO], i + 1);
    struct book *book = open_book(words[0]);
    struct garage_book *garage = &book->garage;
    const uint8_t *waiting_key = garage->newkeys + SHE_BLOCK * target;
    bool one_waits = garage->waits[target];
    if (one_waits && given[KEY] == NULL)
        memcpy(key, waiting_key, SHE_BLOCK);
    bool this_waits = one_waits && garage->authorities[target] == authority && book->flags[target] == flags
                   && memcmp(waiting_key, key, SHE_BLOCK) == 0;
    uint8_t answer = wiped(garage_write(garage, target, authority, flags, key, SHE_BLOCK, WHOLE(m1), WHOLE(m2), WHOLE(m3)));
    if (answer != SHE_NO_ERROR)
        refuse(answer, "%s by %s: %s", slot_names[target], slot_names[authority], why_not[answer]);
    book->flags[target] = flags;
    if (!this_waits)
        time_now(book->since[target]);
    save_book(book, false);
    if (this_waits)
        fprintf(stderr, "garage: this is the message that waits for %s, once more\n", slot_names[target]);
    else if (one_waits)
        fprintf(stderr, "garage: this replaces what waited for %s, which must not be delivered any more\n", slot_names[target]);
    if (!garage->held[authority])
        fprintf(stderr, "garage: %s counts as empty, so whoever reads this message can read the key\n", slot_names[authority]);
    print_hex(files[0], WHOLE(m1));
    print_hex(files[1], WHOLE(m2));
    print_hex(files[2], WHOLE(m3));
}

static void judge_proof(char **words)
{
    uint32_t target = slot_of(words[1]);
    uint8_t m4[SHE_TWO_BLOCKS], m5[SHE_BLOCK], verdict;
    take_bytes("M4", words[2], WHOLE(m4));
    take_bytes("M5", words[3], WHOLE(m5));
    struct book *book = open_book(words[0]);
    uint8_t answer = wiped(garage_judge(&book->garage, target, WHOLE(m4), WHOLE(m5), &verdict));
    if (answer != SHE_NO_ERROR)
        refuse(answer, "%s is the target of no key message", slot_names[target]);
    if (verdict)
        save_book(book, false);
    print(STDOUT_FILENO, verdict ? &(struct text){4, "yes\n"} : &(struct text){3, "no\n"});
    if (!verdict && !book->garage.waits[target])
        fprintf(stderr, "garage: no message waits for %s\n", slot_names[target]);
    leave(verdict ? DONE : NO);
}

static const char about[] =
    "The foreman's book about one bus: writes key messages for it, and judges the proofs that come back.\n"
    "Status: 0 for done and for yes, 1 for no, 2 for a refusal, with a line that says why. For more, VERB --help:\n";

static const struct verb verbs[] = {
    {"new", 2, 2 + SHE_SLOTS, 1 << HELP, new_book,
     "garage new BOOK UID [SLOT..]\n\n"
     "Makes the book of one bus, a file that must not be there yet. UID has 30 hexadecimal digits. A new bus has no keys. If this\n"
     "one has some, each SLOT says what is known of one: the last counter, and a file with the key in 32 hexadecimal digits:\n"
     "    KEY_1@3=FILE        the counter and the key; the file - is standard input\n"
     "    KEY_1@3             the counter alone\n"
     "    SECRET_KEY=FILE     SECRET_KEY and RAM_KEY have no counter\n\n"
     "Example: garage new bus12.book 627573203132000000000000000001 MASTER_ECU_KEY@1=master.key\n"},
    {"show", 1, 1, 1 << HELP | 1 << KEYS, show_book,
     "garage show BOOK [--keys]\n\n"
     "Shows the UID and each slot: its last counter, whether its key is held, and the message that waits for its proof, with the\n"
     "time (UTC) when it was written, its counter, authority and flags. With --keys it shows the keys too.\n\n"
     "Example: garage show bus12.book\n"},
    {"write", 3, 3 + 5, 1 << HELP | 1 << KEY | 1 << TO, write_message,
     "garage write BOOK TARGET AUTHORITY [FLAG..] [--key FILE] [--to PREFIX]\n\n"
     "Writes the message that brings a new key into the slot TARGET, under the key that the book has for the slot AUTHORITY. The\n"
     "message is saved in the book, where it waits for its proof, and then printed: M1, M2 and M3, a line each. The same command\n"
     "once more prints the same message; another message for TARGET replaces it.\n"
     "Slots are 0 to 14, or SECRET_KEY, MASTER_ECU_KEY, BOOT_MAC_KEY, BOOT_MAC, KEY_1 to KEY_10, RAM_KEY.\n"
     "Flags are WILDCARD, KEY_USAGE, DEBUGGER, BOOT, WRITE.\n"
     "    --key FILE      the new key in 32 hexadecimal digits; - is standard input. Without it the key that waits for TARGET is\n"
     "                    taken, and if none waits, the system makes a random one\n"
     "    --to PREFIX     into the new files PREFIX.m1, PREFIX.m2 and PREFIX.m3\n\n"
     "Example: garage write bus12.book KEY_1 MASTER_ECU_KEY KEY_USAGE --to door\n"},
    {"judge", 4, 4, 1 << HELP, judge_proof,
     "garage judge BOOK TARGET M4 M5\n\n"
     "Prints yes if M4 and M5 are the proof that the bus has taken the message that waits for TARGET, and no if they aren't.\n"
     "From a yes on the book has the new key. M4 (64 hexadecimal digits) and M5 (32) are the digits themselves, or files with\n"
     "them; - is the next word of standard input.\n\n"
     "Example: garage judge bus12.book KEY_1 door.m4 door.m5\n"},
    {0},
};

int main(int count, char **words) { command("garage", about, verbs, options, count, words); }
