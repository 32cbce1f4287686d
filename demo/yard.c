/* A day in the yard: the museum workshop brings a board to life, gives it its keys, and the board does its work and refuses what is
 * wrong. What the boards do goes through include/she.h, as in firmware; the sender's side, the foreman with his books, goes through
 * include/garage.h.
 *
 * Each step says what was asked, what the board answered, and whether that is as it should be. The program writes the same
 * lines on every machine, and its status is 0 only where nothing was otherwise than it should be. */
#include "garage.h"
#include "she.h"

#include <stdio.h>
#include <string.h>

static int surprises;

/* ---- telling */

static const char *const answers[] = {
    "done",          "out of turn",      "key locked",         "no such slot, role or pair", "slot empty", "no secure boot",
    "write-locked",  "message refused",  "no random numbers",  "no debugging",               "busy",       "memory failure",
    "wrong length or not made",
};

static void hour(const char *time, const char *what) { printf("\n%s  %s\n", time, what); }

/* What was asked, and the answer, which should be the one given. */
static void step(const char *asked, uint8_t answer, enum she_answer wanted)
{
    int fine = answer == wanted;
    printf("       %-62s %2d %s%s\n", asked, answer, answer <= SHE_GENERAL_ERROR ? answers[answer] : "no answer of the table",
           fine ? "" : "   <-- NOT AS IT SHOULD BE");
    surprises += !fine;
}

static void note(const char *what, int holds)
{
    printf("       %-62s    %s\n", what, holds ? "yes" : "NO   <-- NOT AS IT SHOULD BE");
    surprises += !holds;
}

static void bytes(const char *name, const uint8_t *data, size_t count)
{
    printf("       %-10s", name);
    for (size_t i = 0; i < count; i++)
        printf("%02x", data[i]);
    printf("\n");
}

/* ---- the boards, and what the foreman has in his safe: a book about each, and the keys that they are to get */

static struct she_device bus_12, bus_7;
static struct garage_book book_12, book_7;

static const uint8_t uid_12[SHE_UID] = {'b', 'u', 's', ' ', '1', '2', 0, 0, 0, 0, 0, 0, 0, 0, 1};
static const uint8_t uid_7[SHE_UID] = {'b', 'u', 's', ' ', '7', 0, 0, 0, 0, 0, 0, 0, 0, 0, 2};
static const uint8_t secret_12[SHE_BLOCK] = "from the factory", secret_7[SHE_BLOCK] = "another of these";
static const uint8_t seed_12[SHE_BLOCK] = "first dice throw", seed_7[SHE_BLOCK] = "next throw of it";
static const uint8_t empty_key[SHE_BLOCK] = {255, 255, 255, 255, 255, 255, 255, 255, 255, 255, 255, 255, 255, 255, 255, 255};
static const uint8_t master[SHE_BLOCK] = "the master's key", new_master[SHE_BLOCK] = "one master later";
static const uint8_t door[SHE_BLOCK] = "opens the doors.", brake[SHE_BLOCK] = "stops the wheels";
static const uint8_t horn[SHE_BLOCK] = "for all our horn";
static const uint8_t guest[SHE_BLOCK] = "for today only..", boot[SHE_BLOCK] = "checks our start";

enum { DOOR_SLOT = SHE_KEY_1, BRAKE_SLOT, HORN_SLOT };

/* ---- key messages: three from the foreman to the board, and two back */

struct letter {
    uint8_t m1[16], m2[32], m3[16];
};
struct receipt {
    uint8_t m4[32], m5[16];
};

#define WHOLE(buffer) (buffer), sizeof(buffer)

/* The counter is the book's to know. */
static uint8_t write_letter(struct letter *out, struct garage_book *book, uint32_t target, uint32_t authority, uint32_t flags,
                            const uint8_t *key)
{
    return garage_write(book, target, authority, flags, key, SHE_BLOCK, WHOLE(out->m1), WHOLE(out->m2), WHOLE(out->m3));
}

static uint8_t deliver(struct she_device *board, const struct letter *in, struct receipt *back)
{
    return she_load_key(board, WHOLE(in->m1), WHOLE(in->m2), WHOLE(in->m3), WHOLE(back->m4), WHOLE(back->m5));
}

/* What the book says of a receipt, 1 or 0. From a yes on it has the new key, with which the next letter may be written. */
static uint8_t verdict_on(const struct receipt *back, struct garage_book *book, uint32_t target)
{
    uint8_t verdict;
    return garage_judge(book, target, WHOLE(back->m4), WHOLE(back->m5), &verdict) == SHE_NO_ERROR ? verdict : 0xff;
}

static void judge(const struct receipt *back, struct garage_book *book, uint32_t target)
{
    note("the board's receipt, M4 and M5, is what the book expects", verdict_on(back, book, target) == 1);
}

/* A key is written, delivered, and its receipt judged. */
static void bring(const char *what, struct she_device *board, struct garage_book *book, uint32_t target, uint32_t authority,
                  uint32_t flags, const uint8_t *key)
{
    struct letter letter;
    struct receipt back;
    write_letter(&letter, book, target, authority, flags, key);
    step(what, deliver(board, &letter, &back), SHE_NO_ERROR);
    judge(&back, book, target);
}

/* A letter that must be refused, and nothing may change by it: neither the board nor the paper for the receipt. */
static void turned_away(const char *what, const struct letter *letter, enum she_answer wanted)
{
    struct she_device before = bus_12;
    struct receipt back, blank;
    memset(&back, 0xaa, sizeof back);
    memset(&blank, 0xaa, sizeof blank);
    step(what, deliver(&bus_12, letter, &back), wanted);
    note("board and receipt are as they were",
         memcmp(&bus_12, &before, sizeof before) == 0 && memcmp(&back, &blank, sizeof back) == 0);
}

/* ---- the day */

static void boards_are_made(void)
{
    uint8_t status = 0xff;
    hour("07:00", "Two boards come from the bench, without any key but their own.");
    step("bus 12: make a board", she_make(&bus_12, WHOLE(uid_12), WHOLE(secret_12), WHOLE(seed_12)), SHE_NO_ERROR);
    step("bus 7: make a board", she_make(&bus_7, WHOLE(uid_7), WHOLE(secret_7), WHOLE(seed_7)), SHE_NO_ERROR);
    step("bus 12: what is your status?", she_get_status(&bus_12, &status), SHE_NO_ERROR);
    note("the status is 0", status == 0);
}

/* The boards are new, so there is nothing to tell of them but who they are. The counters are counted in numbers. */
static uint8_t open_book(struct garage_book *book, const uint8_t *uid, she_length uid_len)
{
    static const uint8_t no_keys[GARAGE_KEYS], none_held[SHE_SLOTS];
    static const uint32_t no_counters[GARAGE_COUNTERS];
    return garage_open(book, uid, uid_len, WHOLE(no_keys), WHOLE(none_held), no_counters, GARAGE_COUNTERS);
}

static void books_are_opened(void)
{
    hour("07:15", "The foreman opens a book about each: its UID, no key yet, and no letter that waits for a receipt.");
    step("a book about bus 12", open_book(&book_12, WHOLE(uid_12)), SHE_NO_ERROR);
    step("a book about bus 7", open_book(&book_7, WHOLE(uid_7)), SHE_NO_ERROR);
}

static struct letter master_letter;

static void keys_come_in(void)
{
    struct receipt back;
    hour("07:30", "The foreman's letters: a master key first, and under it the key for the doors.");
    write_letter(&master_letter, &book_12, SHE_MASTER_ECU_KEY, SHE_MASTER_ECU_KEY, 0, master);
    bytes("M1", WHOLE(master_letter.m1));
    bytes("M2", WHOLE(master_letter.m2));
    bytes("M3", WHOLE(master_letter.m3));
    step("bus 12: take the master key", deliver(&bus_12, &master_letter, &back), SHE_NO_ERROR);
    bytes("M4", WHOLE(back.m4));
    bytes("M5", WHOLE(back.m5));
    judge(&back, &book_12, SHE_MASTER_ECU_KEY);
    bring("bus 7: take the same master key", &bus_7, &book_7, SHE_MASTER_ECU_KEY, SHE_MASTER_ECU_KEY, 0, master);
    bring("bus 12: take the door key, for signing", &bus_12, &book_12, DOOR_SLOT, SHE_MASTER_ECU_KEY, SHE_KEY_USAGE, door);
}

static uint8_t write_brake_letter(struct letter *out)
{
    return write_letter(out, &book_12, BRAKE_SLOT, SHE_MASTER_ECU_KEY, SHE_KEY_USAGE + SHE_DEBUGGER, brake);
}

static void letter_is_lost(void)
{
    struct letter lost, letter;
    struct receipt back;
    hour("08:00", "The brake key has bad luck: its letter doesn't arrive, and its receipt doesn't arrive whole.");
    step("the book: a letter with the brake key", write_brake_letter(&lost), SHE_NO_ERROR);
    step("it is lost on the way; the book: the letter anew", write_brake_letter(&letter), SHE_NO_ERROR);
    note("that is the same letter, byte for byte", memcmp(&lost, &letter, sizeof letter) == 0);
    step("bus 12: take the brake key, locked while a debugger looks", deliver(&bus_12, &letter, &back), SHE_NO_ERROR);
    back.m5[7] ^= 1;
    note("the receipt with one bit changed on the way: the book says no", verdict_on(&back, &book_12, BRAKE_SLOT) == 0);
    back.m5[7] ^= 1;
    judge(&back, &book_12, BRAKE_SLOT);
    note("the same receipt once more: the book says no", verdict_on(&back, &book_12, BRAKE_SLOT) == 0);
}

static void doors_are_opened(void)
{
    uint8_t message[16] = "open door 2 @14", mac[16], verdict;
    hour("09:00", "The bus leaves. Its doors believe only what is signed.");
    step("sign 'open door 2 @14' with the door key",
         she_generate_mac(&bus_12, DOOR_SLOT, 8 * sizeof message, WHOLE(message), WHOLE(mac)), SHE_NO_ERROR);
    bytes("MAC", WHOLE(mac));
    step("is that the door key's MAC?",
         she_verify_mac(&bus_12, DOOR_SLOT, 8 * sizeof message, WHOLE(message), WHOLE(mac), 0, &verdict), SHE_NO_ERROR);
    note("verdict: yes", verdict == 1);
    message[10] = '1';
    step("and of 'open door 1 @14'?",
         she_verify_mac(&bus_12, DOOR_SLOT, 8 * sizeof message, WHOLE(message), WHOLE(mac), 0, &verdict), SHE_NO_ERROR);
    note("verdict: no", verdict == 0);
    step("encipher with the door key, which is for signing only",
         she_enc_ecb(&bus_12, DOOR_SLOT, WHOLE(message), WHOLE(mac)), SHE_KEY_INVALID);
}

static void wrong_letters(void)
{
    struct letter letter, untouched;
    struct garage_book before = book_12;
    hour("11:00", "A slip of the pen: a key for slot 0x11. The old device read that as slot 1, the master key.");
    memset(&letter, 0x55, sizeof letter);
    memset(&untouched, 0x55, sizeof untouched);
    step("the book: a letter for slot 0x11 by 0x11", write_letter(&letter, &book_12, 0x11, 0x11, 0, new_master), SHE_KEY_INVALID);
    note("nothing was written, and the book is as it was",
         memcmp(&letter, &untouched, sizeof letter) == 0 && memcmp(&book_12, &before, sizeof before) == 0);
    step("sign with slot 0x104, which is not slot 4",
         she_generate_mac(&bus_12, 0x104, 128, WHOLE(letter.m1), WHOLE(letter.m3)), SHE_KEY_INVALID);

    hour("11:30", "Letters that should not work.");
    turned_away("the morning's master letter, once more", &master_letter, SHE_KEY_UPDATE_ERROR);
    write_letter(&letter, &book_7, SHE_MASTER_ECU_KEY, SHE_MASTER_ECU_KEY, 0, new_master);
    turned_away("a letter for bus 7, at bus 12", &letter, SHE_KEY_UPDATE_ERROR);
    write_letter(&letter, &book_12, SHE_MASTER_ECU_KEY, SHE_MASTER_ECU_KEY, 0, new_master);
    letter.m2[20] ^= 1;
    turned_away("a good letter with one bit changed on the way", &letter, SHE_KEY_UPDATE_ERROR);
    letter.m2[20] ^= 1;
    letter.m1[15] = 0x15;
    turned_away("a good letter, readdressed to a pair that is not allowed", &letter, SHE_KEY_INVALID);
}

/* A letter for every board is in no book, so the foreman compares the receipts himself. */
static int is_horn_receipt(const struct receipt *back, const uint8_t *uid)
{
    struct receipt expected;
    return she_write_proof(uid, SHE_UID, HORN_SLOT, HORN_SLOT, 1, WHOLE(horn), WHOLE(expected.m4), WHOLE(expected.m5)) == 0
           && memcmp(back, &expected, sizeof expected) == 0;
}

static void one_letter_for_all(void)
{
    struct letter letter;
    struct receipt back;
    hour("13:00", "One letter for the whole fleet: the horn's key.");
    step("the fleet sheet",
         she_fleet_sheet(HORN_SLOT, HORN_SLOT, WHOLE(empty_key), 1, WHOLE(horn), WHOLE(letter.m1), WHOLE(letter.m2),
                         WHOLE(letter.m3)),
         SHE_NO_ERROR);
    step("bus 12 takes it", deliver(&bus_12, &letter, &back), SHE_NO_ERROR);
    note("and signs for bus 12", is_horn_receipt(&back, uid_12));
    step("bus 7 takes it", deliver(&bus_7, &letter, &back), SHE_NO_ERROR);
    note("and signs for bus 7", is_horn_receipt(&back, uid_7));
}

static void random_numbers(void)
{
    uint8_t first[16], second[16];
    hour("14:00", "Dice.");
    step("a random number, before they are started", she_rnd(&bus_12, WHOLE(first)), SHE_RNG_SEED);
    step("start the random numbers", she_init_rng(&bus_12), SHE_NO_ERROR);
    step("start them again", she_init_rng(&bus_12), SHE_SEQUENCE_ERROR);
    step("a random number", she_rnd(&bus_12, WHOLE(first)), SHE_NO_ERROR);
    step("and another", she_rnd(&bus_12, WHOLE(second)), SHE_NO_ERROR);
    note("they differ", memcmp(first, second, sizeof first) != 0);
}

static void debugger_looks(void)
{
    uint8_t message[16] = "brake gently now", mac[16];
    hour("15:00", "An apprentice plugs in a debugger.");
    step("sign with the brake key, before",
         she_generate_mac(&bus_12, BRAKE_SLOT, 8 * sizeof message, WHOLE(message), WHOLE(mac)), SHE_NO_ERROR);
    step("a debugger is attached", she_attach_debugger(&bus_12), SHE_NO_ERROR);
    step("sign with the brake key",
         she_generate_mac(&bus_12, BRAKE_SLOT, 8 * sizeof message, WHOLE(message), WHOLE(mac)), SHE_KEY_NOT_AVAILABLE);
}

static void power_cycle(void)
{
    uint8_t text[16] = "a guest's ticket", cipher[16], plain[16], status = 0xff;
    struct letter letter;
    struct receipt back;
    hour("17:00", "A key for today only, put aside, and the power goes.");
    step("load a plain key", she_load_plain_key(&bus_12, WHOLE(guest)), SHE_NO_ERROR);
    step("encipher with it", she_enc_ecb(&bus_12, SHE_RAM_KEY, WHOLE(text), WHOLE(cipher)), SHE_NO_ERROR);
    step("export it, sealed",
         she_export_ram_key(&bus_12, WHOLE(letter.m1), WHOLE(letter.m2), WHOLE(letter.m3), WHOLE(back.m4), WHOLE(back.m5)),
         SHE_NO_ERROR);
    step("power off and on", she_reset(&bus_12), SHE_NO_ERROR);
    step("what is your status?", she_get_status(&bus_12, &status), SHE_NO_ERROR);
    note("the status is 0: no debugger, no random numbers", status == 0);
    step("decipher with today's key", she_dec_ecb(&bus_12, SHE_RAM_KEY, WHOLE(cipher), WHOLE(plain)), SHE_KEY_EMPTY);
    step("load it again from the sealed letter", deliver(&bus_12, &letter, &back), SHE_NO_ERROR);
    step("decipher with today's key", she_dec_ecb(&bus_12, SHE_RAM_KEY, WHOLE(cipher), WHOLE(plain)), SHE_NO_ERROR);
    note("the text is back", memcmp(text, plain, sizeof text) == 0);
    step("sign with the brake key again",
         she_generate_mac(&bus_12, BRAKE_SLOT, 8 * sizeof text, WHOLE(text), WHOLE(plain)), SHE_NO_ERROR);
}

/* What the board runs, and what somebody made of it. Firmware would lend the flash that has its program. */
static const uint8_t program[] = "for (;;) if ( is_signed(order)) open(door);";
static const uint8_t changed[] = "for (;;) if (!is_signed(order)) open(door);";

static void boot_key_comes_in(void)
{
    hour("18:00", "From tonight on, a start with a changed program shall lock the door key. Two letters prepare that.");
    step("bus 12: check your program, before there is a boot key", she_secure_boot(&bus_12, WHOLE(program)), SHE_NO_SECURE_BOOT);
    bring("bus 12: take the boot key", &bus_12, &book_12, SHE_BOOT_MAC_KEY, SHE_MASTER_ECU_KEY, 0, boot);
    bring("bus 12: take the door key anew, locked after a bad start", &bus_12, &book_12, DOOR_SLOT, SHE_MASTER_ECU_KEY,
          SHE_KEY_USAGE + SHE_BOOT, door);
}

/* The loader, which runs first, has the program checked that it is about to start. The answer is 0 whatever the check finds: what
 * that is, the status tells. */
static void start(const char *asked, const uint8_t *code, she_length size, const char *found, uint8_t wanted)
{
    uint8_t status = 0;
    step("power off and on", she_reset(&bus_12), SHE_NO_ERROR);
    step(asked, she_secure_boot(&bus_12, code, size), SHE_NO_ERROR);
    note(found, she_get_status(&bus_12, &status) == SHE_NO_ERROR && status == wanted);
}

static void good_start(void)
{
    start("check the program", WHOLE(program), "the status: checked and found good", SHE_STATUS_SECURE_BOOT + SHE_STATUS_BOOT_OK);
}

static uint8_t sign_order(uint32_t slot)
{
    uint8_t order[16] = "open door 2 @14", mac[16];
    return she_generate_mac(&bus_12, slot, 8 * sizeof order, WHOLE(order), WHOLE(mac));
}

static void program_is_learnt(void)
{
    hour("18:30", "The first start with the boot key: the board learns its program.");
    start("check the program", WHOLE(program), "the status: nothing to compare with, so it was learnt", SHE_STATUS_BOOT_INIT);
    step("check it again, within the same start", she_secure_boot(&bus_12, WHOLE(program)), SHE_SEQUENCE_ERROR);
}

static void later_stage_fails(void)
{
    hour("19:00", "A start like any other, but the timetable is damaged.");
    good_start();
    step("sign with the door key", sign_order(DOOR_SLOT), SHE_NO_ERROR);
    step("a later stage reads the timetable, and reports a failure", she_boot_failure(&bus_12), SHE_NO_ERROR);
    step("sign with the door key", sign_order(DOOR_SLOT), SHE_KEY_NOT_AVAILABLE);
}

static void program_is_changed(void)
{
    hour("20:00", "Somebody has changed one byte of the program. The doors would open for every order that is not signed.");
    start("check the changed program", WHOLE(changed), "the status: checked and found bad",
          SHE_STATUS_SECURE_BOOT + SHE_STATUS_BOOT_FINISHED);
    step("sign with the door key", sign_order(DOOR_SLOT), SHE_KEY_NOT_AVAILABLE);
    step("sign with the brake key, which works after any start", sign_order(BRAKE_SLOT), SHE_NO_ERROR);
}

static void program_is_put_back(void)
{
    hour("20:30", "The right program is put back, and a new timetable with it.");
    good_start();
    step("the later stages report that all went well", she_boot_ok(&bus_12), SHE_NO_ERROR);
    step("sign with the door key", sign_order(DOOR_SLOT), SHE_NO_ERROR);
}

/* All keys lie open in a book, so none is left lying about. An opening that is refused wipes it, which no compiler leaves out. */
static void wipe(const char *asked, struct garage_book *book)
{
    struct garage_book blank;
    memset(&blank, 0, sizeof blank);
    step(asked, open_book(book, uid_12, 0), SHE_GENERAL_ERROR);
    note("no byte of it is left", memcmp(book, &blank, sizeof blank) == 0);
}

static void books_are_put_away(void)
{
    hour("21:00", "The books go back into the safe, and what lies on the desk is wiped, by an opening without a UID.");
    wipe("the book about bus 12", &book_12);
    wipe("the book about bus 7", &book_7);
}

int main(void)
{
    printf("A day in the yard. Each line: what was asked, the answer's number, and what it means.\n");
    boards_are_made();
    books_are_opened();
    keys_come_in();
    letter_is_lost();
    doors_are_opened();
    wrong_letters();
    one_letter_for_all();
    random_numbers();
    debugger_looks();
    power_cycle();
    boot_key_comes_in();
    program_is_learnt();
    later_stage_fails();
    program_is_changed();
    program_is_put_back();
    books_are_put_away();
    printf("\nThe day is over; %d things were not as they should be.\n", surprises);
    return surprises == 0 ? 0 : 1;
}
