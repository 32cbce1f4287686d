/* words SEED COUNT: random words, most of them nearly right, into what reads words (garage/words.c), held to what else can be said of
 * them: a slot or a flag is one of a list of words, a number is what its digits say, digits are read as they would be written. The
 * status is 0 only where all agree, and each kind was met and missed often. */
#include "../../garage/command.h"

#include <stdlib.h>

#undef main /* which is the command's here */

static const char *const slot_words[] = {
    "SECRET_KEY", "MASTER_ECU_KEY", "BOOT_MAC_KEY", "BOOT_MAC", "KEY_1", "KEY_2", "KEY_3", "KEY_4", "KEY_5", "KEY_6",
    "KEY_7", "KEY_8", "KEY_9", "KEY_10", "RAM_KEY", "0", "1", "2", "3", "4", "5", "6", "7", "8", "9", "10", "11", "12", "13", "14",
};
static const char *const flag_words[] = {"WILDCARD", "KEY_USAGE", "DEBUGGER", "BOOT", "WRITE"};
static const char *const others[] = {"", "0x11", "017", "1x", "99999999999999999999", "4294967295", "4294967296", "268435456", "-1",
                                     "+1", " 1", "1 ", "15", "16", "0000", "key_1", "KEY_11", "KEY_", "deadBEEF", "00112233"};
enum { SLOT_WORDS = 30, FLAG_WORDS = 5, OTHERS = 20 };

static uint64_t state;

static uint32_t draw(uint32_t below) /* xorshift64* */
{
    state ^= state >> 12;
    state ^= state << 25;
    state ^= state >> 27;
    return (uint32_t)((state * 2685821657736338717u) >> 33) % below;
}

static void draw_word(char *word, size_t room)
{
    static const char letters[] = "0123456789abcdefABCDEFxX_KEYMAC+- @=,\n\t\x01\x7f\xff";
    uint32_t from = draw(SLOT_WORDS + FLAG_WORDS + OTHERS + 20);
    const char *start = from < SLOT_WORDS                         ? slot_words[from]
                      : from < SLOT_WORDS + FLAG_WORDS            ? flag_words[from - SLOT_WORDS]
                      : from < SLOT_WORDS + FLAG_WORDS + OTHERS ? others[from - SLOT_WORDS - FLAG_WORDS] : "";
    snprintf(word, room, "%s", start);
    if (*start == '\0')
        for (uint32_t i = 0, length = draw(12), only = draw(2) ? 10 : sizeof letters - 1; i < length; i++)
            word[i] = letters[draw(only)], word[i + 1] = '\0';
    for (uint32_t edits = draw(3); edits > 0; edits--) {
        size_t length = strlen(word), at = draw((uint32_t)length + 1);
        char letter = letters[draw(sizeof letters - 1)];
        switch (draw(3)) {
        case 0: /* put in */
            if (length + 2 < room) {
                memmove(word + at + 1, word + at, length - at + 1);
                word[at] = letter;
            }
            break;
        case 1: /* take out */
            if (at < length)
                memmove(word + at, word + at + 1, length - at);
            break;
        default: /* change */
            if (at < length)
                word[at] = letter;
        }
    }
}

static bool should_be_number(const char *word)
{
    size_t length = strlen(word);
    for (size_t i = 0; i < length; i++)
        if (word[i] < '0' || word[i] > '9')
            return false;
    return length > 0 && (length == 1 || word[0] != '0') && (length < 10 || (length == 10 && strcmp(word, "4294967295") <= 0));
}

static bool should_be_hex(const char *word, size_t count)
{
    for (const char *at = word; *at != '\0'; at++)
        if (!((*at >= '0' && *at <= '9') || (*at >= 'a' && *at <= 'f') || (*at >= 'A' && *at <= 'F')))
            return false;
    return strlen(word) == 2 * count;
}

static uint32_t place(const char *word, const char *const *words, uint32_t count)
{
    for (uint32_t i = 0; i < count; i++)
        if (strcmp(word, words[i]) == 0)
            return i;
    return count;
}

static void held(bool fine, const char *what, const char *word)
{
    if (!fine) {
        printf("words: '%s' is read wrongly as a %s\n", word, what);
        exit(1);
    }
}

int main(int count, char **words)
{
    uint32_t seen[4][2] = {{0}};
    state = count > 1 ? strtoull(words[1], NULL, 10) * 2 + 1 : 1;
    long total = count > 2 ? strtol(words[2], NULL, 10) : 400000;
    for (long i = 0; i < total; i++) {
        char word[64];
        draw_word(word, sizeof word);
        uint32_t slot = place(word, slot_words, SLOT_WORDS), flag = place(word, flag_words, FLAG_WORDS), number = 0;
        held(find_slot(word) == (slot == SLOT_WORDS ? SHE_SLOTS : slot % SHE_SLOTS), "slot", word);
        held(find_flag(word) == (flag == FLAG_WORDS ? 0 : 1u << flag), "flag", word);
        bool is_right = should_be_number(word);
        held(is_number(word, &number) == is_right && (!is_right || number == strtoull(word, NULL, 10)), "number", word);
        uint8_t bytes[4] = {1, 2, 3, 4};
        size_t length = strlen(word) / 2 > 4 ? 4 : strlen(word) / 2;
        bool is_digits = should_be_hex(word, length);
        held(is_hex(word, bytes, length) == is_digits, "row of digits", word);
        for (size_t j = 0; is_digits && j < length; j++)
            held(strtoul((char[]){word[2 * j], word[2 * j + 1], '\0'}, NULL, 16) == bytes[j], "row of digits", word);
        seen[0][slot < SLOT_WORDS]++, seen[1][flag < FLAG_WORDS]++, seen[2][is_right]++, seen[3][is_digits && length > 0]++;
    }
    for (int kind = 0; kind < 4; kind++)
        if (seen[kind][0] < total / 100 || seen[kind][1] < total / 100)
            return printf("words: too few of kind %d: %u and %u\n", kind, seen[kind][0], seen[kind][1]), 1;
    printf("%ld random words, %u of them slots, %u flags, %u numbers, %u rows of digits, all read as what they are\n", total,
           seen[0][1], seen[1][1], seen[2][1], seen[3][1]);
    return 0;
}
