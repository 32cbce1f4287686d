/* What words mean. Slots, flags, numbers and digits have one spelling each, and what is spelt otherwise is none of them: nothing is
 * skipped, cut or guessed. */
#include "command.h"

#include <stdlib.h>

const char hex_digits[] = "0123456789abcdefABCDEF";
const char *const slot_names[SHE_SLOTS + 1] = {
    "SECRET_KEY", "MASTER_ECU_KEY", "BOOT_MAC_KEY", "BOOT_MAC", "KEY_1", "KEY_2",  "KEY_3",   "KEY_4",
    "KEY_5",      "KEY_6",          "KEY_7",        "KEY_8",    "KEY_9", "KEY_10", "RAM_KEY", "none",
};

static const char *const flag_names[] = {"WILDCARD", "KEY_USAGE", "DEBUGGER", "BOOT", "WRITE", NULL}; /* place i counts 2^i */

char *next_word(char **at, const char *between)
{
    char *word = *at + strspn(*at, between);
    *at = word + strcspn(word, between);
    if (**at != '\0')
        *(*at)++ = '\0';
    return word;
}

bool is_number(const char *word, uint32_t *number)
{
    char spelt[16];
    *number = (uint32_t)strtoul(word, NULL, 10);
    snprintf(spelt, sizeof spelt, "%" PRIu32, *number);
    return strcmp(word, spelt) == 0;
}

bool is_hex(const char *word, uint8_t *bytes, size_t count)
{
    if (strlen(word) != 2 * count || strspn(word, hex_digits) != 2 * count)
        return false;
    for (size_t i = 0; i < count; i++)
        sscanf(word + 2 * i, "%2" SCNx8, bytes + i);
    return true;
}

uint32_t find_slot(const char *word)
{
    uint32_t slot;
    if (is_number(word, &slot))
        return slot < SHE_SLOTS ? slot : SHE_SLOTS;
    for (slot = 0; slot < SHE_SLOTS && strcmp(word, slot_names[slot]) != 0; slot++)
        continue;
    return slot;
}

uint32_t slot_of(const char *word)
{
    uint32_t slot = find_slot(word);
    if (slot == SHE_SLOTS)
        refuse(SHE_KEY_INVALID, "'%.99s' is no slot: slots are 0 to 14, or by name MASTER_ECU_KEY, KEY_1 and so on", word);
    return slot;
}

uint32_t find_flag(const char *word)
{
    for (int place = 0; flag_names[place] != NULL; place++)
        if (strcmp(word, flag_names[place]) == 0)
            return 1u << place;
    return 0;
}

uint32_t flags_of(char **words)
{
    uint32_t flags = 0;
    for (; *words != NULL; words++) {
        uint32_t flag = find_flag(*words);
        if (flag == 0 || (flags & flag) != 0)
            refuse(SHE_GENERAL_ERROR, "'%.200s' is there twice, or no flag: WILDCARD, KEY_USAGE, DEBUGGER, BOOT, WRITE", *words);
        flags |= flag;
    }
    return flags;
}

void add_flags(struct text *text, uint32_t flags)
{
    if (flags == 0)
        add(text, "none");
    for (int place = 0; flag_names[place] != NULL; place++)
        if (flags & 1u << place)
            add(text, "%s%s", flags & ((1u << place) - 1) ? "+" : "", flag_names[place]);
}
