/* The foreman's book as a text. A text counts as a book only if it is, byte for byte, what would be written of the book that was
 * read from it, checksum and all. So the reading itself need not be strict, and nothing damaged, cut short or altered is taken. */
#include "command.h"

static const uint8_t zeros[SHE_TWO_BLOCKS];
static const char head[] = "garage book 1\n", between[] = " ,\n";

static void add_key(struct text *text, bool is_shown, const uint8_t *key, const char *otherwise)
{
    if (is_shown)
        add_hex(text, key, SHE_BLOCK);
    else
        add(text, "%s", otherwise);
}

void add_book(struct text *text, const struct book *book, bool shows_keys)
{
    const struct garage_book *garage = &book->garage;
    add(text, "uid ");
    add_hex(text, garage->uid, SHE_UID);
    for (uint32_t slot = 0; slot < SHE_SLOTS; slot++) {
        bool is_held = garage->held[slot];
        add(text, "\n%s: counter %" PRIu32 ", key ", slot_names[slot], garage->counters[slot]);
        add_key(text, is_held && shows_keys, garage->keys + SHE_BLOCK * slot, is_held ? "held" : "none");
        add(text, ", waiting %s", garage->waits[slot] ? "since " : "none");
        if (garage->waits[slot]) {
            add(text, "%s, counter %" PRIu32 ", key ", book->since[slot], garage->newcounters[slot]);
            add_key(text, shows_keys, garage->newkeys + SHE_BLOCK * slot, "new");
            add(text, ", by %s, flags ", slot_names[garage->authorities[slot]]);
            add_flags(text, book->flags[slot]);
        }
    }
    add(text, "\n");
}

/* What it is and of which version, its lines, and the CMAC of all that with a key of zeros, a checksum and nothing more. */
static struct text *text_of(const struct book *book)
{
    uint8_t mac[SHE_BLOCK];
    struct text *text = secret(sizeof *text);
    add(text, "%s", head);
    add_book(text, book, true);
    size_t whole_blocks = (text->length + SHE_BLOCK - 1) / SHE_BLOCK * SHE_BLOCK;
    wiped(she_cmac(zeros, SHE_BLOCK, 8 * text->length, (const uint8_t *)text->bytes, whole_blocks, WHOLE(mac)));
    add(text, "cmac ");
    add_hex(text, WHOLE(mac));
    add(text, "\n");
    return text;
}

/* The word behind the next one, if that is the expected one. */
static char *after(char **at, const char *expected)
{
    return strcmp(next_word(at, between), expected) == 0 ? next_word(at, between) : *at + strlen(*at);
}

static void read_slot(char **at, struct book *book, uint32_t slot)
{
    struct garage_book *garage = &book->garage;
    next_word(at, between); /* its name */
    is_number(after(at, "counter"), &garage->counters[slot]);
    garage->held[slot] = is_hex(after(at, "key"), garage->keys + SHE_BLOCK * slot, SHE_BLOCK);
    garage->waits[slot] = strcmp(after(at, "waiting"), "since") == 0;
    if (!garage->waits[slot])
        return;
    const char *since = next_word(at, between);
    snprintf(book->since[slot], sizeof book->since[slot], "%s", strspn(since, "0123456789-:TZ") == TIME ? since : "");
    is_number(after(at, "counter"), &garage->newcounters[slot]);
    is_hex(after(at, "key"), garage->newkeys + SHE_BLOCK * slot, SHE_BLOCK);
    garage->authorities[slot] = (uint8_t)find_slot(after(at, "by"));
    for (char *names = after(at, "flags"); *names != '\0';)
        book->flags[slot] |= find_flag(next_word(&names, "+"));
}

struct book *open_book(const char *path)
{
    struct book *book = secret(sizeof *book);
    struct text *text = secret(sizeof *text), *words = secret(sizeof *words);
    lock_file(path);
    read_locked(text);
    *words = *text;
    char *at = words->bytes + strlen(head);
    if (strncmp(text->bytes, head, strlen(head)) != 0)
        refuse(SHE_GENERAL_ERROR, "'%.200s' is no book of version 1", path);
    is_hex(after(&at, "uid"), book->garage.uid, SHE_UID);
    for (uint32_t slot = 0; slot < SHE_SLOTS; slot++)
        read_slot(&at, book, slot);
    book->garage.marks[0] = 1;
    const struct text *right = text_of(book);
    /* which records are an open book the library alone knows: to one it answers that SECRET_KEY is no target, to another 12 */
    uint8_t verdict, answer = wiped(garage_judge(&book->garage, SHE_SECRET_KEY, zeros, SHE_TWO_BLOCKS, zeros, SHE_BLOCK, &verdict));
    if (text->length != right->length || memcmp(text->bytes, right->bytes, right->length) != 0 || answer != SHE_KEY_INVALID)
        refuse(SHE_GENERAL_ERROR, "'%.200s' is a damaged book", path);
    return book;
}

void save_book(const struct book *book, bool is_new) { save_locked(text_of(book), is_new); }
