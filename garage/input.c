/* Bytes in hexadecimal digits, from the command line, from a file or from standard input. Keys come from the last two only, as
 * every user of a machine can read its command lines. */
#include "command.h"

static const char blanks[] = " \t\r\n";
static char *input; /* what is left of standard input; null before it is read */

char *read_text(const char *what, const char *path, int file, struct text *text)
{
    ssize_t count = file < 0 ? -1 : 1;
    for (; count > 0; text->length += count > 0 ? (size_t)count : 0)
        count = read(file, text->bytes + text->length, sizeof text->bytes - text->length);
    if (count < 0)
        refuse(SHE_GENERAL_ERROR, "%s: the file '%.200s' can't be read: %s", what, path, strerror(errno));
    if (text->length == sizeof text->bytes || memchr(text->bytes, '\0', text->length) != NULL)
        refuse(SHE_GENERAL_ERROR, "%s: the file '%.200s' is too long, or no text", what, path);
    return text->bytes;
}

/* The only word of a file, or the next one of standard input. */
static char *word_from(const char *what, const char *path)
{
    bool is_input = strcmp(path, "-") == 0;
    char *only, **at = is_input ? &input : &only;
    if (!is_input || input == NULL)
        *at = read_text(what, path, is_input ? STDIN_FILENO : open(path, O_RDONLY | O_CLOEXEC), secret(sizeof(struct text)));
    char *word = next_word(at, blanks);
    if (!is_input && *next_word(at, blanks) != '\0')
        refuse(SHE_GENERAL_ERROR, "%s: the file '%.200s' has more than one word", what, path);
    return word;
}

static void take_digits(const char *what, const char *source, const char *word, uint8_t *bytes, size_t count)
{
    if (!is_hex(word, bytes, count))
        refuse(SHE_GENERAL_ERROR, "%s: '%.200s' should have %zu hexadecimal digits, and nothing else", what, source, 2 * count);
}

void take_bytes(const char *what, const char *word, uint8_t *bytes, size_t count)
{
    take_digits(what, word, strspn(word, hex_digits) == strlen(word) ? word : word_from(what, word), bytes, count);
}

void take_key(const char *what, const char *path, uint8_t *key)
{
    if (path != NULL)
        take_digits(what, path, word_from(what, path), key, SHE_BLOCK);
    else if (getentropy(key, SHE_BLOCK) != 0)
        refuse(SHE_GENERAL_ERROR, "the system gives no random numbers for %s: %s", what, strerror(errno));
}

void end_of_input(void)
{
    if (input != NULL && *next_word(&input, blanks) != '\0')
        refuse(SHE_GENERAL_ERROR, "standard input has more words than were asked for");
}
