/* What is said, and the room for what must not be told: keys stand nowhere else, so that one wipe reaches them all. */
#include "command.h"

#include <ctype.h>
#include <stdarg.h>

const char *program;

static const char *const answers[] = {
    "NO_ERROR", "SEQUENCE_ERROR", "KEY_NOT_AVAILABLE", "KEY_INVALID", "KEY_EMPTY", "NO_SECURE_BOOT", "KEY_WRITE_PROTECTED",
    "KEY_UPDATE_ERROR", "RNG_SEED", "NO_DEBUGGING", "BUSY", "MEMORY_FAILURE", "GENERAL_ERROR",
};

static struct text made[3]; /* the paths of M1 to M3 */
static int made_count;
static _Alignas(16) uint8_t secrets[131072];

void leave(int status)
{
    explicit_bzero(secrets, sizeof secrets);
    _exit(status);
}

/* Words from outside may hold any bytes, and the line stays one line. */
void refuse(enum she_answer answer, const char *why, ...)
{
    char words[512];
    va_list values;
    va_start(values, why);
    vsnprintf(words, sizeof words, why, values);
    va_end(values);
    for (char *at = words; *at != '\0'; at++)
        if (iscntrl((unsigned char)*at))
            *at = '?';
    fprintf(stderr, "%s: %s (%d %s)\n", program, words, answer, answers[answer]);
    while (made_count > 0)
        unlink(made[--made_count].bytes);
    leave(REFUSED);
}

void add(struct text *text, const char *format, ...)
{
    va_list values;
    va_start(values, format);
    text->length += (size_t)vsnprintf(text->bytes + text->length, sizeof text->bytes - text->length, format, values);
    va_end(values);
    if (text->length >= sizeof text->bytes)
        refuse(SHE_GENERAL_ERROR, "a text is longer than its room");
}

void add_hex(struct text *text, const uint8_t *bytes, size_t count)
{
    for (size_t i = 0; i < count; i++)
        add(text, "%02x", bytes[i]);
}

int new_file(const char *prefix, int number)
{
    if (prefix == NULL)
        return STDOUT_FILENO;
    struct text *path = &made[made_count];
    add(path, "%s.m%d", prefix, number);
    int file = open(path->bytes, O_WRONLY | O_CREAT | O_EXCL | O_CLOEXEC, 0600);
    if (file < 0)
        refuse(SHE_GENERAL_ERROR, "'%.200s' can't be made: %s", path->bytes, strerror(errno));
    made_count++;
    return file;
}

bool write_text(int file, const struct text *text)
{
    errno = file < 0 ? errno : ENOSPC; /* why only a part would be taken */
    return file >= 0 && write(file, text->bytes, text->length) == (ssize_t)text->length;
}

void print(int file, const struct text *text)
{
    if (!write_text(file, text) || (file != STDOUT_FILENO && close(file) != 0))
        refuse(SHE_GENERAL_ERROR, "%s can't be written: %s", file == STDOUT_FILENO ? "standard output" : "a file", strerror(errno));
}

void print_hex(int file, const uint8_t *bytes, size_t count)
{
    struct text line = {0};
    add_hex(&line, bytes, count);
    add(&line, "\n");
    print(file, &line);
}

void *secret(size_t size)
{
    static size_t used;
    size_t place = used;
    used += (size + 15) / 16 * 16;
    if (used > sizeof secrets)
        refuse(SHE_GENERAL_ERROR, "there is no more room for keys");
    return secrets + place;
}

uint8_t wiped(uint8_t answer)
{
    uint8_t stack[2 * GARAGE_STACK_BYTES];
    explicit_bzero(stack, sizeof stack);
    return answer;
}
