/* wiped KEY.. -- WORD..: performs the command with these words, in this very process, and looks before its end whether the memory
 * still holds one of the keys (32 hexadecimal digits each, given with every digit turned round, so that the question is no trace):
 * as bytes, or as a text; and whether the process may leave a core file. It is compiled with the command's own files, whose `main`
 * is called command_main here. The status is the command's, or 9 where a key is found or a core file may be left. */
#include <inttypes.h>
#include <stdio.h>
#include <stdlib.h>
#include <string.h>
#include <sys/prctl.h>
#include <sys/syscall.h>
#include <unistd.h>

#undef main /* which is the command's here */
int command_main(int count, char **words);

static uint8_t turned[16][16]; /* the keys, each bit turned round */
static int keys;

/* Whether the bytes from here on are a key, or its digits in small letters. */
static int is_key(const uint8_t *at, const uint8_t *key)
{
    static const char digits[] = "0123456789abcdef";
    int as_bytes = 1, as_text = 1;
    for (int i = 0; i < 16; i++) {
        uint8_t byte = (uint8_t)~key[i];
        as_bytes &= at[i] == byte;
        as_text &= at[2 * i] == digits[byte >> 4] && at[2 * i + 1] == digits[byte & 15];
    }
    return as_bytes | as_text;
}

static int traces(void)
{
    int found = 0;
    char line[512];
    FILE *maps = fopen("/proc/self/maps", "r");
    while (fgets(line, sizeof line, maps) != NULL) {
        uintptr_t from, to;
        if (sscanf(line, "%" SCNxPTR "-%" SCNxPTR " rw", &from, &to) != 2 || strstr(line, " rw") == NULL)
            continue;
        for (const uint8_t *at = (const uint8_t *)from; at + 32 <= (const uint8_t *)to; at++)
            for (int key = 0; key < keys; key++)
                if (is_key(at, turned[key])) {
                    fprintf(stderr, "wiped: key %d is left in %s", key + 1, line);
                    found++;
                }
    }
    fclose(maps);
    return found;
}

static void leave(int status) { syscall(SYS_exit_group, traces() > 0 || prctl(PR_GET_DUMPABLE) != 0 ? 9 : status); }

/* A refusal ends the program so. */
void _exit(int status)
{
    leave(status);
    __builtin_unreachable();
}

int main(int count, char **words)
{
    int first = 1;
    for (; first < count && strcmp(words[first], "--") != 0; first++, keys++)
        for (int i = 0; i < 16; i++)
            sscanf(words[first] + 2 * i, "%2" SCNx8, &turned[keys][i]);
    words[first] = words[0];
    leave(command_main(count - first, words + first));
}
