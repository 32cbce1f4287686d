/* garage-board: a board in a file, to try the foreman's command on. Its keys lie open in that file, and it says so. */
#include "command.h"

enum { SECRET = HELP + 1 };
static const struct option options[] = {{"help", no_argument, NULL, HELP}, {"secret", required_argument, NULL, SECRET}, {0}};
static const char head[] = "garage-board 1: A TOY. THE KEYS OF THIS BOARD LIE OPEN IN THIS FILE\n";

/* The record as it lies in this machine's memory. */
static void save_board(const struct she_device *board, bool is_new)
{
    struct text *text = secret(sizeof *text);
    add(text, "%s", head);
    add_hex(text, (const uint8_t *)board, sizeof *board);
    add(text, "\n");
    save_locked(text, is_new);
}

/* Nothing in it is believed: the library looks at each command whether it is a made board. */
static struct she_device *open_board(const char *path)
{
    struct text *text = secret(sizeof *text);
    struct she_device *board = secret(sizeof *board);
    lock_file(path);
    read_locked(text);
    char *at = text->bytes + strlen(head);
    if (strncmp(text->bytes, head, strlen(head)) != 0 || !is_hex(next_word(&at, "\n"), (uint8_t *)board, sizeof *board))
        refuse(SHE_GENERAL_ERROR, "'%.200s' is no board", path);
    return board;
}

static void make_board(char **words)
{
    struct she_device *board = secret(sizeof *board);
    uint8_t uid[SHE_UID], *key = secret(SHE_BLOCK), *seed = secret(SHE_BLOCK);
    take_bytes("the UID", words[1], WHOLE(uid));
    take_key("SECRET_KEY", given[SECRET], key);
    take_key("the seed", NULL, seed);
    uint8_t answer = wiped(she_make(board, WHOLE(uid), key, SHE_BLOCK, seed, SHE_BLOCK));
    if (answer != SHE_NO_ERROR)
        refuse(answer, "the board can't be made");
    lock_file(words[0]);
    save_board(board, true);
}

static void load_key(char **words)
{
    uint8_t m1[SHE_BLOCK], m2[SHE_TWO_BLOCKS], m3[SHE_BLOCK], m4[SHE_TWO_BLOCKS], m5[SHE_BLOCK];
    take_bytes("M1", words[1], WHOLE(m1));
    take_bytes("M2", words[2], WHOLE(m2));
    take_bytes("M3", words[3], WHOLE(m3));
    struct she_device *board = open_board(words[0]);
    uint8_t answer = wiped(she_load_key(board, WHOLE(m1), WHOLE(m2), WHOLE(m3), WHOLE(m4), WHOLE(m5)));
    if (answer != SHE_NO_ERROR)
        refuse(answer, "the board refuses the message");
    save_board(board, false);
    print_hex(STDOUT_FILENO, WHOLE(m4));
    print_hex(STDOUT_FILENO, WHOLE(m5));
}

static void show_board(char **words)
{
    const struct she_device *board = open_board(words[0]);
    struct text *text = secret(sizeof *text);
    add(text, "uid ");
    add_hex(text, board->uid, SHE_UID);
    for (uint32_t slot = 0; slot < SHE_SLOTS; slot++) {
        add(text, "\n%s: counter %" PRIu32 ", key ", slot_names[slot], board->counters[slot]);
        if (board->empty[slot])
            add(text, "none");
        else
            add_hex(text, board->keys + SHE_BLOCK * slot, SHE_BLOCK);
        add(text, ", flags ");
        add_flags(text, board->flags[slot]);
    }
    add(text, "\n");
    print(STDOUT_FILENO, text);
}

static const char about[] =
    "A board in a file, to try the foreman's command on. THE KEYS LIE OPEN in that file: for training, never on a bus.\n"
    "Status: 0 for done, 2 for a refusal, with a line that says why. For more, VERB --help:\n";

static const struct verb verbs[] = {
    {"make", 2, 2, 1 << HELP | 1 << SECRET, make_board,
     "garage-board make BOARD UID [--secret FILE]\n\n"
     "Makes a board without any key but SECRET_KEY, which comes from a file or from the system's random source.\n\n"
     "Example: garage-board make bus12.board 627573203132000000000000000001\n"},
    {"load", 4, 4, 1 << HELP, load_key,
     "garage-board load BOARD M1 M2 M3\n\n"
     "Has the board take a key message, and prints the proof: M4 and M5, a line each. M1, M2 and M3 are the hexadecimal digits\n"
     "themselves or files with them; - is the next word of standard input.\n\n"
     "Example: garage-board load bus12.board door.m1 door.m2 door.m3\n"},
    {"show", 1, 1, 1 << HELP, show_board,
     "garage-board show BOARD\n\n"
     "Shows the slots of the board, keys and all.\n\n"
     "Example: garage-board show bus12.board\n"},
    {0},
};

int main(int count, char **words)
{
    fputs("garage-board: A TOY, FOR TRAINING ONLY: THE KEYS OF THIS BOARD LIE OPEN IN ITS FILE\n", stderr);
    command("garage-board", about, verbs, options, count, words);
}
