/* A command line taken apart, and its verb performed; the help, from the table of verbs. */
#include "command.h"

#include <signal.h>
#include <sys/prctl.h>

const char *given[MOST_OPTIONS];

/* A full file, or a pipe that nobody reads, is to be told, and not to end the program. A closed standard output must not become the
 * number of a file that keys are written to. And no core file is to keep them. */
static void settle(void)
{
    signal(SIGPIPE, SIG_IGN);
    signal(SIGXFSZ, SIG_IGN);
    prctl(PR_SET_DUMPABLE, 0);
    while ((unsigned)open("/dev/null", O_RDONLY | O_CLOEXEC) < STDERR_FILENO)
        continue;
}

/* All of a verb's, or the first line of each, its usage. */
static void help(const char *about, const struct verb *verb)
{
    struct text text = {0};
    if (about == NULL)
        add(&text, "usage: %s", verb->help);
    else
        for (add(&text, "%s", about); verb->name != NULL; verb++)
            add(&text, "    %.*s\n", (int)strcspn(verb->help, "\n"), verb->help);
    print(STDOUT_FILENO, &text);
    leave(DONE);
}

void command(const char *name, const char *about, const struct verb *verbs, const struct option *options, int count, char **words)
{
    const struct verb *verb = verbs;
    program = name;
    settle();
    for (int option; (option = getopt_long(count, words, ":", options, NULL)) >= 0; given[option] = optarg ? optarg : "")
        if (option == '?' || option == ':' || given[option] != NULL)
            refuse(SHE_GENERAL_ERROR, "an option is unknown, lacks its value, or is there twice: see %s --help", program);
    const char *word = optind == count ? "" : words[optind];
    while (verb->name != NULL && strcmp(word, verb->name) != 0)
        verb++;
    if (given[HELP] != NULL)
        help(verb->name == NULL ? about : NULL, verb->name == NULL ? verbs : verb);
    if (verb->name == NULL)
        refuse(SHE_GENERAL_ERROR, "there is no verb '%.200s': see %s --help", word, program);
    if (count - optind - 1 < verb->least || count - optind - 1 > verb->most)
        refuse(SHE_GENERAL_ERROR, "wrong number of words: it is %.*s", (int)strcspn(verb->help, "\n"), verb->help);
    for (int i = 0; i < MOST_OPTIONS; i++)
        if (given[i] != NULL && (verb->options & 1u << i) == 0)
            refuse(SHE_GENERAL_ERROR, "--%s is no option of %s", options[i].name, word);
    verb->perform(words + optind + 1);
    leave(DONE);
}
