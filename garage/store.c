/* A file that is locked while it is in use, and replaced whole: the new text is written beside it, and gets its name only when it
 * is on the disk. So a cut at any moment leaves the old text or the new one. What is locked is the folder, since a lock on the file
 * itself would stay with the old one. */
#include "command.h"

#include <sys/file.h>
#include <sys/stat.h>

/* The file's path, its name in the folder, and the name of the text that is being saved, of which a folder has one at a time. */
static const char *path, *name, beside[] = ".garage-new";
static int folder;

static _Noreturn void fail(const char *what) { refuse(SHE_GENERAL_ERROR, "'%.200s' %s: %s", path, what, strerror(errno)); }

void lock_file(const char *file)
{
    struct text before = {0};
    end_of_input(); /* nobody is to wait for what comes from outside */
    path = file;
    name = strrchr(path, '/') == NULL ? path : strrchr(path, '/') + 1;
    if (strcmp(name, beside) == 0)
        refuse(SHE_GENERAL_ERROR, "'%.200s' is a name for what is being saved, and for nothing else", path);
    add(&before, "%.*s.", (int)(name - path), path);
    folder = open(before.bytes, O_RDONLY | O_DIRECTORY | O_CLOEXEC);
    if (folder < 0 || flock(folder, LOCK_EX) != 0)
        fail("is in a folder that can't be locked");
}

void read_locked(struct text *text)
{
    struct stat about;
    int file = openat(folder, name, O_RDONLY | O_NOFOLLOW | O_NONBLOCK | O_CLOEXEC);
    if (file < 0 && errno != ELOOP) /* which says that it is a link */
        fail("can't be opened");
    const char *fault = file < 0 || fstat(file, &about) != 0 || !S_ISREG(about.st_mode) ? "is no plain file"
                      : about.st_uid != geteuid()                                       ? "is another user's"
                      : (about.st_mode & 077) != 0 ? "can be read by others, and has keys in it: see chmod 600" : NULL;
    if (fault != NULL)
        refuse(SHE_GENERAL_ERROR, "'%.200s' %s", path, fault);
    read_text("the keys", path, file, text);
}

/* Whether the text is on the disk, for its owner alone. */
static bool write_beside(const struct text *text)
{
    unlinkat(folder, beside, 0); /* left by a command that was cut off */
    int file = openat(folder, beside, O_WRONLY | O_CREAT | O_EXCL | O_CLOEXEC, 0600);
    return write_text(file, text) && fchmod(file, 0600) == 0 && fsync(file) == 0 && close(file) == 0;
}

void save_locked(const struct text *text, bool is_new)
{
    /* a link, unlike a new name, takes no other file's place */
    bool is_saved = write_beside(text)
        && (is_new ? linkat(folder, beside, folder, name, 0) : renameat(folder, beside, folder, name)) == 0;
    int error = errno;
    if (is_new || !is_saved)
        unlinkat(folder, beside, 0);
    errno = error;
    if (!is_saved)
        fail(is_new ? "can't be made" : "can't be saved, and is as it was");
    if (fsync(folder) != 0)
        fail("is saved, but a power cut might undo it");
}
