#define _XOPEN_SOURCE 700

#include "output.h"

#include <errno.h>
#include <fcntl.h>
#include <signal.h>
#include <stdlib.h>
#include <string.h>
#include <sys/stat.h>
#include <unistd.h>

#include "input.h"
#include "say.h"

enum { MOST_LINKS = 40, MOST_PATH = 4096 };

/* What a signal has to remove. */
static char *volatile unfinished[MOST_OUTPUTS];

static void remove_unfinished(int signal_number)
{
    for (int i = 0; i < MOST_OUTPUTS; i++)
        if (unfinished[i] != NULL)
            unlink(unfinished[i]);
    signal(signal_number, SIG_DFL);
    raise(signal_number);
}

/* A standard file that is closed would lend its number to the next file opened; so it is opened, the wrong way round, and fails when used. */
static void hold_standard_files(void)
{
    for (int file = 0; file <= 2; file++)
        if (fcntl(file, F_GETFD) == -1 && open("/dev/null", file == 0 ? O_WRONLY : O_RDONLY) == -1)
            _Exit(TROUBLE);
}

static const int ends[] = { SIGHUP, SIGINT, SIGPIPE, SIGTERM };

void prepare_output(void)
{
    hold_standard_files();
    for (size_t i = 0; i < sizeof ends / sizeof ends[0]; i++)
        if (signal(ends[i], remove_unfinished) == SIG_IGN)
            signal(ends[i], SIG_IGN);
    signal(SIGXFSZ, SIG_IGN); /* a file that grows too large is trouble with a file, and told like it */
}

static void hold_signals(sigset_t *before)
{
    sigset_t held;
    sigemptyset(&held);
    for (size_t i = 0; i < sizeof ends / sizeof ends[0]; i++)
        sigaddset(&held, ends[i]);
    sigprocmask(SIG_BLOCK, &held, before);
}

bool is_standard_output(const char *path)
{
    return path == NULL || strcmp(path, "-") == 0 || strcmp(path, "/dev/stdout") == 0;
}

static bool is_same(const struct stat *one, const struct stat *other)
{
    return one->st_dev == other->st_dev && one->st_ino == other->st_ino;
}

int judge_output(const char *command, const struct option *option, const char *input)
{
    const char *path = option->value;
    struct stat to, from;
    if (path == NULL || strcmp(path, "-") == 0 || stat(path, &to) == -1 || !S_ISREG(to.st_mode))
        return DONE;
    if ((is_standard(input) ? fstat(STDIN_FILENO, &from) : stat(input, &from)) == -1)
        return DONE;
    return is_same(&to, &from) ? wrong_output(command, option->name, path) : DONE;
}

static const char *after_last_slash(const char *path)
{
    const char *slash = strrchr(path, '/');
    return slash == NULL ? path : slash + 1;
}

/* The name in the folder of the path, to be freed; NULL without memory. */
static char *beside(const char *path, const char *name)
{
    size_t folder = name[0] == '/' ? 0 : (size_t)(after_last_slash(path) - path);
    char *joined = malloc(folder + strlen(name) + 1);
    if (joined != NULL) {
        memcpy(joined, path, folder);
        strcpy(joined + folder, name);
    }
    return joined;
}

/* Where the links lead to, from a path that is then freed; NULL, with errno set, if they do not end or there is no memory. */
static char *follow_links(char *path)
{
    char content[MOST_PATH];
    for (int links = 0; path != NULL; links++) {
        ssize_t length = readlink(path, content, sizeof content);
        if (length == -1)
            return path;
        char *next = NULL;
        if (links == MOST_LINKS || (size_t)length == sizeof content) {
            errno = links == MOST_LINKS ? ELOOP : ENAMETOOLONG;
        } else {
            content[length] = '\0';
            next = beside(path, content);
        }
        free(path);
        path = next;
    }
    return NULL;
}

/* What is known of the folder that a file of this path is in. */
static bool look_at_folder(const char *path, struct stat *folder)
{
    char *name = beside(path, ".");
    bool found = name != NULL && stat(name, folder) == 0;
    free(name);
    return found;
}

/* Whether two paths, which end in no link, name one file, be it there or not. */
static bool is_one_name(const char *one, const char *other)
{
    struct stat of_one, of_other;
    return strcmp(after_last_slash(one), after_last_slash(other)) == 0 && look_at_folder(one, &of_one) && look_at_folder(other, &of_other) &&
           is_same(&of_one, &of_other);
}

/* Whether two paths lead to one regular file, or would, there being none yet. */
static bool is_one_file(const char *one, const char *other)
{
    struct stat of_one, of_other;
    bool one_exists = stat(one, &of_one) == 0, other_exists = stat(other, &of_other) == 0;
    if (one_exists || other_exists)
        return one_exists && other_exists && S_ISREG(of_one.st_mode) && is_same(&of_one, &of_other);
    char *one_end = follow_links(beside("", one)), *other_end = follow_links(beside("", other));
    bool same = one_end != NULL && other_end != NULL && is_one_name(one_end, other_end);
    free(one_end);
    free(other_end);
    return same;
}

int judge_outputs(const char *command, const struct option *one, const struct option *other)
{
    if (other->value == NULL)
        return DONE;
    if (is_standard_output(one->value) && is_standard_output(other->value))
        return wrong_usage(command, "%s and %s cannot both go to standard output: name a file for one", one->name, other->name);
    if (!is_standard_output(one->value) && is_one_file(one->value, other->value))
        return wrong_usage(command, "%s and %s name one file: name two", one->name, other->name);
    return DONE;
}

static mode_t usual_mode(void)
{
    mode_t mask = umask(0);
    umask(mask);
    return 0666 & ~mask;
}

/* The owner is kept where that is allowed; it has to come first, as it clears bits of the mode. */
static bool keep_permissions(int file, const struct stat *old)
{
    if (old != NULL && fchown(file, old->st_uid, old->st_gid) == -1)
        errno = 0;
    return fchmod(file, old == NULL ? usual_mode() : old->st_mode & 07777) == 0;
}

/* In a folder with the sticky bit, as /tmp is, only the owner of a file or of the folder may replace it. */
static bool may_replace(const char *target, const struct stat *old)
{
    struct stat folder;
    uid_t user = geteuid();
    if (user == 0 || user == old->st_uid || !look_at_folder(target, &folder) || (folder.st_mode & S_ISVTX) == 0 || user == folder.st_uid)
        return true;
    errno = EPERM;
    return false;
}

/* Opens the temporary file, named already, for what is to replace old, if there is such a file. */
static FILE *open_temporary(char *temporary, const struct stat *old)
{
    unfinished[unfinished[0] == NULL ? 0 : 1] = temporary; /* before there is such a file, so that no moment is left in which a signal would miss it */
    int file = mkstemp(temporary);
    if (file == -1)
        return NULL;
    FILE *stream = keep_permissions(file, old) ? fdopen(file, "wb") : NULL;
    if (stream == NULL) {
        int reason = errno;
        close(file);
        unlink(temporary);
        errno = reason;
    }
    return stream;
}

static void forget(struct output *output)
{
    for (int i = 0; i < MOST_OUTPUTS; i++)
        if (unfinished[i] == output->temporary)
            unfinished[i] = NULL;
    free(output->target);
    free(output->temporary);
    free(output->kept);
}

/* Opens the file that is to replace the path's, or the path itself where that is no regular file. */
static FILE *open_file(const char *path, struct output *output)
{
    struct stat old;
    bool exists = stat(path, &old) == 0;
    if (exists && !S_ISREG(old.st_mode))
        return fopen(path, "wb");
    if (exists ? access(path, W_OK) == -1 : errno != ENOENT) /* where the name is too long a temporary file could be made, but not renamed */
        return NULL;
    output->target = follow_links(beside("", path));
    if (output->target == NULL || (exists && !may_replace(output->target, &old)))
        return NULL;
    output->temporary = beside(output->target, ".dirgeflint-XXXXXX");
    if (output->temporary == NULL)
        return NULL;
    return open_temporary(output->temporary, exists ? &old : NULL);
}

bool open_output(const char *path, struct output *output)
{
    memset(output, 0, sizeof *output);
    if (is_standard_output(path)) {
        output->stream = stdout;
        return true;
    }
    output->name = path;
    output->stream = open_file(path, output);
    if (output->stream == NULL) {
        file_trouble(path, "written");
        forget(output);
    }
    return output->stream != NULL;
}

/* Why standard output lost something that it was given, once that is known; errno may be another's by the time it is told. */
static int lost;

bool is_printed(void)
{
    if ((fflush(stdout) != 0 || ferror(stdout)) && lost == 0)
        lost = errno;
    return lost == 0;
}

/* Whether all that was written got there; else errno tells why. */
static bool close_stream(FILE *stream)
{
    bool failed = fflush(stream) != 0 || ferror(stream);
    int reason = errno;
    if (fclose(stream) != 0 && !failed)
        return false;
    errno = reason;
    return !failed;
}

/* Ends the writing; of standard output finish_output tells. */
static int end_writing(const struct output *output, int status)
{
    if (output->stream == stdout)
        return is_printed() || status != DONE ? status : TROUBLE;
    return close_stream(output->stream) || status != DONE ? status : file_trouble(output->name, "written");
}

/* Gives the file that is to be replaced, if there is one, a second name, so that it can be put back. */
static bool keep_old(struct output *output)
{
    static const char more[] = "-old";
    struct stat old;
    if (lstat(output->target, &old) == -1)
        return errno == ENOENT;
    output->kept = malloc(strlen(output->temporary) + sizeof more);
    if (output->kept == NULL)
        return false;
    strcpy(output->kept, output->temporary);
    strcat(output->kept, more);
    return link(output->target, output->kept) == 0 || rename(output->target, output->kept) == 0; /* not every file system has links */
}

/* Puts the temporary files in their places, up to one that cannot be: some reasons show only now. The last needs no way back. */
static int place_all(struct output outputs[], size_t count)
{
    for (size_t i = 0; i < count; i++) {
        struct output *output = &outputs[i];
        if (output->temporary == NULL)
            continue;
        output->is_placed = (i + 1 == count || keep_old(output)) && rename(output->temporary, output->target) == 0;
        if (!output->is_placed)
            return file_trouble(output->name, "written");
    }
    return DONE;
}

/* Leaves the new file if all is done, else all as it was. Where kept and target are one file still, renaming does nothing. */
static void settle(struct output *output, int status)
{
    if (status != DONE && output->kept != NULL)
        rename(output->kept, output->target);
    else if (status != DONE && output->is_placed)
        unlink(output->target);
    if (output->kept != NULL)
        unlink(output->kept);
    if (output->temporary != NULL && !output->is_placed)
        unlink(output->temporary);
    forget(output);
}

int close_outputs(struct output outputs[], size_t count, int status)
{
    sigset_t before;
    for (size_t i = 0; i < count; i++)
        status = end_writing(&outputs[i], status);
    hold_signals(&before); /* which would come between two files */
    if (status == DONE)
        status = place_all(outputs, count);
    for (size_t i = 0; i < count; i++)
        settle(&outputs[i], status);
    sigprocmask(SIG_SETMASK, &before, NULL);
    return status;
}

int close_output(struct output *output, int status)
{
    return close_outputs(output, 1, status);
}

int finish_output(int status)
{
    bool printed = is_printed();
    if (close_stream(stdout) && printed)
        return status;
    if (lost != 0)
        errno = lost;
    return file_trouble("<stdout>", "written");
}
