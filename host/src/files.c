#define _XOPEN_SOURCE 700

#include "files.h"

#include <errno.h>
#include <fcntl.h>
#include <signal.h>
#include <stdarg.h>
#include <stdio.h>
#include <stdlib.h>
#include <string.h>
#include <sys/stat.h>
#include <unistd.h>

void complain(const char *format, ...)
{
    va_list arguments;
    fflush(stdout);
    fputs("fliskadee: ", stderr);
    va_start(arguments, format);
    vfprintf(stderr, format, arguments);
    va_end(arguments);
    fputc('\n', stderr);
}

bool is_standard(const char *path)
{
    return strcmp(path, "-") == 0;
}

const char *input_name(const char *path)
{
    return is_standard(path) ? "standard input" : path;
}

/* ---- Reading ---- */

/* Reads to the end, but at most one byte more than `most`, which shows that there are more. */
static bool read_all(int descriptor, const char *name, size_t most, struct bytes *bytes)
{
    ssize_t got = 1;
    bytes->data = malloc(most + 1);
    if (bytes->data == NULL) {
        complain("there is not enough memory to read %s.", name);
        return false;
    }
    while (got != 0 && bytes->length <= most) {
        got = read(descriptor, bytes->data + bytes->length, most + 1 - bytes->length);
        if (got > 0) {
            bytes->length += (size_t)got;
        } else if (got < 0 && errno != EINTR) {
            complain("cannot read %s: %s.", name, strerror(errno));
            return false;
        }
    }
    return true;
}

static bool read_standard(size_t most, struct bytes *bytes)
{
    static bool was_read;
    if (was_read) {
        complain("standard input (-) can be read only once.");
        return false;
    }
    was_read = true;
    if (!read_all(STDIN_FILENO, "standard input", most, bytes))
        return false;
    if (bytes->length > most)
        complain("standard input has more than the %zu bytes that are read.", most);
    return bytes->length <= most;
}

static bool read_named(const char *path, size_t most, struct bytes *bytes)
{
    struct stat status;
    bool good = false;
    /* Without O_NONBLOCK the opening of a pipe would wait for a writer. */
    int descriptor = open(path, O_RDONLY | O_NONBLOCK | O_CLOEXEC);
    if (descriptor < 0 || fstat(descriptor, &status) != 0)
        complain("cannot open %s: %s.", path, strerror(errno));
    else if (S_ISDIR(status.st_mode))
        complain("%s is a directory, not a file.", path);
    else if (!S_ISREG(status.st_mode))
        complain("%s is not a regular file.", path);
    else if ((uintmax_t)status.st_size > most)
        complain("%s has %ju bytes, more than the %zu that are read.", path, (uintmax_t)status.st_size, most);
    else
        good = read_all(descriptor, path, (size_t)status.st_size, bytes);
    if (good && bytes->length != (size_t)status.st_size) {
        complain("%s changed while it was read.", path);
        good = false;
    }
    if (descriptor >= 0)
        close(descriptor);
    return good;
}

bool read_file(const char *path, size_t most, struct bytes *bytes)
{
    bytes->data = NULL;
    bytes->length = 0;
    if (is_standard(path) ? read_standard(most, bytes) : read_named(path, most, bytes))
        return true;
    free(bytes->data);
    bytes->data = NULL;
    bytes->length = 0;
    return false;
}

/* ---- Where outputs go ---- */

enum {
    OUTPUTS_MOST = 4,
    LINKS_MOST = 40
};

struct target {
    const struct output *output;
    char *file;  /* the file that the path leads to through links; NULL for standard output */
    bool there;  /* whether there is one already */
    struct stat old;
    char *directory;
    struct stat place;         /* the directory's */
    char *volatile temporary;  /* the new file, until it is in place */
    char *kept;                /* another name of the old file, until all are in place */
    bool placed;
};

/* Static, so that a signal finds the temporary files. */
static struct target targets[OUTPUTS_MOST];
static size_t target_count;

/* The first standard output, once it is set apart for an output. */
static int standard_output = -1;

static const char *shown(const struct target *target)
{
    return is_standard(target->output->path) ? "standard output" : target->output->path;
}

static bool cannot_write(const struct target *target)
{
    complain("cannot write %s: %s.", shown(target), strerror(errno));
    return false;
}

/* The first bytes of a text with another text after them. */
static char *joined(const char *head, size_t length, const char *tail)
{
    char *whole = malloc(length + strlen(tail) + 1);
    if (whole != NULL) {
        memcpy(whole, head, length);
        strcpy(whole + length, tail);
    }
    return whole;
}

/* How long the part of a path before its last name is. */
static size_t before_name(const char *path)
{
    const char *slash = strrchr(path, '/');
    return slash == NULL ? 0 : (size_t)(slash + 1 - path);
}

/* The file that a link names, though it is not there, so that renaming does not replace the link. */
static char *follow_links(const char *path)
{
    char text[4096];
    char *file = joined(path, strlen(path), "");
    for (int i = 0; file != NULL && i < LINKS_MOST; i++) {
        ssize_t length = readlink(file, text, sizeof text - 1);
        if (length < 0)
            return file;
        text[length] = '\0';
        char *next = joined(file, text[0] == '/' ? 0 : before_name(file), text);
        free(file);
        file = next;
    }
    if (file != NULL) {
        free(file);
        errno = ELOOP;
    }
    return NULL;
}

/* With the rights that opening would have. */
static bool allowed(const char *path, int how)
{
    return faccessat(AT_FDCWD, path, how, AT_EACCESS) == 0;
}

static bool locate_directory(struct target *target)
{
    size_t length = before_name(target->file);
    if (target->file[length] == '\0') {
        errno = ENOENT;
        return cannot_write(target);
    }
    target->directory = joined(target->file, length, ".");
    if (target->directory == NULL || stat(target->directory, &target->place) != 0
        || !allowed(target->directory, W_OK | X_OK))
        return cannot_write(target);
    return true;
}

static bool locate_file(struct target *target)
{
    const char *path = target->output->path;
    target->there = stat(path, &target->old) == 0;
    if (!target->there && errno != ENOENT)
        return cannot_write(target);
    mode_t mode = target->old.st_mode;
    if (target->there && !S_ISREG(mode)) {
        complain("cannot write %s: it is %s.", path, S_ISDIR(mode) ? "a directory" : "not a regular file");
        return false;
    }
    /* To the superuser every file is writable, but one without write permission is meant to stay. */
    if (target->there && (!allowed(path, W_OK) || (mode & (S_IWUSR | S_IWGRP | S_IWOTH)) == 0)) {
        complain("cannot write %s: it is not writable.", path);
        return false;
    }
    target->file = target->there ? realpath(path, NULL) : follow_links(path);
    if (target->file == NULL)
        return cannot_write(target);
    return locate_directory(target);
}

static bool locate_standard(struct target *target)
{
    if (standard_output < 0) {
        fflush(stdout);
        standard_output = fcntl(STDOUT_FILENO, F_DUPFD_CLOEXEC, STDERR_FILENO + 1);
        if (standard_output < 0 || dup2(STDERR_FILENO, STDOUT_FILENO) < 0)
            return cannot_write(target);
    }
    target->there = fstat(standard_output, &target->old) == 0;
    return target->there || cannot_write(target);
}

static bool same_inode(const struct stat *a, const struct stat *b)
{
    return a->st_dev == b->st_dev && a->st_ino == b->st_ino;
}

static bool same_file(const struct target *a, const struct target *b)
{
    if (a->there && b->there && same_inode(&a->old, &b->old))
        return true;
    return a->file != NULL && b->file != NULL && same_inode(&a->place, &b->place)
           && strcmp(a->file + before_name(a->file), b->file + before_name(b->file)) == 0;
}

static bool locate_target(const struct output *output)
{
    struct target *target = &targets[target_count++];
    memset(target, 0, sizeof *target);
    target->output = output;
    if (!(is_standard(output->path) ? locate_standard(target) : locate_file(target)))
        return false;
    for (struct target *other = targets; other < target; other++) {
        if (same_file(other, target)) {
            complain("%s and %s are the same file.", shown(other), shown(target));
            return false;
        }
    }
    return true;
}

static bool locate_targets(const struct output *outputs, size_t count)
{
    for (size_t i = 0; i < count; i++) {
        if (outputs[i].path == NULL)
            continue;
        if (target_count == OUTPUTS_MOST) {
            complain("more than %d files cannot be written together.", OUTPUTS_MOST);
            return false;
        }
        if (!locate_target(&outputs[i]))
            return false;
    }
    return true;
}

/* After this a signal no longer finds the temporary file. */
static void forget_temporary(struct target *target)
{
    char *name = target->temporary;
    target->temporary = NULL;
    free(name);
}

static void clear_targets(void)
{
    for (size_t i = 0; i < target_count; i++) {
        if (targets[i].temporary != NULL)
            unlink(targets[i].temporary);
        forget_temporary(&targets[i]);
        free(targets[i].file);
        free(targets[i].directory);
        free(targets[i].kept);
    }
    target_count = 0;
}

/* ---- Signals ---- */

static const int ending_signals[] = {SIGHUP, SIGINT, SIGQUIT, SIGPIPE, SIGTERM, SIGXCPU, SIGXFSZ};

enum { ENDING_SIGNALS = sizeof ending_signals / sizeof ending_signals[0] };

static void end_by_signal(int number)
{
    for (size_t i = 0; i < OUTPUTS_MOST; i++)
        if (targets[i].temporary != NULL)
            unlink(targets[i].temporary);
    /* Its action is the default one again, and comes when this function returns. */
    raise(number);
}

static sigset_t all_ending_signals(void)
{
    sigset_t set;
    sigemptyset(&set);
    for (size_t i = 0; i < ENDING_SIGNALS; i++)
        sigaddset(&set, ending_signals[i]);
    return set;
}

/* Puts signals off, until the mask that it answers is set again. */
static sigset_t hold_signals(void)
{
    sigset_t before;
    sigset_t held = all_ending_signals();
    sigprocmask(SIG_BLOCK, &held, &before);
    return before;
}

static void release_signals(sigset_t before)
{
    sigprocmask(SIG_SETMASK, &before, NULL);
}

void start_files(void)
{
    /* Reading closed standard input and writing closed standard output still fail. */
    static const int standard[] = {O_WRONLY, O_RDONLY, O_WRONLY};
    for (int i = STDIN_FILENO; i <= STDERR_FILENO; i++) {
        if (fcntl(i, F_GETFD) < 0 && open("/dev/null", standard[i]) < 0) {
            complain("cannot open /dev/null: %s.", strerror(errno));
            exit(2);
        }
    }
    struct sigaction action = {.sa_handler = end_by_signal, .sa_flags = SA_RESETHAND};
    action.sa_mask = all_ending_signals();
    for (size_t i = 0; i < ENDING_SIGNALS; i++) {
        struct sigaction old;
        if (sigaction(ending_signals[i], NULL, &old) == 0 && old.sa_handler != SIG_IGN)
            sigaction(ending_signals[i], &action, NULL);
    }
}

/* ---- Writing ---- */

static bool write_all(int descriptor, const struct bytes *bytes)
{
    size_t done = 0;
    while (done < bytes->length) {
        ssize_t put = write(descriptor, bytes->data + done, bytes->length - done);
        if (put < 0 && errno != EINTR)
            return false;
        if (put > 0)
            done += (size_t)put;
    }
    return true;
}

static int create_temporary(struct target *target)
{
    char *name = joined(target->file, strlen(target->file), ".fliskadee.XXXXXX");
    if (name == NULL)
        return -1;
    sigset_t before = hold_signals();
    int descriptor = mkstemp(name);
    int error = errno;
    if (descriptor >= 0)
        target->temporary = name;
    else
        free(name);
    release_signals(before);
    errno = error;
    return descriptor;
}

static bool set_permissions(int descriptor, const struct target *target)
{
    if (!target->there) {
        mode_t mask = umask(0);
        umask(mask);
        return fchmod(descriptor, 0666 & ~mask) == 0;
    }
    /* Not everyone may give a file its owner back; it is written all the same. */
    if (fchown(descriptor, target->old.st_uid, target->old.st_gid) != 0)
        errno = 0;
    return fchmod(descriptor, target->old.st_mode & 07777) == 0;
}

static bool write_temporary(struct target *target)
{
    if (target->file == NULL)
        return true;
    int descriptor = create_temporary(target);
    if (descriptor < 0)
        return cannot_write(target);
    bool good = write_all(descriptor, target->output->bytes) && set_permissions(descriptor, target)
                && fsync(descriptor) == 0;
    int error = errno;
    if (close(descriptor) != 0 && good) {
        good = false;
        error = errno;
    }
    errno = error;
    return good || cannot_write(target);
}

static bool keep_old(struct target *target)
{
    if (!target->there)
        return true;
    char *name = joined(target->temporary, strlen(target->temporary), ".old");
    if (name == NULL)
        return cannot_write(target);
    /* Not every file system has hard links. */
    if (link(target->file, name) != 0 && (errno == EEXIST || rename(target->file, name) != 0)) {
        cannot_write(target);
        free(name);
        return false;
    }
    target->kept = name;
    return true;
}

/* The last needs no old file: once it is in place, all are. */
static bool place_file(struct target *target, bool last)
{
    if (target->file == NULL)
        return true;
    if (!last && !keep_old(target))
        return false;
    if (rename(target->temporary, target->file) != 0)
        return cannot_write(target);
    target->placed = true;
    forget_temporary(target);
    return true;
}

static void put_back(const struct target *target)
{
    if (target->kept != NULL) {
        if (rename(target->kept, target->file) != 0)
            complain("cannot put back %s: %s; its old content is in %s.", shown(target), strerror(errno), target->kept);
        else
            unlink(target->kept); /* renaming removes neither of two names of one file */
    } else if (target->placed && unlink(target->file) != 0) {
        complain("cannot remove %s, which was not there before: %s.", shown(target), strerror(errno));
    }
}

/* A directory that may not be read, or that has no syncing, is left to the system. */
static bool sync_directory(const struct target *target)
{
    int descriptor = open(target->directory, O_RDONLY | O_DIRECTORY | O_CLOEXEC);
    bool good = descriptor >= 0 ? fsync(descriptor) == 0 || errno == EINVAL : errno == EACCES;
    if (!good)
        complain("%s is written, but its directory cannot be synced: %s.", shown(target), strerror(errno));
    if (descriptor >= 0)
        close(descriptor);
    return good;
}

static bool finish_file(const struct target *target)
{
    bool good = target->file == NULL || sync_directory(target);
    if (target->kept != NULL)
        unlink(target->kept);
    return good;
}

static bool place_files(void)
{
    bool good = true;
    size_t i;
    for (i = 0; good && i < target_count; i++)
        good = place_file(&targets[i], i + 1 == target_count);
    if (!good) {
        while (i > 0)
            put_back(&targets[--i]);
        return false;
    }
    for (i = 0; i < target_count; i++)
        good = finish_file(&targets[i]) && good;
    return good;
}

static bool write_standard(const struct target *target)
{
    return target->file != NULL || write_all(standard_output, target->output->bytes) || cannot_write(target);
}

static bool write_targets(void)
{
    for (size_t i = 0; i < target_count; i++)
        if (!write_temporary(&targets[i]))
            return false;
    /* A signal comes before all files are changed or after. */
    sigset_t before = hold_signals();
    bool good = place_files();
    release_signals(before);
    for (size_t i = 0; good && i < target_count; i++)
        good = write_standard(&targets[i]);
    return good;
}

bool check_outputs(const struct output *outputs, size_t count)
{
    bool good = locate_targets(outputs, count);
    clear_targets();
    return good;
}

bool write_outputs(const struct output *outputs, size_t count)
{
    bool good = locate_targets(outputs, count) && write_targets();
    clear_targets();
    return good;
}
