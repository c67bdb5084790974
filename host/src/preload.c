/* Preloaded into the tool by host/test-files, so that calls fail and signals come at known places. Environment:
 *
 *   RENAME_AT, LINK_AT, FSYNC_AT   FIRST-LAST:SIGNAL; at the calls of these numbers the signal is sent, or the call
 *                                  fails if SIGNAL is 0
 *   IGNORED                        if set, SIGHUP, SIGINT and SIGTERM are ignored from the start, and if not, they
 *                                  are not, though the test may have been started so
 *   SYNCED                         a file that gets a line for each directory that is synced */
#define _GNU_SOURCE

#include <errno.h>
#include <fcntl.h>
#include <signal.h>
#include <stdbool.h>
#include <stdint.h>
#include <stdio.h>
#include <stdlib.h>
#include <sys/stat.h>
#include <sys/syscall.h>
#include <unistd.h>

__attribute__((constructor)) static void set_actions(void)
{
    void (*action)(int) = getenv("IGNORED") != NULL ? SIG_IGN : SIG_DFL;
    signal(SIGHUP, action);
    signal(SIGINT, action);
    signal(SIGTERM, action);
}

/* Whether the call fails. */
static bool fails(const char *variable, int *calls)
{
    int first;
    int last;
    int number;
    const char *text = getenv(variable);
    ++*calls;
    if (text == NULL || sscanf(text, "%d-%d:%d", &first, &last, &number) != 3 || *calls < first || *calls > last)
        return false;
    errno = EIO;
    return number == 0 || raise(number) != 0;
}

int rename(const char *from, const char *to)
{
    static int calls;
    return fails("RENAME_AT", &calls) ? -1 : renameat(AT_FDCWD, from, AT_FDCWD, to);
}

int link(const char *from, const char *to)
{
    static int calls;
    return fails("LINK_AT", &calls) ? -1 : linkat(AT_FDCWD, from, AT_FDCWD, to, 0);
}

static void tell_synced(int descriptor)
{
    struct stat status;
    const char *path = getenv("SYNCED");
    FILE *file = path == NULL ? NULL : fopen(path, "a");
    if (file == NULL)
        return;
    if (fstat(descriptor, &status) == 0 && S_ISDIR(status.st_mode))
        fprintf(file, "%ju\n", (uintmax_t)status.st_ino);
    fclose(file);
}

int fsync(int descriptor)
{
    static int calls;
    if (fails("FSYNC_AT", &calls))
        return -1;
    tell_synced(descriptor);
    return (int)syscall(SYS_fsync, descriptor);
}
