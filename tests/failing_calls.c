/* Preloaded, lets one call of a process on files fail: the call of number FAIL_AT, as FAIL_AS says. That is EIO, ENOSPC or EINTR, and
   then nothing was done; or SHORT, and then half of a read or a write was done. The name of each call is added to the file that
   CALLS_NOTED names. What is written to standard output isn't counted. */
#define _GNU_SOURCE
#include <dlfcn.h>
#include <errno.h>
#include <fcntl.h>
#include <stdarg.h>
#include <stdio.h>
#include <stdlib.h>
#include <string.h>
#include <sys/stat.h>
#include <unistd.h>

static int noted = -1, fails_at, is_short, error, count;

static void *found(const char *name)
{
    return dlsym(RTLD_NEXT, name);
}

/* Whether this call is the one that fails. */
static int fails(const char *name)
{
    if (noted >= 0) {
        ssize_t (*given)(int, const void *, size_t) = found("write");
        char line[64];
        given(noted, line, snprintf(line, sizeof line, "%s\n", name));
    }
    if (++count != fails_at)
        return 0;
    errno = error;
    return 1;
}

#define FAILING(name, kind, parameters, arguments)                      \
    kind name parameters                                                \
    {                                                                   \
        if (fails(#name) && !is_short)                                  \
            return -1;                                                  \
        return ((kind (*) parameters)found(#name)) arguments;           \
    }

#define FAILING_IN_PART(name, kind, parameters, arguments)              \
    kind name parameters                                                \
    {                                                                   \
        if (fails(#name)) {                                             \
            if (!is_short)                                              \
                return -1;                                              \
            if (length > 1)                                             \
                length /= 2;                                            \
        }                                                               \
        return ((kind (*) parameters)found(#name)) arguments;           \
    }

FAILING_IN_PART(pread, ssize_t, (int file, void *bytes, size_t length, off_t offset), (file, bytes, length, offset))
FAILING_IN_PART(pwrite, ssize_t, (int file, const void *bytes, size_t length, off_t offset), (file, bytes, length, offset))
FAILING_IN_PART(read, ssize_t, (int file, void *bytes, size_t length), (file, bytes, length))
FAILING(fsync, int, (int file), (file))
FAILING(fdatasync, int, (int file), (file))
FAILING(ftruncate, int, (int file, off_t length), (file, length))
FAILING(fchmod, int, (int file, mode_t mode), (file, mode))
FAILING(fchown, int, (int file, uid_t user, gid_t group), (file, user, group))
FAILING(statx, int, (int folder, const char *restrict path, int flags, unsigned mask, struct statx *restrict told),
        (folder, path, flags, mask, told))

int open(const char *path, int flags, ...)
{
    va_list more;
    va_start(more, flags);
    int mode = va_arg(more, int);
    va_end(more);
    if (fails("open") && !is_short)
        return -1;
    return ((int (*)(const char *, int, ...))found("open"))(path, flags, mode);
}

int fcntl(int file, int command, ...)
{
    va_list more;
    va_start(more, command);
    void *argument = va_arg(more, void *);
    va_end(more);
    if (fails("fcntl") && !is_short)
        return -1;
    return ((int (*)(int, int, ...))found("fcntl"))(file, command, argument);
}

__attribute__((constructor)) static void begin(void)
{
    const char *at = getenv("FAIL_AT"), *as = getenv("FAIL_AS"), *path = getenv("CALLS_NOTED");
    int (*given)(const char *, int, ...) = found("open");
    if (path)
        noted = given(path, O_WRONLY | O_CREAT | O_TRUNC | O_APPEND | O_CLOEXEC, 0600);
    fails_at = at ? atoi(at) : 0;
    as = as ? as : "EIO";
    is_short = !strcmp(as, "SHORT");
    error = !strcmp(as, "ENOSPC") ? ENOSPC : !strcmp(as, "EINTR") ? EINTR : EIO;
}
