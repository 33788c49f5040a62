/* Preloaded, notes what a process does to files, in order, in the file that NOTED names. A note is a line and, behind it, its bytes:
   `w OFFSET LENGTH PATH` for a write at a place, `f LENGTH PATH` for a new length, `s PATH` for a sync, and `t LENGTH` for what is
   written to standard output. Each call is made first, and noted once it has succeeded. */
#define _GNU_SOURCE
#include <dlfcn.h>
#include <fcntl.h>
#include <stdio.h>
#include <stdlib.h>
#include <unistd.h>

static int noted = -1;
static ssize_t (*given_write)(int, const void *, size_t);

static void *found(const char *name)
{
    return dlsym(RTLD_NEXT, name);
}

static const char *path_of(int file, char *path, size_t room)
{
    char link[64];
    snprintf(link, sizeof link, "/proc/self/fd/%d", file);
    ssize_t length = readlink(link, path, room - 1);
    path[length < 0 ? 0 : length] = 0;
    return path;
}

static void note(const char *line, int length, const void *bytes, size_t count)
{
    if (noted < 0)
        return;
    given_write(noted, line, length);
    if (count)
        given_write(noted, bytes, count);
}

ssize_t write(int file, const void *bytes, size_t count)
{
    ssize_t done = given_write(file, bytes, count);
    char line[64];
    if (file == 1 && done > 0)
        note(line, snprintf(line, sizeof line, "t %zd\n", done), bytes, done);
    return done;
}

ssize_t pwrite(int file, const void *bytes, size_t count, off_t offset)
{
    static ssize_t (*given)(int, const void *, size_t, off_t);
    if (!given)
        given = found("pwrite");
    ssize_t done = given(file, bytes, count, offset);
    char path[4096], line[4200];
    if (done > 0)
        note(line, snprintf(line, sizeof line, "w %lld %zd %s\n", (long long)offset, done, path_of(file, path, sizeof path)), bytes, done);
    return done;
}

int ftruncate(int file, off_t length)
{
    static int (*given)(int, off_t);
    if (!given)
        given = found("ftruncate");
    int done = given(file, length);
    char path[4096], line[4200];
    if (!done)
        note(line, snprintf(line, sizeof line, "f %lld %s\n", (long long)length, path_of(file, path, sizeof path)), "", 0);
    return done;
}

static int synced(const char *name, int file)
{
    int done = ((int (*)(int))found(name))(file);
    char path[4096], line[4200];
    if (!done)
        note(line, snprintf(line, sizeof line, "s %s\n", path_of(file, path, sizeof path)), "", 0);
    return done;
}

int fsync(int file)
{
    return synced("fsync", file);
}

int fdatasync(int file)
{
    return synced("fdatasync", file);
}

__attribute__((constructor)) static void begin(void)
{
    const char *path = getenv("NOTED");
    given_write = found("write");
    noted = path ? open(path, O_WRONLY | O_CREAT | O_TRUNC | O_APPEND | O_CLOEXEC, 0600) : -1;
}
