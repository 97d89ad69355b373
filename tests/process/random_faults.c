/* Loaded before the C library: calls on the image, the script, OUT and the standard streams move fewer bytes than they were asked
   for, or fail. The environment says which, and TRACE is a file that gets a line for each of these calls.

   SHORT=N       so many reads and writes of a hundred move a part, chosen by SEED
   FAULTS=A:E..  call A fails with error E; calls are counted from 1, and a comma separates two
   A sync that does not fail does nothing, so that a thousand runs take no time on the disk. */

#define _GNU_SOURCE
#include <errno.h>
#include <fcntl.h>
#include <stdarg.h>
#include <stdint.h>
#include <stdio.h>
#include <stdlib.h>
#include <string.h>
#include <sys/syscall.h>
#include <unistd.h>

#define FILES 64

static const char *names[FILES] = {"image", "log", "errors"};
static unsigned calls;
static uint64_t state;
static int trace = -1;

__attribute__((constructor)) static void begin(void)
{
    const char *file = getenv("TRACE"), *seed = getenv("SEED");
    int opened = file ? syscall(SYS_openat, AT_FDCWD, file, O_WRONLY | O_CREAT | O_TRUNC | O_CLOEXEC, 0666) : -1;
    trace = fcntl(opened, F_DUPFD_CLOEXEC, 200);
    syscall(SYS_close, opened);
    state = 0x9e3779b97f4a7c15 * (1 + (seed ? strtoull(seed, NULL, 10) : 0));
}

static uint64_t chance(void)
{
    state ^= state << 13;
    state ^= state >> 7;
    state ^= state << 17;
    return state >> 16;
}

/* The error for this call, or 0. */
static int fault(void)
{
    const char *text = getenv("FAULTS");
    calls++;
    while (text && *text) {
        char *rest;
        unsigned long call = strtoul(text, &rest, 10);
        int error = *rest == ':' ? (int)strtol(rest + 1, &rest, 10) : 0;
        if (call == calls)
            return error;
        text = *rest == ',' ? rest + 1 : "";
    }
    return 0;
}

/* The number of bytes that a call moves, at most `count`. */
static size_t part(size_t count)
{
    const char *text = getenv("SHORT");
    if (count < 2 || chance() % 100 >= (text ? strtoul(text, NULL, 10) : 0))
        return count;
    return 1 + chance() % (chance() % 2 ? count : count < 5000 ? count : 5000) % count;
}

static long noted(const char *call, const char *name, long answer)
{
    char line[128];
    int error = errno;
    int length = snprintf(line, sizeof line, "%s %s %ld\n", call, name, answer < 0 ? -(long)error : answer);
    syscall(SYS_write, trace, line, (size_t)length);
    errno = error;
    return answer;
}

static long failed(int error)
{
    errno = error;
    return -1;
}

static const char *name_of(int file)
{
    return file >= 0 && file < FILES ? names[file] : NULL;
}

int open(const char *path, int flags, ...)
{
    const char *slash = strrchr(path, '/'), *name = slash ? slash + 1 : path;
    mode_t mode = 0;
    int error, file;
    if (flags & O_CREAT) {
        va_list rest;
        va_start(rest, flags);
        mode = va_arg(rest, mode_t);
        va_end(rest);
    }
    name = !strcmp(name, "out") ? "out" : strstr(name, "script") ? "script" : strstr(name, "image") ? "image" : NULL;
    error = name ? fault() : 0;
    file = error ? (int)failed(error) : (int)syscall(SYS_openat, AT_FDCWD, path, flags, mode);
    if (file >= 0 && file < FILES)
        names[file] = name;
    return name ? (int)noted("open", name, file) : file;
}

int close(int file)
{
    const char *name = file > 2 ? name_of(file) : NULL;
    int error = name ? fault() : 0;
    int answer = (int)syscall(SYS_close, file);
    if (!name)
        return answer;
    names[file] = NULL;
    return (int)noted("close", name, error ? failed(error) : answer);
}

ssize_t read(int file, void *bytes, size_t count)
{
    const char *name = name_of(file);
    int error = name ? fault() : 0;
    if (!name)
        return syscall(SYS_read, file, bytes, count);
    return noted("read", name, error ? failed(error) : syscall(SYS_read, file, bytes, part(count)));
}

ssize_t write(int file, const void *bytes, size_t count)
{
    const char *name = name_of(file);
    int error = name ? fault() : 0;
    if (!name)
        return syscall(SYS_write, file, bytes, count);
    return noted("write", name, error ? failed(error) : syscall(SYS_write, file, bytes, part(count)));
}

ssize_t __write(int file, const void *bytes, size_t count)
{
    return write(file, bytes, count);
}

int fdatasync(int file)
{
    const char *name = name_of(file);
    int error = name ? fault() : 0;
    return (int)noted("sync", name ? name : "another", error ? failed(error) : 0);
}

int fsync(int file)
{
    return fdatasync(file);
}
