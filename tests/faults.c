/* A library to be loaded before the C library (LD_PRELOAD). It makes chosen calls of a program fail, be cut short or
 * be interrupted by a signal. The script `faults` compiles and drives it.
 *
 * The variable FAULTS has seven words:
 *   CALL    alloc, open, read, write, rename, unlink, flock, statx or fchmod: the calls that are counted
 *   STREAM  the file descriptor whose reads or writes are counted; -1: all
 *   NTH     the first call that is affected, from 1
 *   EVERY   0: no other call is affected; else each EVERY-th after it
 *   ERROR   the errno of an affected call; 0: it does not fail
 *   MOST    if it does not fail, the most bytes that it transfers (a write of 0 bytes takes nothing)
 *   REPORT  the file descriptor to which the first affected call is reported: `alloc`, a path, or the number of a stream. For a statx of
 *           an open file it is `open` and the path. After a write to a file, until the next open, `written` comes before it.
 *           A write to a file or stream whose last write failed is reported too, as a line feed and `again`.
 */
#define _GNU_SOURCE
#include <dlfcn.h>
#include <errno.h>
#include <fcntl.h>
#include <stdarg.h>
#include <stdio.h>
#include <stdlib.h>
#include <string.h>
#include <sys/file.h>
#include <sys/stat.h>
#include <sys/syscall.h>
#include <unistd.h>

enum { FILES = 64, NAME = 256 };

static void *(*next_malloc)(size_t);
static void *(*next_calloc)(size_t, size_t);
static void *(*next_realloc)(void *, size_t);

static char call[8];
static int stream, error, report;
static long nth, every, most, count;

/* The paths under which files were opened, by their descriptors. */
static char paths[FILES][NAME];

/* Whether something was written to a file since the last one was opened or renamed. */
static int is_written;

/* The descriptor whose last write failed, or -1. */
static int failed = -1;

__attribute__((constructor)) static void begin(void)
{
    next_malloc = dlsym(RTLD_NEXT, "malloc");
    next_calloc = dlsym(RTLD_NEXT, "calloc");
    next_realloc = dlsym(RTLD_NEXT, "realloc");
    const char *asked = getenv("FAULTS");
    if (!asked || sscanf(asked, "%7s %d %ld %ld %d %ld %d", call, &stream, &nth, &every, &error, &most, &report) != 7)
        call[0] = 0;
}

static void report_call(const char *what)
{
    syscall(SYS_write, report, what, strlen(what));
}

/* Counts a call, and returns whether it is affected. */
static int is_affected(const char *name, int descriptor, const char *what)
{
    if (strcmp(call, name) || (stream >= 0 && descriptor != stream))
        return 0;
    count++;
    if (count < nth || (count > nth && (every == 0 || (count - nth) % every)))
        return 0;
    if (count == nth)
        report_call(what);
    return 1;
}

static int refuses_memory(void)
{
    if (!is_affected("alloc", -1, "alloc"))
        return 0;
    errno = ENOMEM;
    return 1;
}

void *malloc(size_t size)
{
    if (!next_malloc)
        next_malloc = dlsym(RTLD_NEXT, "malloc");
    return refuses_memory() ? NULL : next_malloc(size);
}

void *calloc(size_t number, size_t size)
{
    /* dlsym may call it before it is known, and accepts NULL */
    if (!next_calloc)
        return NULL;
    return refuses_memory() ? NULL : next_calloc(number, size);
}

void *realloc(void *old, size_t size)
{
    if (!next_realloc)
        next_realloc = dlsym(RTLD_NEXT, "realloc");
    return refuses_memory() ? NULL : next_realloc(old, size);
}

int open(const char *path, int flags, ...)
{
    mode_t mode = 0;
    if (flags & O_CREAT) {
        va_list rest;
        va_start(rest, flags);
        mode = va_arg(rest, mode_t);
        va_end(rest);
    }
    if (is_affected("open", -1, path)) {
        errno = error;
        return -1;
    }
    int descriptor = syscall(SYS_openat, AT_FDCWD, path, flags, mode);
    if (descriptor >= 0 && descriptor < FILES)
        snprintf(paths[descriptor], NAME, "%s", path);
    is_written = 0;
    if (descriptor == failed)
        failed = -1;
    return descriptor;
}

static const char *path_of(int descriptor)
{
    return descriptor >= 0 && descriptor < FILES ? paths[descriptor] : "?";
}

ssize_t read(int descriptor, void *piece, size_t size)
{
    if (is_affected("read", descriptor, path_of(descriptor))) {
        if (error) {
            errno = error;
            return -1;
        }
        if (size > (size_t)most)
            size = most;
    }
    return syscall(SYS_read, descriptor, piece, size);
}

static ssize_t write_once(int descriptor, const void *piece, size_t size)
{
    const char number[] = { '0' + descriptor % 10, 0 };
    is_written |= descriptor > 2;
    if (is_affected("write", descriptor, number)) {
        if (error) {
            errno = error;
            return -1;
        }
        if (size > (size_t)most)
            size = most;
        if (size == 0)
            return 0;
    }
    return syscall(SYS_write, descriptor, piece, size);
}

ssize_t write(int descriptor, const void *piece, size_t size)
{
    if (descriptor == failed)
        report_call("\nagain");
    ssize_t taken = write_once(descriptor, piece, size);
    if (descriptor == failed)
        failed = -1;
    if (size > 0 && (taken == 0 || (taken < 0 && errno != EINTR)))
        failed = descriptor;
    return taken;
}

int rename(const char *path, const char *other)
{
    if (is_affected("rename", -1, other)) {
        errno = error;
        return -1;
    }
    is_written = 0;
    return syscall(SYS_rename, path, other);
}

int unlink(const char *path)
{
    if (is_affected("unlink", -1, path)) {
        errno = error;
        return -1;
    }
    return syscall(SYS_unlink, path);
}

int flock(int descriptor, int how)
{
    if (is_affected("flock", -1, path_of(descriptor))) {
        errno = error;
        return -1;
    }
    return syscall(SYS_flock, descriptor, how);
}

int fchmod(int descriptor, mode_t mode)
{
    if (is_affected("fchmod", -1, path_of(descriptor))) {
        errno = error;
        return -1;
    }
    return syscall(SYS_fchmod, descriptor, mode);
}

int statx(int descriptor, const char *path, int flags, unsigned int mask, struct statx *found)
{
    char what[NAME + 16];
    snprintf(what, sizeof what, "%s%s%s", is_written ? "written " : "", *path ? "" : "open ", *path ? path : path_of(descriptor));
    if (is_affected("statx", -1, what)) {
        errno = error;
        return -1;
    }
    return syscall(SYS_statx, descriptor, path, flags, mask, found);
}
