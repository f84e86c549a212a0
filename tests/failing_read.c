/* A preloaded library under which reads of one file and writes to standard output fail, stop short or are interrupted, as environment variables say.
 *
 * cc -shared -fPIC -o failing_read.so tests/failing_read.c
 * LD_PRELOAD=$PWD/failing_read.so READ_OF=grammar.img READ_FAILS_AFTER=3072 lines <words
 *
 * READ_OF              the file's name without its folders, or - for standard input; the reads below are of it alone
 * READ_FAILS_AFTER     bytes that are read before each further read fails with EIO
 * READ_SHORT           bytes that a read hands over at most
 * READ_INTERRUPTED     set: the first read and every other one after it fail with EINTR
 * WRITE_FAILS_AFTER    bytes that standard output takes before each further write fails with ENOSPC
 * WRITE_SHORT          bytes that a write takes at most
 * WRITE_INTERRUPTED    set: the first write and every other one after it fail with EINTR */
#define _GNU_SOURCE
#include <errno.h>
#include <stdint.h>
#include <stdio.h>
#include <stdlib.h>
#include <string.h>
#include <sys/syscall.h>
#include <unistd.h>

/* What is known of the reads, and of the writes. */
struct direction {
    const char *fails_after, *most, *interrupted;
    int error;
    size_t done;
    unsigned calls;
};

static struct direction reads = {"READ_FAILS_AFTER", "READ_SHORT", "READ_INTERRUPTED", EIO, 0, 0};
static struct direction writes = {"WRITE_FAILS_AFTER", "WRITE_SHORT", "WRITE_INTERRUPTED", ENOSPC, 0, 0};

/* The number of a variable, or a size past all others where it is not set. */
static size_t number(const char *name)
{
    const char *text = getenv(name);
    return text == NULL ? SIZE_MAX : strtoul(text, NULL, 10);
}

static int is_read_of(int file)
{
    const char *name = getenv("READ_OF");
    char link[64], path[4096];
    if (name == NULL)
        return 0;
    if (strcmp(name, "-") == 0)
        return file == STDIN_FILENO;
    snprintf(link, sizeof link, "/proc/self/fd/%d", file);
    ssize_t length = readlink(link, path, sizeof path - 1);
    if (length < 0)
        return 0;
    path[length] = 0;
    const char *slash = strrchr(path, '/');
    return strcmp(slash == NULL ? path : slash + 1, name) == 0;
}

static ssize_t moved(struct direction *of, long call, int file, void *bytes, size_t count)
{
    size_t end = number(of->fails_after), most = number(of->most);
    if (getenv(of->interrupted) != NULL && of->calls++ % 2 == 0) {
        errno = EINTR;
        return -1;
    }
    if (count > 0 && of->done >= end) {
        errno = of->error;
        return -1;
    }
    if (count > end - of->done)
        count = end - of->done;
    if (count > most)
        count = most;
    ssize_t n = syscall(call, file, bytes, count);
    if (n > 0)
        of->done += (size_t)n;
    return n;
}

ssize_t read(int file, void *bytes, size_t count)
{
    return is_read_of(file) ? moved(&reads, SYS_read, file, bytes, count) : syscall(SYS_read, file, bytes, count);
}

ssize_t write(int file, const void *bytes, size_t count)
{
    return file == STDOUT_FILENO ? moved(&writes, SYS_write, file, (void *)bytes, count) : syscall(SYS_write, file, bytes, count);
}
