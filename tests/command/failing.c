/*
 * Is loaded into the lister before the C library (LD_PRELOAD) and makes its reads or writes fail midway.
 *
 *   READ_FAILS=N    standard input gives N bytes, and then an error instead of its end
 *   READ_BY=N       it gives at most N bytes at a time
 *   WRITE_FAILS=N   standard output takes N bytes, and then nothing more
 */
#define _GNU_SOURCE
#include <errno.h>
#include <stdlib.h>
#include <string.h>
#include <sys/syscall.h>
#include <unistd.h>

static size_t least(size_t one, size_t other)
{
    return one < other ? one : other;
}

/* How many of the bytes asked for are let through: none once the limit is reached. This affects only the lister, not the shell. */
static size_t passing(const char *limit, size_t done, size_t asked)
{
    const char *bytes = getenv(limit);

    if (bytes == NULL || strcmp(program_invocation_short_name, "lister") != 0) {
        return asked;
    }
    return least(strtoul(bytes, NULL, 10) - done, asked);
}

ssize_t read(int from, void *bytes, size_t asked)
{
    static size_t done;
    size_t count = asked;
    ssize_t got;

    if (from == STDIN_FILENO && asked > 0) {
        count = least(passing("READ_FAILS", done, asked), passing("READ_BY", 0, asked));
        if (count == 0) {
            errno = EIO;
            return -1;
        }
    }
    got = syscall(SYS_read, from, bytes, count);
    if (from == STDIN_FILENO && got > 0) {
        done += (size_t)got;
    }
    return got;
}

ssize_t write(int to, const void *bytes, size_t asked)
{
    static size_t done;
    size_t count = asked;
    ssize_t put;

    if (to == STDOUT_FILENO && asked > 0) {
        count = passing("WRITE_FAILS", done, asked);
        if (count == 0) {
            errno = ENOSPC;
            return -1;
        }
    }
    put = syscall(SYS_write, to, bytes, count);
    if (to == STDOUT_FILENO && put > 0) {
        done += (size_t)put;
    }
    return put;
}
