/* Assertions for the C tests: one that fails prints what it got, and the program goes on. */
#ifndef CHECK_H
#define CHECK_H

#include <stdio.h>
#include <string.h>

static int failures;

#define EQUAL(given, expected) equal(__FILE__, __LINE__, #given, (long long)(given), (long long)(expected))
#define SAME(given, expected, size) same(__FILE__, __LINE__, #given, given, expected, size)

static inline void equal(const char *file, int line, const char *what, long long given, long long expected)
{
    if (given != expected) {
        printf("%s:%d: %s is %lld and not %lld\n", file, line, what, given, expected);
        failures++;
    }
}

static inline void same(const char *file, int line, const char *what, const void *given, const void *expected, size_t size)
{
    const unsigned char *ours = (const unsigned char *)given, *theirs = (const unsigned char *)expected;
    size_t at = 0;

    while (at < size && ours[at] == theirs[at]) {
        at++;
    }
    if (at < size) {
        printf("%s:%d: byte %zu of %s is %02X and not %02X\n", file, line, at, what, ours[at], theirs[at]);
        failures++;
    }
}

#endif
