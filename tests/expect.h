/*
 * What the tests share: a test that says where it failed, the count of all, and buffers compared.
 */
#ifndef EXPECT_H
#define EXPECT_H

#include <stdio.h>
#include <string.h>

/* Refused at compile time unless it holds. */
#define LAYOUT(name, holds) typedef char name[(holds) ? 1 : -1]

/* Counts a test; one that fails is printed with its line. */
#define EXPECT(test) expect(test, #test, __FILE__, __LINE__)

/* The same in a loop, with the place at which it stands. */
#define EXPECT_AT(at, test) expect_at(at, test, #test, __FILE__, __LINE__)

static int passed, failed;

static inline void expect(int holds, const char *what, const char *file, int line) {
    if (holds) {
        passed++;
    } else {
        failed++;
        printf("%s:%d: %s\n", file, line, what);
    }
}

static inline void expect_at(size_t at, int holds, const char *what, const char *file, int line) {
    expect(holds, what, file, line);
    if (!holds) {
        printf("    at %zu of its loop\n", at);
    }
}

/* Says how many tests passed; the exit status is 0 if all did. */
static inline int report(const char *name) {
    printf("%s: %d of %d tests passed\n", name, passed, passed + failed);
    return failed != 0;
}

/* Whether every byte of a buffer is this one. */
static inline int all_bytes(const void *buffer, size_t size, unsigned char byte) {
    const unsigned char *bytes = buffer;
    while (size > 0 && bytes[size - 1] == byte) {
        size--;
    }
    return size == 0;
}

#endif
