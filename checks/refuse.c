/* Makes one allocation of a program fail: the one whose number is REFUSE, counted from 1. It is loaded before the program
   (LD_PRELOAD). With COUNT set, the number of all allocations is written to the file of that name when the program ends. */
#include <errno.h>
#include <fcntl.h>
#include <stddef.h>
#include <stdio.h>
#include <stdlib.h>

extern void *__libc_malloc(size_t size);
extern void *__libc_realloc(void *old, size_t size);

static long left;
static long all;

__attribute__((constructor)) static void begin(void) {
    const char *number = getenv("REFUSE");
    left = number ? atol(number) : 0;
}

__attribute__((destructor)) static void end(void) {
    const char *path = getenv("COUNT");
    int file = path ? creat(path, 0600) : -1;
    if (file >= 0) {
        dprintf(file, "%ld\n", all);
    }
}

static int is_refused(void) {
    ++all;
    if (left == 0 || --left != 0) {
        return 0;
    }
    errno = ENOMEM;
    return 1;
}

void *malloc(size_t size) {
    return is_refused() ? NULL : __libc_malloc(size);
}

void *realloc(void *old, size_t size) {
    return is_refused() ? NULL : __libc_realloc(old, size);
}
