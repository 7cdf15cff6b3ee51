/* Preloaded (LD_PRELOAD), it refuses one call of malloc and realloc: the one whose number REFUSED says, counted from 1. Where COUNTED is
 * set, the number of calls is written to standard error when the program ends itself. */
#define _GNU_SOURCE
#include <stdatomic.h>
#include <stdio.h>
#include <stdlib.h>
#include <sys/syscall.h>
#include <unistd.h>

extern void *__libc_malloc(size_t size);
extern void *__libc_realloc(void *old, size_t size);

static atomic_long calls;
static long refused;
static const char *counted;

__attribute__((constructor)) static void begin(void) {
    const char *number = getenv("REFUSED");
    refused = number ? atol(number) : 0;
    counted = getenv("COUNTED");
    atomic_store(&calls, 0);
}

static void tell(void) {
    if (counted)
        dprintf(2, "%ld\n", atomic_load(&calls));
    counted = NULL;
}

__attribute__((destructor)) static void end(void) {
    tell();
}

void _exit(int status) {
    tell();
    syscall(SYS_exit_group, status);
    for (;;) {
    }
}

static int is_refused(void) {
    return atomic_fetch_add(&calls, 1) + 1 == refused;
}

void *malloc(size_t size) {
    return is_refused() ? NULL : __libc_malloc(size);
}

void *realloc(void *old, size_t size) {
    return is_refused() ? NULL : __libc_realloc(old, size);
}
