/* A library to preload, which makes one allocation of a program fail. With REFUSE=N in the environment the N-th call of malloc or
   realloc returns NULL, and with REFUSE=0 none does. The number of calls is written to the file that REFUSE_COUNT names.
   gcc -O2 -shared -fPIC -o refuse.so refuse.c */
#define _GNU_SOURCE
#include <stddef.h>
#include <stdio.h>
#include <stdlib.h>
#include <sys/syscall.h>
#include <unistd.h>

extern void *__libc_malloc(size_t);
extern void *__libc_realloc(void *, size_t);

static long refused = -1;
static _Atomic long calls = 0;

static int is_refused(void) {
    if (refused < 0) {
        const char *word = getenv("REFUSE");
        refused = word ? strtol(word, NULL, 10) : 0;
    }
    return ++calls == refused;
}

void *malloc(size_t size) { return is_refused() ? NULL : __libc_malloc(size); }

void *realloc(void *old, size_t size) { return is_refused() ? NULL : __libc_realloc(old, size); }

__attribute__((destructor)) static void write_count(void) {
    const char *name = getenv("REFUSE_COUNT");
    if (!name) {
        return;
    }
    long count = calls;
    refused = 0;
    FILE *file = fopen(name, "w");
    if (file) {
        fprintf(file, "%ld\n", count);
        fclose(file);
    }
}

/* A program with threads ends by this call, which runs no destructor. */
void _exit(int status) {
    write_count();
    syscall(SYS_exit_group, status);
    __builtin_unreachable();
}
