/* Preloaded into a program, refuses one of its allocations: the one whose number, from 1, is in REFUSE.
 * At the end it writes to the file that COUNT names how many there were, and how many blocks were not given back. */
#define _GNU_SOURCE
#include <errno.h>
#include <stdio.h>
#include <stdlib.h>
#include <sys/syscall.h>
#include <unistd.h>

extern void *__libc_malloc(size_t);
extern void *__libc_calloc(size_t, size_t);
extern void *__libc_realloc(void *, size_t);
extern void *__libc_memalign(size_t, size_t);
extern void __libc_free(void *);

static unsigned long count;
static long kept;

static int refused(void) {
    static unsigned long number;
    static int known;
    if (!known) {
        const char *text = getenv("REFUSE");
        number = text ? strtoul(text, NULL, 10) : 0;
        known = 1;
    }
    if (__atomic_add_fetch(&count, 1, __ATOMIC_RELAXED) == number) {
        errno = ENOMEM;
        return 1;
    }
    return 0;
}

/* Notes a block that was given. */
static void *given(void *block) {
    if (block) __atomic_add_fetch(&kept, 1, __ATOMIC_RELAXED);
    return block;
}

void *malloc(size_t size) { return refused() ? NULL : given(__libc_malloc(size)); }

/* The C library's own, for its threads: never refused. */
void *calloc(size_t number, size_t size) { return given(__libc_calloc(number, size)); }

void *realloc(void *block, size_t size) {
    if (refused()) return NULL;
    return block ? __libc_realloc(block, size) : given(__libc_realloc(block, size));
}

void *aligned_alloc(size_t alignment, size_t size) {
    return refused() ? NULL : given(__libc_memalign(alignment, size));
}

int posix_memalign(void **block, size_t alignment, size_t size) {
    if (refused()) return ENOMEM;
    *block = given(__libc_memalign(alignment, size));
    return *block ? 0 : ENOMEM;
}

void free(void *block) {
    if (block) __atomic_sub_fetch(&kept, 1, __ATOMIC_RELAXED);
    __libc_free(block);
}

__attribute__((destructor)) static void tell(void) {
    const char *name = getenv("COUNT");
    unsigned long all = count;
    long left = kept;
    FILE *file = name ? fopen(name, "w") : NULL;
    if (file) {
        fprintf(file, "%lu %ld\n", all, left);
        fclose(file);
    }
}

/* A program with threads ends so, without its destructors. */
void _exit(int status) {
    tell();
    syscall(SYS_exit_group, status);
    __builtin_unreachable();
}
