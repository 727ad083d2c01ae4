/* Replaces the C library's malloc in a program that is run with it (LD_PRELOAD), and lets allocations
 * fail. They are counted from 1, and only once the C library itself has started. A realloc is an
 * allocation, too. It also counts the blocks that are freed. A program in Rattle calls no other allocation.
 *
 * FAIL_AT=N       the Nth allocation fails; 0, or nothing: none does
 * FAIL_AFTER=1    so does each allocation after it
 * FAIL_REPORT=F   how many allocations there were, and how many blocks were never freed, is written to
 *                 the file F when the program ends */
#include <errno.h>
#include <fcntl.h>
#include <stdio.h>
#include <stdlib.h>

extern void *__libc_malloc(size_t size);
extern void *__libc_calloc(size_t count, size_t size);
extern void *__libc_realloc(void *old, size_t size);
extern void __libc_free(void *block);

static unsigned long fail_at, allocations, blocks;
static int fail_after, has_started;

/* Counts an allocation, and returns whether it fails. */
static int fails(void) {
    if (!has_started)
        return 0;
    allocations += 1;
    if (fail_at == 0 || allocations < fail_at || (allocations > fail_at && !fail_after))
        return 0;
    errno = ENOMEM;
    return 1;
}

/* Counts a block that came, if one did. */
static void *counted(void *block) {
    blocks += has_started && block;
    return block;
}

void *malloc(size_t size) {
    return fails() ? NULL : counted(__libc_malloc(size));
}

void *calloc(size_t count, size_t size) {
    return fails() ? NULL : counted(__libc_calloc(count, size));
}

/* A block of another size is the same block. */
void *realloc(void *old, size_t size) {
    if (fails())
        return NULL;
    return old ? __libc_realloc(old, size) : counted(__libc_realloc(old, size));
}

void free(void *block) {
    blocks -= has_started && block;
    __libc_free(block);
}

__attribute__((constructor)) static void start(void) {
    const char *at = getenv("FAIL_AT"), *after = getenv("FAIL_AFTER");
    fail_at = at ? strtoul(at, NULL, 10) : 0;
    fail_after = after && *after == '1';
    has_started = 1;
}

__attribute__((destructor)) static void report(void) {
    const char *path = getenv("FAIL_REPORT");
    has_started = 0;
    if (path)
        dprintf(open(path, O_WRONLY | O_CREAT | O_TRUNC, 0600), "%lu\n%lu\n", allocations, blocks);
}
