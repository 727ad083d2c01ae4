// The library's memory (memory.h). The linker leads calls of malloc to __wrap_malloc, and so on.
#include "memory.h"
#include "host.h"

uint32_t memory_refused_one_in;
uint64_t memory_refuses_at;
uint64_t memory_refusals;
uint64_t memory_blocks;
uint64_t memory_requests;

static _Thread_local bool is_inside, was_inside;

void *__real_malloc(size_t size);
void *__real_calloc(size_t count, size_t size);
void *__real_realloc(void *old, size_t size);
int __real_posix_memalign(void **block, size_t alignment, size_t size);
void *__real_aligned_alloc(size_t alignment, size_t size);
void __real_free(void *block);
void *__wrap_malloc(size_t size);
void *__wrap_calloc(size_t count, size_t size);
void *__wrap_realloc(void *old, size_t size);
int __wrap_posix_memalign(void **block, size_t alignment, size_t size);
void *__wrap_aligned_alloc(size_t alignment, size_t size);
void __wrap_free(void *block);

void memory_enter(void) {
    is_inside = true;
}

gd_status memory_leave(gd_status status) {
    is_inside = false;
    return status;
}

void memory_pause(void) {
    was_inside = is_inside;
    is_inside = false;
}

void memory_go_on(void) {
    is_inside = was_inside;
}

// Whether memory that is asked for is refused.
static bool is_refused(void) {
    if (!is_inside)
        return false;
    memory_requests++;
    if (memory_requests != memory_refuses_at &&
        (memory_refused_one_in == 0 || !one_in(memory_refused_one_in)))
        return false;
    memory_refusals++;
    return true;
}

static void *counted(void *block) {
    memory_blocks += is_inside && block != NULL;
    return block;
}

void *__wrap_malloc(size_t size) {
    return is_refused() ? NULL : counted(__real_malloc(size));
}

void *__wrap_calloc(size_t count, size_t size) {
    return is_refused() ? NULL : counted(__real_calloc(count, size));
}

void *__wrap_realloc(void *old, size_t size) {
    void *block = is_refused() ? NULL : __real_realloc(old, size);
    memory_blocks += is_inside && block != NULL && old == NULL;
    return block;
}

int __wrap_posix_memalign(void **block, size_t alignment, size_t size) {
    if (is_refused())
        return 12;
    int failed = __real_posix_memalign(block, alignment, size);
    memory_blocks += is_inside && failed == 0;
    return failed;
}

void *__wrap_aligned_alloc(size_t alignment, size_t size) {
    return is_refused() ? NULL : counted(__real_aligned_alloc(alignment, size));
}

void __wrap_free(void *block) {
    memory_blocks -= is_inside && block != NULL;
    __real_free(block);
}

void memory_free_other(void *block) {
    __real_free(block);
}
