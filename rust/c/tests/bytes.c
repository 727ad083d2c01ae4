// The library's memory for a set, at some numbers of sets, as the C library counts it; and what is left after
// all were freed and after gd_cleanup. For one large request it may be at most 57 bytes.
#include "gpu_descriptor.h"
#include "host.h"
#include <malloc.h>

enum { MAX = 200000 };

static uint64_t next_handle;
static gd_set sets[MAX];

static gd_status create_pool(void *user, const gd_pool_info *info, uint64_t *pool) {
    (void)user, (void)info;
    *pool = ++next_handle;
    return GD_OK;
}

static void destroy_pool(void *user, uint64_t pool) {
    (void)user, (void)pool;
}

static gd_status allocate_sets(void *user, uint64_t pool, uint32_t count, const uint64_t *layouts,
                               uint64_t *handles) {
    (void)user, (void)pool, (void)layouts;
    for (uint32_t at = 0; at < count; at++)
        handles[at] = ++next_handle;
    return GD_OK;
}

static void free_sets(void *user, uint64_t pool, uint32_t count, const uint64_t *handles) {
    (void)user, (void)pool, (void)count, (void)handles;
}

static uint64_t bytes(void) {
    struct mallinfo2 info = mallinfo2();
    return info.uordblks + info.hblkhd;
}

// Prints what `count` sets take, allocated one by one or by one request.
static void measure(uint32_t count, bool is_one_request) {
    gd_device device = {NULL, create_pool, destroy_pool, allocate_sets, free_sets};
    gd_allocator allocator;
    gd_layout layout;
    uint32_t counts[GD_KINDS] = {1};
    CHECK(gd_create(&device, 0, &allocator) == GD_OK);
    CHECK(gd_add_layout(allocator, 1, counts, 0, &layout) == GD_OK);
    uint64_t before = bytes();
    for (uint32_t at = 0; at < count; at = is_one_request ? count : at + 1)
        CHECK(gd_allocate(allocator, layout, is_one_request ? count : 1, &sets[at]) == GD_OK);
    uint64_t out = bytes() - before;
    CHECK(gd_free(allocator, sets, count) == GD_OK && gd_cleanup(allocator) == GD_OK);
    // The table's 40 bytes, and 16 for the handle and the layout of a set of the largest pool.
    CHECK(!is_one_request || out / count <= 57);
    printf("%s%6u sets: %3u bytes each, %u after gd_cleanup; ", is_one_request ? "in one request " : "", count,
           (unsigned)(out / count), (unsigned)(bytes() - before));
    CHECK(gd_destroy(allocator) == GD_OK);
}

int main(void) {
    static const uint32_t COUNTS[] = {64, 1000, 20000, 65536, 70000, 100000, 200000};
    for (size_t at = 0; at < sizeof COUNTS / sizeof *COUNTS; at++)
        measure(COUNTS[at], false);
    measure(100000, true);
    printf("\n");
    return 0;
}
