// A spike of sets, after which few are left: gd_trim and gd_cleanup leave only the pools of these. gd_remove_layout
// leaves no empty pool of the layout's counts.
#include "gpu_descriptor.h"
#include "host.h"

enum { SPIKE = 100000, POOLS = 4096 };

// The sets that each pool has, by the pool's handle, and how many pools there are.
static uint64_t sets_of[POOLS], pools, next_handle;
static gd_set sets[SPIKE];

static gd_status create_pool(void *user, const gd_pool_info *info, uint64_t *pool) {
    (void)user, (void)info;
    CHECK(++next_handle < POOLS);
    pools++;
    *pool = next_handle;
    return GD_OK;
}

static void destroy_pool(void *user, uint64_t pool) {
    (void)user;
    CHECK(sets_of[pool] == 0);
    pools--;
}

static gd_status allocate_sets(void *user, uint64_t pool, uint32_t count, const uint64_t *layouts,
                               uint64_t *handles) {
    (void)user, (void)layouts;
    for (uint32_t at = 0; at < count; at++)
        handles[at] = pool << 32 | ++sets_of[pool];
    return GD_OK;
}

static void free_sets(void *user, uint64_t pool, uint32_t count, const uint64_t *handles) {
    (void)user;
    for (uint32_t at = 0; at < count; at++)
        CHECK(handles[at] >> 32 == pool);
    sets_of[pool] -= count;
}

static const gd_device DEVICE = {NULL, create_pool, destroy_pool, allocate_sets, free_sets};

// Frees all but three: one of the first pool, one between, and one of the last.
static void free_the_spike(gd_allocator allocator) {
    uint32_t middle = SPIKE / 2;
    CHECK(gd_free(allocator, sets + 1, middle - 1) == GD_OK);
    CHECK(gd_free(allocator, sets + middle + 1, SPIKE - middle - 2) == GD_OK);
}

static void try_spike(gd_status (*leave)(gd_allocator), uint32_t keep) {
    gd_allocator allocator;
    gd_layout layout;
    uint32_t counts[GD_KINDS] = {1};
    CHECK(gd_create(&DEVICE, 0, &allocator) == GD_OK && gd_allocator_set_max_kept(allocator, keep) == GD_OK);
    CHECK(gd_add_layout(allocator, 1, counts, 0, &layout) == GD_OK);
    for (size_t at = 0; at < SPIKE; at++)
        CHECK(gd_allocate(allocator, layout, 1, sets + at) == GD_OK);
    uint64_t most = pools;
    // Pools of 64, 64, 128 and 256 sets, and then of 512 each.
    CHECK(most > 190);
    free_the_spike(allocator);
    CHECK(leave(allocator) == GD_OK && pools == 3);
    // Each set is freed to its own pool, while other pools are gone, and a new set finds room.
    CHECK(gd_allocate(allocator, layout, 1, sets + 1) == GD_OK && pools == 3);
    gd_set left[4] = {sets[SPIKE / 2], sets[1], sets[0], sets[SPIKE - 1]};
    CHECK(gd_free(allocator, left, 4) == GD_OK);
    CHECK(gd_cleanup(allocator) == GD_OK && pools == 0 && gd_destroy(allocator) == GD_OK);
}

// Kept sets stay at a trim, and a cleanup frees them.
static void try_kept(void) {
    gd_allocator allocator;
    gd_layout layout;
    uint32_t counts[GD_KINDS] = {1};
    CHECK(gd_create(&DEVICE, 0, &allocator) == GD_OK);
    CHECK(gd_add_layout(allocator, 1, counts, 0, &layout) == GD_OK);
    CHECK(gd_allocate(allocator, layout, 1000, sets) == GD_OK);
    uint64_t most = pools, kept;
    CHECK(gd_free(allocator, sets, 1000) == GD_OK && gd_trim(allocator) == GD_OK && pools == most);
    CHECK(gd_kept(allocator, layout, &kept) == GD_OK && kept == 1000);
    CHECK(gd_cleanup(allocator) == GD_OK && pools == 0 && gd_destroy(allocator) == GD_OK);
}

// Layouts come and go. Each has counts of its own, or one beside it with the same, which keeps a set.
static void try_removed(void) {
    gd_allocator allocator;
    gd_layout layout, beside;
    uint64_t kept;
    CHECK(gd_create(&DEVICE, 0, &allocator) == GD_OK);
    for (uint32_t images = 1; images <= POOLS / 4; images++) {
        uint32_t counts[GD_KINDS] = {0, 0, images};
        CHECK(gd_add_layout(allocator, 1, counts, 0, &layout) == GD_OK);
        CHECK(gd_allocate(allocator, layout, 2, sets) == GD_OK && gd_free(allocator, sets, 2) == GD_OK);
        CHECK(pools == 1 && gd_remove_layout(allocator, layout) == GD_OK && pools == 0);
    }
    uint32_t one[GD_KINDS] = {1};
    CHECK(gd_add_layout(allocator, 1, one, 0, &layout) == GD_OK);
    CHECK(gd_add_layout(allocator, 2, one, 0, &beside) == GD_OK);
    CHECK(gd_allocate(allocator, beside, 1, sets) == GD_OK && gd_allocate(allocator, layout, 64, sets + 1) == GD_OK);
    CHECK(gd_free(allocator, sets, 65) == GD_OK && pools == 2);
    CHECK(gd_remove_layout(allocator, layout) == GD_OK && pools == 1);
    CHECK(gd_kept(allocator, beside, &kept) == GD_OK && kept == 1);
    CHECK(gd_remove_layout(allocator, beside) == GD_OK && pools == 0 && gd_destroy(allocator) == GD_OK);
}

// One set of 100,000 images has a pool of its own.
static void try_bindless(void) {
    gd_allocator allocator;
    gd_layout layout;
    gd_statistics numbers;
    uint32_t counts[GD_KINDS] = {0, 0, 100000};
    CHECK(gd_create(&DEVICE, 0, &allocator) == GD_OK);
    CHECK(gd_add_layout(allocator, 1, counts, 0, &layout) == GD_OK);
    for (uint64_t at = 0; at < 3; at++)
        CHECK(gd_allocate(allocator, layout, 1, sets + at) == GD_OK && pools == at + 1);
    CHECK(gd_get_statistics(allocator, &numbers) == GD_OK && numbers.pools == 3);
    CHECK(gd_free_all(allocator) == GD_OK && gd_destroy(allocator) == GD_OK && pools == 0);
}

int main(void) {
    try_spike(gd_trim, 0);
    next_handle = 0;
    try_spike(gd_cleanup, UINT32_MAX);
    next_handle = 0;
    try_kept();
    try_bindless();
    next_handle = 0;
    try_removed();
    return 0;
}
