// What the header says of layouts that are added again, of a limit of 0, of how many calls of the driver a
// request and a free take, of what 'user' points to, of handles and counts that take all of their bits, and
// of names for new pools.
#include "gpu_descriptor.h"
#include "host.h"
#include <string.h>

enum { MAX = 5000, MAX_USER = 24 };

// Handles of the driver, which have more than 32 bits.
static const uint64_t FIRST_HANDLE = UINT64_C(1) << 40;

static uint64_t pools, sets_alive, next_handle = UINT64_C(1) << 40, calls, calls_of_free;
static uint64_t last_layout; // of the last sets
static gd_pool_info last_pool;
static gd_set sets[MAX];

static gd_status create_pool(void *user, const gd_pool_info *info, uint64_t *pool) {
    (void)user;
    calls++;
    pools++;
    last_pool = *info;
    *pool = ++next_handle;
    return GD_OK;
}

static void destroy_pool(void *user, uint64_t pool) {
    (void)user;
    CHECK(pool > FIRST_HANDLE);
    calls++;
    pools--;
}

static gd_status allocate_sets(void *user, uint64_t pool, uint32_t count, const uint64_t *layouts,
                               uint64_t *handles) {
    (void)user;
    CHECK(pool > FIRST_HANDLE);
    calls++;
    sets_alive += count;
    last_layout = layouts[0];
    for (uint32_t at = 0; at < count; at++) {
        CHECK(layouts[at] == layouts[0] && handles[at] == 0);
        handles[at] = ++next_handle;
    }
    return GD_OK;
}

static void free_sets(void *user, uint64_t pool, uint32_t count, const uint64_t *handles) {
    (void)user;
    CHECK(pool > FIRST_HANDLE);
    for (uint32_t at = 0; at < count; at++)
        CHECK(handles[at] > FIRST_HANDLE);
    calls++;
    calls_of_free++;
    sets_alive -= count;
}

static gd_allocator created(uint32_t limit) {
    static const gd_device DEVICE = {NULL, create_pool, destroy_pool, allocate_sets, free_sets};
    gd_allocator allocator;
    CHECK(gd_create(&DEVICE, limit, &allocator) == GD_OK && gd_allocator_set_max_kept(allocator, 0) == GD_OK);
    return allocator;
}

static gd_layout added(gd_allocator allocator, uint64_t handle, uint32_t count, uint32_t flags) {
    uint32_t counts[GD_KINDS] = {[GD_SAMPLER] = count, [GD_STORAGE_IMAGE] = 1};
    gd_layout layout;
    CHECK(gd_add_layout(allocator, handle, counts, flags, &layout) == GD_OK && layout.owner == allocator.id);
    return layout;
}

// A layout that was added before, with the same handle, counts and flags, gets the same index again. With other
// counts or flags, or another handle, it is another one, even if a driver gives a handle twice.
static void add_layouts_again(void) {
    enum { COUNT = 5 };
    gd_allocator allocator = created(100);
    gd_layout layouts[COUNT];
    for (int turn = 0; turn < 2; turn++) {
        gd_layout again[COUNT] = {
            added(allocator, 7, 1, 0),
            added(allocator, 7, 2, 0),
            added(allocator, 7, 1, GD_UPDATE_AFTER_BIND),
            added(allocator, 8, 1, 0),
            added(allocator, 7 + (UINT64_C(1) << 40), 1, 0),
        };
        for (int at = 0; at < COUNT; at++) {
            CHECK(turn == 0 || again[at].index == layouts[at].index);
            for (int other = 0; other < at; other++)
                CHECK(again[at].index != again[other].index);
            layouts[at] = again[at];
        }
    }
    CHECK(gd_destroy(allocator) == GD_OK);
}

// Without room for update-after-bind descriptors such a request fails, and the driver isn't called.
static void allocate_at_a_limit_of_zero(void) {
    gd_allocator allocator = created(0);
    gd_layout marked = added(allocator, 1, 0, GD_UPDATE_AFTER_BIND), other = added(allocator, 2, 0, 0);
    calls = 0;
    CHECK(gd_allocate(allocator, marked, 1, sets) == GD_FRAGMENTATION && calls == 0 && sets[0].owner == 0);
    CHECK(gd_allocate(allocator, other, 1, sets) == GD_OK && pools == 1);
    CHECK(gd_allocate(allocator, marked, 1, sets + 1) == GD_FRAGMENTATION && pools == 1);
    CHECK(gd_free(allocator, sets, 1) == GD_OK && gd_destroy(allocator) == GD_OK);
    allocator = created(1); // of a set that has one
    marked = added(allocator, 1, 0, GD_UPDATE_AFTER_BIND);
    CHECK(gd_allocate(allocator, marked, 1, sets) == GD_OK);
    CHECK(gd_allocate(allocator, marked, 1, sets + 1) == GD_FRAGMENTATION);
    CHECK(gd_free(allocator, sets, 1) == GD_OK && gd_destroy(allocator) == GD_OK && pools == 0);
}

// Sets that were allocated one by one, and are freed in the same order: one call of free_sets for each pool.
static void free_singles_at_once(void) {
    gd_allocator allocator = created(0);
    gd_layout layout = added(allocator, 1, 1, 0);
    for (uint32_t at = 0; at < 200; at++)
        CHECK(gd_allocate(allocator, layout, 1, &sets[at]) == GD_OK);
    uint64_t before = pools;
    calls_of_free = 0;
    CHECK(before > 1 && gd_free(allocator, sets, 200) == GD_OK && calls_of_free == before && sets_alive == 0);
    CHECK(gd_destroy(allocator) == GD_OK && pools == 0);
}

// A request of thousands of sets: one pool, and one call for it.
static void allocate_many_at_once(void) {
    gd_allocator allocator = created(0);
    gd_layout layout = added(allocator, 1, 1, 0);
    calls = 0;
    CHECK(gd_allocate(allocator, layout, MAX, sets) == GD_OK && calls == 2 && sets_alive == MAX);
    for (uint32_t at = 0; at < MAX; at++) {
        CHECK(sets[at].handle > next_handle - MAX && sets[at].handle <= next_handle);
        CHECK(at == 0 || sets[at].handle != sets[at - 1].handle);
    }
    calls_of_free = 0;
    CHECK(gd_free(allocator, sets, MAX) == GD_OK && calls_of_free == 1 && sets_alive == 0);
    CHECK(gd_destroy(allocator) == GD_OK && pools == 0);
}

// All bits of a handle are returned.
static void pass_whole_handles(void) {
    gd_allocator allocator = created(0);
    for (uint32_t bit = 0; bit < 64; bit++) {
        const uint64_t handle = UINT64_C(1) << bit;
        CHECK(gd_allocate(allocator, added(allocator, handle, 1, 0), 1, sets) == GD_OK && last_layout == handle);
        CHECK(sets[0].handle == next_handle && gd_free(allocator, sets, 1) == GD_OK);
    }
    CHECK(gd_destroy(allocator) == GD_OK && pools == 0);
}

// A layout with 2^31 descriptors of a kind, and more: the sets of a request have a pool each.
static void count_past_31_bits(void) {
    static const uint32_t COUNTS[] = {INT32_MAX, UINT32_C(1) << 31, UINT32_MAX};
    gd_allocator allocator = created(0), marked = created(UINT32_MAX);
    for (uint32_t at = 0; at < 3; at++) {
        gd_layout layout = added(allocator, 1, COUNTS[at], 0);
        CHECK(gd_allocate(allocator, layout, 3, sets) == GD_OK && gd_free(allocator, sets, 3) == GD_OK);
        uint32_t most = last_pool.max_sets;
        CHECK(last_pool.counts[GD_SAMPLER] == most * COUNTS[at] && most == 1 && last_pool.counts[GD_STORAGE_IMAGE] == 1);
    }
    // With the storage image the set has more descriptors than the limit.
    CHECK(gd_allocate(marked, added(marked, 1, UINT32_MAX, GD_UPDATE_AFTER_BIND), 1, sets) == GD_FRAGMENTATION);
    CHECK(gd_allocate(marked, added(marked, 1, UINT32_MAX - 1, GD_UPDATE_AFTER_BIND), 1, sets) == GD_OK);
    CHECK(last_pool.counts[GD_SAMPLER] == UINT32_MAX - 1);
    CHECK(gd_free_all(marked) == GD_OK && gd_destroy(marked) == GD_OK && gd_destroy(allocator) == GD_OK);
}

// A count of sets that aren't there; none of them is read.
static void pass_2_to_the_31_sets(void) {
    static const uint32_t COUNTS[] = {UINT32_C(1) << 31, UINT32_MAX};
    gd_allocator allocator = created(0);
    gd_layout layout = added(allocator, 1, 1, 0);
    gd_set *set = malloc(sizeof *set);
    CHECK(set != NULL && gd_allocate(allocator, layout, 1, set) == GD_OK);
    for (uint32_t at = 0; at < 2; at++) {
        CHECK(gd_free(allocator, NULL, COUNTS[at]) == GD_NULL_POINTER);
        CHECK(gd_free_after(allocator, NULL, COUNTS[at], 1) == GD_NULL_POINTER);
        CHECK(gd_allocate(allocator, layout, COUNTS[at], NULL) == GD_NULL_POINTER);
        CHECK(gd_free(allocator, set, COUNTS[at]) == GD_BAD_SET);
        CHECK(gd_free_after(allocator, set, COUNTS[at], 1) == GD_BAD_SET);
    }
    CHECK(gd_free(allocator, set, 1) == GD_OK && gd_destroy(allocator) == GD_OK && pools == 0);
    free(set);
}

static unsigned char seen[MAX_USER]; // what `user` pointed to in the last call
static size_t user_size;

static gd_status create_pool_of_user(void *user, const gd_pool_info *info, uint64_t *pool) {
    CHECK((uintptr_t)user % sizeof(uint64_t) == 0);
    memcpy(seen, user, user_size);
    return create_pool(user, info, pool);
}

// Each size is copied whole, also one that is no multiple of 8. The original may go.
static void copy_users(void) {
    const gd_device device = {seen, create_pool_of_user, destroy_pool, allocate_sets, free_sets};
    for (user_size = 1; user_size <= MAX_USER; user_size++) {
        gd_device it = device;
        gd_allocator allocator;
        unsigned char *user = malloc(user_size), wanted[MAX_USER];
        CHECK(user != NULL);
        for (size_t at = 0; at < user_size; at++)
            user[at] = wanted[at] = (unsigned char)(0xff - at);
        it.user = user;
        CHECK(gd_create_with_copy(&it, user_size, 0, 0, &allocator) == GD_OK);
        free(user);
        CHECK(gd_allocate(allocator, added(allocator, 1, 1, 0), 1, sets) == GD_OK);
        CHECK(memcmp(seen, wanted, user_size) == 0);
        CHECK(gd_free(allocator, sets, 1) == GD_OK && gd_destroy(allocator) == GD_OK && pools == 0);
    }
}

// ---- names of pools ----

// A device that refuses some calls. A pool that was created is named before any other call.
static gd_allocator naming;
static uint64_t unnamed; // the pool that was just created, or 0
static uint64_t named, refused_pools, refused_new;
static bool is_new;    // whether the last call created a pool
static bool is_naming; // whether new pools get names

static bool is_refused(uint32_t one_of, gd_status *why) {
    static const gd_status REASONS[] = {GD_OUT_OF_DEVICE_MEMORY, GD_OUT_OF_HOST_MEMORY, GD_FRAGMENTATION,
                                        GD_OUT_OF_POOL_MEMORY,   GD_DEVICE_LOST,        77};
    *why = one_in(one_of) ? REASONS[random_below(6)] : GD_OK;
    return *why != GD_OK;
}

static gd_status create_pool_to_name(void *user, const gd_pool_info *info, uint64_t *pool) {
    gd_status why;
    CHECK(unnamed == 0);
    is_new = false;
    *pool = ++next_handle; // of a refused pool it means nothing
    if (is_refused(3, &why)) {
        refused_pools++;
        return why;
    }
    is_new = true;
    (void)create_pool(user, info, pool);
    unnamed = is_naming ? *pool : 0;
    return GD_OK;
}

static void destroy_named_pool(void *user, uint64_t pool) {
    CHECK(unnamed == 0);
    destroy_pool(user, pool);
}

static gd_status allocate_sets_of_named(void *user, uint64_t pool, uint32_t count, const uint64_t *layouts,
                                        uint64_t *handles) {
    gd_status why;
    CHECK(unnamed == 0);
    if (is_refused(4, &why)) {
        refused_new += is_new;
        return why;
    }
    is_new = false;
    return allocate_sets(user, pool, count, layouts, handles);
}

// Names go to the user that was given with this function, in a call on the allocator.
static void name_pool(void *user, uint64_t pool, const gd_pool_info *info) {
    CHECK(user == &named && pool == unnamed && memcmp(info, &last_pool, sizeof *info) == 0);
    CHECK(gd_trim(naming) == GD_BUSY && gd_allocator_set_pool_created(naming, NULL, NULL) == GD_BUSY);
    unnamed = 0;
    named++;
}

static void count_pool(void *user, uint64_t pool, const gd_pool_info *info) {
    (void)info;
    CHECK(pool == unnamed);
    unnamed = 0;
    ++*(uint64_t *)user;
}

static void allocate_named(const gd_layout *layouts) {
    const uint32_t count = 1 + random_below(600);
    const gd_status status = gd_allocate(naming, layouts[random_below(3)], count, sets);
    CHECK(unnamed == 0);
    CHECK(status != GD_OK || gd_free(naming, sets, count) == GD_OK);
    CHECK(gd_trim(naming) == GD_OK && sets_alive == 0 && pools == 0);
}

// Each pool is named once, whatever the device refuses before and after.
static void name_pools(void) {
    const gd_device device = {&pools, create_pool_to_name, destroy_named_pool, allocate_sets_of_named, free_sets};
    uint64_t counted = 0;
    CHECK(gd_create(&device, UINT32_MAX, &naming) == GD_OK && gd_allocator_set_max_kept(naming, 0) == GD_OK);
    const gd_layout layouts[] = {added(naming, 1, 1, 0), added(naming, 2, 0, GD_UPDATE_AFTER_BIND),
                                 added(naming, 3, 1000, 0)};
    CHECK(gd_allocator_set_max_pool_descriptors(naming, 20000) == GD_OK);
    is_naming = true;
    CHECK(gd_allocator_set_pool_created(naming, name_pool, &named) == GD_OK);
    for (int turn = 0; turn < 1000; turn++)
        allocate_named(layouts);
    CHECK(named > 100 && refused_pools > 100 && refused_new > 100);
    const uint64_t before = named;
    CHECK(gd_allocator_set_pool_created(naming, count_pool, &counted) == GD_OK);
    for (int turn = 0; turn < 100; turn++)
        allocate_named(layouts);
    CHECK(named == before && counted > 10);
    is_naming = false;
    const uint64_t counted_before = counted;
    CHECK(gd_allocator_set_pool_created(naming, NULL, &counted) == GD_OK);
    for (int turn = 0; turn < 100; turn++)
        allocate_named(layouts);
    CHECK(named == before && counted == counted_before);
    CHECK(gd_destroy(naming) == GD_OK);
}

int main(void) {
    add_layouts_again();
    allocate_at_a_limit_of_zero();
    free_singles_at_once();
    allocate_many_at_once();
    pass_whole_handles();
    count_past_31_bits();
    pass_2_to_the_31_sets();
    copy_users();
    name_pools();
    printf("requests are as the header says\n");
    return 0;
}
