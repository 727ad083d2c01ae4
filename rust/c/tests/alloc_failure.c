// Makes the n-th allocation of the library fail, for each n, in a run of calls. The call returns
// GD_OUT_OF_HOST_MEMORY and changes nothing: counts and the driver's sets are as before, and the same call
// succeeds at the next try. The same with kept sets: with these the call may succeed at once. A layout that
// isn't there is that mistake even without memory.
#include "gpu_descriptor.h"
#include "host.h"
#include "memory.h"
#include <string.h>

enum { LAYOUTS = 12, MAX = 700 };

static uint64_t pools, sets_alive, next_handle = UINT64_C(1) << 40;

static gd_status create_pool(void *user, const gd_pool_info *info, uint64_t *pool) {
    (void)user, (void)info;
    pools++;
    *pool = ++next_handle;
    return GD_OK;
}

static void destroy_pool(void *user, uint64_t pool) {
    (void)user, (void)pool;
    pools--;
}

static gd_status allocate_sets(void *user, uint64_t pool, uint32_t count, const uint64_t *layouts,
                               uint64_t *sets) {
    (void)user, (void)pool, (void)layouts;
    sets_alive += count;
    for (uint32_t place = 0; place < count; place++)
        sets[place] = ++next_handle;
    return GD_OK;
}

static void free_sets(void *user, uint64_t pool, uint32_t count, const uint64_t *sets) {
    (void)user, (void)pool, (void)sets;
    sets_alive -= count;
}

static gd_allocator allocator;
static uint64_t refused_calls;
static uint32_t keep;

// Makes a call again if it fails, and checks that it changed nothing.
#define RETRY(call)                                                                                \
    do {                                                                                           \
        uint64_t before = sets_alive, out = 0, refusals = memory_refusals;                         \
        gd_status status = LIBRARY(call);                                                          \
        if (status == GD_OK)                                                                       \
            break;                                                                                 \
        CHECK(status == GD_OUT_OF_HOST_MEMORY);                                                    \
        CHECK(memory_refusals == refusals + 1);                                                    \
        refused_calls++;                                                                           \
        CHECK(sets_alive == before);                                                               \
        CHECK(allocator.id == 0 || gd_outstanding(allocator, &out) == GD_OK);                      \
        CHECK(keep == 0 ? out == sets_alive : out <= sets_alive);                                  \
        CHECK(LIBRARY(call) == GD_OK);                                                             \
    } while (0)

// Counts are 5 each.
static gd_status allocate_variable_sets(void *user, uint64_t pool, uint32_t count, const uint64_t *layouts,
                                        const uint32_t *variable_counts, uint64_t *sets) {
    for (uint32_t at = 0; at < count; at++)
        CHECK(variable_counts[at] == 5);
    return allocate_sets(user, pool, count, layouts, sets);
}

// The calls that allocate nothing.
#define ALLOCATES_NOTHING(call)                                                                    \
    do {                                                                                           \
        uint64_t requests_before = memory_requests;                                                \
        CHECK(LIBRARY(call) == GD_OK);                                                             \
        CHECK(memory_requests == requests_before);                                                 \
    } while (0)

// Calls of all kinds: those that may allocate are made again if they fail, and the others allocate nothing.
static void run(void) {
    static gd_set sets[LAYOUTS][MAX], more[MAX];
    gd_layout layouts[LAYOUTS];
    gd_device device = {NULL, create_pool, destroy_pool, allocate_sets, free_sets};
    memset(&allocator, 0, sizeof allocator);
    RETRY(gd_create(&device, 1000000, &allocator));
    ALLOCATES_NOTHING(gd_allocator_set_max_kept(allocator, keep));
    for (uint32_t at = 0; at < LAYOUTS; at++) {
        uint32_t counts[GD_KINDS] = {at + 1, at == 7 ? 40000000 : 0};
        uint32_t flags = at % 2 == 0 ? 0 : GD_UPDATE_AFTER_BIND;
        RETRY(gd_add_layout(allocator, at, counts, at == 7 ? 0 : flags, &layouts[at]));
        RETRY(gd_allocate(allocator, layouts[at], at * 60 + 1, sets[at]));
    }
    for (uint32_t at = 0; at < LAYOUTS; at++)
        ALLOCATES_NOTHING(gd_free(allocator, sets[at], at * 20));
    ALLOCATES_NOTHING(gd_trim(allocator));
    if (keep == 0)
        ALLOCATES_NOTHING(gd_cleanup(allocator));
    RETRY(gd_allocate(allocator, layouts[3], MAX, more));
    ALLOCATES_NOTHING(gd_free_after(allocator, more, 100, 1));
    ALLOCATES_NOTHING(gd_free_after(allocator, more + 100, 600, 0));
    RETRY(gd_allocate(allocator, layouts[2], MAX, more));
    ALLOCATES_NOTHING(gd_frame_done(allocator, 0));
    ALLOCATES_NOTHING(gd_free_after(allocator, more, MAX, 3));
    for (uint32_t at = 0; at < LAYOUTS; at++)
        ALLOCATES_NOTHING(gd_free_after(allocator, sets[at] + at * 20, at * 40 + 1, 2 + at % 3));
    ALLOCATES_NOTHING(gd_frame_done(allocator, 3));
    ALLOCATES_NOTHING(gd_frame_done(allocator, UINT64_MAX));
    CHECK((sets_alive == 0) == (keep == 0));
    for (uint32_t at = 0; at < LAYOUTS; at++)
        RETRY(gd_allocate(allocator, layouts[at], MAX, sets[at]));
    for (uint32_t at = 0; at < LAYOUTS; at++)
        ALLOCATES_NOTHING(gd_free(allocator, sets[at], MAX));
    ALLOCATES_NOTHING(gd_remove_layout(allocator, layouts[4]));
    uint32_t other[GD_KINDS] = {9};
    RETRY(gd_add_layout(allocator, 4, other, 0, &layouts[4]));
    RETRY(gd_allocate(allocator, layouts[4], MAX, more));
    ALLOCATES_NOTHING(gd_free_after(allocator, more, 100, 1));
    ALLOCATES_NOTHING(gd_allocator_set_allocate_variable_sets(allocator, allocate_variable_sets));
    ALLOCATES_NOTHING(gd_allocator_set_pool_created(allocator, NULL, NULL));
    RETRY(gd_add_variable_layout(allocator, 4, 5, other, 0, &layouts[5]));
    RETRY(gd_allocate(allocator, layouts[5], MAX, more));
    ALLOCATES_NOTHING(gd_begin_frame(allocator, 5));
    ALLOCATES_NOTHING(gd_free_after_current(allocator, more, 100));
    ALLOCATES_NOTHING(gd_free_all(allocator));
    CHECK(sets_alive == 0);
    ALLOCATES_NOTHING(gd_destroy(allocator));
    CHECK(pools == 0 && memory_blocks == 1); // the slot
}

// Runs all with each allocation refused in turn, until there is none left. How many there were.
static uint64_t refuse_each(void) {
    uint64_t requests_before, refusals, turns = 0;
    do {
        requests_before = memory_requests;
        refusals = memory_refusals;
        memory_refuses_at = requests_before + ++turns;
        run();
    } while (memory_refusals > refusals);
    return turns - 1;
}

int main(void) {
    static const uint32_t KEEPS[] = {0, 1, 7, UINT32_MAX};
    uint64_t turns = 0;
    for (int at = 0; at < 4; at++) {
        keep = KEEPS[at];
        turns += refuse_each();
        CHECK(keep == 0 ? refused_calls == turns : refused_calls < turns);
    }
    printf("each of %" PRIu64 " allocations failed in turn: %" PRIu64 " calls failed, nothing lost\n",
           turns, refused_calls);
    return 0;
}
