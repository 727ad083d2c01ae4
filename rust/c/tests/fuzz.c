// A target of libFuzzer: the bytes choose calls on two allocators and what the driver returns. The driver
// checks each of its calls, and after each call of the library counts and statuses are as they have to be.
//
// It frees sets that are held, that were freed before, and that are made of parts of others. The library
// keeps none of the freed ones, or some, or all.
#include "gpu_descriptor.h"
#include "host.h"
#include <string.h>

enum { ALLOCATORS = 2, LAYOUTS = 4, MAX_SETS = 256, MAX_POOLS = 4096, MAX_HANDLES = 1 << 16 };

// Once all bytes were read, each further one is 0.
static const uint8_t *bytes;
static size_t left;

static uint8_t next_byte(void) {
    if (left == 0)
        return 0;
    left--;
    return *bytes++;
}

// ---- the driver ----

static uint64_t pool_sets[MAX_POOLS]; // how many are alive, plus 1; 0 if the pool is destroyed
static uint16_t pool_of[MAX_HANDLES]; // 0 if the set is freed
static uint32_t pool_count, set_count;

// An allocator, and what it has to have.
struct side {
    gd_allocator allocator;
    gd_layout layouts[LAYOUTS];
    uint64_t pools, sets; // of the driver
    uint64_t out, waiting;
    uint32_t keep;
};

static struct side sides[ALLOCATORS];
// The held sets, with the allocator of each, and the one that was freed last.
static gd_set held[MAX_SETS], last;
static uint32_t held_side[MAX_SETS], held_count;

// What the driver returns: a byte below 230 grants, one from 250 on may be an unknown status.
static gd_status next_status(void) {
    static const gd_status STATUSES[] = {GD_OUT_OF_DEVICE_MEMORY, GD_OUT_OF_HOST_MEMORY,
                                         GD_FRAGMENTATION, GD_OUT_OF_POOL_MEMORY, 77};
    uint8_t byte = next_byte();
    return byte >= 250 ? STATUSES[byte % 5] : byte >= 230 ? STATUSES[byte % 4] : GD_OK;
}

// A call on the allocator that is in a call.
static void call_back(const struct side *side) {
    uint64_t number = 0;
    CHECK(gd_free(side->allocator, &last, 1) == GD_BUSY);
    CHECK(gd_outstanding(side->allocator, &number) == GD_BUSY);
}

static gd_status create_pool(void *user, const gd_pool_info *info, uint64_t *pool) {
    struct side *side = user;
    gd_status status = pool_count + 1 < MAX_POOLS ? next_status() : GD_OUT_OF_DEVICE_MEMORY;
    call_back(side);
    CHECK(info->max_sets > 0 && (info->flags & GD_FREE_DESCRIPTOR_SET) != 0);
    if (status != GD_OK)
        return status;
    pool_sets[++pool_count] = 1;
    side->pools++;
    *pool = pool_count;
    return GD_OK;
}

static void destroy_pool(void *user, uint64_t pool) {
    struct side *side = user;
    call_back(side);
    CHECK(pool > 0 && pool <= pool_count && pool_sets[pool] == 1);
    pool_sets[pool] = 0;
    side->pools--;
}

static gd_status allocate_sets(void *user, uint64_t pool, uint32_t count, const uint64_t *layouts,
                               uint64_t *sets) {
    struct side *side = user;
    gd_status status = set_count + count < MAX_HANDLES ? next_status() : GD_OUT_OF_DEVICE_MEMORY;
    call_back(side);
    CHECK(pool > 0 && pool <= pool_count && pool_sets[pool] > 0 && count > 0);
    for (uint32_t at = 0; at < count; at++)
        CHECK(layouts[at] == layouts[0] && sets[at] == 0);
    if (status != GD_OK)
        return status;
    for (uint32_t at = 0; at < count; at++) {
        sets[at] = ++set_count;
        pool_of[set_count] = (uint16_t)pool;
    }
    pool_sets[pool] += count;
    side->sets += count;
    return GD_OK;
}

static void free_sets(void *user, uint64_t pool, uint32_t count, const uint64_t *sets) {
    struct side *side = user;
    call_back(side);
    CHECK(count > 0);
    for (uint32_t at = 0; at < count; at++) {
        CHECK(sets[at] > 0 && sets[at] <= set_count && pool_of[sets[at]] == pool);
        pool_of[sets[at]] = 0;
    }
    pool_sets[pool] -= count;
    side->sets -= count;
}

// ---- the calls ----

static void set_max_kept(struct side *side) {
    static const uint32_t KEEPS[] = {0, 1, 7, UINT32_MAX};
    side->keep = KEEPS[next_byte() % 4];
    CHECK(gd_allocator_set_max_kept(side->allocator, side->keep) == GD_OK);
}

static void create(struct side *side) {
    gd_device device = {side, create_pool, destroy_pool, allocate_sets, free_sets};
    CHECK(gd_create(&device, 5000, &side->allocator) == GD_OK);
    set_max_kept(side);
    for (uint32_t at = 0; at < LAYOUTS; at++) {
        uint32_t counts[GD_KINDS] = {at, at == 3 ? 300000000 : 1};
        CHECK(gd_add_layout(side->allocator, at, counts, at == 1 ? GD_UPDATE_AFTER_BIND : 0,
                            &side->layouts[at]) == GD_OK);
    }
}

static void allocate(struct side *side) {
    gd_set sets[MAX_SETS];
    uint8_t which = next_byte();
    uint32_t count = next_byte() % 40;
    gd_layout layout = side->layouts[which % LAYOUTS];
    layout.index += which >= 250 ? which : 0;
    if (held_count + count > MAX_SETS)
        return;
    gd_status status = gd_allocate(side->allocator, layout, count, sets);
    CHECK((status == GD_BAD_LAYOUT) == (which >= 250));
    side->out += status == GD_OK ? count : 0;
    for (uint32_t at = 0; at < count; at++) {
        CHECK((sets[at].name == 0) == (status != GD_OK));
        CHECK(status != GD_OK || pool_of[sets[at].handle] > 0);
        if (status != GD_OK)
            continue;
        held[held_count] = sets[at];
        held_side[held_count++] = (uint32_t)(side - sides);
    }
}

static void forget(uint32_t at) {
    last = held[at];
    held_count--;
    held[at] = held[held_count];
    held_side[at] = held_side[held_count];
}

// Frees some held sets of an allocator, at once or after a frame.
static void free_some(struct side *side, bool is_later) {
    gd_set sets[MAX_SETS];
    uint32_t wanted = 1 + next_byte() % 20, first = next_byte(), count = 0;
    for (uint32_t step = held_count; step > 0 && count < wanted; step--) {
        uint32_t at = (first + step) % held_count;
        if (&sides[held_side[at]] == side) {
            sets[count++] = held[at];
            forget(at);
        }
    }
    if (is_later) {
        CHECK(gd_free_after(side->allocator, sets, count, next_byte()) == GD_OK);
        side->waiting += count;
    } else {
        CHECK(gd_free(side->allocator, sets, count) == GD_OK);
        side->out -= count;
    }
}

static bool is_held(const struct side *side, gd_set set) {
    for (uint32_t at = 0; at < held_count; at++)
        if (&sides[held_side[at]] == side && held[at].name == set.name &&
            held[at].handle == set.handle && held[at].owner == set.owner)
            return true;
    return false;
}

// Frees a set that is made of two others, which mostly isn't held, and a held one twice.
static void free_wrongly(struct side *side) {
    uint8_t parts = next_byte(), first = next_byte(), second = next_byte();
    gd_set one = held_count > 0 ? held[first % held_count] : last;
    gd_set other = held_count > 0 && second < 200 ? held[second % held_count] : last;
    gd_set mixed = {parts & 1 ? one.handle : other.handle, parts & 2 ? one.name : other.name,
                    parts & 4 ? one.owner : other.owner};
    mixed.name ^= parts & 8 ? UINT64_C(1) << (second % 64) : 0;
    gd_set list[2] = {mixed, mixed};
    uint32_t count = is_held(side, mixed) ? 2 : 1;
    uint64_t before = side->sets;
    gd_status status = parts & 16 ? gd_free_after(side->allocator, list, count, first)
                                  : gd_free(side->allocator, list, count);
    CHECK(status == GD_BAD_SET && side->sets == before);
}

static void frame_done(struct side *side) {
    uint64_t waiting = 0;
    CHECK(gd_frame_done(side->allocator, next_byte()) == GD_OK);
    CHECK(gd_waiting(side->allocator, &waiting) == GD_OK && waiting <= side->waiting);
    side->out -= side->waiting - waiting;
    side->waiting = waiting;
}

static void free_all(struct side *side) {
    CHECK(gd_free_all(side->allocator) == GD_OK && side->sets == 0);
    side->out = side->waiting = 0;
    for (uint32_t at = held_count; at > 0; at--)
        if (&sides[held_side[at - 1]] == side)
            forget(at - 1);
}

// Destroys an allocator, if no set is outstanding, and creates another.
static void renew(struct side *side) {
    gd_allocator old = side->allocator;
    gd_status status = gd_destroy(old);
    CHECK(status == (side->out > 0 ? GD_OUTSTANDING : GD_OK));
    if (status != GD_OK)
        return;
    CHECK(side->pools == 0 && side->sets == 0 && gd_destroy(old) == GD_BAD_ALLOCATOR);
    create(side);
    CHECK(gd_cleanup(old) == GD_BAD_ALLOCATOR);
}

static void pass_null(struct side *side) {
    gd_layout layout;
    CHECK(gd_allocate(side->allocator, side->layouts[0], 1, NULL) == GD_NULL_POINTER);
    CHECK(gd_free(side->allocator, NULL, 1) == GD_NULL_POINTER);
    CHECK(gd_add_layout(side->allocator, 1, NULL, 0, &layout) == GD_NULL_POINTER);
    CHECK(gd_pool_count(side->allocator, NULL) == GD_NULL_POINTER);
}

static void clean_up(struct side *side) {
    CHECK(gd_cleanup(side->allocator) == GD_OK && side->sets == side->out);
}

// One call, by a byte: its highest bit is the allocator. Then the counts are compared.
static void act(void) {
    uint8_t byte = next_byte();
    struct side *side = &sides[byte >> 7];
    uint64_t outstanding = 0, pools = 0;
    switch (byte % 12) {
    case 0: case 1: case 2: allocate(side); break;
    case 3: case 4: free_some(side, false); break;
    case 5: free_some(side, true); break;
    case 6: free_wrongly(side); break;
    case 7: frame_done(side); break;
    case 8: clean_up(side); break;
    case 9: byte & 16 ? free_all(side) : renew(side); break;
    case 10: set_max_kept(side); break;
    default: pass_null(side);
    }
    CHECK(gd_outstanding(side->allocator, &outstanding) == GD_OK && outstanding == side->out);
    CHECK(side->keep == 0 ? side->sets == side->out : side->sets >= side->out);
    CHECK(gd_pool_count(side->allocator, &pools) == GD_OK && pools == side->pools);
}

int LLVMFuzzerTestOneInput(const uint8_t *data, size_t size);

int LLVMFuzzerTestOneInput(const uint8_t *data, size_t size) {
    bytes = data;
    left = size;
    pool_count = set_count = held_count = 0;
    last = (gd_set){0, 0, 0};
    memset(sides, 0, sizeof sides);
    for (uint32_t at = 0; at < ALLOCATORS; at++)
        create(&sides[at]);
    for (operation = 0; left > 0; operation++)
        act();
    for (uint32_t at = 0; at < ALLOCATORS; at++) {
        free_all(&sides[at]);
        CHECK(gd_destroy(sides[at].allocator) == GD_OK && sides[at].pools == 0);
    }
    return 0;
}
