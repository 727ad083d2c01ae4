// The driver in memory of driver.h.
#include "driver.h"
#include "host.h"
#include "memory.h"
#include <string.h>

// Some have the same counts, and share pools if both are update-after-bind or neither is. Some have no
// descriptors. A set of one has as many descriptors as make a pool hold 21 sets.
const struct driver_layout driver_layouts[DRIVER_LAYOUTS] = {
    {"plain uniform_buffer=1 storage_image=2",
     false,
     {[GD_UNIFORM_BUFFER] = 1, [GD_STORAGE_IMAGE] = 2}},
    {"plain sampler=3 storage_image=1", false, {[GD_SAMPLER] = 3, [GD_STORAGE_IMAGE] = 1}},
    {"mark sampler=2 uniform_buffer=3", true, {[GD_SAMPLER] = 2, [GD_UNIFORM_BUFFER] = 3}},
    {"plain", false, {0}},
    {"plain uniform_buffer=1 storage_image=2",
     false,
     {[GD_UNIFORM_BUFFER] = 1, [GD_STORAGE_IMAGE] = 2}},
    {"mark uniform_buffer=1 storage_image=2",
     true,
     {[GD_UNIFORM_BUFFER] = 1, [GD_STORAGE_IMAGE] = 2}},
    {"plain sampler=200000000", false, {[GD_SAMPLER] = 200000000}},
    {"plain inline_uniform_block_bytes=64 inline_uniform_block_bindings=2",
     false,
     {[GD_INLINE_UNIFORM_BLOCK_BYTES] = 64, [GD_INLINE_UNIFORM_BLOCK_BINDINGS] = 2}},
    {"mark", true, {0}},
};

struct driver driver;
struct driver_calls driver_calls;
void (*driver_inside)(void);

// A pool: the descriptors that it was created with and those in use, and its sets.
struct pool {
    uint32_t counts[GD_KINDS], used[GD_KINDS];
    uint32_t capacity, sets, flags;
    bool is_alive;
};

struct set {
    uint64_t pool;
    uint32_t layout;
    bool is_alive;
};

static struct pool *pools;
static struct set *sets;
static size_t pool_count, set_count, pool_room, set_room;

// Handles are no numbers that count from 0, so that a number in the place of a handle shows. They have more than 32
// bits.
static const uint64_t FIRST_LAYOUT = 0x1a000000000, FIRST_POOL = 0x90000000000, FIRST_SET = 0x10000000001;

uint64_t driver_layout_handle(uint32_t layout) {
    return FIRST_LAYOUT + 16 * (uint64_t)layout;
}

uint64_t driver_descriptors(uint32_t layout) {
    uint64_t sum = 0;
    for (int kind = 0; kind < GD_KINDS; kind++)
        sum += driver_layouts[layout].counts[kind];
    return sum;
}

uint64_t driver_pool_number(uint64_t pool) {
    CHECK(pool >= FIRST_POOL && (pool - FIRST_POOL) % 8 == 0);
    CHECK((pool - FIRST_POOL) / 8 < pool_count);
    return (pool - FIRST_POOL) / 8;
}

static struct pool *pool_of(uint64_t handle) {
    struct pool *pool = &pools[driver_pool_number(handle)];
    CHECK(pool->is_alive);
    return pool;
}

size_t driver_set_number(uint64_t handle) {
    CHECK(handle >= FIRST_SET && (handle - FIRST_SET) % 2 == 0);
    CHECK((handle - FIRST_SET) / 2 < set_count);
    return (size_t)(handle - FIRST_SET) / 2;
}

static struct set *set_of(uint64_t handle) {
    return &sets[driver_set_number(handle)];
}

uint32_t driver_layout_of(uint64_t set) {
    return set_of(set)->layout;
}

bool driver_is_alive(uint64_t set) {
    return set_of(set)->is_alive;
}

// GD_OK, or why the next call is refused.
static uint32_t refusal(void) {
    static const uint32_t REASONS[] = {GD_OUT_OF_DEVICE_MEMORY, GD_OUT_OF_HOST_MEMORY,
                                       GD_FRAGMENTATION, GD_OUT_OF_POOL_MEMORY};
    static const uint32_t INVALID[] = {1, GD_NULL_POINTER, GD_BUSY, GD_BAD_RESULT, 99, UINT32_MAX};
    if (driver.refuses_one_in == 0 || !one_in(driver.refuses_one_in))
        return GD_OK;
    driver.refused++;
    if (driver.invalid_one_in > 0 && one_in(driver.invalid_one_in))
        return INVALID[random_below(6)];
    return REASONS[random_below(4)];
}

// Notes how a call ended.
static uint32_t note(uint32_t result) {
    CHECK(driver_calls.result_count < 20000);
    driver_calls.results[driver_calls.result_count++] = result;
    return result;
}

static uint64_t descriptors_of(const struct pool *pool) {
    uint64_t sum = 0;
    for (int kind = 0; kind < GD_KINDS; kind++)
        sum += pool->counts[kind];
    return sum;
}

// How many descriptors of a marked pool count against the limit.
static uint64_t load_of(const struct pool *pool) {
    return pool->flags & GD_UPDATE_AFTER_BIND ? descriptors_of(pool) : 0;
}

static uint64_t greater(uint64_t one, uint64_t other) {
    return one > other ? one : other;
}

// The numbers with a new pool, and below without one that is destroyed.
static void count_pool(const struct pool *pool) {
    gd_statistics *it = &driver.numbers;
    it->pools++;
    it->pool_sets += pool->capacity;
    it->pool_descriptors += descriptors_of(pool);
    it->update_after_bind_capacity += load_of(pool);
    it->peak_pools = greater(it->peak_pools, it->pools);
    it->peak_pool_sets = greater(it->peak_pool_sets, it->pool_sets);
    it->peak_pool_descriptors = greater(it->peak_pool_descriptors, it->pool_descriptors);
}

static void discount_pool(const struct pool *pool) {
    gd_statistics *it = &driver.numbers;
    it->pools--;
    it->pool_sets -= pool->capacity;
    it->pool_descriptors -= descriptors_of(pool);
    it->update_after_bind_capacity -= load_of(pool);
}

// What the library asks of the driver, checked and done, here and in the next three.
static uint32_t create(const gd_pool_info *info, uint64_t *handle) {
    CHECK(info->max_sets >= 1);
    CHECK((info->flags | GD_UPDATE_AFTER_BIND) == (GD_FREE_DESCRIPTOR_SET | GD_UPDATE_AFTER_BIND));
    struct pool pool = {.capacity = info->max_sets, .flags = info->flags, .is_alive = true};
    memcpy(pool.counts, info->counts, sizeof pool.counts);
    CHECK(driver.numbers.update_after_bind_capacity + load_of(&pool) <= driver.limit);
    uint32_t why = refusal();
    if (why != GD_OK)
        return why;
    pools = grown(pools, &pool_room, pool_count + 1, sizeof *pools);
    pools[pool_count] = pool;
    *handle = FIRST_POOL + 8 * pool_count;
    pool_count++;
    driver.created++;
    count_pool(&pool);
    return GD_OK;
}

// The pool takes such sets, and has room for them by number and by kind.
static void check_room(const struct pool *pool, uint32_t layout, uint32_t count) {
    CHECK(count <= pool->capacity - pool->sets);
    CHECK(!driver_layouts[layout].is_marked == !(pool->flags & GD_UPDATE_AFTER_BIND));
    for (int kind = 0; kind < GD_KINDS; kind++) {
        uint64_t wanted = (uint64_t)count * driver_layouts[layout].counts[kind];
        CHECK(wanted <= pool->counts[kind] - pool->used[kind]);
    }
}

static uint32_t allocate(uint64_t pool_handle, uint32_t count, const uint64_t *layouts,
                         uint64_t *handles) {
    struct pool *pool = pool_of(pool_handle);
    uint64_t layout = (layouts[0] - FIRST_LAYOUT) / 16;
    CHECK(layout < DRIVER_LAYOUTS && driver_layout_handle((uint32_t)layout) == layouts[0]);
    CHECK(count >= 1);
    for (uint32_t place = 0; place < count; place++)
        CHECK(layouts[place] == layouts[0] && handles[place] == 0);
    check_room(pool, (uint32_t)layout, count);
    driver.asked++;
    uint32_t why = refusal();
    if (why != GD_OK)
        return why;
    for (int kind = 0; kind < GD_KINDS; kind++)
        pool->used[kind] += count * driver_layouts[layout].counts[kind];
    pool->sets += count;
    driver.sets += count;
    sets = grown(sets, &set_room, set_count + count, sizeof *sets);
    for (uint32_t place = 0; place < count; place++) {
        sets[set_count] = (struct set){pool_handle, (uint32_t)layout, true};
        handles[place] = FIRST_SET + 2 * set_count;
        CHECK(driver_calls.set_count < 20000);
        driver_calls.sets[driver_calls.set_count] = handles[place];
        driver_calls.pools[driver_calls.set_count++] = driver_pool_number(pool_handle);
        set_count++;
    }
    return GD_OK;
}

static void free_sets(uint64_t pool_handle, const uint64_t *handles, size_t count) {
    struct pool *pool = pool_of(pool_handle);
    CHECK(count >= 1);
    for (size_t place = 0; place < count; place++) {
        struct set *set = set_of(handles[place]);
        CHECK(set->is_alive && set->pool == pool_handle);
        set->is_alive = false;
        CHECK(driver_calls.released < 40000);
        driver_calls.freed[driver_calls.released++] = handles[place];
        for (int kind = 0; kind < GD_KINDS; kind++)
            pool->used[kind] -= driver_layouts[set->layout].counts[kind];
    }
    pool->sets -= (uint32_t)count;
    driver.sets -= count;
    driver.released++;
    driver_calls.releases++;
}

static void destroy_pool(uint64_t handle) {
    struct pool *pool = pool_of(handle);
    CHECK(pool->sets == 0);
    pool->is_alive = false;
    driver.destroyed++;
    driver_calls.destroyed++;
    discount_pool(pool);
}

// ---- the four functions: the driver's memory is not the library's ----

// A call of the library begins. The test may call the library back from here.
static void enter(void *user) {
    CHECK(user == &driver);
    memory_pause();
    if (driver_inside != NULL)
        driver_inside();
}

static gd_status called_to_create(void *user, const gd_pool_info *info, uint64_t *pool) {
    enter(user);
    uint32_t result = note(create(info, pool));
    memory_go_on();
    return result;
}

static void called_to_destroy(void *user, uint64_t pool) {
    enter(user);
    destroy_pool(pool);
    memory_go_on();
}

static gd_status called_to_allocate(void *user, uint64_t pool, uint32_t count,
                                    const uint64_t *layouts, uint64_t *handles) {
    enter(user);
    uint32_t result = note(allocate(pool, count, layouts, handles));
    memory_go_on();
    return result;
}

static void called_to_free(void *user, uint64_t pool, uint32_t count, const uint64_t *handles) {
    enter(user);
    free_sets(pool, handles, count);
    memory_go_on();
}

gd_device driver_device(void) {
    gd_device device = {&driver, called_to_create, called_to_destroy, called_to_allocate,
                        called_to_free};
    return device;
}

void driver_forget(void) {
    driver_calls.result_count = driver_calls.set_count = 0;
    driver_calls.released = driver_calls.releases = driver_calls.destroyed = 0;
}

void driver_end(void) {
    free(pools);
    free(sets);
}
