// Caches of gpu_descriptor_cache.h: what they allocate and free, what they do when the allocator refuses, and
// threads that have caches over one allocator and free each other's sets: at the end nothing is lost.
//
// usage: caches [busy] ; with `busy` the library is one in which calls don't wait
#define _POSIX_C_SOURCE 200809L
#define GD_CACHE_CHECKED
#include "gpu_descriptor_cache.h"
#include "host.h"
#include <pthread.h>
#include <sched.h>
#include <stdatomic.h>
#include <string.h>

// Threads at once, turns of each, the max of the sets of a request, and those that one thread leaves for another.
enum { THREADS = 4, TURNS = 4000, MAX = 20, LEFT = 32 };

// Not atomic: the allocator lets one call in at a time. `max_sets` is how many there may be.
static uint64_t next_handle = UINT64_C(1) << 40, sets_alive, max_sets = UINT64_MAX, allocations, releases;
static gd_status refusal = GD_OUT_OF_DEVICE_MEMORY;
static gd_cache *flushed_inside; // in the next call of the device

static gd_status create_pool(void *user, const gd_pool_info *info, uint64_t *pool) {
    (void)user, (void)info;
    *pool = ++next_handle;
    return GD_OK;
}

static void destroy_pool(void *user, uint64_t pool) {
    (void)user, (void)pool;
}

static gd_status allocate_sets(void *user, uint64_t pool, uint32_t count, const uint64_t *layouts, uint64_t *sets) {
    (void)user, (void)pool, (void)layouts;
    if (flushed_inside != NULL) {
        const uint32_t before = flushed_inside->count;
        CHECK(gd_cache_flush(flushed_inside) == GD_BUSY && flushed_inside->count == before);
        flushed_inside = NULL;
    }
    if (sets_alive + count > max_sets)
        return refusal;
    allocations++;
    sets_alive += count;
    for (uint32_t at = 0; at < count; at++)
        sets[at] = ++next_handle;
    return GD_OK;
}

static void free_sets(void *user, uint64_t pool, uint32_t count, const uint64_t *sets) {
    (void)user, (void)pool, (void)sets;
    releases++;
    sets_alive -= count;
}

static gd_allocator allocator;
static gd_layout layout;

// An allocator that keeps no set.
static void begin(void) {
    const gd_device device = {NULL, create_pool, destroy_pool, allocate_sets, free_sets};
    const uint32_t counts[GD_KINDS] = {1};
    CHECK(gd_create(&device, 0, &allocator) == GD_OK && gd_allocator_set_max_kept(allocator, 0) == GD_OK);
    CHECK(gd_add_layout(allocator, 7, counts, 0, &layout) == GD_OK);
    allocations = releases = 0;
    max_sets = UINT64_MAX;
}

static void end(void) {
    CHECK(gd_destroy(allocator) == GD_OK && sets_alive == 0);
}

static gd_cache cache_of(gd_set *places, uint32_t refill) {
    gd_cache cache;
    CHECK(gd_cache_init(&cache, allocator, layout, places, refill) == GD_OK && cache.count == 0);
    return cache;
}

static void pass_wrong_arguments(void) {
    gd_set places[2 * GD_CACHE_REFILL], set;
    begin();
    gd_cache cache = cache_of(places, GD_CACHE_REFILL), other;
    CHECK(gd_cache_init(NULL, allocator, layout, places, 1) == GD_NULL_POINTER);
    CHECK(gd_cache_init(&other, allocator, layout, NULL, 1) == GD_NULL_POINTER);
    CHECK(gd_cache_init(&other, allocator, layout, places, 0) == GD_BAD_COUNTS);
    CHECK(gd_cache_init(&other, allocator, layout, places, UINT32_C(1) << 31) == GD_BAD_COUNTS);
    CHECK(gd_cache_allocate(NULL, 1, &set) == GD_NULL_POINTER && gd_cache_allocate(&cache, 1, NULL) == GD_NULL_POINTER);
    CHECK(gd_cache_free(NULL, &set, 1) == GD_NULL_POINTER && gd_cache_free(&cache, NULL, 1) == GD_NULL_POINTER);
    CHECK(gd_cache_allocate(&cache, 0, NULL) == GD_OK && gd_cache_free(&cache, NULL, 0) == GD_OK);
    CHECK(gd_cache_flush(NULL) == GD_NULL_POINTER && gd_cache_flush(&cache) == GD_OK && allocations == 0);
    cache.layout.index++;
    CHECK(gd_cache_allocate(&cache, 1, &set) == GD_BAD_LAYOUT && set.owner == 0 && cache.count == 0);
    end();
    CHECK(gd_cache_allocate(&cache, 1, &set) == GD_BAD_ALLOCATOR && cache.count == 0);
}

// Sets are allocated and freed `refill` at a time.
static void refill_and_give_back(uint32_t refill) {
    gd_set places[2 * GD_CACHE_REFILL], sets[3 * GD_CACHE_REFILL];
    const uint32_t all = 3 * refill;
    begin();
    gd_cache cache = cache_of(places, refill);
    for (uint32_t at = 0; at < all; at++) {
        CHECK(gd_cache_allocate(&cache, 1, sets + at) == GD_OK && sets_alive == (at / refill + 1) * refill);
        for (uint32_t before = 0; before < at; before++)
            CHECK(sets[before].name != sets[at].name);
    }
    CHECK(allocations == 3 && cache.count == 0);
    for (uint32_t at = 0; at < all; at++)
        CHECK(gd_cache_free(&cache, sets + at, 1) == GD_OK);
    CHECK(cache.count == 2 * refill && sets_alive == 2 * refill && releases == 1);
    // More than there are in the cache, by one request for what is missing; and back by one call.
    CHECK(gd_cache_allocate(&cache, all, sets) == GD_OK && allocations == 4 && sets_alive == all);
    CHECK(gd_cache_free(&cache, sets, all) == GD_OK && cache.count == 0 && sets_alive == 0);
    CHECK(gd_cache_allocate(&cache, 1, sets) == GD_OK && gd_cache_flush(&cache) == GD_OK && cache.count == 0);
    CHECK(gd_cache_free(&cache, sets, 1) == GD_OK && cache.count == 1 && gd_destroy(allocator) == GD_OUTSTANDING);
    CHECK(gd_cache_flush(&cache) == GD_OK);
    end();
}

// If a refill is refused, fewer sets are requested, down to the missing ones; then it fails, and nothing is lost.
static void ask_for_fewer(gd_status refused) {
    refusal = refused;
    gd_set places[2 * GD_CACHE_REFILL], sets[GD_CACHE_REFILL];
    begin();
    gd_cache cache = cache_of(places, GD_CACHE_REFILL);
    max_sets = 10;
    CHECK(gd_cache_allocate(&cache, 1, sets) == GD_OK && sets_alive == 8 && cache.count == 7);
    CHECK(gd_cache_allocate(&cache, 6, sets + 1) == GD_OK && cache.count == 1);
    CHECK(gd_cache_allocate(&cache, 4, sets + 7) == refused && cache.count == 1 && sets_alive == 8);
    for (uint32_t at = 7; at < 11; at++)
        CHECK(sets[at].owner == 0 && sets[at].handle == 0);
    CHECK(gd_cache_allocate(&cache, 3, sets + 7) == GD_OK && cache.count == 0 && sets_alive == 10);
    CHECK(gd_cache_allocate(&cache, 1, sets + 10) == refused && sets[10].owner == 0);
    max_sets = 11;
    CHECK(gd_cache_allocate(&cache, 1, sets + 10) == GD_OK && cache.count == 0);
    // As many as a refill are asked for alone, and what was in the cache stays there.
    CHECK(gd_cache_free(&cache, sets, 11) == GD_OK && cache.count == 11);
    CHECK(gd_cache_allocate(&cache, GD_CACHE_REFILL, sets) == refused && cache.count == 11);
    CHECK(gd_cache_allocate(&cache, 11, sets) == GD_OK && gd_cache_free(&cache, sets, 11) == GD_OK);
    CHECK(gd_cache_flush(&cache) == GD_OK);
    end();
}

static void free_wrongly(void) {
    gd_set places[8], others[8], sets[12], strange;
    begin();
    gd_cache cache = cache_of(places, 4), second = cache_of(others, 4);
    CHECK(gd_cache_allocate(&cache, 4, sets) == GD_OK && gd_cache_allocate(&second, 4, sets + 4) == GD_OK);
    CHECK(gd_cache_allocate(&second, 4, sets + 8) == GD_OK && sets_alive == 12);
    strange = sets[0];
    strange.owner++;
    CHECK(gd_cache_free(&cache, &strange, 1) == GD_BAD_SET && cache.count == 0);
    memset(&strange, 0, sizeof strange);
    CHECK(gd_cache_free(&cache, &strange, 1) == GD_BAD_SET && cache.count == 0);
    CHECK(gd_cache_free(&cache, sets, 8) == GD_OK && cache.count == 8 && sets_alive == 12);
    CHECK(gd_cache_free(&cache, sets + 8, 4) == GD_OK && cache.count == 8 && sets_alive == 8);
    CHECK(gd_cache_flush(&cache) == GD_OK && cache.count == 0 && sets_alive == 0);
    CHECK(gd_cache_allocate(&cache, 3, sets) == GD_OK && gd_cache_allocate(&second, 3, sets + 3) == GD_OK);
    // Twice: seen here, since the header checks it.
    CHECK(gd_cache_free(&cache, sets, 2) == GD_OK && gd_cache_free(&cache, sets + 1, 1) == GD_BAD_SET);
    sets[6] = sets[7] = sets[2];
    CHECK(gd_cache_free(&cache, sets + 6, 2) == GD_BAD_SET && cache.count == 3);
    // A set of a full cache is freed elsewhere: it keeps what it has, until it is flushed.
    CHECK(gd_allocate(allocator, layout, 3, sets + 8) == GD_OK && gd_cache_free(&cache, sets + 2, 3) == GD_OK);
    CHECK(gd_cache_free(&cache, sets + 8, 2) == GD_OK && gd_free(allocator, sets + 9, 1) == GD_OK);
    CHECK(cache.count == 8 && gd_cache_free(&cache, sets + 10, 1) == GD_BAD_SET && cache.count == 8);
    CHECK(gd_free(allocator, sets + 5, 1) == GD_OK && gd_free(allocator, sets + 10, 1) == GD_OK);
    flushed_inside = &cache;
    CHECK(gd_allocate(allocator, layout, 70, (gd_set[70]){0}) == GD_OK && flushed_inside == NULL);
    uint64_t out = 0;
    CHECK(gd_outstanding(allocator, &out) == GD_OK && out == 70 + 7 + 1);
    CHECK(gd_cache_flush(&cache) == GD_BAD_SET && cache.count == 0 && gd_cache_flush(&cache) == GD_OK);
    CHECK(gd_outstanding(allocator, &out) == GD_OK && out == 70 + 1 && gd_cache_flush(&second) == GD_OK);
    CHECK(gd_free_all(allocator) == GD_OK);
    end();
}

// ---- threads ----

static bool waits;
static atomic_ullong calls;
// Sets that a thread allocated and another is to free.
static pthread_mutex_t of_left = PTHREAD_MUTEX_INITIALIZER;
static gd_set left[LEFT];
static uint32_t left_count;

// Whether a call has to be made again, as another thread was in one.
static bool is_busy(gd_status status) {
    CHECK(status == GD_OK || (status == GD_BUSY && !waits));
    atomic_fetch_add(&calls, 1);
    if (status == GD_BUSY)
        (void)sched_yield();
    return status == GD_BUSY;
}

// Leaves some sets for others, and returns how many are still this thread's.
static uint32_t leave(gd_set *sets, uint32_t count) {
    CHECK(pthread_mutex_lock(&of_left) == 0);
    while (count > 0 && left_count < LEFT)
        left[left_count++] = sets[--count];
    CHECK(pthread_mutex_unlock(&of_left) == 0);
    return count;
}

static uint32_t take_left(gd_set *sets) {
    CHECK(pthread_mutex_lock(&of_left) == 0);
    const uint32_t count = left_count < MAX ? left_count : MAX;
    left_count -= count;
    memcpy(sets, left + left_count, count * sizeof *sets);
    CHECK(pthread_mutex_unlock(&of_left) == 0);
    return count;
}

static void *use(void *number) {
    static const uint32_t REFILLS[THREADS] = {64, 16, 5, 1};
    const uint32_t refill = REFILLS[*(const uint32_t *)number];
    gd_set places[2 * GD_CACHE_REFILL], sets[MAX];
    gd_cache cache = cache_of(places, refill);
    for (uint32_t turn = 0; turn < TURNS; turn++) {
        uint32_t count = turn * 7 % MAX + 1;
        while (is_busy(gd_cache_allocate(&cache, count, sets)))
            ;
        if (turn % 3 == 0)
            count = leave(sets, count);
        while (is_busy(gd_cache_free(&cache, sets, count)))
            ;
        if (turn % 5 == 0) {
            count = take_left(sets);
            while (is_busy(gd_cache_free(&cache, sets, count)))
                ;
        }
        if (turn % 64 == 0) {
            while (is_busy(gd_cache_flush(&cache)))
                ;
            (void)is_busy(gd_cleanup(allocator));
        }
    }
    while (is_busy(gd_cache_flush(&cache)))
        ;
    return NULL;
}

static void share(void) {
    pthread_t threads[THREADS];
    uint32_t numbers[THREADS];
    uint64_t out = 1;
    begin();
    CHECK(gd_allocator_set_max_kept(allocator, UINT32_MAX) == GD_OK);
    for (uint32_t at = 0; at < THREADS; at++) {
        numbers[at] = at;
        CHECK(pthread_create(&threads[at], NULL, use, &numbers[at]) == 0);
    }
    for (uint32_t at = 0; at < THREADS; at++)
        CHECK(pthread_join(threads[at], NULL) == 0);
    CHECK(gd_outstanding(allocator, &out) == GD_OK && out == left_count);
    CHECK(gd_free(allocator, left, left_count) == GD_OK && gd_cleanup(allocator) == GD_OK && sets_alive == 0);
    left_count = 0;
    end();
}

int main(int words, char **word) {
    waits = words < 2 || strcmp(word[1], "busy") != 0;
    pass_wrong_arguments();
    refill_and_give_back(1);
    refill_and_give_back(7);
    refill_and_give_back(GD_CACHE_REFILL);
    ask_for_fewer(GD_OUT_OF_DEVICE_MEMORY);
    ask_for_fewer(GD_DEVICE_LOST);
    free_wrongly();
    share();
    printf("no set is lost in %llu calls of %d threads\n", (unsigned long long)calls, THREADS);
    return 0;
}
