// How long a set takes that a thread allocates and frees, by the wall clock, while 1, 2 and 4 threads do nothing else:
// over one allocator by its lock, with a cache for each thread, and with an allocator for each. The driver grants all
// and does nothing; all sets are kept. It prints the least time of some runs, for one set at a time and for 16.
//
// usage: thread_speed [RUNS]
#define _POSIX_C_SOURCE 200809L
#include "gpu_descriptor_cache.h"
#include "host.h"
#include <pthread.h>
#include <stdatomic.h>
#include <time.h>

enum { MAX_THREADS = 4, SETS = 160000, MAX_BATCH = 16 };

enum way { LOCK, CACHE, OWN };

static atomic_uint_fast64_t next_handle = 1;

static gd_status create_pool(void *user, const gd_pool_info *info, uint64_t *pool) {
    (void)user, (void)info;
    *pool = atomic_fetch_add(&next_handle, 1);
    return GD_OK;
}

static void destroy_pool(void *user, uint64_t pool) {
    (void)user, (void)pool;
}

static gd_status allocate_sets(void *user, uint64_t pool, uint32_t count, const uint64_t *layouts, uint64_t *sets) {
    (void)user, (void)pool, (void)layouts;
    for (uint32_t at = 0; at < count; at++)
        sets[at] = atomic_fetch_add(&next_handle, 1);
    return GD_OK;
}

static void free_sets(void *user, uint64_t pool, uint32_t count, const uint64_t *sets) {
    (void)user, (void)pool, (void)count, (void)sets;
}

// An allocator with a layout.
struct side {
    gd_allocator allocator;
    gd_layout layout;
};

static struct side shared;
static pthread_barrier_t barrier;

static double now(void) {
    struct timespec time;
    CHECK(clock_gettime(CLOCK_MONOTONIC, &time) == 0);
    return (double)time.tv_sec * 1e9 + (double)time.tv_nsec;
}

static struct side make(void) {
    const gd_device device = {NULL, create_pool, destroy_pool, allocate_sets, free_sets};
    const uint32_t counts[GD_KINDS] = {2};
    struct side made;
    CHECK(gd_create(&device, 0, &made.allocator) == GD_OK);
    CHECK(gd_add_layout(made.allocator, 7, counts, 0, &made.layout) == GD_OK);
    return made;
}

struct work {
    enum way way;
    uint32_t batch;
    double time; // of all its sets
};

static void *run(void *of) {
    struct work *work = of;
    const struct side side = work->way == OWN ? make() : shared;
    gd_set places[2 * GD_CACHE_REFILL], sets[MAX_BATCH];
    gd_cache cache;
    CHECK(gd_cache_init(&cache, side.allocator, side.layout, places, GD_CACHE_REFILL) == GD_OK);
    (void)pthread_barrier_wait(&barrier);
    const double start = now();
    for (uint32_t done = 0; done < SETS; done += work->batch) {
        if (work->way == CACHE) {
            CHECK(gd_cache_allocate(&cache, work->batch, sets) == GD_OK);
            CHECK(gd_cache_free(&cache, sets, work->batch) == GD_OK);
        } else {
            CHECK(gd_allocate(side.allocator, side.layout, work->batch, sets) == GD_OK);
            CHECK(gd_free(side.allocator, sets, work->batch) == GD_OK);
        }
    }
    work->time = now() - start;
    (void)pthread_barrier_wait(&barrier);
    CHECK(gd_cache_flush(&cache) == GD_OK && (work->way != OWN || gd_destroy(side.allocator) == GD_OK));
    return NULL;
}

// The mean of the threads.
static double time_of(enum way way, uint32_t threads, uint32_t batch) {
    pthread_t running[MAX_THREADS];
    struct work works[MAX_THREADS];
    double sum = 0;
    CHECK(pthread_barrier_init(&barrier, NULL, threads) == 0);
    for (uint32_t at = 0; at < threads; at++) {
        works[at] = (struct work){way, batch, 0};
        CHECK(pthread_create(&running[at], NULL, run, &works[at]) == 0);
    }
    for (uint32_t at = 0; at < threads; at++) {
        CHECK(pthread_join(running[at], NULL) == 0);
        sum += works[at].time;
    }
    CHECK(pthread_barrier_destroy(&barrier) == 0);
    return sum / threads / SETS;
}

int main(int words, char **word) {
    static const char *const NAMES[] = {"lock", "cache", "own"};
    const uint64_t runs = number_at(words, word, 1, 5);
    shared = make();
    for (uint32_t batch = 1; batch <= MAX_BATCH; batch *= MAX_BATCH) {
        printf("%s%u at a time:", batch == 1 ? "" : "; ", batch);
        for (enum way way = LOCK; way <= OWN; way++) {
            printf(" %s", NAMES[way]);
            for (uint32_t threads = 1; threads <= MAX_THREADS; threads *= 2) {
                double least = 1e18;
                for (uint64_t done = 0; done < runs; done++) {
                    const double time = time_of(way, threads, batch);
                    least = time < least ? time : least;
                }
                printf(" %.0f", least);
            }
        }
    }
    printf(" ns a set, of 1, 2 and 4 threads\n");
    CHECK(gd_destroy(shared.allocator) == GD_OK);
    return 0;
}
