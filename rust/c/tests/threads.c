// Two calls wait while a slow one runs, and take hardly any processor time. Then threads call one allocator
// without a lock: each call waits for its turn, and nothing is lost. Usually all sets are kept. Then
// allocators are created and destroyed while threads use the existing ones. All that is done again with
// allocators whose calls don't wait: each call succeeds or returns GD_BUSY.
//
// usage: threads [busy] ; with `busy` the library is one in which calls don't wait
#define _POSIX_C_SOURCE 200809L
#include "gpu_descriptor.h"
#include "host.h"
#include <pthread.h>
#include <sched.h>
#include <stdatomic.h>
#include <string.h>
#include <time.h>

// Threads at once, turns of each, sets of a request, and allocators that come and go.
enum { THREADS = 4, TURNS = 3000, LOT = 5, ALLOCATORS = 500 };

// Not atomic: the allocator lets one call in at a time, and orders them.
static uint64_t pools, sets_alive, next_handle = UINT64_C(1) << 40;
// How many threads are in the device, how calls ended, and the two halves of the last allocator.
static atomic_uint inside;
static atomic_ullong busy, succeeded, gone;
static _Atomic uint64_t current_slot, current_id;

static void come_in(void) {
    CHECK(atomic_fetch_add(&inside, 1) == 0);
}

static void go_out(void) {
    atomic_fetch_sub(&inside, 1);
}

static gd_status create_pool(void *user, const gd_pool_info *info, uint64_t *pool) {
    (void)user, (void)info;
    come_in();
    pools++;
    *pool = ++next_handle;
    go_out();
    return GD_OK;
}

static void destroy_pool(void *user, uint64_t pool) {
    (void)user, (void)pool;
    come_in();
    pools--;
    go_out();
}

static gd_status allocate_sets(void *user, uint64_t pool, uint32_t count, const uint64_t *layouts,
                               uint64_t *sets) {
    (void)user, (void)pool, (void)layouts;
    come_in();
    sets_alive += count;
    for (uint32_t place = 0; place < count; place++)
        sets[place] = ++next_handle;
    go_out();
    return GD_OK;
}

static void free_sets(void *user, uint64_t pool, uint32_t count, const uint64_t *sets) {
    (void)user, (void)pool, (void)sets;
    come_in();
    sets_alive -= count;
    go_out();
}

static gd_allocator allocator;
static gd_layout layout;
static gd_device device = {NULL, create_pool, destroy_pool, allocate_sets, free_sets};

// Whether a call waits for its turn, and the flags of the allocators: by the round of `main`.
static bool waits;
static uint32_t flags;

static gd_status counted_call(gd_status status) {
    CHECK(status == GD_OK || (status == GD_BUSY && !waits));
    atomic_fetch_add(status == GD_OK ? &succeeded : &busy, 1);
    if (status == GD_BUSY)
        (void)sched_yield();
    return status;
}

// Allocates and frees: at once if `way` is NULL, and else by frames.
static void *use(void *way) {
    for (uint32_t done = 0; done < TURNS; done++) {
        gd_set sets[LOT];
        while (counted_call(gd_allocate(allocator, layout, LOT, sets)) != GD_OK) {
            CHECK(sets[0].handle == 0);
        }
        if (way == NULL) {
            while (counted_call(gd_free(allocator, sets, LOT)) != GD_OK) {
            }
        } else {
            while (counted_call(gd_free_after(allocator, sets, LOT, done)) != GD_OK) {
            }
            (void)counted_call(gd_frame_done(allocator, done));
        }
        if (done % 8 == 0)
            (void)counted_call(gd_cleanup(allocator));
        if (done % 64 == 1)
            (void)counted_call(gd_allocator_set_max_kept(allocator, done % 3 == 0 ? 2 : UINT32_MAX));
    }
    return NULL;
}

// Uses whatever allocator there was last, which may be gone. The two halves of an allocator that is
// read may be of two: then its id is not the slot's.
static void *use_late(void *unused) {
    (void)unused;
    while (atomic_load(&current_id) != UINT64_MAX) {
        gd_allocator last;
        last.id = atomic_load(&current_id);
        last.slot = (const void *)(uintptr_t)atomic_load(&current_slot);
        gd_layout known = {0, last.id};
        gd_set set;
        gd_status status = gd_allocate(last, known, 1, &set);
        CHECK(status == GD_OK || (status == GD_BUSY && !waits) || status == GD_BAD_ALLOCATOR ||
              status == GD_BAD_LAYOUT);
        atomic_fetch_add(status == GD_OK ? &succeeded : status == GD_BUSY ? &busy : &gone, 1);
        while (status == GD_OK && (status = gd_free(last, &set, 1)) != GD_OK) {
            CHECK(status == GD_BUSY && !waits);
            status = GD_OK;
        }
        (void)sched_yield();
    }
    return NULL;
}

// Allocators come and go while other threads use them.
static void make_and_destroy(void) {
    uint32_t counts[GD_KINDS] = {1};
    for (uint32_t done = 0; done < ALLOCATORS; done++) {
        gd_allocator made;
        gd_layout known;
        gd_status status;
        CHECK(gd_create_with_flags(&device, 100, flags, &made) == GD_OK);
        do
            status = gd_add_layout(made, 1, counts, 0, &known);
        while (status == GD_BUSY);
        CHECK(status == GD_OK);
        atomic_store(&current_slot, (uint64_t)(uintptr_t)made.slot);
        atomic_store(&current_id, made.id);
        for (struct timespec wait = {0, 20000}; one_in(2);)
            (void)nanosleep(&wait, NULL);
        do
            status = gd_destroy(made);
        while (status == GD_BUSY || status == GD_OUTSTANDING);
        CHECK(status == GD_OK && pools == 0 && sets_alive == 0);
    }
    atomic_store(&current_id, UINT64_MAX);
}

// If `is_different`, every second thread gets a `way` that isn't NULL.
static void start(pthread_t *threads, void *(*what)(void *), bool is_different) {
    for (uint64_t at = 0; at < THREADS; at++)
        CHECK(pthread_create(&threads[at], NULL, what,
                             is_different && at % 2 ? &allocator : NULL) == 0);
}

static void wait_for(pthread_t *threads) {
    for (int at = 0; at < THREADS; at++)
        CHECK(pthread_join(threads[at], NULL) == 0);
}

// ---- a call that waits ----

static _Thread_local bool is_slow;
static atomic_bool has_begun;
static atomic_uint late, turned_away;

// Inside of a call, while two other threads call: a call of this thread is turned away.
static gd_status create_slowly(void *user, const gd_pool_info *info, uint64_t *pool) {
    struct timespec pause = {0, 200000000};
    uint64_t out = 0;
    atomic_store(&has_begun, true);
    while (is_slow && atomic_load(&late) < 2)
        (void)sched_yield();
    while (is_slow && !waits && atomic_load(&turned_away) < 2)
        (void)sched_yield();
    CHECK(nanosleep(&pause, NULL) == 0);
    CHECK(gd_outstanding(allocator, &out) == GD_BUSY && gd_destroy(allocator) == GD_BUSY);
    return create_pool(user, info, pool);
}

static void *allocate_slowly(void *unused) {
    gd_set set;
    (void)unused;
    is_slow = true;
    CHECK(gd_allocate(allocator, layout, 1, &set) == GD_OK);
    return NULL;
}

static double seconds_used(void) {
    struct timespec now;
    CHECK(clock_gettime(CLOCK_THREAD_CPUTIME_ID, &now) == 0);
    return (double)now.tv_sec + (double)now.tv_nsec / 1e9;
}

// Sleeps until the slow call is done, or is turned away.
static void *come_late(void *unused) {
    uint64_t out = 0;
    (void)unused;
    while (!atomic_load(&has_begun))
        (void)sched_yield();
    double begin = seconds_used();
    atomic_fetch_add(&late, 1);
    gd_status status = gd_outstanding(allocator, &out);
    CHECK(waits ? status == GD_OK && out == 1 : status == GD_BUSY && out == 0);
    CHECK(seconds_used() - begin < 0.05);
    atomic_fetch_add(&turned_away, 1);
    return NULL;
}

static void call_beside_a_slow_call(void) {
    pthread_t threads[3];
    gd_device slow = device;
    uint32_t counts[GD_KINDS] = {1};
    slow.create_pool = create_slowly;
    has_begun = false;
    late = turned_away = 0;
    CHECK(gd_create_with_flags(&slow, 100, flags, &allocator) == GD_OK);
    CHECK(gd_add_layout(allocator, 1, counts, 0, &layout) == GD_OK);
    for (int at = 0; at < 3; at++)
        CHECK(pthread_create(&threads[at], NULL, at == 0 ? allocate_slowly : come_late, NULL) == 0);
    for (int at = 0; at < 3; at++)
        CHECK(pthread_join(threads[at], NULL) == 0);
    CHECK(gd_free_all(allocator) == GD_OK && gd_destroy(allocator) == GD_OK && pools == 0);
}

static void share(void) {
    pthread_t threads[THREADS];
    uint32_t counts[GD_KINDS] = {1};
    uint64_t out = 1;
    succeeded = busy = gone = 0;
    CHECK(gd_create_with_flags(&device, 100, flags, &allocator) == GD_OK);
    CHECK(gd_add_layout(allocator, 1, counts, 0, &layout) == GD_OK);
    start(threads, use, true);
    wait_for(threads);
    CHECK(gd_frame_done(allocator, UINT64_MAX) == GD_OK);
    CHECK(gd_outstanding(allocator, &out) == GD_OK && out == 0);
    CHECK(gd_cleanup(allocator) == GD_OK && sets_alive == 0);
    CHECK(gd_destroy(allocator) == GD_OK && pools == 0);
    printf("%llu calls succeeded, %llu busy\n", (unsigned long long)succeeded, (unsigned long long)busy);
    (void)fflush(stdout);
    current_slot = current_id = 0;
    start(threads, use_late, false);
    make_and_destroy();
    wait_for(threads);
    printf("in all %llu calls succeeded, %llu busy, %llu on allocators that were gone\n",
           (unsigned long long)succeeded, (unsigned long long)busy, (unsigned long long)gone);
}

int main(int words, char **word) {
    for (int turn = 0; turn < 2; turn++) {
        flags = turn == 0 ? 0 : GD_EXTERNALLY_SYNCHRONIZED;
        waits = flags == 0 && (words < 2 || strcmp(word[1], "busy") != 0);
        call_beside_a_slow_call();
        share();
    }
    return 0;
}
