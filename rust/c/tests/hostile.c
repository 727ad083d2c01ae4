// A device that returns any handles, even one twice or 0, and any status; and a caller that passes sets and
// layouts made of parts of others, to two allocators over the same device. No call breaks the library, each
// status is one that the header has, and the counts stay right. KEEP is how many sets are kept, at first all.
//
// usage: hostile OPERATIONS SEED [KEEP]
#include "gpu_descriptor.h"
#include "host.h"
#include <string.h>

// Sets that are remembered, and sets of a request and of a free.
enum { KNOWN = 4096, MAX = 300, ALLOCATORS = 2, LAYOUTS = 4 };

struct side {
    gd_allocator allocator;
    gd_layout layouts[LAYOUTS];
    uint64_t alive; // sets at the device
    uint64_t out;   // sets that successful calls allocated and freed
};

static struct side sides[ALLOCATORS];
static gd_set known[KNOWN]; // any sets that there ever were
static uint64_t statuses[GD_INTERNAL_ERROR + 2];
static uint32_t keep;

static uint64_t any_handle(void) {
    return one_in(4) ? 0 : one_in(2) ? random_below(50) : (uint64_t)random_below(UINT32_MAX) << 20;
}

// Mostly success, sometimes a refusal, and sometimes any number.
static gd_status any_status(void) {
    return one_in(8) ? random_below(40) : one_in(8) ? GD_OUT_OF_DEVICE_MEMORY + random_below(4) : 0;
}

static gd_status create_pool(void *user, const gd_pool_info *info, uint64_t *pool) {
    (void)user, (void)info;
    *pool = any_handle();
    return any_status();
}

static void destroy_pool(void *user, uint64_t pool) {
    (void)user, (void)pool;
}

static gd_status allocate_sets(void *user, uint64_t pool, uint32_t count, const uint64_t *layouts,
                               uint64_t *sets) {
    struct side *side = user;
    gd_status result = any_status();
    CHECK(count > 0 && layouts[0] == layouts[count - 1]);
    (void)pool;
    for (uint32_t place = 0; place < count; place++)
        if (!one_in(8))
            sets[place] = any_handle(); // if it fails too
    side->alive += result == GD_OK ? count : 0;
    return result;
}

static void free_sets(void *user, uint64_t pool, uint32_t count, const uint64_t *sets) {
    struct side *side = user;
    (void)pool, (void)sets;
    CHECK(count > 0 && count <= side->alive);
    side->alive -= count;
}

// Counts a status, which is one that the header names, and not that of a busy or a missing allocator.
static gd_status note(gd_status status) {
    CHECK(status < GD_INTERNAL_ERROR && (status == GD_OK || status >= GD_OUT_OF_DEVICE_MEMORY));
    CHECK(status != GD_BUSY && status != GD_BAD_ALLOCATOR);
    statuses[status]++;
    return status;
}

// A set that there once was, now and then with a part of another one or of none.
static gd_set any_set(void) {
    gd_set set = known[random_below(KNOWN)];
    if (one_in(20))
        set.handle = any_handle();
    if (one_in(20))
        set.name = known[random_below(KNOWN)].name + (one_in(3) ? UINT64_C(1) << random_below(64) : 0);
    if (one_in(20))
        set.owner = random_below(5);
    return set;
}

// A call: a request, sets that are freed or wait, a frame that is done, or a cleanup.
static void act(struct side *side) {
    gd_set sets[MAX];
    uint64_t out = 0, waiting = 0, frame = operation / 50, before = side->alive;
    uint32_t count = 1 + random_below(one_in(10) ? MAX : 5);
    switch (random_below(10)) {
    case 0:
    case 1:
    case 2:
    case 3: {
        gd_layout layout = sides[one_in(10) ? 1 : side - sides].layouts[random_below(LAYOUTS)];
        layout.index += one_in(20) ? random_below(UINT32_MAX) : 0;
        bool is_met = note(gd_allocate(side->allocator, layout, count, sets)) == GD_OK;
        CHECK(keep > 0 || side->alive == before + (is_met ? count : 0));
        side->out += is_met ? count : 0;
        for (uint32_t place = 0; is_met && place < count; place++)
            known[random_below(KNOWN)] = sets[place];
        break;
    }
    case 4:
    case 5:
    case 6:
    case 7: {
        bool is_later = one_in(3);
        count = one_in(3) ? count : 1;
        for (uint32_t place = 0; place < count; place++)
            sets[place] = any_set();
        gd_status status = note(is_later ? gd_free_after(side->allocator, sets, count, frame)
                                         : gd_free(side->allocator, sets, count));
        uint32_t freed = status == GD_OK && !is_later ? count : 0;
        CHECK(status == GD_OK || status == GD_BAD_SET);
        CHECK(keep > 0 || side->alive == before - freed);
        side->out -= freed;
        break;
    }
    case 8:
        CHECK(gd_waiting(side->allocator, &waiting) == GD_OK);
        CHECK(note(gd_frame_done(side->allocator, frame)) == GD_OK);
        CHECK(keep > 0 || side->alive == before - waiting);
        side->out -= waiting;
        break;
    default:
        CHECK(note(gd_cleanup(side->allocator)) == GD_OK && side->alive == side->out);
        if (keep > 0 && one_in(10))
            CHECK(note(gd_allocator_set_max_kept(side->allocator, one_in(2) ? random_below(4) : UINT32_MAX)) == GD_OK);
        if (one_in(200)) {
            CHECK(note(gd_free_all(side->allocator)) == GD_OK && side->alive == 0);
            side->out = 0;
        }
    }
    CHECK(gd_outstanding(side->allocator, &out) == GD_OK);
    CHECK(out == side->out && (keep > 0 ? out <= side->alive : out == side->alive));
}

int main(int words, char **word) {
    uint64_t operations = number_at(words, word, 1, 100000);
    seed = number_at(words, word, 2, 1);
    keep = (uint32_t)number_at(words, word, 3, UINT32_MAX);
    for (uint32_t at = 0; at < ALLOCATORS; at++) {
        gd_device device = {&sides[at], create_pool, destroy_pool, allocate_sets, free_sets};
        CHECK(gd_create(&device, 2000, &sides[at].allocator) == GD_OK);
        CHECK(gd_allocator_set_max_kept(sides[at].allocator, keep) == GD_OK);
        for (uint32_t layout = 0; layout < LAYOUTS; layout++) {
            uint32_t counts[GD_KINDS] = {layout, layout == 3 ? 100000000 : 1};
            CHECK(gd_add_layout(sides[at].allocator, layout / 2, counts, layout == 1 ? 2 : 0,
                                &sides[at].layouts[layout]) == GD_OK);
        }
    }
    for (operation = 0; operation < operations; operation++)
        act(&sides[random_below(ALLOCATORS)]);
    for (uint32_t at = 0; at < ALLOCATORS; at++) {
        uint64_t pools = 1;
        CHECK(gd_free_all(sides[at].allocator) == GD_OK && gd_cleanup(sides[at].allocator) == GD_OK);
        CHECK(gd_pool_count(sides[at].allocator, &pools) == GD_OK && pools == 0);
        CHECK(gd_destroy(sides[at].allocator) == GD_OK && sides[at].alive == 0);
    }
    printf("%" PRIu64 " operations: %" PRIu64 " met, bad sets %" PRIu64 ", bad layouts %" PRIu64
           ", lost %" PRIu64 ", no answers %" PRIu64 "\n",
           operation, statuses[GD_OK], statuses[GD_BAD_SET], statuses[GD_BAD_LAYOUT],
           statuses[GD_DEVICE_LOST], statuses[GD_BAD_RESULT]);
    return 0;
}
