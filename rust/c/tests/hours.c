// A long run in little memory: requests for a few sets and frees of any sets, with at most about a thousand
// live, until SETS sets were allocated. Layouts are added and removed, three at once. The driver refuses few
// calls, and reuses the handles of freed sets and destroyed pools, as real drivers do.
//
// The resident size is printed at ten points. At the last one it may be little more than at the first. No
// name is given twice, and names have few places. KEEP is how many sets are kept, at first all.
//
// usage: hours SETS SEED [KEEP]
#include "gpu_descriptor.h"
#include "host.h"
#include <string.h>

enum {
    MAX_HELD = 1000,
    MAX_SETS = 40,
    LAYOUTS = 3,
    PLACES = 4 * MAX_HELD, // for more no name needs to be
    HANDLES = 4 * MAX_HELD,
    REFUSES_ONE_IN = 100,
    POINTS = 10,
    MAX_KILOBYTES = 1024 // by which the resident size may grow from the first point on
};

// What the driver gave under a handle: a pool, or a set of a pool.
struct given {
    bool is_alive;
    uint64_t pool; // of a set
    uint32_t sets; // of a pool: how many are alive
};

// Handles of one kind. Free ones are reused.
struct handles {
    struct given given[HANDLES + 1];
    uint32_t freed[HANDLES];
    uint32_t freed_count, count;
};

static gd_allocator allocator;
static gd_layout layouts[LAYOUTS];
static struct handles pools, sets;
static gd_set held[MAX_HELD];
static uint32_t held_count;
static uint32_t uses[PLACES];  // how often a place was used
static uint64_t strange_names; // that have none of these places
static uint64_t met, refused, calls, max_held, frame = 10, layout_count;
static uint32_t keep;

// ---- the driver ----

static uint64_t draw_handle(struct handles *kind) {
    CHECK(kind->freed_count > 0 || kind->count < HANDLES);
    uint32_t handle = kind->freed_count > 0 ? kind->freed[--kind->freed_count] : ++kind->count;
    kind->given[handle] = (struct given){true, 0, 0};
    return handle;
}

static struct given *alive(struct handles *kind, uint64_t handle) {
    CHECK(handle <= kind->count && kind->given[handle].is_alive);
    return &kind->given[handle];
}

static void drop_handle(struct handles *kind, uint64_t handle) {
    alive(kind, handle)->is_alive = false;
    kind->freed[kind->freed_count++] = (uint32_t)handle;
}

static bool is_refused(void) {
    calls++;
    return one_in(REFUSES_ONE_IN);
}

static gd_status create_pool(void *user, const gd_pool_info *info, uint64_t *pool) {
    (void)user, (void)info;
    if (is_refused())
        return GD_OUT_OF_DEVICE_MEMORY + random_below(4);
    *pool = draw_handle(&pools);
    return GD_OK;
}

static gd_status allocate_sets(void *user, uint64_t pool, uint32_t count, const uint64_t *asked,
                               uint64_t *handles) {
    (void)user, (void)asked;
    if (is_refused())
        return GD_OUT_OF_DEVICE_MEMORY + random_below(4);
    alive(&pools, pool)->sets += count;
    for (uint32_t place = 0; place < count; place++) {
        handles[place] = draw_handle(&sets);
        alive(&sets, handles[place])->pool = pool;
    }
    return GD_OK;
}

static void free_sets(void *user, uint64_t pool, uint32_t count, const uint64_t *handles) {
    (void)user;
    calls++;
    alive(&pools, pool)->sets -= count;
    for (uint32_t place = 0; place < count; place++) {
        CHECK(alive(&sets, handles[place])->pool == pool);
        drop_handle(&sets, handles[place]);
    }
}

static void destroy_pool(void *user, uint64_t pool) {
    (void)user;
    calls++;
    CHECK(alive(&pools, pool)->sets == 0);
    drop_handle(&pools, pool);
}

// ---- requests and frees ----

// Checks that a name is new: its generation is the number of uses of its place.
static void note_name(uint64_t name) {
    uint64_t place = name & UINT32_MAX;
    if (place >= PLACES) {
        strange_names++;
        return;
    }
    uses[place]++;
    CHECK(name >> 32 == uses[place]);
}

// Allocates some sets, and returns how many it got.
static uint32_t allocate(uint32_t count) {
    gd_set *got = &held[held_count];
    gd_status status = gd_allocate(allocator, layouts[random_below(LAYOUTS)], count, got);
    CHECK(status <= GD_FRAGMENTATION);
    if (status != GD_OK) {
        refused++;
        return 0;
    }
    for (uint32_t place = 0; place < count; place++) {
        CHECK(alive(&sets, got[place].handle));
        note_name(got[place].name);
    }
    met++;
    held_count += count;
    max_held = held_count > max_held ? held_count : max_held;
    return count;
}

// Frees some of the held sets, in random order.
static void free_some(uint32_t count) {
    gd_set back[MAX_SETS] = {{0, 0, 0}};
    for (uint32_t place = 0; place < count; place++) {
        uint32_t at = random_below(held_count);
        back[place] = held[at];
        held[at] = held[--held_count];
    }
    if (one_in(3)) {
        CHECK(gd_free_after(allocator, back, count, ++frame) == GD_OK);
        return;
    }
    CHECK(gd_free(allocator, back, count) == GD_OK);
    for (uint32_t place = 0; place < count; place++)
        CHECK(keep > 0 || !sets.given[back[place].handle].is_alive);
}

static void clean_up(void) {
    CHECK(gd_cleanup(allocator) == GD_OK);
}

// ---- the run ----

// The resident size, in kilobytes.
static uint64_t resident(void) {
    static char line[256];
    uint64_t size = 0;
    FILE *status = fopen("/proc/self/status", "r");
    CHECK(status != NULL);
    while (size == 0 && fgets(line, sizeof line, status) != NULL)
        if (strncmp(line, "VmRSS:", 6) == 0)
            size = strtoull(line + 6, NULL, 10);
    CHECK(fclose(status) == 0 && size > 0);
    return size;
}

// Adds a layout that never was.
static void add_layout(uint32_t layout) {
    uint32_t counts[GD_KINDS] = {[GD_SAMPLER] = layout, [GD_UNIFORM_BUFFER] = 1};
    CHECK(gd_add_layout(allocator, layout_count++, counts, layout == 2 ? GD_UPDATE_AFTER_BIND : 0,
                        &layouts[layout]) == GD_OK);
}

// Removes a layout, which may have live sets, and adds another in its place.
static void replace_layout(void) {
    uint32_t layout = random_below(LAYOUTS);
    CHECK(gd_remove_layout(allocator, layouts[layout]) == GD_OK);
    add_layout(layout);
}

static void open_all(void) {
    gd_device device = {NULL, create_pool, destroy_pool, allocate_sets, free_sets};
    CHECK(gd_create(&device, 200000, &allocator) == GD_OK);
    CHECK(gd_allocator_set_max_kept(allocator, keep) == GD_OK);
    for (uint32_t layout = 0; layout < LAYOUTS; layout++)
        add_layout(layout);
}

static void close_all(void) {
    while (held_count > 0)
        free_some(held_count < MAX_SETS ? held_count : MAX_SETS);
    CHECK(gd_frame_done(allocator, UINT64_MAX) == GD_OK);
    clean_up();
    CHECK(pools.freed_count == pools.count && sets.freed_count == sets.count);
    CHECK(gd_destroy(allocator) == GD_OK);
}

// Mostly allocates until a thousand sets are live, then mostly frees until few are.
static void act(void) {
    static bool fills;
    uint32_t lot = 1 + random_below(MAX_SETS);
    if (held_count < MAX_SETS || held_count > MAX_HELD - MAX_SETS)
        fills = held_count < MAX_SETS;
    if (one_in(4) == fills || held_count + lot > MAX_HELD)
        free_some(lot < held_count ? lot : held_count);
    else
        operation += allocate(lot);
    CHECK(gd_frame_done(allocator, frame - 3) == GD_OK);
    if (one_in(20))
        replace_layout();
    if (one_in(10000))
        clean_up();
}

int main(int words, char **word) {
    uint64_t count = number_at(words, word, 1, 10000000), first = 0, last = 0;
    seed = number_at(words, word, 2, 1);
    keep = (uint32_t)number_at(words, word, 3, UINT32_MAX);
    open_all();
    printf("resident, in kilobytes:");
    for (uint64_t point = 1; point <= POINTS; point++) {
        while (operation < count / POINTS * point)
            act();
        last = resident();
        first = point == 1 ? last : first;
        printf(" %" PRIu64, last);
    }
    printf("\n");
    CHECK(last <= first + MAX_KILOBYTES);
    CHECK(strange_names == 0);
    close_all();
    printf("%" PRIu64 " sets allocated and freed, %" PRIu64 " held at most; requests met %" PRIu64,
           operation, max_held, met);
    printf(", refused %" PRIu64 "; calls %" PRIu64 "; layouts %" PRIu64, refused, calls, layout_count);
    printf("; resident %" PRIu64 " kilobytes, at the first of ten points %" PRIu64 "\n", last,
           first);
    return 0;
}
