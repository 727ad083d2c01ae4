// Each misuse by the program, or by its device, that the library can detect returns a status and changes
// nothing. Everything is done twice: with all sets kept, and with none.
#include "gpu_descriptor.h"
#include "host.h"
#include <string.h>

// Sets of a test at most.
enum { MAX = 4096 };

// A device that counts, with a list of results for the calls that may fail.
struct world {
    // What is there, the last handle, and how many calls there were, in all and to free sets.
    uint64_t pools, sets, next, calls, releases;
    uint32_t max_sets; // of the last pool
    uint32_t results[64];
    uint32_t result_count, used; // after the last one all is granted
    gd_allocator back; // called back from each call, if it isn't zeroed
    gd_set any;
    gd_layout layout;
    uint64_t called_back;
};

// How many sets of a layout are kept: none or all, by the round of `main`.
static uint32_t keep;

// How many sets there are, if none is kept and if all are.
#define EITHER(none, all) (keep == 0 ? (none) : (all))

// By this value one sees that a call wrote nothing.
static const uint64_t UNTOUCHED = 0x756e746f75636864;

static gd_status allocate_variable_sets(void *user, uint64_t pool, uint32_t count, const uint64_t *layouts,
                                        const uint32_t *variable_counts, uint64_t *sets) {
    (void)user, (void)pool, (void)count, (void)layouts, (void)variable_counts, (void)sets;
    return GD_OUT_OF_DEVICE_MEMORY;
}

// Each function that takes an allocator returns this status, and writes nothing, but that a failed
// gd_allocate zeroes its sets.
static void expect_of_each(gd_status wanted, gd_allocator it, gd_layout known, gd_set any) {
    gd_set set = {1, 2, 3};
    uint64_t number = UNTOUCHED;
    gd_layout layout = {UNTOUCHED, UNTOUCHED};
    uint32_t counts[GD_KINDS] = {9};
    CHECK(gd_allocate(it, known, 1, &set) == wanted);
    CHECK(set.handle == 0 && set.name == 0 && set.owner == 0);
    CHECK(gd_free(it, &any, 1) == wanted && gd_free(it, &any, 0) == wanted);
    CHECK(gd_free_after(it, &any, 1, 1) == wanted && gd_free_after(it, NULL, 0, 1) == wanted);
    CHECK(gd_free_after_current(it, &any, 1) == wanted && gd_begin_frame(it, UINT64_MAX) == wanted);
    CHECK(gd_free_all(it) == wanted && gd_frame_done(it, UINT64_MAX) == wanted);
    CHECK(gd_cleanup(it) == wanted && gd_trim(it) == wanted);
    CHECK(gd_destroy(it) == wanted && gd_allocator_set_max_kept(it, 0) == wanted);
    CHECK(gd_allocator_set_max_pool_descriptors(it, 1) == wanted && gd_remove_layout(it, known) == wanted);
    CHECK(gd_add_layout(it, 1, counts, 0, &layout) == wanted);
    CHECK(gd_add_variable_layout(it, 1, 1, counts, 0, &layout) == wanted);
    CHECK(gd_allocator_set_allocate_variable_sets(it, allocate_variable_sets) == wanted);
    CHECK(gd_allocator_set_pool_created(it, NULL, NULL) == wanted);
    CHECK(layout.index == UNTOUCHED && layout.owner == UNTOUCHED);
    CHECK(gd_outstanding(it, &number) == wanted && gd_waiting(it, &number) == wanted);
    CHECK(gd_pool_count(it, &number) == wanted && number == UNTOUCHED);
    gd_statistics statistics = {.outstanding = UNTOUCHED};
    gd_layout_statistics of_layout = {.kept = UNTOUCHED};
    size_t length = 77;
    char text[2] = "?";
    CHECK(gd_get_statistics(it, &statistics) == wanted && statistics.outstanding == UNTOUCHED);
    CHECK(gd_get_layout_statistics(it, known, &of_layout) == wanted && of_layout.kept == UNTOUCHED);
    CHECK(gd_kept(it, known, &number) == wanted && number == UNTOUCHED);
    CHECK(gd_write_statistics(it, text, 2, &length) == wanted && length == 77 && text[0] == '?');
    // With several mistakes any of their statuses is right.
    CHECK(gd_allocate(it, known, 1, NULL) != GD_OK && gd_free(it, NULL, 1) != GD_OK);
    CHECK(gd_add_layout(it, 1, NULL, 99, NULL) != GD_OK && gd_outstanding(it, NULL) != GD_OK);
}

// A call of the device. If the world says so, it calls the allocator, which is busy.
static void call_back(struct world *world) {
    world->calls++;
    if (world->back.id == 0)
        return;
    world->called_back++;
    expect_of_each(GD_BUSY, world->back, world->layout, world->any);
}

static uint32_t next_result(struct world *world) {
    if (world->used == world->result_count)
        return GD_OK;
    return world->results[world->used++];
}

static gd_status create_pool(void *user, const gd_pool_info *info, uint64_t *pool) {
    struct world *world = user;
    call_back(world);
    CHECK(info->max_sets > 0);
    uint32_t why = next_result(world);
    if (why != GD_OK)
        return why;
    world->pools++;
    world->max_sets = info->max_sets;
    *pool = ++world->next;
    return GD_OK;
}

static void destroy_pool(void *user, uint64_t pool) {
    struct world *world = user;
    call_back(world);
    CHECK(pool > 0);
    world->pools--;
}

static gd_status allocate_sets(void *user, uint64_t pool, uint32_t count, const uint64_t *layouts,
                               uint64_t *sets) {
    struct world *world = user;
    call_back(world);
    CHECK(pool > 0 && layouts[count - 1] == layouts[0]);
    uint32_t why = next_result(world);
    if (why != GD_OK)
        return why;
    world->sets += count;
    for (uint32_t place = 0; place < count; place++)
        sets[place] = ++world->next;
    return GD_OK;
}

static void free_sets(void *user, uint64_t pool, uint32_t count, const uint64_t *sets) {
    struct world *world = user;
    call_back(world);
    CHECK(pool > 0 && sets[count - 1] > 0);
    world->sets -= count;
    world->releases++;
}

static gd_device device_of(struct world *world) {
    gd_device device = {world, create_pool, destroy_pool, allocate_sets, free_sets};
    return device;
}

static void create(const gd_device *device, uint32_t limit, gd_allocator *allocator) {
    CHECK(gd_create(device, limit, allocator) == GD_OK);
    CHECK(gd_allocator_set_max_kept(*allocator, keep) == GD_OK);
}

// The device and the allocator have this many sets, none of them kept, and pools.
static void expect(struct world *world, gd_allocator allocator, uint64_t sets, uint64_t pools) {
    uint64_t said = UNTOUCHED;
    CHECK(world->sets == sets && world->pools == pools);
    CHECK(gd_outstanding(allocator, &said) == GD_OK && said == sets);
    CHECK(gd_pool_count(allocator, &said) == GD_OK && said == pools);
}

// Pointers that are missing, unknown flags, and allocators that aren't there.
static void pass_null(void) {
    struct world world = {0};
    gd_device device = device_of(&world);
    gd_allocator allocator = {&world, 77}, none = {NULL, 0};
    gd_layout layout = {UNTOUCHED, UNTOUCHED};
    gd_set set = {0, 0, 0};
    uint32_t counts[GD_KINDS] = {1};
    CHECK(gd_create(&device, 0, NULL) == GD_NULL_POINTER);
    CHECK(gd_create(NULL, 0, &allocator) == GD_NULL_POINTER);
    CHECK(allocator.slot == NULL && allocator.id == 0);
    for (int missing = 0; missing < 4; missing++) {
        gd_device it = device_of(&world);
        if (missing == 0)
            it.create_pool = NULL;
        if (missing == 1)
            it.destroy_pool = NULL;
        if (missing == 2)
            it.allocate_sets = NULL;
        if (missing == 3)
            it.free_sets = NULL;
        allocator.id = 77;
        CHECK(gd_create(&it, 0, &allocator) == GD_NULL_POINTER && allocator.id == 0);
    }
    for (uint32_t bit = 1; bit < 32; bit++) {
        allocator.id = 77;
        CHECK(gd_create_with_flags(&device, 0, UINT32_C(1) << bit, &allocator) == GD_BAD_FLAGS && allocator.id == 0);
    }
    create(&device, 100, &allocator);
    CHECK(gd_add_layout(allocator, 1, NULL, 0, &layout) == GD_NULL_POINTER);
    CHECK(gd_add_layout(allocator, 1, counts, 0, NULL) == GD_NULL_POINTER);
    // Without its function no layout has a variable count.
    CHECK(gd_add_variable_layout(allocator, 1, 1, counts, 0, &layout) == GD_BAD_COUNTS);
    CHECK(gd_allocator_set_allocate_variable_sets(allocator, NULL) == GD_NULL_POINTER);
    CHECK(gd_add_variable_layout(allocator, 1, 1, counts, 0, &layout) == GD_BAD_COUNTS);
    CHECK(gd_allocator_set_allocate_variable_sets(allocator, allocate_variable_sets) == GD_OK);
    CHECK(gd_add_variable_layout(allocator, 1, 1, NULL, 0, &layout) == GD_NULL_POINTER);
    CHECK(gd_add_variable_layout(allocator, 1, 1, counts, 0, NULL) == GD_NULL_POINTER);
    CHECK(gd_add_variable_layout(allocator, 1, 1, counts, 4, &layout) == GD_BAD_FLAGS);
    for (uint32_t flag = 1; flag != 0; flag <<= 1) { // 4 is that of layouts for the host alone
        const uint32_t both = flag | GD_UPDATE_AFTER_BIND;
        CHECK(flag == GD_UPDATE_AFTER_BIND || gd_add_layout(allocator, 1, counts, flag, &layout) == GD_BAD_FLAGS);
        CHECK(flag == GD_UPDATE_AFTER_BIND || gd_add_layout(allocator, 1, counts, both, &layout) == GD_BAD_FLAGS);
    }
    CHECK(layout.index == UNTOUCHED && layout.owner == UNTOUCHED);
    CHECK(gd_add_layout(allocator, 1, counts, 0, &layout) == GD_OK);
    CHECK(gd_allocate(allocator, layout, 1, NULL) == GD_NULL_POINTER);
    CHECK(gd_allocate(allocator, layout, 0, NULL) == GD_OK);
    CHECK(gd_free(allocator, NULL, 1) == GD_NULL_POINTER && gd_free(allocator, NULL, 0) == GD_OK);
    CHECK(gd_free_after(allocator, NULL, 1, 1) == GD_NULL_POINTER);
    CHECK(gd_free_after(allocator, NULL, 0, 1) == GD_OK);
    CHECK(gd_free_after_current(allocator, NULL, 1) == GD_NULL_POINTER);
    CHECK(gd_free_after_current(allocator, NULL, 0) == GD_OK);
    CHECK(gd_outstanding(allocator, NULL) == GD_NULL_POINTER && gd_waiting(allocator, NULL) == GD_NULL_POINTER);
    CHECK(gd_pool_count(allocator, NULL) == GD_NULL_POINTER);
    CHECK(world.calls == 0);

    expect_of_each(GD_BAD_ALLOCATOR, none, layout, set);
    none.id = allocator.id;
    expect_of_each(GD_BAD_ALLOCATOR, none, layout, set);
    none = allocator;
    // An id with any bit changed is none.
    for (uint32_t bit = 0; bit < 64; bit++) {
        none.id = allocator.id ^ UINT64_C(1) << bit;
        expect_of_each(GD_BAD_ALLOCATOR, none, layout, set);
    }
    CHECK(world.calls == 0);
    CHECK(gd_destroy(allocator) == GD_OK);
}

// Another header than the library's: nothing is read and nothing written.
static void pass_other_headers(void) {
    gd_allocator allocator = {&keep, 77};
    for (uint32_t bit = 0; bit < 64; bit++)
        CHECK(gd_create_checked(GD_ABI_FINGERPRINT ^ UINT64_C(1) << bit, NULL, 1, 0, 0, &allocator) == GD_BAD_VERSION);
    CHECK(allocator.slot == &keep && allocator.id == 77);
    CHECK(gd_create_checked(GD_ABI_FINGERPRINT, NULL, 1, 0, 0, &allocator) == GD_NULL_POINTER && allocator.id == 0);
    CHECK(gd_version() == GD_VERSION && GD_VERSION >= GD_MAKE_VERSION(0u, 1u, 0u));
}

// An allocator that was destroyed, with and without another in its slot.
static void use_destroyed(void) {
    struct world world = {0};
    gd_device device = device_of(&world);
    gd_allocator first, second;
    gd_layout layout, known;
    gd_set set = {0, 0, 0}, old;
    uint32_t counts[GD_KINDS] = {1};
    create(&device, 100, &first);
    CHECK(gd_add_layout(first, 1, counts, 0, &layout) == GD_OK);
    CHECK(gd_allocate(first, layout, 1, &old) == GD_OK);
    CHECK(gd_destroy(first) == GD_OUTSTANDING);
    expect(&world, first, 1, 1);
    CHECK(gd_free(first, &old, 1) == GD_OK && gd_destroy(first) == GD_OK);
    for (int turn = 0; turn < 2; turn++) {
        uint64_t calls = world.calls;
        expect_of_each(GD_BAD_ALLOCATOR, first, layout, old);
        CHECK(world.calls == calls);
        if (turn > 0)
            break;
        create(&device, 100, &second);
        CHECK(second.slot == first.slot && second.id != first.id);
        CHECK(gd_add_layout(second, 1, counts, 0, &known) == GD_OK);
        CHECK(gd_allocate(second, known, 1, &set) == GD_OK);
        CHECK(set.name == old.name);
        CHECK(gd_free(second, &old, 1) == GD_BAD_SET);
        CHECK(gd_allocate(second, layout, 1, &old) == GD_BAD_LAYOUT);
        CHECK(gd_free(second, &set, 1) == GD_OK);
    }
    CHECK(gd_destroy(second) == GD_OK && world.pools == 0);
}

// Layouts and sets of another allocator, changed in any bit, given twice, freed before, or waiting.
static void pass_wrong_sets(void) {
    struct world world = {0};
    gd_device device = device_of(&world);
    gd_allocator one, other;
    gd_layout layout, foreign, none = {0, 0}, beyond;
    gd_set sets[8], strange[8], back[9], zeroed = {0, 0, 0};
    uint32_t counts[GD_KINDS] = {1};
    create(&device, 100, &one);
    create(&device, 100, &other);
    CHECK(gd_add_layout(one, 1, counts, 0, &layout) == GD_OK);
    CHECK(gd_add_layout(other, 1, counts, 0, &foreign) == GD_OK);
    beyond = layout;
    beyond.index++;
    CHECK(gd_allocate(one, none, 1, sets) == GD_BAD_LAYOUT);
    CHECK(gd_allocate(one, foreign, 1, sets) == GD_BAD_LAYOUT);
    CHECK(gd_allocate(one, beyond, 1, sets) == GD_BAD_LAYOUT);
    beyond.index = UINT64_MAX;
    CHECK(gd_allocate(one, beyond, 0, sets) == GD_BAD_LAYOUT && world.calls == 0);
    CHECK(gd_allocate(one, layout, 8, sets) == GD_OK);
    CHECK(gd_allocate(other, foreign, 8, strange) == GD_OK);
    CHECK(sets[3].name == strange[3].name);
    uint64_t calls = world.calls;
    for (int way = 0; way < 3; way++) {
#define BAD(list, count)                                                                           \
    CHECK((way == 0   ? gd_free(one, list, count)                                                  \
           : way == 1 ? gd_free_after(one, list, count, 1)                                         \
                      : gd_free_after_current(one, list, count)) == GD_BAD_SET)
        BAD(strange, 8);     // of the other allocator
        BAD(&strange[3], 1); // a name that is held here
        BAD(&zeroed, 1);
        memcpy(back, sets, sizeof sets);
        back[8] = sets[0];
        BAD(back, 9); // more than are held
        for (uint32_t at = 0; at < 8; at++) {
            memcpy(back, sets, sizeof sets);
            back[at] = sets[(at + 1) % 8];
            BAD(back, 8); // twice
            back[at] = strange[at];
            BAD(back, 8);
            back[at] = zeroed;
            BAD(back, 8);
            back[at] = sets[at];
            back[at].handle++;
            BAD(back, 8);
            for (uint32_t bit = 0; bit < 64; bit++) {
                back[at] = sets[at];
                back[at].name ^= UINT64_C(1) << bit;
                BAD(&back[at], 1);
                BAD(back, 8);
                back[at] = sets[at];
                back[at].owner ^= UINT64_C(1) << bit;
                BAD(back, 8);
            }
        }
    }
    CHECK(world.calls == calls && world.sets == 16);
    // Of the eight here three are freed, then two wait. The other allocator has eight as well.
    CHECK(gd_free(one, sets, 3) == GD_OK);
    CHECK(gd_free(one, sets, 1) == GD_BAD_SET && gd_free(one, sets, 8) == GD_BAD_SET);
    CHECK(gd_free_after(one, &sets[3], 2, 7) == GD_OK && world.sets == EITHER(13, 16));
    CHECK(gd_free(one, &sets[3], 1) == GD_BAD_SET);
    CHECK(gd_free_after(one, &sets[4], 1, 8) == GD_BAD_SET);
    gd_set again[5];
    CHECK(gd_allocate(one, layout, 5, again) == GD_OK); // in the places of those that left
    for (uint32_t at = 0; at < 5; at++)
        CHECK(gd_free(one, &sets[at], 1) == GD_BAD_SET);
    CHECK(gd_free(one, again, 5) == GD_OK && gd_free(one, &sets[5], 3) == GD_OK);
    CHECK(gd_destroy(one) == GD_OUTSTANDING); // two wait
    CHECK(gd_frame_done(one, 6) == GD_OK && gd_destroy(one) == GD_OUTSTANDING);
    // Of five new ones three were kept.
    CHECK(world.sets == EITHER(10, 18));
    CHECK(gd_frame_done(one, 7) == GD_OK && world.sets == EITHER(8, 18));
    CHECK(gd_destroy(one) == GD_OK && world.sets == 8 && gd_free(other, strange, 8) == GD_OK);
    CHECK(gd_destroy(other) == GD_OK && world.pools == 0);
}

// A removed layout is invalid, even after its place has another, which has another index. None has it while a set
// of the removed one is left.
static void remove_layouts(void) {
    struct world world = {0};
    gd_device device = device_of(&world);
    gd_allocator one, other;
    gd_layout layout, foreign, next, last, none = {0, 0};
    gd_set sets[6], set;
    uint32_t counts[GD_KINDS] = {1};
    create(&device, 100, &one);
    create(&device, 100, &other);
    CHECK(gd_add_layout(one, 5, counts, 0, &layout) == GD_OK);
    CHECK(gd_add_layout(other, 5, counts, 0, &foreign) == GD_OK);
    CHECK(gd_remove_layout(one, none) == GD_BAD_LAYOUT);
    CHECK(gd_remove_layout(one, foreign) == GD_BAD_LAYOUT);
    CHECK(gd_allocate(one, layout, 6, sets) == GD_OK && gd_free(one, sets, 2) == GD_OK);
    CHECK(world.sets == EITHER(4, 6));
    CHECK(gd_remove_layout(one, layout) == GD_OK && world.sets == 4);
    for (int later = 0; later < 2; later++) {
        CHECK(gd_remove_layout(one, layout) == GD_BAD_LAYOUT);
        CHECK(gd_allocate(one, layout, 1, &set) == GD_BAD_LAYOUT);
        if (later == 0)
            CHECK(gd_add_layout(one, 5, counts, 0, &next) == GD_OK);
    }
    CHECK((next.index & UINT32_MAX) != (layout.index & UINT32_MAX));
    // Of the sets of the old one none is kept.
    CHECK(gd_free(one, &sets[2], 1) == GD_OK && world.sets == 3);
    CHECK(gd_free_after(one, &sets[3], 1, 1) == GD_OK && gd_frame_done(one, 1) == GD_OK);
    CHECK(world.sets == 2 && gd_allocate(one, next, 1, &set) == GD_OK && world.sets == 3);
    CHECK(gd_free(one, &set, 1) == GD_OK && gd_free(one, &sets[4], 2) == GD_OK);
    CHECK(world.sets == EITHER(0, 1));
    CHECK(gd_add_layout(one, 6, counts, 0, &last) == GD_OK && gd_remove_layout(one, layout) == GD_BAD_LAYOUT);
    CHECK(last.index != layout.index && (last.index & UINT32_MAX) == (layout.index & UINT32_MAX));
    CHECK(gd_destroy(one) == GD_OK && gd_destroy(other) == GD_OK && world.pools == 0);
}

// Handle, counts and flags make a layout. One that goes leaves the others known.
static void know_layouts(void) {
    enum { HANDLES = 40, KINDS = 3 };
    struct world world = {0};
    gd_device device = device_of(&world);
    gd_allocator allocator;
    gd_layout layouts[HANDLES * KINDS], again;
    create(&device, 100, &allocator);
    for (int round = 0; round < 9; round++) {
        for (uint32_t at = 0; at < HANDLES * KINDS; at++) {
            uint32_t counts[GD_KINDS] = {1 + at % KINDS % 2}, flags = at % KINDS / 2 * GD_UPDATE_AFTER_BIND;
            uint64_t handle = UINT64_C(4096) * (at / KINDS);
            bool is_known = round > 0 && at % 7 != (uint32_t)round - 1;
            CHECK(gd_add_layout(allocator, handle, counts, flags, &again) == GD_OK);
            CHECK(again.index != 0 && (round == 0 || (again.index == layouts[at].index) == is_known));
            layouts[at] = again;
            for (uint32_t before = 0; before < at; before++)
                CHECK(layouts[before].index != again.index);
        }
        for (uint32_t at = 0; at < HANDLES * KINDS; at++)
            if (at % 7 == (uint32_t)round)
                CHECK(gd_remove_layout(allocator, layouts[at]) == GD_OK);
    }
    CHECK(gd_destroy(allocator) == GD_OK && world.calls == 0);
}

// Unknown statuses at each call of a request: it fails, and what it had is freed.
static void return_unknown_statuses(void) {
    static const uint32_t UNKNOWN[] = {1, 9, 15, GD_NULL_POINTER, GD_BUSY, GD_INTERNAL_ERROR, 1000, UINT32_MAX};
    static gd_set sets[MAX];
    struct world world = {0};
    gd_device device = device_of(&world);
    gd_allocator allocator;
    gd_layout layout;
    uint32_t counts[GD_KINDS] = {[GD_SAMPLER] = 100000000}; // a pool has few
    create(&device, 100, &allocator);
    CHECK(gd_add_layout(allocator, 1, counts, 0, &layout) == GD_OK);
    for (uint32_t at = 0; at < 6; at++) {
        for (uint32_t wrong = 0; wrong < 8; wrong++) {
            memset(world.results, 0, sizeof world.results);
            world.results[at] = UNKNOWN[wrong];
            world.result_count = at + 1;
            world.used = 0;
            memset(sets, 1, sizeof sets);
            CHECK(gd_allocate(allocator, layout, 200, sets) == GD_BAD_RESULT);
            // The request ends at that call, and frees what it had.
            CHECK(world.used == at + 1 && world.sets == 0);
            for (uint32_t place = 0; place < 200; place++)
                CHECK(sets[place].handle == 0 && sets[place].owner == 0);
            expect(&world, allocator, 0, world.pools);
            CHECK(gd_cleanup(allocator) == GD_OK);
            expect(&world, allocator, 0, 0);
        }
    }
    // The status is that of this request alone.
    world.results[0] = GD_OUT_OF_HOST_MEMORY;
    world.result_count = 1;
    world.used = 0;
    CHECK(gd_allocate(allocator, layout, 200, sets) == GD_OUT_OF_HOST_MEMORY);
    CHECK(gd_allocate(allocator, layout, 200, sets) == GD_OK);
    CHECK(gd_free(allocator, sets, 200) == GD_OK && gd_destroy(allocator) == GD_OK);
}

// Each of the four functions calls the same allocator back, and another one.
static void call_allocators_back(void) {
    static gd_set sets[MAX];
    struct world world = {0};
    gd_device device = device_of(&world);
    gd_layout layout;
    gd_allocator allocator;
    uint32_t counts[GD_KINDS] = {1};
    create(&device, 100, &allocator);
    CHECK(gd_add_layout(allocator, 1, counts, 0, &layout) == GD_OK);
    CHECK(gd_allocate(allocator, layout, 1, &world.any) == GD_OK);
    world.back = allocator;
    world.layout = layout;
    for (int turn = 0; turn < 20; turn++) {
        CHECK(gd_allocate(allocator, layout, 1000, sets) == GD_OK);
        CHECK(gd_free(allocator, sets, 300) == GD_OK);
        CHECK(gd_free_after(allocator, sets + 300, 700, 1) == GD_OK);
        CHECK(gd_frame_done(allocator, 1) == GD_OK);
        CHECK(gd_cleanup(allocator) == GD_OK);
    }
    CHECK(gd_free(allocator, &world.any, 1) == GD_OK && gd_cleanup(allocator) == GD_OK);
    CHECK(world.called_back > 40 && world.sets == 0 && world.pools == 0);
    CHECK(gd_allocate(allocator, layout, 1, sets) == GD_OK && gd_free(allocator, sets, 1) == GD_OK);
    CHECK(gd_destroy(allocator) == GD_OK && world.pools == 0);
}

// All sets are freed at once: those in places of many generations, and those that wait.
static void free_all(void) {
    static gd_set sets[MAX];
    struct world world = {0};
    gd_device device = device_of(&world);
    gd_layout layouts[3];
    gd_allocator allocator;
    create(&device, UINT32_MAX, &allocator);
    CHECK(gd_free_all(allocator) == GD_OK && gd_frame_done(allocator, 1) == GD_OK);
    for (uint32_t at = 0; at < 3; at++) {
        uint32_t counts[GD_KINDS] = {at + 1};
        CHECK(gd_add_layout(allocator, at, counts, at == 1 ? 2 : 0, &layouts[at]) == GD_OK);
    }
    for (int turn = 0; turn < 50; turn++) {
        uint32_t out = 0;
        for (uint32_t at = 0; at < 3; at++, out += 500)
            CHECK(gd_allocate(allocator, layouts[at], 500, sets + out) == GD_OK);
        CHECK(gd_free(allocator, sets + turn, 300) == GD_OK);
        CHECK(gd_free_after(allocator, sets + 700, 100 + (uint32_t)turn, 9) == GD_OK);
        CHECK(gd_allocate(allocator, layouts[2], 170, sets + out) == GD_OK);
        world.back = allocator;
        world.any = sets[0];
        CHECK(gd_free_all(allocator) == GD_OK && world.sets == 0);
        world.back.id = 0;
        for (uint32_t at = 0; at < out + 170; at++)
            CHECK(gd_free(allocator, &sets[at], 1) == GD_BAD_SET);
        expect(&world, allocator, 0, world.pools);
    }
    for (int turn = 0; turn < 2; turn++) { // a place of one that waited may be freed
        CHECK(gd_allocate(allocator, layouts[0], 2000, sets) == GD_OK);
        CHECK(gd_free_after(allocator, sets, turn == 0 ? 2000 : 1, 9) == GD_OK);
        if (turn > 0)
            CHECK(gd_free(allocator, sets + 1, 1999) == GD_OK);
        CHECK(gd_free_all(allocator) == GD_OK);
    }
    CHECK(gd_allocate(allocator, layouts[1], 900, sets) == GD_OK);
    CHECK(gd_destroy(allocator) == GD_OUTSTANDING && gd_free_all(allocator) == GD_OK);
    CHECK(gd_destroy(allocator) == GD_OK && world.pools == 0);
    CHECK(gd_free_all(allocator) == GD_BAD_ALLOCATOR);
}

// Sets that were allocated one by one are freed in one call: memory for a whole pool is reserved.
static void free_in_one_call(void) {
    struct world world = {0};
    gd_device device = device_of(&world);
    gd_layout layout;
    gd_allocator allocator;
    gd_set sets[64];
    uint32_t counts[GD_KINDS] = {1};
    create(&device, 100, &allocator);
    CHECK(gd_add_layout(allocator, 1, counts, 0, &layout) == GD_OK);
    for (uint32_t at = 0; at < 64; at++)
        CHECK(gd_allocate(allocator, layout, 1, &sets[at]) == GD_OK);
    CHECK(gd_free(allocator, sets, 64) == GD_OK && world.releases == EITHER(1, 0));
    CHECK(gd_allocator_set_max_kept(allocator, 0) == GD_OK && world.releases == 1 && world.pools == 1);
    CHECK(gd_destroy(allocator) == GD_OK && world.pools == 0);
}

// A set of 100,000 images: its pool has no other one, unless more are asked for or there is no bound.
static void bound_pools(void) {
    static const uint32_t COUNTS[GD_KINDS] = {[GD_SAMPLED_IMAGE] = 100000};
    struct world world = {0};
    gd_device device = device_of(&world);
    gd_allocator allocator;
    gd_layout layout;
    gd_set sets[69];
    create(&device, 0, &allocator);
    CHECK(gd_add_layout(allocator, 1, COUNTS, 0, &layout) == GD_OK);
    CHECK(gd_allocate(allocator, layout, 1, sets) == GD_OK && world.max_sets == 1);
    CHECK(gd_allocate(allocator, layout, 3, sets + 1) == GD_OK && world.max_sets == 3);
    CHECK(gd_allocator_set_max_pool_descriptors(allocator, UINT64_MAX) == GD_OK && world.pools == 2);
    CHECK(gd_allocate(allocator, layout, 1, sets + 4) == GD_OK && world.max_sets == 64);
    // The pool stays when it is bounded again.
    CHECK(gd_allocator_set_max_pool_descriptors(allocator, 200000) == GD_OK && world.pools == 3);
    CHECK(gd_allocate(allocator, layout, 63, sets + 5) == GD_OK && world.pools == 3);
    CHECK(gd_allocate(allocator, layout, 1, sets + 68) == GD_OK && world.max_sets == 2);
    CHECK(gd_free(allocator, sets, 69) == GD_OK && gd_destroy(allocator) == GD_OK);
    CHECK(world.pools == 0 && world.sets == 0);
}

// Sets of a layout are kept, and reused under other names. Kept sets aren't outstanding.
static void keep_some(void) {
    struct world world = {0};
    gd_device device = device_of(&world);
    gd_layout layouts[2];
    gd_allocator allocator;
    gd_set old[10], sets[10];
    uint32_t counts[GD_KINDS] = {1};
    uint64_t out = 1;
    CHECK(gd_create(&device, 100, &allocator) == GD_OK); // all are kept
    for (uint32_t at = 0; at < 2; at++)
        CHECK(gd_add_layout(allocator, at + 1, counts, 0, &layouts[at]) == GD_OK);
    CHECK(gd_allocate(allocator, layouts[0], 10, old) == GD_OK);
    CHECK(gd_free(allocator, old, 5) == GD_OK && gd_free_after(allocator, old + 5, 5, 3) == GD_OK);
    CHECK(gd_frame_done(allocator, 3) == GD_OK && world.sets == 10);
    CHECK(gd_outstanding(allocator, &out) == GD_OK && out == 0);
    uint64_t calls = world.calls;
    CHECK(gd_allocate(allocator, layouts[0], 10, sets) == GD_OK && world.calls == calls);
    for (uint32_t at = 0; at < 10; at++) {
        CHECK(gd_free(allocator, &old[at], 1) == GD_BAD_SET);
        for (uint32_t other = 0; other < 10; other++)
            CHECK(sets[at].name != old[other].name);
    }
    CHECK(gd_free(allocator, sets, 10) == GD_OK && gd_allocator_set_max_kept(allocator, 7) == GD_OK && world.sets == 7);
    CHECK(gd_allocate(allocator, layouts[1], 2, sets) == GD_OK && world.sets == 9); // of another layout
    // A refusal: the kept sets are freed, and the request is retried once.
    world.results[0] = GD_OUT_OF_DEVICE_MEMORY;
    world.result_count = 1;
    CHECK(gd_allocate(allocator, layouts[0], 8, sets + 2) == GD_OK && world.sets == 10);
    // Twice.
    CHECK(gd_free(allocator, sets + 2, 8) == GD_OK && world.sets == 9);
    world.results[1] = GD_OUT_OF_DEVICE_MEMORY;
    world.result_count = 2;
    world.used = 0;
    CHECK(gd_allocate(allocator, layouts[0], 8, sets + 2) == GD_OUT_OF_DEVICE_MEMORY && world.sets == 2);
    // What was outstanding then isn't kept.
    CHECK(gd_free(allocator, sets, 2) == GD_OK && world.sets == 0);
    CHECK(gd_allocate(allocator, layouts[0], 8, sets) == GD_OK);
    CHECK(gd_free(allocator, sets, 8) == GD_OK && world.sets == 7);
    // A frame that is said to be done, in any order, and one that isn't.
    CHECK(gd_allocate(allocator, layouts[1], 6, sets) == GD_OK);
    for (uint32_t at = 0; at < 6; at++)
        CHECK(gd_free_after(allocator, &sets[at], 1, (at * 5 + 2) % 6) == GD_OK);
    for (uint64_t frame = 0; frame < 6; frame++) {
        CHECK(gd_frame_done(allocator, frame) == GD_OK && gd_waiting(allocator, &out) == GD_OK);
        CHECK(out == 5 - frame);
    }
    CHECK(gd_allocator_set_max_kept(allocator, 0) == GD_OK && world.sets == 0);
    CHECK(gd_destroy(allocator) == GD_OK && world.pools == 0);
}

// An unknown status, and then what is kept is freed and the request met. A later refusal has its own
// status, even if the driver isn't asked for it.
static void return_unknown_statuses_while_sets_are_kept(void) {
    struct world world = {0};
    gd_device device = device_of(&world);
    gd_allocator allocator;
    gd_layout layout, marked;
    gd_set set, many[9];
    uint32_t counts[GD_KINDS] = {[GD_SAMPLER] = 20};
    CHECK(gd_create(&device, 100, &allocator) == GD_OK);
    CHECK(gd_add_layout(allocator, 1, counts, 0, &layout) == GD_OK);
    CHECK(gd_add_layout(allocator, 2, counts, GD_UPDATE_AFTER_BIND, &marked) == GD_OK);
    CHECK(gd_allocate(allocator, layout, 1, &set) == GD_OK && gd_free(allocator, &set, 1) == GD_OK);
    world.results[0] = 99;
    world.result_count = 1;
    CHECK(gd_allocate(allocator, marked, 2, many) == GD_OK && world.used == 1);
    CHECK(gd_allocate(allocator, marked, 7, many + 2) == GD_FRAGMENTATION);
    CHECK(gd_free_all(allocator) == GD_OK && gd_destroy(allocator) == GD_OK);
}

// Many allocators, one after the other and at once.
static void make_many(void) {
    struct world world = {0};
    gd_device device = device_of(&world);
    gd_allocator many[100];
    for (int turn = 0; turn < 100; turn++) {
        for (int at = 0; at < 100; at++)
            CHECK(gd_create(&device, 100, &many[at]) == GD_OK);
        for (int at = 0; at < 100; at++)
            CHECK(gd_destroy(many[at]) == GD_OK);
        for (int at = 0; at < 100; at++)
            CHECK(gd_destroy(many[at]) == GD_BAD_ALLOCATOR);
    }
}

int main(void) {
    static const uint32_t KEEPS[] = {0, UINT32_MAX};
    for (int at = 0; at < 2; at++) {
        keep = KEEPS[at];
        pass_null();
        pass_other_headers();
        use_destroyed();
        pass_wrong_sets();
        remove_layouts();
        know_layouts();
        return_unknown_statuses();
        call_allocators_back();
        free_all();
        free_in_one_call();
        bound_pools();
    }
    keep_some();
    return_unknown_statuses_while_sets_are_kept();
    make_many();
    printf("each misuse is a status and changes nothing\n");
    return 0;
}
