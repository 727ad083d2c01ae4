// Random requests over a driver that fails at random and checks each call (driver.h).
//
// The host writes its requests as a program for the line program (docs/LINES.md), and the output that it
// expects. The line program has the same allocator over a scripted device, so the two agree in the pool of
// each set, in each failure, and in the number of calls. The host counts the sets that it got, in the order
// in which the driver allocated them, and writes these numbers as tickets. In the program, sets are freed in the
// order in which the driver frees them, and those that wait for a frame at its end.
//
// Without a program to write, the driver also returns unknown statuses. If one in some number of allocations
// fails, the program is of no use. gd_free, gd_frame_done, gd_allocator_set_max_kept and gd_cleanup never
// allocate. KEEP is how many sets are kept. If that isn't 0 the line program doesn't know of it, and the host
// changes the number now and then.
//
// usage: random OPERATIONS SEED LIMIT DRIVER_REFUSES_ONE_IN MEMORY_REFUSED_ONE_IN KEEP [PROGRAM EXPECTED]
#include "driver.h"
#include "gpu_descriptor.h"
#include "host.h"
#include "memory.h"
#include <string.h>

// Sets of a request, sets of a free or waiting, and held sets beyond which most are freed.
enum { MAX_SETS = 1600, MAX_FREED = 400, MAX_HELD = 20000 };

static const uint64_t UNTOUCHED = 0x756e746f75636864;

// An allocated set, at the place that is its ticket.
struct given {
    gd_set set;
    uint32_t layout;
    uint64_t pool;
    bool is_held, waits;
};

// A set that waits for the end of a frame. They are in the order of frames.
struct waiting {
    uint64_t frame;
    size_t ticket;
};

static gd_allocator allocator;
static gd_layout layouts[DRIVER_LAYOUTS];
static FILE *program, *expected;
static bool writes_program;
static struct given *given;
static size_t *held; // tickets
static size_t given_count, held_count, given_room, held_room;
static struct waiting waiting[MAX_FREED];
static size_t waiting_count;
static uint64_t frame = 5;
// The names that are held, by which a name that comes twice shows.
static struct names names;
static bool *in_use; // which sets of the driver are held or wait
static size_t in_use_count, in_use_room;
static uint32_t keep;
static uint64_t requests[GD_INTERNAL_ERROR + 1]; // how many ended so
static uint64_t waited, reentered;

// A function of the driver calls the allocator back.
static void call_back(void) {
    gd_set set = {UNTOUCHED, UNTOUCHED, UNTOUCHED};
    uint64_t number = UNTOUCHED;
    if (!one_in(16))
        return;
    reentered++;
    CHECK(gd_allocate(allocator, layouts[0], 1, &set) == GD_BUSY);
    CHECK(set.handle == 0 && set.name == 0 && set.owner == 0);
    if (held_count > 0)
        CHECK(gd_free(allocator, &given[held[0]].set, 1) == GD_BUSY);
    CHECK(gd_cleanup(allocator) == GD_BUSY && gd_frame_done(allocator, UINT64_MAX) == GD_BUSY);
    CHECK(gd_destroy(allocator) == GD_BUSY);
    CHECK(gd_outstanding(allocator, &number) == GD_BUSY && number == UNTOUCHED);
}

// A result of the driver as a word of a script.
static const char *word_of(uint32_t why) {
    switch (why) {
    case GD_OK:
        return "ok";
    case GD_OUT_OF_DEVICE_MEMORY:
        return "device";
    case GD_OUT_OF_HOST_MEMORY:
        return "host";
    case GD_FRAGMENTATION:
        return "frag";
    default:
        return "pool";
    }
}

// ---- requests ----

// Writes the tickets of a request, and the pool of each run of its sets.
static void write_sets(uint32_t count) {
    fprintf(expected, "sets %zu-%zu:", given_count, given_count + count - 1);
    for (uint32_t from = 0, to = 0; from < count; from = to) {
        while (to < count && driver_calls.pools[to] == driver_calls.pools[from])
            to++;
        fprintf(expected, " %" PRIu64 "*%u", driver_calls.pools[from], to - from);
    }
    fprintf(expected, "\n");
}

// Notes that a set of the driver is in use. It wasn't before, and is one of the layout.
static void use(uint64_t set, uint32_t layout) {
    size_t number = driver_set_number(set);
    in_use = grown(in_use, &in_use_room, number + 1, sizeof *in_use);
    while (in_use_count <= number)
        in_use[in_use_count++] = false;
    CHECK(driver_is_alive(set) && driver_layout_of(set) == layout && !in_use[number]);
    in_use[number] = true;
}

// A set of the driver is in use no longer.
static void unuse(size_t ticket) {
    in_use[driver_set_number(given[ticket].set.handle)] = false;
}

// Of the sets of a request that with a handle, which is looked for from a place on, backwards.
static const gd_set *set_with(uint64_t handle, const gd_set *sets, uint32_t count, uint32_t from) {
    for (uint32_t step = 0; step < count; step++) {
        const gd_set *set = &sets[(from + count - step) % count];
        if (set->handle == handle)
            return set;
    }
    CHECK(!"the driver's sets are those of the request");
    return NULL;
}

static void hold_one(const gd_set *set, uint32_t layout, uint64_t pool) {
    use(set->handle, layout);
    names_give(&names, set->name);
    given[given_count] = (struct given){*set, layout, pool, true, false};
    held[held_count++] = given_count++;
}

// Holds the sets of a request. If none is kept they are exactly those that the driver gave.
static void hold(uint32_t layout, uint32_t count, const gd_set *sets) {
    given = grown(given, &given_room, given_count + count, sizeof *given);
    held = grown(held, &held_room, held_count + count, sizeof *held);
    if (keep > 0) {
        for (uint32_t place = 0; place < count; place++)
            hold_one(&sets[place], layout, 0);
        return;
    }
    CHECK(driver_calls.set_count == count && driver_calls.released == 0);
    write_sets(count);
    for (uint32_t place = 0; place < count; place++)
        hold_one(set_with(driver_calls.sets[place], sets, count, count - 1 - place), layout,
                 driver_calls.pools[place]);
}

// Writes why a request was refused. The driver said so last, or the library has no memory.
static void write_refusal(gd_status status) {
    if (status < GD_FRAGMENTATION && memory_refused_one_in == 0)
        CHECK(driver_calls.results[driver_calls.result_count - 1] == status);
    switch (status) {
    case GD_OUT_OF_DEVICE_MEMORY:
        fprintf(expected, "refused: Device memory exhausted\n");
        break;
    case GD_OUT_OF_HOST_MEMORY:
        fprintf(expected, "refused: Host memory exhausted\n");
        break;
    case GD_FRAGMENTATION:
        fprintf(expected, "refused: Fragmentation\n");
        break;
    default:
        CHECK(status == GD_BAD_RESULT && driver.invalid_one_in > 0);
        uint32_t unknown = 0;
        for (size_t at = 0; at < driver_calls.result_count; at++)
            unknown += driver_calls.results[at] != GD_OK &&
                       (driver_calls.results[at] < GD_OUT_OF_DEVICE_MEMORY ||
                        driver_calls.results[at] > GD_OUT_OF_POOL_MEMORY);
        CHECK(unknown > 0);
    }
}

// How many sets the driver has, if none is kept.
static bool is_number_of_sets(uint64_t sets) {
    return keep == 0 ? driver.sets == sets : driver.sets >= sets;
}

// Whether the request alone has more update-after-bind descriptors than the limit. Then no set that is kept
// could help.
static bool exceeds_limit_alone(uint32_t layout, uint32_t count) {
    return driver_layouts[layout].is_marked && count * driver_descriptors(layout) > driver.limit;
}

// Mostly few sets, sometimes many, and never very many of the layout whose pools hold few.
static void allocate(void) {
    static gd_set sets[MAX_SETS];
    uint64_t before = driver.sets;
    uint32_t most = one_in(50) ? 1500 : one_in(5) ? 64 : 8;
    uint32_t layout = random_below(DRIVER_LAYOUTS), count = 1 + random_below(most);
    if (driver_layouts[layout].counts[GD_SAMPLER] > 1000)
        count = 1 + count % 64;
    memset(sets, 0x55, sizeof sets);
    driver_forget();
    gd_status status = LIBRARY(gd_allocate(allocator, layouts[layout], count, sets));
    fprintf(program, "script");
    for (size_t place = 0; place < driver_calls.result_count; place++)
        fprintf(program, " %s", word_of(driver_calls.results[place]));
    fprintf(program, "\nalloc l%u %u\n", layout, count);
    fprintf(expected, "script %zu\n", driver_calls.result_count);
    CHECK(status <= GD_FRAGMENTATION || status == GD_BAD_RESULT);
    requests[status]++;
    if (status == GD_OK) {
        hold(layout, count, sets);
        return;
    }
    for (uint32_t place = 0; place < count; place++)
        CHECK(sets[place].handle == 0 && sets[place].name == 0 && sets[place].owner == 0);
    // Kept ones are gone, unless they couldn't help or the list of handles got no memory.
    if (keep == 0)
        CHECK(driver_calls.released == driver_calls.set_count && driver.sets == before);
    else if (exceeds_limit_alone(layout, count))
        CHECK(driver.sets == before);
    else
        CHECK(memory_refused_one_in > 0 || driver.sets == held_count + waiting_count);
    write_refusal(status);
}

// ---- giving back ----

// Frees sets. It allocates no memory.
static gd_status free_now(const gd_set *sets, uint32_t count) {
    uint64_t requests_before = memory_requests;
    driver_forget();
    gd_status status = LIBRARY(gd_free(allocator, sets, count));
    CHECK(memory_requests == requests_before);
    uint32_t freed = status == GD_OK ? count : 0;
    CHECK(keep == 0 ? driver_calls.released == freed : driver_calls.released <= freed);
    return status;
}

static void write_free(const size_t *tickets, size_t count) {
    fprintf(program, "free");
    for (size_t place = 0; place < count; place++)
        fprintf(program, " %zu", tickets[place]);
    fprintf(program, "\n");
    fprintf(expected, "freed %zu\n", count);
}

// The driver freed these sets, one call per run; not those that are kept. Then the tickets are in the order
// in which it freed them.
static void check_freed(size_t *tickets, size_t count) {
    size_t runs = 0;
    if (keep > 0) {
        CHECK(driver_calls.released <= count);
        return;
    }
    CHECK(driver_calls.released == count);
    for (size_t place = 0; place < count; place++) {
        size_t at = place;
        while (at < count && given[tickets[at]].set.handle != driver_calls.freed[place])
            at++;
        CHECK(at < count && !driver_is_alive(driver_calls.freed[place]));
        size_t ticket = tickets[at];
        tickets[at] = tickets[place];
        tickets[place] = ticket;
        runs += place == 0 || given[tickets[place - 1]].pool != given[ticket].pool;
    }
    CHECK(driver_calls.releases == runs);
}

// The runs of a list, which the driver is to free by no more calls: sets of one key go next to each other.
static size_t runs_of(const size_t *tickets, size_t count) {
    size_t runs = 0;
    for (size_t place = 0; place < count; place++)
        runs += place == 0 || given[tickets[place - 1]].pool != given[tickets[place]].pool;
    return runs;
}

// Takes some tickets from the list of held ones: consecutive or any.
static uint32_t draw(size_t *tickets, uint32_t most) {
    uint32_t count = 1 + random_below(one_in(10) ? most : 8);
    if (count > held_count)
        count = (uint32_t)held_count;
    if (count == 0)
        return 0;
    if (one_in(3)) {
        for (uint32_t place = 0; place < count; place++) {
            size_t at = random_below((uint32_t)held_count);
            tickets[place] = held[at];
            held[at] = held[--held_count];
        }
        return count;
    }
    size_t at = random_below((uint32_t)(held_count - count) + 1);
    memcpy(tickets, held + at, count * sizeof *tickets);
    memmove(held + at, held + at + count, (held_count - count - at) * sizeof *held);
    held_count -= count;
    return count;
}

// These tickets leave.
static void leave(const size_t *tickets, gd_set *sets, uint32_t count) {
    for (uint32_t place = 0; place < count; place++) {
        struct given *it = &given[tickets[place]];
        sets[place] = it->set;
        it->is_held = false;
        names_free(&names, it->set.name);
    }
}

static void free_some(void) {
    size_t tickets[MAX_FREED];
    gd_set sets[MAX_FREED];
    uint32_t count = draw(tickets, MAX_FREED);
    if (count == 0)
        return;
    leave(tickets, sets, count);
    for (uint32_t place = 0; place < count; place++)
        unuse(tickets[place]);
    CHECK(free_now(sets, count) == GD_OK);
    CHECK(keep > 0 || driver_calls.releases <= runs_of(tickets, count));
    check_freed(tickets, count);
    write_free(tickets, count);
}

// Lets sets wait for a frame, mostly this one, sometimes an earlier or a later one.
static void free_later(void) {
    size_t tickets[MAX_FREED];
    gd_set sets[MAX_FREED];
    uint32_t count = draw(tickets, (uint32_t)(held_count < 30 ? 1 : 30));
    if (count == 0)
        return;
    uint64_t when = frame + random_below(4) - (one_in(3) ? random_below(3) : 0);
    if (waiting_count + count > MAX_FREED) {
        held = grown(held, &held_room, held_count + count, sizeof *held);
        for (uint32_t place = 0; place < count; place++)
            held[held_count++] = tickets[place];
        return;
    }
    uint64_t requests_before = memory_requests;
    for (uint32_t place = 0; place < count; place++)
        sets[place] = given[tickets[place]].set;
    driver_forget();
    CHECK(LIBRARY(gd_free_after(allocator, sets, count, when)) == GD_OK);
    CHECK(driver_calls.released == 0 && driver_calls.result_count == 0);
    CHECK(memory_requests == requests_before);
    leave(tickets, sets, count);
    for (uint32_t place = 0; place < count; place++) {
        size_t at = waiting_count++;
        for (; at > 0 && waiting[at - 1].frame > when; at--)
            waiting[at] = waiting[at - 1];
        waiting[at] = (struct waiting){when, tickets[place]};
        given[tickets[place]].waits = true;
    }
    waited += count;
    CHECK(free_now(sets, 1) == GD_BAD_SET);
    CHECK(LIBRARY(gd_free_after(allocator, sets, 1, when)) == GD_BAD_SET);
}

// Frames are done up to this one: what waits for them is freed, in the order of frames.
static void end_frame(uint64_t done) {
    size_t tickets[MAX_FREED], count = 0;
    uint64_t requests_before = memory_requests;
    while (count < waiting_count && waiting[count].frame <= done) {
        tickets[count] = waiting[count].ticket;
        CHECK(driver_is_alive(given[tickets[count]].set.handle));
        given[tickets[count]].waits = false;
        unuse(tickets[count]);
        count++;
    }
    driver_forget();
    CHECK(LIBRARY(gd_frame_done(allocator, done)) == GD_OK);
    CHECK(memory_requests == requests_before);
    check_freed(tickets, count);
    if (count > 0)
        write_free(tickets, count);
    waiting_count -= count;
    memmove(waiting, waiting + count, waiting_count * sizeof *waiting);
}

// Frees two sets, one of which isn't held any more, or one set twice, or one under another
// handle. None may be freed. The place of the freed one is usually reused.
static void free_wrongly(void) {
    if (held_count == 0 || given_count < 2)
        return;
    size_t good = held[random_below((uint32_t)held_count)];
    size_t bad = one_in(2) ? good : random_below((uint32_t)given_count);
    if (bad != good && given[bad].is_held)
        return;
    gd_set sets[2] = {given[good].set, given[bad].set};
    if (!given[bad].waits) { // to the line program one that waits is held
        fprintf(program, "free %zu %zu\n", good, bad);
        fprintf(expected, "bad ticket\n");
    }
    CHECK(bad == good || !names_held(&names, sets[1].name));
    CHECK(free_now(sets, 2) == GD_BAD_SET);
    CHECK(LIBRARY(gd_free_after(allocator, sets, 2, frame)) != GD_OK);
    sets[0].handle++;
    CHECK(free_now(sets, 1) == GD_BAD_SET);
    sets[0].handle--;
    sets[0].owner += 1 + random_below(3);
    CHECK(free_now(sets, 1) == GD_BAD_SET);
    sets[0] = given[good].set;
    sets[0].name ^= UINT64_C(1) << random_below(64);
    CHECK(free_now(sets, 1) == GD_BAD_SET);
    CHECK(driver_is_alive(given[good].set.handle));
}

// The line program's cleanup leaves empty pools behind a set, and gd_cleanup and gd_trim leave none.
static void clean_up(void) {
    uint64_t requests_before = memory_requests;
    if (writes_program && held_count + waiting_count > 0)
        return;
    driver_forget();
    if (one_in(2)) {
        CHECK(LIBRARY(gd_trim(allocator)) == GD_OK);
        CHECK(memory_requests == requests_before && driver_calls.released == 0);
    }
    CHECK(LIBRARY(gd_cleanup(allocator)) == GD_OK);
    CHECK(memory_requests == requests_before && (keep > 0 || driver_calls.released == 0));
    CHECK(driver.sets == held_count + waiting_count);
    if (keep > 0) {
        keep = one_in(2) ? 1 + random_below(9) : UINT32_MAX;
        CHECK(LIBRARY(gd_allocator_set_max_kept(allocator, keep)) == GD_OK && memory_requests == requests_before);
    }
    fprintf(program, "cleanup\n");
    fprintf(expected, "clean\n");
}

// ---- looking ----

// Compares the library's counts with the driver's and the host's.
static void look(void) {
    uint64_t sets = 0, waits = 0, pools = 0, marked = 0;
    CHECK(LIBRARY(gd_outstanding(allocator, &sets)) == GD_OK);
    CHECK(LIBRARY(gd_waiting(allocator, &waits)) == GD_OK);
    CHECK(LIBRARY(gd_pool_count(allocator, &pools)) == GD_OK);
    CHECK(sets == held_count + waiting_count && is_number_of_sets(sets));
    CHECK(waits == waiting_count && pools == driver.numbers.pools);
    gd_statistics numbers, wanted = driver.numbers;
    wanted.outstanding = sets, wanted.waiting = waits, wanted.layouts = DRIVER_LAYOUTS;
    wanted.max_pool_descriptors = UINT64_MAX, wanted.update_after_bind_limit = driver.limit;
    wanted.kept = driver.sets - sets;
    CHECK(LIBRARY(gd_get_statistics(allocator, &numbers)) == GD_OK);
    CHECK(memcmp(&numbers, &wanted, sizeof numbers) == 0);
    for (size_t place = 0; place < sets; place++) {
        size_t ticket = place < held_count ? held[place] : waiting[place - held_count].ticket;
        const struct given *set = &given[ticket];
        CHECK(set->is_held == (place < held_count) && driver_is_alive(set->set.handle));
        marked += driver_layouts[set->layout].is_marked ? driver_descriptors(set->layout) : 0;
    }
    fprintf(program, "show\n");
    fprintf(expected, "device created %" PRIu64 " destroyed %" PRIu64, driver.created,
            driver.destroyed);
    fprintf(expected, " asked %" PRIu64 " released %" PRIu64 "\n", driver.asked, driver.released);
    fprintf(expected, "held %" PRIu64 " marked %" PRIu64 "\n", sets, marked);
}

static void destroy_too_early(void) {
    driver_forget();
    if (held_count + waiting_count > 0)
        CHECK(LIBRARY(gd_destroy(allocator)) == GD_OUTSTANDING);
    CHECK(driver_calls.destroyed == 0);
}

// ---- the run ----

// Adds a layout, again until there is memory. Added a second time it has the same index.
static void make_layout_known(uint32_t layout) {
    const struct driver_layout *it = &driver_layouts[layout];
    uint32_t flags = it->is_marked ? GD_UPDATE_AFTER_BIND : 0;
    gd_status status;
    do {
        status = LIBRARY(gd_add_layout(allocator, driver_layout_handle(layout), it->counts, flags,
                                       &layouts[layout]));
        CHECK(status == GD_OK || (status == GD_OUT_OF_HOST_MEMORY && memory_refused_one_in > 0));
    } while (status != GD_OK);
    gd_layout again;
    CHECK(gd_add_layout(allocator, driver_layout_handle(layout), it->counts, flags, &again) ==
          GD_OK);
    CHECK(again.index == layouts[layout].index && again.owner == layouts[layout].owner);
    fprintf(program, "layout l%u %s\n", layout, it->words);
    fprintf(expected, "layout l%u total %" PRIu64 "\n", layout, driver_descriptors(layout));
}

static void open_all(uint32_t limit) {
    gd_device device = driver_device();
    gd_status status;
    do {
        status = LIBRARY(gd_create(&device, limit, &allocator));
        CHECK(status == GD_OK || (status == GD_OUT_OF_HOST_MEMORY && memory_refused_one_in > 0));
    } while (status != GD_OK);
    CHECK(LIBRARY(gd_allocator_set_max_kept(allocator, keep)) == GD_OK);
    // The line program has no bound.
    CHECK(LIBRARY(gd_allocator_set_max_pool_descriptors(allocator, UINT64_MAX)) == GD_OK);
    memset(&device, 0, sizeof device); // it was copied
    fprintf(program, "limit %u\n", limit);
    fprintf(expected, "limit %u\n", limit);
    for (uint32_t layout = 0; layout < DRIVER_LAYOUTS; layout++)
        make_layout_known(layout);
}

static void act(void) {
    // By turns more sets are allocated than freed, and fewer. If very many are held, most are freed.
    uint32_t dice = random_below(100), asks = operation / 2000 % 2 == 0 ? 60 : 45;
    if (held_count > MAX_HELD)
        asks = 10;
    if (dice < asks)
        allocate();
    else if (dice < 80)
        free_some();
    else if (dice < 90)
        free_later();
    else if (dice < 95)
        end_frame(frame++ - 1);
    else if (dice < 97)
        free_wrongly();
    else if (dice < 98)
        clean_up();
    else if (dice < 99)
        destroy_too_early();
    else
        look();
    CHECK(is_number_of_sets(held_count + waiting_count));
}

// Frees all, checks the counts again, and destroys the allocator: no memory is left but that of its slot.
static void close_all(void) {
    gd_allocator old = allocator;
    if (driver.invalid_one_in > 0) { // the line program has no such command
        CHECK(LIBRARY(gd_free_all(allocator)) == GD_OK);
        held_count = waiting_count = 0;
    }
    end_frame(UINT64_MAX);
    while (held_count > 0)
        free_some();
    look();
    CHECK(LIBRARY(gd_destroy(allocator)) == GD_OK);
    CHECK(driver.numbers.pools == 0 && driver.sets == 0);
    CHECK(LIBRARY(gd_destroy(old)) == GD_BAD_ALLOCATOR);
    CHECK(memory_blocks == 1); // the slot
    CHECK(fclose(program) == 0 && fclose(expected) == 0);
    free(given);
    free(held);
    free(in_use);
    names_end(&names);
    driver_end();
}

static void print_summary(void) {
    printf("%" PRIu64 " operations, %zu sets; requests met %" PRIu64, operation, given_count,
           requests[GD_OK]);
    printf(", refused for device memory %" PRIu64, requests[GD_OUT_OF_DEVICE_MEMORY]);
    printf(", host memory %" PRIu64, requests[GD_OUT_OF_HOST_MEMORY]);
    printf(", fragmentation %" PRIu64, requests[GD_FRAGMENTATION]);
    printf(", for no answer %" PRIu64, requests[GD_BAD_RESULT]);
    printf("; freed later %" PRIu64 ", called back %" PRIu64, waited, reentered);
    printf("; pools %" PRIu64 ", calls refused %" PRIu64, driver.created, driver.refused);
    printf(", memory refused %" PRIu64 " of %" PRIu64 "\n", memory_refusals, memory_requests);
}

int main(int words, char **word) {
    uint64_t operations = number_at(words, word, 1, 100000);
    uint32_t limit = (uint32_t)number_at(words, word, 3, UINT32_MAX);
    seed = number_at(words, word, 2, 1);
    driver.limit = limit;
    driver.refuses_one_in = (uint32_t)number_at(words, word, 4, 6);
    memory_refused_one_in = (uint32_t)number_at(words, word, 5, 0);
    keep = (uint32_t)number_at(words, word, 6, UINT32_MAX);
    program = fopen(words > 8 ? word[7] : "/dev/null", "w");
    writes_program = words > 8;
    expected = fopen(words > 8 ? word[8] : "/dev/null", "w");
    CHECK(program != NULL && expected != NULL && (keep == 0 || words <= 8));
    driver.invalid_one_in = words > 8 ? 0 : 6;
    driver_inside = call_back;
    open_all(limit);
    for (operation = 0; operation < operations; operation++)
        act();
    close_all();
    print_summary();
    return 0;
}
