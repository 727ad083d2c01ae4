// The owners of gpu_descriptor.hpp over a device that counts: each way in which they end, are moved and fail.
#include "gpu_descriptor.hpp"

#include <cstdio>
#include <cstdlib>
#include <functional>
#include <new>
#include <thread>
#include <vector>

#define CHECK(fact) ((fact) ? void() : fail(__LINE__, #fact))

// Arrays are allocated by these, so that a test can refuse one.
static bool has_memory = true;

void *operator new[](std::size_t size, const std::nothrow_t &) noexcept {
    return has_memory ? std::malloc(size) : nullptr;
}

void *operator new[](std::size_t size) {
    void *const block = operator new[](size, std::nothrow);
    return block != nullptr ? block : throw std::bad_alloc();
}

void operator delete[](void *block) noexcept {
    std::free(block);
}

void operator delete[](void *block, std::size_t) noexcept {
    std::free(block);
}

namespace {

[[noreturn]] void fail(int line, const char *what) {
    std::printf("owners.cpp:%d: failed: %s\n", line, what);
    std::exit(1);
}

// The device: what it has, and what its next calls do.
struct world {
    uint64_t handles = uint64_t{1} << 40, pools = 0, sets = 0, calls_of_free = 0;
    bool is_full = false, gives_zero = false;
    std::function<void()> inside; // is called in the next call for sets, once
};

world &world_of(void *user) {
    return *static_cast<world *>(user);
}

gd_status create_pool(void *user, const gd_pool_info *, uint64_t *pool) noexcept {
    if (world_of(user).is_full)
        return GD_OUT_OF_DEVICE_MEMORY;
    world_of(user).pools++;
    *pool = ++world_of(user).handles;
    return GD_OK;
}

void destroy_pool(void *user, uint64_t) noexcept {
    world_of(user).pools--;
}

gd_status allocate_sets(void *user, uint64_t, uint32_t count, const uint64_t *, uint64_t *sets) noexcept {
    world &it = world_of(user);
    if (const std::function<void()> call = std::exchange(it.inside, nullptr))
        call();
    if (it.is_full)
        return GD_OUT_OF_DEVICE_MEMORY;
    it.sets += count;
    for (uint32_t index = 0; index < count; index++)
        sets[index] = it.gives_zero ? 0 : ++it.handles;
    return GD_OK;
}

void free_sets(void *user, uint64_t, uint32_t count, const uint64_t *) noexcept {
    world_of(user).sets -= count;
    world_of(user).calls_of_free++;
}

gd_device device_of(world &it) {
    return {&it, create_pool, destroy_pool, allocate_sets, free_sets};
}

// An allocator that keeps no set, whose current frame is 0, and a layout.
struct room {
    world device;
    gd::allocator allocator;
    gd_layout layout{};

    room() {
        const uint32_t kinds[GD_KINDS] = {1};
        CHECK(allocator.create(device_of(device), 100) == GD_OK);
        CHECK(gd_allocator_set_max_kept(allocator.raw(), 0) == GD_OK && allocator.begin_frame(0) == GD_OK);
        CHECK(gd_add_layout(allocator.raw(), 7, kinds, 0, &layout) == GD_OK);
    }

    uint64_t waiting() const {
        uint64_t sets = 0;
        CHECK(gd_waiting(allocator.raw(), &sets) == GD_OK);
        return sets;
    }

    gd::set one() {
        gd::set made;
        CHECK(allocator.allocate(layout, made) == GD_OK && made);
        return made;
    }
};

// A set waits for the last frame that uses it, if it was told one.
void end_sets() {
    room it;
    CHECK(it.allocator.begin_frame(100) == GD_OK);
    {
        gd::set made = it.one();
        made.used_in(5);
        made.used_in(3); // the highest counts
    }
    CHECK(it.device.sets == 1 && it.waiting() == 1);
    CHECK(gd_frame_done(it.allocator.raw(), 4) == GD_OK && it.waiting() == 1);
    CHECK(gd_frame_done(it.allocator.raw(), 5) == GD_OK && it.device.sets == 0);
    gd::set made = it.one();
    made.used_in(9);
    CHECK(made.free() == GD_OK && !made && it.device.sets == 0 && it.waiting() == 0);
    made = it.one(); // the frame was the old one's
    CHECK(made.reset() == GD_OK && made.reset() == GD_OK);
    CHECK(it.allocator.frame_done(99) == GD_OK && it.waiting() == 1);
    CHECK(it.allocator.frame_done(100) == GD_OK && it.device.sets == 0);
    made = it.one();
    CHECK(made.free_after(2) == GD_OK && !made && it.waiting() == 1 && made.free_after(3) == GD_OK);
    made.used_in(7); // without a set
    made = it.one();
    CHECK(made.reset() == GD_OK && it.allocator.frame_done(99) == GD_OK && it.waiting() == 1);
}

// Before the first frame no frame that is done frees the sets of an owner, unless the device is idle.
void end_without_a_frame() {
    world device;
    gd::allocator allocator;
    gd::layout layout;
    gd::set made;
    const uint32_t kinds[GD_KINDS] = {1};
    CHECK(allocator.create(device_of(device), 0) == GD_OK && allocator.set_max_kept(0) == GD_OK);
    CHECK(allocator.add_layout(7, kinds, 0, layout) == GD_OK && allocator.allocate(layout, made) == GD_OK);
    CHECK(made.reset() == GD_OK && allocator.frame_done(UINT64_MAX - 1) == GD_OK && device.sets == 1);
    CHECK(allocator.frame_done(UINT64_MAX) == GD_OK && device.sets == 0);
}

// What isn't told another frame waits for the one that is current at its end.
void end_after_the_current_frame() {
    room it;
    { gd::set made = it.one(); }
    CHECK(it.waiting() == 1 && it.allocator.frame_done(0) == GD_OK && it.device.sets == 0);
    gd::set lasting = it.one(), replaced = it.one();
    gd::sets many;
    CHECK(it.allocator.begin_frame(4) == GD_OK && it.allocator.allocate(it.layout, 3, many) == GD_OK);
    replaced = it.one();
    CHECK(it.waiting() == 1 && it.allocator.begin_frame(9) == GD_OK);
    CHECK(lasting.reset() == GD_OK && many.reset() == GD_OK && many.size() == 0 && it.waiting() == 5);
    CHECK(it.allocator.frame_done(3) == GD_OK && it.waiting() == 5);
    CHECK(it.allocator.frame_done(4) == GD_OK && it.waiting() == 4);
    replaced.used_in(6); // an earlier one than the current frame
    CHECK(replaced.reset() == GD_OK && it.allocator.frame_done(8) == GD_OK && it.waiting() == 4);
    CHECK(it.allocator.frame_done(9) == GD_OK && it.device.sets == 0);
    // The current frame may be an earlier one than the last.
    gd::set early = it.one();
    CHECK(it.allocator.begin_frame(4) == GD_OK && early.reset() == GD_OK);
    CHECK(it.allocator.frame_done(4) == GD_OK && it.device.sets == 0);
    gd::allocator none;
    CHECK(none.begin_frame(1) == GD_BAD_ALLOCATOR);
}

// A moved owner is empty, and the set that is moved over is freed.
void move_sets() {
    room it;
    gd::set first = it.one(), second = it.one();
    const uint64_t kept = second.handle();
    first = std::move(second);
    CHECK(it.waiting() == 1 && first.handle() == kept && !second); // NOLINT: a moved owner is empty
    gd::set &same = first;
    first = std::move(same);
    CHECK(it.waiting() == 1 && first.handle() == kept);
    first.used_in(4);
    gd::set third = std::move(first);
    CHECK(!first && third.handle() == kept); // NOLINT
    third = gd::set();
    CHECK(it.waiting() == 2 && it.device.sets == 2 && it.allocator.frame_done(0) == GD_OK && it.waiting() == 1);
    gd::set fourth = it.one();
    const gd_set raw = fourth.release();
    CHECK(!fourth && gd_free(it.allocator.raw(), &raw, 1) == GD_OK);
}

// What fails keeps its set, and a failed allocation keeps the old one.
void fail_sets() {
    room it;
    gd::set old = it.one(), inside = it.one();
    const uint64_t handle = old.handle();
    it.device.is_full = true;
    // With the two above the pool of 64 sets is full.
    for (int count = 0; count < 62; count++) {
        it.device.is_full = false;
        (void)it.one().release();
    }
    it.device.is_full = true;
    CHECK(it.allocator.allocate(it.layout, old) == GD_OUT_OF_DEVICE_MEMORY && old.handle() == handle);
    gd::sets many;
    CHECK(it.allocator.allocate(it.layout, 5, many) == GD_OUT_OF_DEVICE_MEMORY && many.size() == 0);
    it.device.is_full = false;
    gd::frame frame(it.allocator.raw(), 3);
    gd_set drawn;
    CHECK(frame.allocate(it.layout, drawn) == GD_OK);
    it.device.inside = [&] {
        CHECK(inside.free() == GD_BUSY && inside && inside.free_after(1) == GD_BUSY && inside);
        CHECK(inside.reset() == GD_BUSY && inside && it.allocator.begin_frame(1) == GD_BUSY);
        CHECK(frame.begin(99) == GD_BUSY && frame.size() == 1 && frame.number() == 3);
    };
    (void)it.one().release();
    CHECK(!it.device.inside && inside && frame.size() == 1 && frame.end() == GD_OK && it.waiting() == 1);
    CHECK(gd_free_all(it.allocator.raw()) == GD_OK);
    CHECK(inside.free_after(3) == GD_BAD_SET && inside && inside.free() == GD_BAD_SET && inside);
    CHECK(old.free() == GD_BAD_SET && old);
}

// Moves an empty owner over one that can't end now, and back.
template <class Owner> void move_over(Owner &busy) {
    Owner other;
    busy = std::move(other);
    busy = std::move(other); // NOLINT: it has what couldn't end
}

// In a call of the allocator none of its owners ends, and none loses what it has.
void keep_what_is_busy() {
    room it;
    world second;
    const uint32_t kinds[GD_KINDS] = {2};
    gd::layout layout;
    gd::set made = it.one();
    gd::sets many;
    gd::frame frame(it.allocator, 3);
    gd_set drawn;
    CHECK(it.allocator.add_layout(8, kinds, 0, layout) == GD_OK && it.allocator.allocate(it.layout, 5, many) == GD_OK);
    CHECK(frame.allocate(it.layout, drawn) == GD_OK);
    many.used_in(7);
    made.used_in(8);
    it.device.inside = [&] {
        CHECK(it.allocator.create(device_of(second), 0) == GD_BUSY && it.allocator.put() == nullptr);
        CHECK(layout.put(it.allocator) == nullptr && layout);
        CHECK(gd_add_layout(it.allocator.raw(), 9, kinds, 0, layout.put(it.allocator)) == GD_NULL_POINTER);
        move_over(it.allocator);
        move_over(layout);
        move_over(made);
        move_over(many);
        move_over(frame);
    };
    (void)it.one().release();
    CHECK(!it.device.inside && it.allocator && layout && made && many.size() == 5 && frame.size() == 1);
    CHECK(frame.number() == 3 && frame.end() == GD_OK && layout.remove() == GD_OK);
    CHECK(made.reset() == GD_OK && many.reset() == GD_OK && it.waiting() == 7);
    CHECK(it.allocator.frame_done(6) == GD_OK && it.waiting() == 6 && it.allocator.frame_done(7) == GD_OK);
    CHECK(it.waiting() == 1 && it.allocator.frame_done(8) == GD_OK && it.device.sets == 1);
    CHECK(it.allocator.destroy() == GD_OK && it.device.pools == 0);
}

// An owner whose allocator, layout or set is gone takes another one.
void replace_what_is_gone() {
    room it;
    world second;
    const uint32_t kinds[GD_KINDS] = {2};
    gd::layout layout;
    CHECK(it.allocator.add_layout(8, kinds, 0, layout) == GD_OK);
    CHECK(gd_remove_layout(it.allocator.raw(), layout) == GD_OK && layout.put(it.allocator) != nullptr);
    CHECK(it.allocator.add_layout(8, kinds, 0, layout) == GD_OK);
    const gd_allocator old = it.allocator.raw();
    CHECK(gd_destroy(old) == GD_OK && it.allocator.create(device_of(second), 0) == GD_OK);
    CHECK(it.allocator.raw().id != old.id && layout.remove() == GD_BAD_ALLOCATOR && layout.put(it.allocator) != nullptr);
    CHECK(gd_destroy(it.allocator.raw()) == GD_OK && it.allocator.put() != nullptr);
}

// A driver may give the handle 0: it is a set nevertheless.
void own_a_handle_of_zero() {
    room it;
    it.device.gives_zero = true;
    {
        gd::set made = it.one();
        CHECK(made.handle() == 0 && made && made.vk() == gd::vk_descriptor_set());
    }
    CHECK(it.waiting() == 1);
}

void own_batches() {
    room it;
    gd::sets many, other;
    CHECK(it.allocator.allocate(it.layout, 10, many) == GD_OK && many.size() == 10 && it.device.sets == 10);
    uint32_t place = 0;
    for (const gd_set &each : many)
        CHECK(each.name == many[place].name && many.vk(place++) == gd::vk_handle(each) && each.handle != 0);
    CHECK(place == 10);
    CHECK(it.allocator.allocate(it.layout, 3, other) == GD_OK && it.device.sets == 13);
    it.device.calls_of_free = 0;
    many = std::move(other);
    CHECK(many.size() == 3 && other.size() == 0 && it.waiting() == 10); // NOLINT: a moved owner is empty
    CHECK(it.allocator.frame_done(0) == GD_OK && it.device.sets == 3 && it.device.calls_of_free == 1);
    gd::sets &same = many;
    many = std::move(same);
    CHECK(many.size() == 3 && it.device.sets == 3);
    many.used_in(6);
    { gd::sets moved = std::move(many); }
    CHECK(it.waiting() == 3 && many.reset() == GD_OK); // NOLINT
    CHECK(it.allocator.frame_done(5) == GD_OK && it.waiting() == 3);
    CHECK(it.allocator.allocate(it.layout, 2, many) == GD_OK && many.free() == GD_OK && many.size() == 0);
    CHECK(it.device.sets == 3 && it.allocator.allocate(it.layout, 2, many) == GD_OK);
    CHECK(many.free_after(6) == GD_OK && it.waiting() == 5);
    CHECK(it.allocator.allocate(it.layout, 4, many) == GD_OK);
    CHECK(gd_free_all(it.allocator.raw()) == GD_OK && many.free() == GD_BAD_SET && many.size() == 0);
}

// Without memory for their array sets and frames have what they had, and the status says so.
void allocate_without_memory() {
    room it;
    gd::sets many;
    gd::frame frame(it.allocator, 3);
    gd_set drawn{1, 2, 3};
    CHECK(it.allocator.allocate(it.layout, 3, many) == GD_OK);
    has_memory = false;
    const gd_status of_sets = it.allocator.allocate(it.layout, 5, many), of_frame = frame.allocate(it.layout, drawn);
    has_memory = true;
    CHECK(of_sets == GD_OUT_OF_HOST_MEMORY && many.size() == 3 && many[2].name != 0);
    CHECK(of_frame == GD_OUT_OF_HOST_MEMORY && frame.size() == 0 && drawn.name == 0 && it.device.sets == 3);
    CHECK(it.allocator.allocate(it.layout, 0, many) == GD_OK && many.size() == 0 && it.waiting() == 3);
    CHECK(frame.allocate(it.layout, drawn) == GD_OK && frame.size() == 1);
}

// If sets of a batch or a frame were freed elsewhere, the others are freed all the same.
void free_the_others() {
    room it;
    gd::sets many;
    CHECK(it.allocator.allocate(it.layout, 5, many) == GD_OK && gd_free(it.allocator.raw(), &many[2], 1) == GD_OK);
    CHECK(many.free() == GD_BAD_SET && many.size() == 0 && it.device.sets == 0);
    gd::frame frame(it.allocator, 3);
    gd_set drawn[5];
    CHECK(frame.allocate(it.layout, 5, drawn) == GD_OK && gd_free(it.allocator.raw(), drawn + 1, 2) == GD_OK);
    CHECK(frame.begin(4) == GD_BAD_SET && frame.size() == 0 && frame.number() == 4 && it.waiting() == 3);
    CHECK(it.allocator.frame_done(3) == GD_OK && it.device.sets == 0);
    CHECK(frame.allocate(it.layout, 2, drawn) == GD_OK && frame.end() == GD_OK && it.waiting() == 2);
    // A call that is refused in the middle leaves the sets that weren't freed.
    uint32_t count = 5, calls = 0;
    const gd_status status = gd::free_all_of(drawn, count, [&calls](const gd_set *, uint32_t) noexcept {
        return ++calls < 4 ? GD_BAD_SET : GD_BUSY;
    });
    CHECK(status == GD_BUSY && count == 3 && calls == 4);
}

// A layout is removed at the end of its owner, and not before.
void own_layouts() {
    room it;
    const uint32_t kinds[GD_KINDS] = {2}, others[GD_KINDS] = {3};
    gd::set made;
    gd_layout raw{};
    {
        gd::layout first, second;
        CHECK(!first && first.remove() == GD_OK && it.allocator.add_layout(8, kinds, 0, first) == GD_OK && first);
        CHECK(it.allocator.allocate(first, made) == GD_OK && it.allocator.add_layout(9, others, 0, second) == GD_OK);
        CHECK(it.allocator.add_layout(9, kinds, 4, second) == GD_BAD_FLAGS && second);
        raw = second;
        second = std::move(first);
        CHECK(!first && second.raw().index != raw.index); // NOLINT: a moved owner is empty
        CHECK(it.allocator.allocate(raw, made) == GD_BAD_LAYOUT && it.allocator.allocate(second, made) == GD_OK);
        raw = second;
        gd::layout third(std::move(second));
        CHECK(!second); // NOLINT: a moved owner is empty
        CHECK(gd_add_layout(it.allocator.raw(), 9, others, 0, third.put(it.allocator)) == GD_OK);
        CHECK(it.allocator.allocate(raw, made) == GD_BAD_LAYOUT && it.allocator.allocate(third, made) == GD_OK);
        raw = third;
        gd::layout fourth;
        CHECK(gd_add_layout(it.allocator.raw(), 10, others, 0, fourth.put(it.allocator)) == GD_OK);
        CHECK(fourth.remove() == GD_OK && !fourth);
    }
    CHECK(it.allocator.allocate(raw, made) == GD_BAD_LAYOUT && made);
    gd::layout late(it.allocator.raw(), it.layout);
    CHECK(late.release().index == it.layout.index && !late);
    late = gd::layout(it.allocator.raw(), it.layout);
    CHECK(it.allocator.destroy() == GD_OK && late.remove() == GD_BAD_ALLOCATOR && late);
}

// A layout that its owner has already stays, though it is added again.
void add_a_layout_twice() {
    room it;
    const uint32_t kinds[GD_KINDS] = {2}, others[GD_KINDS] = {3};
    gd::layout layout;
    gd::set made;
    CHECK(it.allocator.add_layout(8, kinds, 0, layout) == GD_OK && it.allocator.allocate(layout, made) == GD_OK);
    const gd_layout raw = layout;
    CHECK(it.allocator.add_layout(8, kinds, 0, layout) == GD_OK && layout.raw().index == raw.index);
    CHECK(it.allocator.allocate(layout, made) == GD_OK);
    // Another layout, and the same place of another allocator, replace it.
    CHECK(it.allocator.add_layout(8, others, 0, layout) == GD_OK && layout.raw().index != raw.index);
    CHECK(it.allocator.allocate(raw, made) == GD_BAD_LAYOUT && it.allocator.allocate(layout, made) == GD_OK);
    gd::layout first(it.allocator.raw(), it.layout);
    room second;
    CHECK(first.raw().index == second.layout.index);
    CHECK(second.allocator.add_layout(7, {1}, 0, first) == GD_OK && first.raw().owner == second.layout.owner);
    CHECK(it.allocator.allocate(it.layout, made) == GD_BAD_LAYOUT);
}

// The functions of an allocator under their short names.
void call_by_short_names() {
    room it;
    gd_statistics numbers{};
    gd::sets many;
    CHECK(it.allocator.set_max_kept(2) == GD_OK && it.allocator.allocate(it.layout, 70, many) == GD_OK);
    CHECK(many.free() == GD_OK && it.allocator.statistics(numbers) == GD_OK && numbers.kept == 2);
    CHECK(it.allocator.trim() == GD_OK && it.device.sets == 2 && it.device.pools == 1);
    CHECK(numbers.pools == 1 && it.allocator.cleanup() == GD_OK && it.device.sets == 0 && it.device.pools == 0);
    CHECK(it.allocator.set_max_kept(0) == GD_OK && it.allocator.allocate(it.layout, 1, many) == GD_OK && many.free() == GD_OK);
    CHECK(it.device.pools == 1 && it.allocator.trim() == GD_OK && it.device.pools == 0);
    uint64_t created = 0;
    const auto function = [](void *user, uint64_t pool, const gd_pool_info *) noexcept {
        *static_cast<uint64_t *>(user) = pool;
    };
    CHECK(it.allocator.set_pool_created(function, &created) == GD_OK);
    CHECK(it.allocator.allocate(it.layout, 1, many) == GD_OK && many.free() == GD_OK);
    CHECK(created != 0 && created == it.device.handles - 1);
}

// A batch that is used in a frame is freed at once all the same, or after that frame, although an earlier one is
// given later.
void free_batches_that_were_used() {
    room it;
    gd::sets many;
    CHECK(it.allocator.allocate(it.layout, 5, many) == GD_OK);
    many.used_in(9);
    CHECK(many.free() == GD_OK && it.device.sets == 0);
    CHECK(it.allocator.allocate(it.layout, 5, many) == GD_OK);
    many.used_in(9);
    CHECK(many.free_after(4) == GD_OK && gd_frame_done(it.allocator.raw(), 8) == GD_OK && it.device.sets == 5);
    CHECK(gd_frame_done(it.allocator.raw(), 9) == GD_OK && it.device.sets == 0);
}

// The sets of a frame wait for it once it ends, begins again, or is assigned over.
void draw_frames() {
    room it;
    gd_set drawn[40];
    {
        gd::frame frame(it.allocator, 3);
        CHECK(frame.allocate(it.layout, drawn[0]) == GD_OK && drawn[0].handle != 0);
        CHECK(frame.allocate(it.layout, 39, drawn + 1) == GD_OK && frame.size() == 40);
        uint32_t place = 0;
        for (const gd_set &each : frame.all())
            CHECK(each.name == drawn[place].name && frame[place++].handle == each.handle);
        CHECK(place == 40);
        gd::frame moved = std::move(frame);
        CHECK(frame.size() == 0 && moved.size() == 40 && it.waiting() == 0); // NOLINT
    }
    CHECK(it.waiting() == 40 && gd_free(it.allocator.raw(), drawn, 1) == GD_BAD_SET);
    CHECK(gd_frame_done(it.allocator.raw(), 2) == GD_OK && it.device.sets == 40);
    CHECK(gd_frame_done(it.allocator.raw(), 3) == GD_OK && it.device.sets == 0);
    gd::frame frame(it.allocator, 4);
    CHECK(frame.allocate(it.layout, 2, drawn) == GD_OK && frame.begin(5) == GD_OK && frame.number() == 5);
    CHECK(frame.allocate(it.layout, 3, drawn) == GD_OK);
    CHECK(gd_frame_done(it.allocator.raw(), 4) == GD_OK && it.device.sets == 3 && frame.size() == 3);
    gd::frame later(it.allocator, 6);
    frame = std::move(later);
    CHECK(it.waiting() == 3 && frame.number() == 6 && later.number() == 6 && later.size() == 0); // NOLINT
    it.device.is_full = true;
    CHECK(frame.allocate(it.layout, 40, drawn) == GD_OUT_OF_DEVICE_MEMORY && frame.size() == 0);
    it.device.is_full = false;
    CHECK(frame.allocate(it.layout, 1, drawn) == GD_OK);
    frame.release();
    CHECK(frame.begin(7) == GD_OK && frame.number() == 7 && frame.size() == 0 && it.waiting() == 3);
}

// A frame grows by single sets, and one that was moved from has no room until it grows again.
void grow_frames() {
    room it;
    gd_set drawn;
    {
        gd::frame frame(it.allocator, 3);
        for (int count = 0; count < 100; count++)
            CHECK(frame.allocate(it.layout, drawn) == GD_OK);
        CHECK(frame.size() == 100);
        gd::frame moved = std::move(frame);
        CHECK(frame.allocate(it.layout, drawn) == GD_OK && frame.size() == 1); // NOLINT
        // A frame has no memory for this many sets, and nothing is written to a null array.
        CHECK(frame.allocate(it.layout, UINT32_MAX, nullptr) == GD_OUT_OF_HOST_MEMORY && frame.size() == 1);
    }
    CHECK(it.waiting() == 101 && gd_frame_done(it.allocator.raw(), 3) == GD_OK && it.device.sets == 0);
}

// A cache frees its sets at its end.
void own_caches() {
    room it;
    gd_set drawn[3];
    {
        gd::cache<> cache(it.allocator, it.layout);
        gd::cache<2> small(it.allocator.raw(), it.layout);
        CHECK(cache.allocate(drawn[0]) == GD_OK && cache.size() == GD_CACHE_REFILL - 1);
        CHECK(small.allocate(2, drawn + 1) == GD_OK && small.size() == 0 && it.device.sets == GD_CACHE_REFILL + 2);
        CHECK(small.free(drawn, 3) == GD_OK && small.size() == 3 && small.allocate(2, drawn) == GD_OK);
        CHECK(cache.free(drawn[0]) == GD_OK && cache.size() == GD_CACHE_REFILL && small.flush() == GD_OK);
        CHECK(it.device.sets == GD_CACHE_REFILL + 1 && small.free(drawn[1]) == GD_OK && small.size() == 1);
    }
    CHECK(it.device.sets == 0);
}

void own_allocators() {
    world first, second;
    gd::set late;
    {
        const uint32_t kinds[GD_KINDS] = {1};
        gd_layout layout{};
        gd::allocator it;
        CHECK(!it && it.destroy() == GD_OK && it.create(device_of(first), 0) == GD_OK);
        CHECK(gd_add_layout(it.raw(), 7, kinds, 0, &layout) == GD_OK);
        CHECK(it.allocate(layout, late) == GD_OK && first.pools == 1);
        // put() over an allocator that it has
        const gd_device other = device_of(second);
        CHECK(gd_create(&other, 0, it.put()) == GD_OK && first.pools == 0 && first.sets == 0);
        CHECK(gd_add_layout(it.raw(), 7, kinds, 0, &layout) == GD_OK);
        CHECK(it.allocate(layout, late) == GD_OK && second.sets == 1);
        gd::allocator &same = it;
        it = std::move(same);
        CHECK(it && second.sets == 1);
        gd::allocator moved;
        CHECK(moved.create(device_of(first), 0, GD_EXTERNALLY_SYNCHRONIZED) == GD_OK);
        moved = std::move(it);
        CHECK(!it && second.sets == 1); // NOLINT
        const gd_allocator raw = moved.release();
        CHECK(!moved && gd_pool_count(raw, &second.handles) == GD_OK);
        gd::allocator again(raw), last(std::move(again));
        CHECK(!again && last.raw().id == raw.id); // NOLINT
    }
    CHECK(second.pools == 0 && second.sets == 0 && first.pools == 0);
    CHECK(late && late.free() == GD_BAD_ALLOCATOR); // it does nothing
    gd::allocator wrong;
    CHECK(wrong.create(device_of(first), 0, 2) == GD_BAD_FLAGS && !wrong);
}

// Owners end in several threads, and none loses its set.
void end_in_threads() {
    room it;
    std::vector<std::thread> threads;
    for (int thread = 0; thread < 4; thread++)
        threads.emplace_back([&it] {
            for (int turn = 0; turn < 2000; turn++) {
                gd::set made;
                CHECK(it.allocator.allocate(it.layout, made) == GD_OK);
            }
        });
    for (std::thread &each : threads)
        each.join();
    CHECK(it.waiting() == 8000 && it.allocator.frame_done(0) == GD_OK && it.device.sets == 0);
}

} // namespace

int main(int words, char **) {
    end_sets();
    end_without_a_frame();
    end_after_the_current_frame();
    move_sets();
    fail_sets();
    keep_what_is_busy();
    replace_what_is_gone();
    own_a_handle_of_zero();
    own_batches();
    free_batches_that_were_used();
    allocate_without_memory();
    free_the_others();
    draw_frames();
    grow_frames();
    own_layouts();
    add_a_layout_twice();
    own_caches();
    call_by_short_names();
    own_allocators();
    if (words < 2) // with a word: the library is one in which no call waits
        end_in_threads();
    std::printf("each owner frees its sets once\n");
    return 0;
}
