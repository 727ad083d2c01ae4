// Statuses of calls that can fail, dropped by a cast. rust/c/tests/run removes the casts one by one: then each
// line is an error.
#include "gpu_descriptor.hpp"

void drop(gd::allocator &allocator, gd::set &set, gd::sets &sets, gd::frame &frame, gd::layout &layout, gd_set *raw);
void drop_of_cache(gd::cache<> &cache, gd_set *raw);

void drop(gd::allocator &allocator, gd::set &set, gd::sets &sets, gd::frame &frame, gd::layout &layout, gd_set *raw) {
    const uint32_t counts[GD_KINDS] = {};
    gd_statistics numbers;
    (void)set.reset();
    (void)set.free();
    (void)set.free_after(1);
    (void)sets.reset();
    (void)sets.free();
    (void)sets.free_after(1);
    (void)sets.allocate(allocator.raw(), layout, 2);
    (void)allocator.create(gd_device{}, 0);
    (void)allocator.allocate(layout, set);
    (void)allocator.allocate(layout, 2, sets);
    (void)allocator.remove_layout(layout);
    (void)allocator.add_layout(1, counts, 0, layout);
    (void)allocator.begin_frame(1);
    (void)allocator.frame_done(1);
    (void)allocator.set_max_kept(1);
    (void)allocator.cleanup();
    (void)allocator.trim();
    (void)allocator.statistics(numbers);
    (void)allocator.set_pool_created(nullptr, nullptr);
    (void)allocator.destroy();
    (void)layout.remove();
    (void)frame.allocate(layout, 2, raw);
    (void)frame.allocate(layout, *raw);
    (void)frame.end();
    (void)frame.begin(2);
}

void drop_of_cache(gd::cache<> &cache, gd_set *raw) {
    (void)cache.allocate(*raw);
    (void)cache.allocate(2, raw);
    (void)cache.free(*raw);
    (void)cache.free(raw, 2);
    (void)cache.flush();
}
