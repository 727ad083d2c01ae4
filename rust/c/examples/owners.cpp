// Owners of sets over a device that only counts: when their scope ends, sets wait for the current frame, and
// freed ones are kept. It checks the counts and prints them.
#include "gpu_descriptor.hpp"

#include <cstdio>
#include <cstdlib>
#include <vector>

namespace {

struct counts {
    uint64_t handles = 0; // no handle is given twice
    unsigned pools = 0, sets = 0;
};

counts &counts_of(void *user) {
    return *static_cast<counts *>(user);
}

gd_status create_pool(void *user, const gd_pool_info *, uint64_t *pool) noexcept {
    counts_of(user).pools++;
    *pool = ++counts_of(user).handles;
    return GD_OK;
}

void destroy_pool(void *user, uint64_t) noexcept {
    counts_of(user).pools--;
}

gd_status allocate_sets(void *user, uint64_t, uint32_t count, const uint64_t *, uint64_t *sets) noexcept {
    counts_of(user).sets += count;
    for (uint32_t index = 0; index < count; index++)
        sets[index] = ++counts_of(user).handles;
    return GD_OK;
}

void free_sets(void *user, uint64_t, uint32_t count, const uint64_t *) noexcept {
    counts_of(user).sets -= count;
}

void require(bool fact, const char *what) {
    if (!fact) {
        std::printf("failed: %s\n", what);
        std::exit(1);
    }
}

uint64_t outstanding(const gd::allocator &allocator) {
    uint64_t sets = 0;
    require(gd_outstanding(allocator.raw(), &sets) == GD_OK, "gd_outstanding");
    return sets;
}

// One frame: its own sets, which are freed after it, and a material that may be used in it for the last time.
void draw(const gd::allocator &allocator, gd_layout layout, const gd::set &material, uint64_t number) {
    gd::frame frame(allocator, number);
    gd_set scratch[2];
    require(frame.allocate(layout, 2, scratch) == GD_OK, "allocate");
    require(material.handle() != scratch[0].handle, "two handles");
}

} // namespace

int main() {
    counts device;
    const gd_device functions = {&device, create_pool, destroy_pool, allocate_sets, free_sets};
    const uint32_t kinds[GD_KINDS] = {2};
    std::vector<gd::set> kept;
    {
        gd::allocator allocator;
        require(allocator.create(functions, 500000) == GD_OK, "create");
        gd::layout layout;
        require(allocator.add_layout(77, kinds, 0, layout) == GD_OK, "add_layout");
        gd::set material;
        for (uint64_t frame = 1; frame <= 10; frame++) {
            if (frame > 2)
                require(allocator.frame_done(frame - 2) == GD_OK, "frame_done");
            require(allocator.begin_frame(frame) == GD_OK, "begin_frame");
            if (frame % 4 == 1) // replaced: the old one waits for this frame
                require(allocator.allocate(layout, material) == GD_OK, "allocate");
            draw(allocator, layout, material, frame);
        }
        std::printf("after ten frames: %u live sets, of %u\n", unsigned(outstanding(allocator)), device.sets);
        require(outstanding(allocator) == 6, "two frames are in flight, and two materials");
        require(device.sets == 6, "no more than are in use at once");
        require(material.reset() == GD_OK, "reset");
        require(allocator.frame_done(10) == GD_OK, "frame_done");

        gd::sets batch;
        require(allocator.allocate(layout, 2, batch) == GD_OK && batch.size() == 2, "a batch");
        for (int count = 0; count < 50; count++) {
            gd::set set;
            require(allocator.allocate(layout, set) == GD_OK, "allocate");
            kept.push_back(std::move(set));
        }
        kept.erase(kept.begin(), kept.begin() + 10); // moves the others
        require(outstanding(allocator) == 52, "ten of fifty sets wait");
        require(kept.back().free() == GD_OK && outstanding(allocator) == 51, "one is freed at once");
        require(allocator.frame_done(10) == GD_OK && outstanding(allocator) == 41, "no set waits");

        gd::set other;
        const gd_layout removed = layout;
        require(layout.remove() == GD_OK, "remove");
        require(allocator.allocate(removed, other) == GD_BAD_LAYOUT, "a layout that was removed");
        require(outstanding(allocator) == 41 && device.sets == 41, "its sets stay, and none is kept");

        gd::allocator moved = std::move(allocator);
        require(!allocator && moved, "a move"); // NOLINT: a moved owner is empty
    }
    std::printf("after the allocator: %u sets, %u pools\n", device.sets, device.pools);
    require(device.sets == 0 && device.pools == 0, "all is destroyed");
    kept.clear(); // its owners are too late, and do nothing
    return 0;
}
