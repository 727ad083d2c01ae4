// The library: its allocator over the driver, whose calls are counted and timed, and its layouts.
#include "device.hpp"

#include <cstdlib>

namespace layer {

/* A function of the library's device: the driver's, counted and timed. */
template <auto call, auto calls, class... Rest> static auto counted(void *user, Rest... rest) noexcept {
    auto &it = *static_cast<device *>(user);
    const stopwatch time{it.library.driver_ns};
    it.library.*calls += 1;
    return call(&it.driver, rest...);
}

void create_allocator(device &it, uint32_t limit) {
    const gd_device functions = {&it, counted<gdv_create_pool, &account::create_calls>,
                                 counted<gdv_destroy_pool, &account::destroy_calls>,
                                 counted<gdv_allocate_sets, &account::allocate_calls>,
                                 counted<gdv_free_sets, &account::free_calls>};
    it.faults += gd_create(&functions, limit, &it.allocator) != GD_OK;
    if (const char *most = setting("GPU_DESCRIPTOR_LAYER_KEEP"))
        it.faults += gd_allocator_set_max_kept(it.allocator, uint32_t(std::strtoul(most, nullptr, 10))) != GD_OK;
}

/* Each pool that was created is there, or was destroyed. */
void read_pools(device &it) {
    gd_statistics numbers = {};
    it.faults += gd_get_statistics(it.allocator, &numbers) != GD_OK;
    it.library.pools = {numbers.pools, numbers.peak_pools, numbers.pools + it.library.destroy_calls};
    it.library.capacity.peak = numbers.peak_pool_sets;
    it.faults += numbers.outstanding != it.library.sets.now;
    const auto is_served = [](const auto &entry) { return entry.second.known.owner != 0; };
    it.faults += numbers.layouts != uint64_t(std::count_if(it.layouts.begin(), it.layouts.end(), is_served));
}

void destroy_allocator(device &it) {
    const stopwatch time{it.library.free_ns};
    read_pools(it);
    it.faults += gd_free_all(it.allocator) != GD_OK;
    it.faults += gd_destroy(it.allocator) != GD_OK;
    it.library.pools.now = it.library.pools.total - it.library.destroy_calls;
    it.allocator = {};
}

VkResult create_layout(VkDevice handle, const VkDescriptorSetLayoutCreateInfo *info,
                       const VkAllocationCallbacks *callbacks, VkDescriptorSetLayout *made) {
    device &it = *devices.at(handle);
    const VkResult result = NEXT(it, vkCreateDescriptorSetLayout)(handle, info, callbacks, made);
    if (result != VK_SUCCESS)
        return result;
    std::lock_guard lock(it.mutex);
    uint32_t counts[GD_KINDS], flags;
    const bool is_served = gdv_count(info, counts, &flags) == GD_OK;
    layout &known = it.layouts[GDV_NUMBER(*made)] = {it.layout_count++, {}};
    if (is_served && it.allocator.slot != nullptr)
        it.faults += gdv_add_layout(it.allocator, *made, info, &known.known) != GD_OK;
    it.trace << "layout " << known.number << " flags " << info->flags;
    for (uint32_t kind = 0; is_served && kind < GD_KINDS; kind++)
        if (counts[kind] != 0)
            it.trace << ' ' << kind << ':' << counts[kind];
    it.trace << (is_served ? "\n" : " refused\n");
    return result;
}

void destroy_layout(VkDevice handle, VkDescriptorSetLayout ended, const VkAllocationCallbacks *callbacks) {
    device &it = *devices.at(handle);
    std::lock_guard lock(it.mutex);
    const auto node = it.layouts.extract(GDV_NUMBER(ended));
    if (!node.empty()) {
        it.trace << "unlayout " << node.mapped().number << '\n';
        const stopwatch time{it.library.free_ns};
        if (node.mapped().known.owner != 0)
            it.faults += gd_remove_layout(it.allocator, node.mapped().known) != GD_OK;
    }
    NEXT(it, vkDestroyDescriptorSetLayout)(handle, ended, callbacks);
}

} // namespace layer
