// Sets: each is the library's, or of the program's own pool if the library doesn't support its request.
#include "device.hpp"

#include <vector>

namespace layer {
namespace {

/* The library's sets for a request, by runs of one layout: all or none. */
gd_status from_library(device &it, const VkDescriptorSetAllocateInfo &info, gd_set *sets) {
    const stopwatch time{it.library.allocate_ns};
    const auto *first = info.pSetLayouts, *last = first + info.descriptorSetCount;
    for (const auto *run = first, *next = run; run != last; run = next) {
        next = std::find_if(run, last, [run](auto other) { return other != *run; });
        const gd_layout known = it.layouts[GDV_NUMBER(*run)].known;
        const gd_status status = gd_allocate(it.allocator, known, uint32_t(next - run), sets + (run - first));
        if (status == GD_OK)
            continue;
        it.faults += gd_free(it.allocator, sets, uint32_t(run - first)) != GD_OK;
        std::fill(sets, sets + info.descriptorSetCount, gd_set{});
        return status;
    }
    return GD_OK;
}

/* Sets of the library or, if it doesn't serve the request, of the program's own pool. */
VkResult serve(device &it, const VkDescriptorSetAllocateInfo &info, std::vector<gd_set> &taken,
               VkDescriptorSet *sets) {
    const bool asks = it.allocator.slot != nullptr;
    const gd_status status = asks ? from_library(it, info, taken.data()) : gd_status(GD_BAD_ALLOCATOR);
    if (status == GD_OK) {
        std::transform(taken.begin(), taken.end(), sets, gdv_handle);
        it.library.sets.add(taken.size());
        return VK_SUCCESS;
    }
    it.fell_back[status] += asks ? taken.size() : 0;
    it.own.allocate_calls++;
    const stopwatch time{it.own.allocate_ns};
    const VkResult result = it.driver.allocate_sets(it.handle, &info, sets);
    it.own.sets.add(result == VK_SUCCESS ? taken.size() : 0);
    return result;
}

/* A request in the trace, with the number of its first set or the error. */
void trace_request(device &it, const VkDescriptorSetAllocateInfo &info, VkResult result) {
    if (!it.trace.is_open())
        return;
    it.trace << "alloc " << it.pools[GDV_NUMBER(info.descriptorPool)].number << ' ' << info.descriptorSetCount;
    for (uint32_t place = 0; place < info.descriptorSetCount; place++)
        it.trace << ' ' << it.layouts[GDV_NUMBER(info.pSetLayouts[place])].number;
    const int64_t number = result == VK_SUCCESS ? int64_t(it.set_count) : result;
    it.trace << (result == VK_SUCCESS ? " = " : " failed ") << number << '\n';
}

/* Gives sets that were taken out of a pool to the library, and counts those of the pool itself. */
void give_back(device &it, std::vector<gd_set> sets) {
    const auto own = std::remove_if(sets.begin(), sets.end(), [](const gd_set &set) { return set.name == 0; });
    it.own.sets.now -= uint64_t(sets.end() - own);
    sets.erase(own, sets.end());
    it.library.sets.now -= sets.size();
    const stopwatch time{it.library.free_ns};
    it.faults += !sets.empty() && gd_free(it.allocator, sets.data(), uint32_t(sets.size())) != GD_OK;
}

/* All sets of a pool go back, as it is reset or destroyed. */
void empty(device &it, pool &emptied) {
    std::vector<gd_set> sets;
    for (const auto &entry : emptied.sets)
        sets.push_back(entry.second.set);
    emptied.sets.clear();
    give_back(it, std::move(sets));
}

} // namespace

VkResult create_pool(VkDevice handle, const VkDescriptorPoolCreateInfo *info,
                     const VkAllocationCallbacks *callbacks, VkDescriptorPool *made) {
    device &it = *devices.at(handle);
    std::lock_guard lock(it.mutex);
    const stopwatch time{it.own.allocate_ns};
    const VkResult result = it.driver.create_pool(handle, info, callbacks, made);
    if (result != VK_SUCCESS)
        return result;
    const uint64_t number = it.own.pools.total;
    it.pools[GDV_NUMBER(*made)] = {number, info->maxSets, {}};
    it.own.pools.add(1);
    it.own.capacity.add(info->maxSets);
    it.trace << "pool " << number << " max " << info->maxSets << " flags " << info->flags;
    for (const auto *size = info->pPoolSizes; size != info->pPoolSizes + info->poolSizeCount; size++)
        it.trace << ' ' << gdv_kind(size->type) << ':' << size->descriptorCount;
    it.trace << '\n';
    return result;
}

void destroy_pool(VkDevice handle, VkDescriptorPool ended, const VkAllocationCallbacks *callbacks) {
    device &it = *devices.at(handle);
    std::lock_guard lock(it.mutex);
    auto node = it.pools.extract(GDV_NUMBER(ended));
    if (!node.empty()) {
        it.trace << "destroy " << node.mapped().number << '\n';
        empty(it, node.mapped());
        it.own.pools.now--;
        it.own.capacity.now -= node.mapped().max_sets;
    }
    const stopwatch time{it.own.free_ns};
    it.driver.destroy_pool(handle, ended, callbacks);
}

VkResult reset_pool(VkDevice handle, VkDescriptorPool emptied, VkDescriptorPoolResetFlags flags) {
    device &it = *devices.at(handle);
    std::lock_guard lock(it.mutex);
    it.trace << "reset " << it.pools[GDV_NUMBER(emptied)].number << '\n';
    empty(it, it.pools[GDV_NUMBER(emptied)]);
    const auto next = NEXT(it, vkResetDescriptorPool);
    const stopwatch time{it.own.free_ns};
    it.own.free_calls++;
    return next(handle, emptied, flags);
}

VkResult allocate_sets(VkDevice handle, const VkDescriptorSetAllocateInfo *info, VkDescriptorSet *sets) {
    device &it = *devices.at(handle);
    std::lock_guard lock(it.mutex);
    pool &from = it.pools[GDV_NUMBER(info->descriptorPool)];
    std::vector<gd_set> taken(info->descriptorSetCount);
    const VkResult result = serve(it, *info, taken, sets);
    trace_request(it, *info, result);
    for (size_t place = 0; result == VK_SUCCESS && place < taken.size(); place++)
        from.sets[GDV_NUMBER(sets[place])] = {taken[place], it.set_count++};
    return result;
}

VkResult free_sets(VkDevice handle, VkDescriptorPool of, uint32_t count, const VkDescriptorSet *sets) {
    device &it = *devices.at(handle);
    std::lock_guard lock(it.mutex);
    pool &from = it.pools[GDV_NUMBER(of)];
    std::vector<gd_set> known;
    std::vector<VkDescriptorSet> others; // the driver's to free, or to complain of
    it.trace << "free " << from.number << ' ' << count;
    for (const auto *set = sets; set != sets + count; set++) {
        const auto node = from.sets.extract(GDV_NUMBER(*set));
        if (node.empty() || node.mapped().set.name == 0)
            others.push_back(*set);
        if (!node.empty()) {
            known.push_back(node.mapped().set);
            it.trace << ' ' << node.mapped().number;
        }
    }
    it.trace << '\n';
    give_back(it, std::move(known));
    if (others.empty())
        return VK_SUCCESS;
    const stopwatch time{it.own.free_ns};
    it.own.free_calls++;
    return it.driver.free_sets(handle, of, uint32_t(others.size()), others.data());
}

} // namespace layer
