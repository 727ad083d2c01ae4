// Owners over gpu_descriptor_vulkan.h, over functions of its own: an allocator that is moved, the types of
// Vulkan, two threads that share an allocator, and the functions of a device by their names and by
// vkGetDeviceProcAddr. There are no prototypes, but pointers with their names, as volk has them.
//
// usage: vulkan_owners [busy] ; with `busy` the library is one in which calls don't wait
#define VK_NO_PROTOTYPES
#include <vulkan/vulkan.h>

extern PFN_vkCreateDescriptorPool vkCreateDescriptorPool;
extern PFN_vkDestroyDescriptorPool vkDestroyDescriptorPool;
extern PFN_vkAllocateDescriptorSets vkAllocateDescriptorSets;
extern PFN_vkFreeDescriptorSets vkFreeDescriptorSets;

#include "gpu_descriptor.hpp"
#include "gpu_descriptor_vulkan.h"

#include <atomic>
#include <chrono>
#include <cstdio>
#include <cstdlib>
#include <cstring>
#include <memory>
#include <thread>
#include <type_traits>

#define CHECK(fact) ((fact) ? void() : fail(__LINE__, #fact))

static_assert(std::is_same<decltype(gd::set().vk()), VkDescriptorSet>::value, "it is Vulkan's");

// As vulkan.hpp has it. No name of gd is in its way.
namespace vk {
using DescriptorSet = VkDescriptorSet;
} // namespace vk

using namespace gd;

vk::DescriptorSet handle_beside_vulkan_hpp(const gd_set &raw);

vk::DescriptorSet handle_beside_vulkan_hpp(const gd_set &raw) {
    return vk_handle(raw);
}

namespace {

[[noreturn]] void fail(int line, const char *what) {
    std::printf("vulkan_owners.cpp:%d: failed: %s\n", line, what);
    std::exit(1);
}

// Handles have more than 32 bits, also where they are numbers.
constexpr uint64_t FIRST_HANDLE = uint64_t{1} << 40, LAYOUT = uint64_t{3} << 40;

// What there is, with pools that were created with callbacks as blocks, and the function that `load` lacks. Not
// atomic: the allocator lets one call in at a time.
uint64_t next_handle = FIRST_HANDLE, pools, sets_alive, blocks;
const char *missing = "";

// Whether a pool is created slowly, has begun to be, and another thread is about to make a call.
std::atomic<bool> is_slow, has_begun, is_late;

void create_slowly() {
    has_begun = true;
    while (!is_late)
        std::this_thread::yield();
    std::this_thread::sleep_for(std::chrono::milliseconds(100));
}

VKAPI_ATTR VkResult VKAPI_CALL create_pool(VkDevice, const VkDescriptorPoolCreateInfo *,
                                           const VkAllocationCallbacks *callbacks, VkDescriptorPool *pool) {
    if (callbacks != nullptr)
        CHECK(callbacks->pUserData == &blocks);
    if (is_slow)
        create_slowly();
    blocks += callbacks != nullptr;
    pools++;
    *pool = GDV_HANDLE(VkDescriptorPool, ++next_handle);
    return VK_SUCCESS;
}

VKAPI_ATTR void VKAPI_CALL destroy_pool(VkDevice, VkDescriptorPool pool, const VkAllocationCallbacks *callbacks) {
    CHECK(GDV_NUMBER(pool) > FIRST_HANDLE);
    if (callbacks != nullptr)
        CHECK(callbacks->pUserData == &blocks);
    blocks -= callbacks != nullptr;
    pools--;
}

VKAPI_ATTR VkResult VKAPI_CALL allocate_sets(VkDevice, const VkDescriptorSetAllocateInfo *info, VkDescriptorSet *sets) {
    CHECK(GDV_NUMBER(info->descriptorPool) > FIRST_HANDLE && GDV_NUMBER(info->pSetLayouts[0]) == LAYOUT);
    for (uint32_t at = 0; at < info->descriptorSetCount; at++)
        sets[at] = GDV_HANDLE(VkDescriptorSet, ++next_handle);
    sets_alive += info->descriptorSetCount;
    return VK_SUCCESS;
}

VKAPI_ATTR VkResult VKAPI_CALL free_sets(VkDevice, VkDescriptorPool, uint32_t count, const VkDescriptorSet *) {
    sets_alive -= count;
    return VK_SUCCESS;
}

template <class Function> PFN_vkVoidFunction any(Function function) {
    return reinterpret_cast<PFN_vkVoidFunction>(function);
}

VKAPI_ATTR PFN_vkVoidFunction VKAPI_CALL load(VkDevice, const char *name) {
    if (std::strcmp(name, missing) == 0)
        return nullptr;
    if (std::strcmp(name, "vkCreateDescriptorPool") == 0)
        return any(create_pool);
    if (std::strcmp(name, "vkDestroyDescriptorPool") == 0)
        return any(destroy_pool);
    if (std::strcmp(name, "vkAllocateDescriptorSets") == 0)
        return any(allocate_sets);
    return std::strcmp(name, "vkFreeDescriptorSets") == 0 ? any(free_sets) : nullptr;
}

struct manager {
    VkAllocationCallbacks callbacks{};
    gdv_device vulkan{};
    gd::allocator allocator;
    gd_layout layout{};
};

void fill(manager &it) {
    const uint32_t kinds[GD_KINDS] = {1};
    it.callbacks.pUserData = &blocks;
    CHECK(gdv_load(&it.vulkan, nullptr, &it.callbacks, load) == GD_OK);
    CHECK(gdv_create(&it.vulkan, 0, it.allocator.put()) == GD_OK);
    CHECK(gd_add_layout(it.allocator.raw(), LAYOUT, kinds, 0, &it.layout) == GD_OK);
}

// The device and the callbacks of its pools are inside of the allocator.
void move_a_set_manager() {
    auto first = std::make_unique<manager>();
    fill(*first);
    auto second = std::make_unique<manager>(std::move(*first));
    std::memset(static_cast<void *>(&first->vulkan), 0xff, sizeof first->vulkan);
    std::memset(static_cast<void *>(&first->callbacks), 0xff, sizeof first->callbacks);
    first.reset();
    gd::set made;
    CHECK(second->allocator.allocate(second->layout, made) == GD_OK && pools == 1 && blocks == 1);
    CHECK(made.vk() == gdv_handle(made.raw()) && made.vk() != VK_NULL_HANDLE);
    CHECK(handle_beside_vulkan_hpp(made.raw()) == made.vk() && GDV_NUMBER(made.vk()) == next_handle);
    second.reset();
    CHECK(pools == 0 && blocks == 0 && sets_alive == 0);
}

// A call waits for that of another thread, unless the library has none that waits.
void wait_for_another_thread(manager &it, bool waits) {
    uint64_t out = 0;
    is_slow = true;
    std::thread other([&it] {
        gd_set set{};
        CHECK(gd_allocate(it.allocator.raw(), it.layout, 1, &set) == GD_OK);
    });
    while (!has_begun)
        std::this_thread::yield();
    is_late = true;
    const gd_status status = gd_outstanding(it.allocator.raw(), &out);
    other.join();
    is_slow = false;
    CHECK(waits ? status == GD_OK && out == 1 : status == GD_BUSY);
}

// Makes a call until it isn't GD_BUSY.
template <class Call> void insist(bool waits, Call call) {
    gd_status status = GD_BUSY;
    while ((status = call()) == GD_BUSY)
        CHECK(!waits);
    CHECK(status == GD_OK);
}

// Two threads share an allocator of gdv_create, and nothing is lost.
void share_an_allocator(bool waits) {
    manager it;
    fill(it);
    wait_for_another_thread(it, waits);
    const auto use = [&it, waits] {
        for (int turn = 0; turn < 2000; turn++) {
            gd_set sets[3];
            insist(waits, [&] { return gd_allocate(it.allocator.raw(), it.layout, 3, sets); });
            insist(waits, [&] { return gd_free(it.allocator.raw(), sets, 3); });
            if (turn % 8 == 0)
                insist(waits, [&] { return gd_cleanup(it.allocator.raw()); });
        }
    };
    std::thread first(use), second(use);
    first.join();
    second.join();
    uint64_t out = 0;
    CHECK(gd_outstanding(it.allocator.raw(), &out) == GD_OK && out == 1);
    CHECK(gd_free_all(it.allocator.raw()) == GD_OK && sets_alive == 0);
    CHECK(it.allocator.destroy() == GD_OK && pools == 0 && blocks == 0);
}

// A function that is missing is a status, and there is no allocator.
void take_functions() {
    gdv_device vulkan{};
    gd_allocator allocator{};
    const char *names[] = {"vkCreateDescriptorPool", "vkDestroyDescriptorPool", "vkAllocateDescriptorSets",
                           "vkFreeDescriptorSets"};
    for (const char *name : names) {
        missing = name;
        CHECK(gdv_load(&vulkan, nullptr, nullptr, load) == GD_NULL_POINTER);
        allocator.id = 77;
        CHECK(gdv_create(&vulkan, 0, &allocator) == GD_NULL_POINTER && allocator.id == 0);
    }
    missing = "";
    CHECK(gdv_load(&vulkan, nullptr, nullptr, nullptr) == GD_NULL_POINTER);
    CHECK(gdv_load(nullptr, nullptr, nullptr, load) == GD_NULL_POINTER);
    CHECK(gdv_create(nullptr, 0, &allocator) == GD_NULL_POINTER);
    CHECK(gdv_init(nullptr, nullptr, nullptr) == GD_NULL_POINTER);
    vkFreeDescriptorSets = nullptr; // as volk's are before they are loaded
    CHECK(gdv_init(&vulkan, nullptr, nullptr) == GD_NULL_POINTER);
    vkFreeDescriptorSets = free_sets;
    CHECK(gdv_init(&vulkan, nullptr, nullptr) == GD_OK);
    CHECK(vulkan.create_pool == create_pool && vulkan.destroy_pool == destroy_pool);
    CHECK(vulkan.allocate_sets == allocate_sets && vulkan.free_sets == free_sets);
    CHECK(gdv_create(&vulkan, 0, nullptr) == GD_NULL_POINTER);
    gd_device nothing = gdv_functions(&vulkan);
    nothing.user = nullptr;
    CHECK(gd_create_with_copy(&nothing, 8, 0, 0, &allocator) == GD_NULL_POINTER && allocator.id == 0);
    CHECK(gdv_create_with_flags(&vulkan, 0, 2, &allocator) == GD_BAD_FLAGS);
    CHECK(gdv_create(&vulkan, 0, &allocator) == GD_OK && gd_destroy(allocator) == GD_OK);
}

} // namespace

PFN_vkCreateDescriptorPool vkCreateDescriptorPool = create_pool;
PFN_vkDestroyDescriptorPool vkDestroyDescriptorPool = destroy_pool;
PFN_vkAllocateDescriptorSets vkAllocateDescriptorSets = allocate_sets;
PFN_vkFreeDescriptorSets vkFreeDescriptorSets = free_sets;

int main(int words, char **) {
    move_a_set_manager();
    share_an_allocator(words < 2);
    take_functions();
    std::printf("an allocator is moved, and threads share an allocator\n");
    return 0;
}
