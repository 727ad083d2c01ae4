// What the loader asks: instances, devices, and the functions that the layer replaces.
#include "device.hpp"

#include <atomic>
#include <cstdlib>
#include <cstring>
#include <vulkan/vk_layer.h>

namespace layer {
namespace {

/* The loader names the next function of an instance only while it is created: later it names the first. */
struct instance {
    VkInstance handle;
    PFN_vkGetInstanceProcAddr get;
    bool is_newer; // than Vulkan 1.0
    PFN_vkDestroyInstance destroy = NEXT(*this, vkDestroyInstance);
    PFN_vkCreateDevice create_device = NEXT(*this, vkCreateDevice);
    PFN_vkGetPhysicalDeviceProperties properties = NEXT(*this, vkGetPhysicalDeviceProperties);
    PFN_vkGetPhysicalDeviceProperties2 properties2 = NEXT(*this, vkGetPhysicalDeviceProperties2);
    PFN_vkEnumerateDeviceExtensionProperties extensions = NEXT(*this, vkEnumerateDeviceExtensionProperties);
};

table<instance> &instances = *new table<instance>;

/* What the loader says of the next layer. Each layer moves it on. */
template <class Link> auto *take_link(const void *chain, VkStructureType type) {
    auto *link = static_cast<Link *>(const_cast<void *>(chain));
    while (link->sType != type || link->function != VK_LAYER_LINK_INFO)
        link = static_cast<Link *>(const_cast<void *>(link->pNext));
    return std::exchange(link->u.pLayerInfo, link->u.pLayerInfo->pNext);
}

VkResult create_instance(const VkInstanceCreateInfo *info, const VkAllocationCallbacks *callbacks,
                         VkInstance *made) {
    const auto type = VK_STRUCTURE_TYPE_LOADER_INSTANCE_CREATE_INFO;
    const auto get = take_link<VkLayerInstanceCreateInfo>(info->pNext, type)->pfnNextGetInstanceProcAddr;
    const auto create = reinterpret_cast<PFN_vkCreateInstance>(get(nullptr, "vkCreateInstance"));
    const VkResult result = create(info, callbacks, made);
    const auto *about = info->pApplicationInfo;
    const bool is_newer = about != nullptr && about->apiVersion >= VK_API_VERSION_1_1;
    if (result == VK_SUCCESS)
        instances.at(*made) = std::make_unique<instance>(instance{*made, get, is_newer});
    return result;
}

void destroy_instance(VkInstance handle, const VkAllocationCallbacks *callbacks) {
    const auto ended = std::move(instances.at(handle));
    ended->destroy(handle, callbacks);
}

/* Notes the device's name. Its maxUpdateAfterBindDescriptorsInAllPools, or 0 if the instance can't be asked. */
uint32_t describe(device &it, const instance &of, VkPhysicalDevice physical) {
    VkPhysicalDeviceDescriptorIndexingProperties indexing = {};
    indexing.sType = VK_STRUCTURE_TYPE_PHYSICAL_DEVICE_DESCRIPTOR_INDEXING_PROPERTIES;
    VkPhysicalDeviceProperties2 properties = {VK_STRUCTURE_TYPE_PHYSICAL_DEVICE_PROPERTIES_2, &indexing, {}};
    of.properties(physical, &properties.properties);
    if (of.is_newer)
        of.properties2(physical, &properties);
    it.name = properties.properties.deviceName;
    return indexing.maxUpdateAfterBindDescriptorsInAllPools;
}

/* A second device has its trace in a file of its own, and so has its report of the last submit. */
void open_files(device &it, uint32_t limit) {
    static std::atomic<int> count = 0;
    const int number = count++;
    it.report_so_far = name_report_so_far(number);
    if (const char *file = setting("GPU_DESCRIPTOR_LAYER_TRACE"))
        it.trace.open(number == 0 ? file : file + ("." + std::to_string(number)));
    it.trace << "# device " << it.name << " limit " << limit << '\n';
}

VkResult create_device(VkPhysicalDevice physical, const VkDeviceCreateInfo *info,
                       const VkAllocationCallbacks *callbacks, VkDevice *made) {
    const instance &of = *instances.at(physical);
    const auto type = VK_STRUCTURE_TYPE_LOADER_DEVICE_CREATE_INFO;
    const auto get = take_link<VkLayerDeviceCreateInfo>(info->pNext, type)->pfnNextGetDeviceProcAddr;
    const VkResult result = of.create_device(physical, info, callbacks, made);
    if (result != VK_SUCCESS)
        return result;
    auto it = std::make_unique<device>();
    it->handle = *made;
    it->get = get;
    it->faults += gdv_load(&it->driver, *made, nullptr, get) != GD_OK;
    const uint32_t limit = describe(*it, of, physical);
    open_files(*it, limit);
    if (setting("GPU_DESCRIPTOR_LAYER_OWN_POOLS") == nullptr)
        create_allocator(*it, limit);
    devices.at(*made) = std::move(it);
    return result;
}

void destroy_device(VkDevice handle, const VkAllocationCallbacks *callbacks) {
    const auto ended = std::move(devices.at(handle));
    if (ended->allocator.slot != nullptr)
        destroy_allocator(*ended);
    NEXT(*ended, vkDestroyDevice)(handle, callbacks);
    report(*ended);
}

/* Without push descriptors programs ask for more sets. */
VkResult enumerate_extensions(VkPhysicalDevice physical, const char *of_layer, uint32_t *count,
                              VkExtensionProperties *extensions) {
    const VkResult result = instances.at(physical)->extensions(physical, of_layer, count, extensions);
    if (extensions == nullptr || setting("GPU_DESCRIPTOR_LAYER_HIDE_PUSH") == nullptr)
        return result;
    const auto *end = std::remove_if(extensions, extensions + *count, [](const auto &it) {
        return std::strcmp(it.extensionName, VK_KHR_PUSH_DESCRIPTOR_EXTENSION_NAME) == 0;
    });
    *count = uint32_t(end - extensions);
    return result;
}

/* The device of a queue, with a word more in its trace, and with what is known in its files. */
device &traced(const char *word, VkQueue queue) {
    device &it = *devices.at(queue);
    std::lock_guard lock(it.mutex);
    it.trace << word;
    flush(it);
    return it;
}

#define ENTRY(name, function)                                                                                \
    { #name, reinterpret_cast < PFN_vkVoidFunction>(static_cast <PFN_##name>(function)) }

/* A call of a queue, which is a word in the trace. */
#define TRACED(name, word)                                                                                   \
    ENTRY(name, [](VkQueue queue, auto... rest) {                                                            \
        const device &it = traced(word, queue);                                                              \
        return NEXT(it, name)(queue, rest...);                                                               \
    })

PFN_vkVoidFunction device_function(VkDevice handle, const char *name);
PFN_vkVoidFunction instance_function(VkInstance handle, const char *name);

const std::pair<const char *, PFN_vkVoidFunction> entries[] = {
    ENTRY(vkGetInstanceProcAddr, instance_function),
    ENTRY(vkCreateInstance, create_instance),
    ENTRY(vkDestroyInstance, destroy_instance),
    ENTRY(vkCreateDevice, create_device),
    ENTRY(vkEnumerateDeviceExtensionProperties, enumerate_extensions),
    ENTRY(vkGetDeviceProcAddr, device_function),
    ENTRY(vkDestroyDevice, destroy_device),
    ENTRY(vkCreateDescriptorSetLayout, create_layout),
    ENTRY(vkDestroyDescriptorSetLayout, destroy_layout),
    ENTRY(vkCreateDescriptorPool, create_pool),
    ENTRY(vkDestroyDescriptorPool, destroy_pool),
    ENTRY(vkResetDescriptorPool, reset_pool),
    ENTRY(vkAllocateDescriptorSets, allocate_sets),
    ENTRY(vkFreeDescriptorSets, free_sets),
    TRACED(vkQueueSubmit, "submit\n"),
    TRACED(vkQueueSubmit2, "submit\n"),
    TRACED(vkQueueSubmit2KHR, "submit\n"),
    TRACED(vkQueuePresentKHR, "present\n"),
};

/* The layer's function of this name, if the next layer has one or `always`; else the next layer's. */
PFN_vkVoidFunction function_of(const char *name, PFN_vkVoidFunction next, bool always) {
    for (const auto &[ours, function] : entries)
        if (std::strcmp(ours, name) == 0 && (always || next != nullptr))
            return function;
    return next;
}

PFN_vkVoidFunction device_function(VkDevice handle, const char *name) {
    return function_of(name, devices.at(handle)->get(handle, name), false);
}

PFN_vkVoidFunction instance_function(VkInstance handle, const char *name) {
    const auto next = handle == nullptr ? nullptr : instances.at(handle)->get(handle, name);
    return function_of(name, next, handle == nullptr);
}

} // namespace

const char *setting(const char *name) {
    const char *text = std::getenv(name);
    return text != nullptr && *text != 0 ? text : nullptr;
}

} // namespace layer

extern "C" VK_LAYER_EXPORT VkResult
vkNegotiateLoaderLayerInterfaceVersion(VkNegotiateLayerInterface *interface) {
    *interface = {interface->sType, interface->pNext, std::min(interface->loaderLayerInterfaceVersion, 2U),
                  layer::instance_function, layer::device_function, nullptr};
    return VK_SUCCESS;
}
