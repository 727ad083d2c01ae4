// The first device of Vulkan, and its functions of sets and pools: the driver's, or functions that count and
// time the driver's.
#include "gpu_descriptor_vulkan.h"
#include <stdbool.h>
#include <stdio.h>
#include <stdlib.h>
#include <time.h>

static VkDevice device;
static bool is_timed;
// How many calls were timed, and their time; and what a look at the clock takes, which is taken off.
static uint64_t calls, spent, of_the_clock;

static uint64_t now(void) {
    struct timespec time;
    clock_gettime(CLOCK_MONOTONIC, &time);
    return (uint64_t)time.tv_sec * 1000000000 + (uint64_t)time.tv_nsec;
}

static void end(const uint64_t *start) {
    spent += now() - *start;
    calls++;
}

// A function that times the driver's of this name: `end` is called as it returns.
#define TIMED(RESULT, NAME, DECLARED, ARGUMENTS)                                                         \
    static PFN_vk##NAME plain_##NAME;                                                                    \
    static RESULT timed_##NAME DECLARED {                                                                \
        __attribute__((cleanup(end))) uint64_t start = now();                                            \
        return plain_##NAME ARGUMENTS;                                                                   \
    }

TIMED(VkResult, CreateDescriptorPool,
      (VkDevice of, const VkDescriptorPoolCreateInfo *info, const VkAllocationCallbacks *callbacks,
       VkDescriptorPool *pool),
      (of, info, callbacks, pool))
TIMED(void, DestroyDescriptorPool,
      (VkDevice of, VkDescriptorPool pool, const VkAllocationCallbacks *callbacks), (of, pool, callbacks))
TIMED(VkResult, ResetDescriptorPool, (VkDevice of, VkDescriptorPool pool, VkDescriptorPoolResetFlags flags),
      (of, pool, flags))
TIMED(VkResult, AllocateDescriptorSets,
      (VkDevice of, const VkDescriptorSetAllocateInfo *info, VkDescriptorSet *sets), (of, info, sets))
TIMED(VkResult, FreeDescriptorSets,
      (VkDevice of, VkDescriptorPool pool, uint32_t count, const VkDescriptorSet *sets), (of, pool, count, sets))

// The functions that are timed.
#define EACH(DO)                                                                                         \
    DO(CreateDescriptorPool)                                                                             \
    DO(DestroyDescriptorPool) DO(ResetDescriptorPool) DO(AllocateDescriptorSets) DO(FreeDescriptorSets)

// How the program ends if a call failed. With MISSING bench/trace_table.py skips what needs a driver.
enum { FAILED = 1, MISSING = 3 };

// Ends the program so, unless a call succeeded.
static void require(VkResult result, int otherwise, const char *why) {
    if (result == VK_SUCCESS || result == VK_INCOMPLETE)
        return;
    fprintf(stderr, "%s\n", why);
    exit(otherwise);
}

static void create_device(void) {
    VkApplicationInfo about = {.sType = VK_STRUCTURE_TYPE_APPLICATION_INFO, .apiVersion = VK_API_VERSION_1_2};
    VkInstanceCreateInfo wanted = {.sType = VK_STRUCTURE_TYPE_INSTANCE_CREATE_INFO, .pApplicationInfo = &about};
    VkInstance instance;
    require(vkCreateInstance(&wanted, NULL, &instance), MISSING, "the loader finds no driver");
    VkPhysicalDevice physical;
    uint32_t count = 1;
    VkResult found = vkEnumeratePhysicalDevices(instance, &count, &physical);
    require(count == 0 ? VK_ERROR_UNKNOWN : found, MISSING, "the loader finds no device");
    float priority = 1;
    VkDeviceQueueCreateInfo queue = {
        .sType = VK_STRUCTURE_TYPE_DEVICE_QUEUE_CREATE_INFO, .queueCount = 1, .pQueuePriorities = &priority};
    VkDeviceCreateInfo info = {
        .sType = VK_STRUCTURE_TYPE_DEVICE_CREATE_INFO, .queueCreateInfoCount = 1, .pQueueCreateInfos = &queue};
    require(vkCreateDevice(physical, &info, NULL, &device), FAILED, "the driver makes no device");
}

// Makes the device. The program ends with 3 if there is no driver or no device.
VkDevice driver_open(bool timed) {
    create_device();
    is_timed = timed;
#define LOAD(NAME) plain_##NAME = (PFN_vk##NAME)vkGetDeviceProcAddr(device, "vk" #NAME);
    EACH(LOAD)
    of_the_clock = UINT64_MAX;
    for (int round = 0; round < 1000; round++) {
        uint64_t start = now(), time = now() - start;
        of_the_clock = time < of_the_clock ? time : of_the_clock;
    }
    return device;
}

// The driver's function of this name, or the one that times it.
PFN_vkVoidFunction driver_function(VkDevice of, const char *name) {
#define RETURN(NAME)                                                                                     \
    if (is_timed && strcmp(name, "vk" #NAME) == 0)                                                       \
        return (PFN_vkVoidFunction)timed_##NAME;
    EACH(RETURN)
    return vkGetDeviceProcAddr(of, name);
}

// A layout with one binding for each kind that it counts. Its inline uniform blocks are one.
VkDescriptorSetLayout driver_create_layout(const uint32_t *counts, uint32_t flags) {
    VkDescriptorSetLayoutBinding bindings[GD_KINDS];
    VkDescriptorSetLayoutCreateInfo info = {
        .sType = VK_STRUCTURE_TYPE_DESCRIPTOR_SET_LAYOUT_CREATE_INFO, .flags = flags, .pBindings = bindings};
    for (uint32_t kind = 0; kind < GD_INLINE_UNIFORM_BLOCK_BINDINGS; kind++)
        if (counts[kind] > 0) {
            uint32_t place = info.bindingCount++;
            bindings[place] = (VkDescriptorSetLayoutBinding){
                place, gdv_type(kind), counts[kind], VK_SHADER_STAGE_ALL, NULL};
        }
    VkDescriptorSetLayout layout;
    require(vkCreateDescriptorSetLayout(device, &info, NULL, &layout), FAILED, "the driver makes no layout");
    return layout;
}

void driver_reset_pool(VkDescriptorPool pool) {
    (void)(is_timed ? timed_ResetDescriptorPool : plain_ResetDescriptorPool)(device, pool, 0);
}

// The calls until now don't count.
void driver_forget(void) {
    calls = spent = 0;
}

// How many calls there were since driver_forget, and their time without the clock's own.
uint64_t driver_account(uint64_t *time) {
    *time = spent - (spent < calls * of_the_clock ? spent : calls * of_the_clock);
    return calls;
}
