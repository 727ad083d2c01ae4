// Two devices of one instance, on each of which update-after-bind sets are allocated and queues submit, by
// vkQueueSubmit and by vkQueueSubmit2. Then the program ends as it is told:
//
//   destroyed  it frees and destroys everything
//   left       it returns from `main`, and destroys nothing
//   running    the same, while threads still allocate and free sets
//   killed     it is ended by a signal
//
// The first word is the version of Vulkan: 1.1, 1.2 or 1.3. It prints 'done' before it ends. The exit code is 3 if
// the driver doesn't have what it takes.
#include "host.h"
#include <pthread.h>
#include <signal.h>
#include <string.h>
#include <unistd.h>
#include <vulkan/vulkan.h>

enum { DEVICES = 2, SETS = 5, ROUNDS = 3, THREADS = 4, MAX_EXTENSIONS = 400, MISSING = 3 };

struct gpu {
    VkDevice device;
    VkQueue queue;
    VkDescriptorSetLayout layout;
    VkDescriptorPool pool;
    VkDescriptorSet sets[SETS];
};

static uint32_t version;
static VkInstance instance;
static VkPhysicalDevice physical;

static void open_instance(void) {
    VkApplicationInfo about = {.sType = VK_STRUCTURE_TYPE_APPLICATION_INFO, .apiVersion = version};
    VkInstanceCreateInfo wanted = {.sType = VK_STRUCTURE_TYPE_INSTANCE_CREATE_INFO, .pApplicationInfo = &about};
    uint32_t count = 1;
    if (vkCreateInstance(&wanted, NULL, &instance) != VK_SUCCESS ||
        vkEnumeratePhysicalDevices(instance, &count, &physical) < 0 || count == 0)
        exit(MISSING);
}

// Whether the driver has an extension. llvmpipe names no VK_EXT_descriptor_indexing, and has what it has.
static bool has(const char *name) {
    VkExtensionProperties all[MAX_EXTENSIONS];
    uint32_t count = MAX_EXTENSIONS;
    CHECK(vkEnumerateDeviceExtensionProperties(physical, NULL, &count, all) >= 0);
    for (uint32_t place = 0; place < count; place++)
        if (strcmp(all[place].extensionName, name) == 0)
            return true;
    return false;
}

// What later versions have is asked for as an extension.
static void open_device(struct gpu *gpu) {
    VkPhysicalDeviceSynchronization2Features submits = {
        .sType = VK_STRUCTURE_TYPE_PHYSICAL_DEVICE_SYNCHRONIZATION_2_FEATURES, .synchronization2 = VK_TRUE};
    const char *extensions[2];
    uint32_t count = 0;
    if (version < VK_API_VERSION_1_3)
        extensions[count++] = "VK_KHR_synchronization2";
    if (version < VK_API_VERSION_1_2 && has("VK_EXT_descriptor_indexing"))
        extensions[count++] = "VK_EXT_descriptor_indexing";
    float priority = 1;
    VkDeviceQueueCreateInfo queue = {
        .sType = VK_STRUCTURE_TYPE_DEVICE_QUEUE_CREATE_INFO, .queueCount = 1, .pQueuePriorities = &priority};
    VkDeviceCreateInfo wanted = {
        .sType = VK_STRUCTURE_TYPE_DEVICE_CREATE_INFO,
        .pNext = &submits,
        .queueCreateInfoCount = 1,
        .pQueueCreateInfos = &queue,
        .enabledExtensionCount = count,
        .ppEnabledExtensionNames = extensions,
    };
    if (vkCreateDevice(physical, &wanted, NULL, &gpu->device) != VK_SUCCESS)
        exit(MISSING);
    vkGetDeviceQueue(gpu->device, 0, 0, &gpu->queue);
}

// A layout for update-after-bind, of which no binding needs a feature.
static void make_layout(struct gpu *gpu) {
    VkDescriptorSetLayoutBinding only = {.descriptorType = VK_DESCRIPTOR_TYPE_SAMPLED_IMAGE,
                                         .descriptorCount = 2,
                                         .stageFlags = VK_SHADER_STAGE_ALL};
    VkDescriptorSetLayoutCreateInfo wanted = {
        .sType = VK_STRUCTURE_TYPE_DESCRIPTOR_SET_LAYOUT_CREATE_INFO,
        .flags = VK_DESCRIPTOR_SET_LAYOUT_CREATE_UPDATE_AFTER_BIND_POOL_BIT,
        .bindingCount = 1,
        .pBindings = &only,
    };
    CHECK(vkCreateDescriptorSetLayout(gpu->device, &wanted, NULL, &gpu->layout) == VK_SUCCESS);
}

static VkDescriptorPool make_pool(const struct gpu *gpu) {
    VkDescriptorPoolSize size = {VK_DESCRIPTOR_TYPE_SAMPLED_IMAGE, 2 * SETS};
    VkDescriptorPoolCreateInfo wanted = {
        .sType = VK_STRUCTURE_TYPE_DESCRIPTOR_POOL_CREATE_INFO,
        .flags = VK_DESCRIPTOR_POOL_CREATE_FREE_DESCRIPTOR_SET_BIT |
                 VK_DESCRIPTOR_POOL_CREATE_UPDATE_AFTER_BIND_BIT,
        .maxSets = SETS,
        .poolSizeCount = 1,
        .pPoolSizes = &size,
    };
    VkDescriptorPool made;
    CHECK(vkCreateDescriptorPool(gpu->device, &wanted, NULL, &made) == VK_SUCCESS);
    return made;
}

static void allocate(const struct gpu *gpu, VkDescriptorPool pool, uint32_t count, VkDescriptorSet *sets) {
    VkDescriptorSetLayout layouts[SETS];
    for (uint32_t place = 0; place < count; place++)
        layouts[place] = gpu->layout;
    VkDescriptorSetAllocateInfo wanted = {
        .sType = VK_STRUCTURE_TYPE_DESCRIPTOR_SET_ALLOCATE_INFO,
        .descriptorPool = pool,
        .descriptorSetCount = count,
        .pSetLayouts = layouts,
    };
    CHECK(vkAllocateDescriptorSets(gpu->device, &wanted, sets) == VK_SUCCESS);
}

static void submit(const struct gpu *gpu) {
    const char *name = version < VK_API_VERSION_1_3 ? "vkQueueSubmit2KHR" : "vkQueueSubmit2";
    const PFN_vkQueueSubmit2 newer = (PFN_vkQueueSubmit2)vkGetDeviceProcAddr(gpu->device, name);
    CHECK(newer != NULL);
    CHECK(vkQueueSubmit(gpu->queue, 0, NULL, VK_NULL_HANDLE) == VK_SUCCESS);
    CHECK(newer(gpu->queue, 0, NULL, VK_NULL_HANDLE) == VK_SUCCESS);
}

static void use(struct gpu *gpu) {
    make_layout(gpu);
    gpu->pool = make_pool(gpu);
    for (uint32_t round = 0; round < ROUNDS; round++) {
        CHECK(vkResetDescriptorPool(gpu->device, gpu->pool, 0) == VK_SUCCESS);
        allocate(gpu, gpu->pool, SETS, gpu->sets);
        submit(gpu);
    }
}

static void destroy(struct gpu *gpu) {
    CHECK(vkFreeDescriptorSets(gpu->device, gpu->pool, SETS, gpu->sets) == VK_SUCCESS);
    vkDestroyDescriptorPool(gpu->device, gpu->pool, NULL);
    vkDestroyDescriptorSetLayout(gpu->device, gpu->layout, NULL);
    vkDestroyDevice(gpu->device, NULL);
}

// A thread that never ends.
static void *go_on(void *of) {
    const struct gpu *gpu = of;
    const VkDescriptorPool pool = make_pool(gpu);
    for (VkDescriptorSet set;;) {
        allocate(gpu, pool, 1, &set);
        CHECK(vkFreeDescriptorSets(gpu->device, pool, 1, &set) == VK_SUCCESS);
    }
    return NULL;
}

static void wait_a_moment(void) {
    usleep(50000);
}

static void leave_running(struct gpu *gpus) {
    pthread_t thread;
    for (uint32_t place = 0; place < THREADS; place++)
        CHECK(pthread_create(&thread, NULL, go_on, &gpus[place % DEVICES]) == 0);
    wait_a_moment();
}

static uint32_t version_of(const char *word) {
    return VK_MAKE_API_VERSION(0, 1, (uint32_t)strtoul(word + 2, NULL, 10), 0);
}

int main(int words, char **word) {
    static struct gpu gpus[DEVICES];
    CHECK(words == 3);
    version = version_of(word[1]);
    // The first to be registered is the last to be called: after a layer's, of what it has in static tables.
    if (strcmp(word[2], "running") == 0)
        CHECK(atexit(wait_a_moment) == 0);
    open_instance();
    for (uint32_t place = 0; place < DEVICES; place++)
        open_device(&gpus[place]);
    for (uint32_t place = 0; place < DEVICES; place++)
        use(&gpus[place]);
    puts("done");
    fflush(stdout);
    if (strcmp(word[2], "killed") == 0)
        raise(SIGKILL);
    if (strcmp(word[2], "running") == 0)
        leave_running(gpus);
    if (strcmp(word[2], "destroyed") == 0) {
        for (uint32_t place = 0; place < DEVICES; place++)
            destroy(&gpus[place]);
        vkDestroyInstance(instance, NULL);
    }
    return 0;
}
