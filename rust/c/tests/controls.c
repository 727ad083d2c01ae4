// Five calls that break a condition of the device interface. The validation layer must report each, or its
// silence in vulkan.c says nothing.
//
// The exit code is 3 if there is no layer or no driver.
#include "host.h"
#include "layer.h"

enum { MAX_SETS = 65, PLACES = 64 };

// A pool of samplers, and a request of it, whose sets are freed.
struct wrong {
    const char *name;
    uint32_t version, places, samplers, sets, each;
    bool is_marked, keeps_sets;
};

// Since 1.1 the layer leaves it to the driver what a pool has no room for.
static const struct wrong WRONG[] = {
    {"more sets than places", VK_API_VERSION_1_0, PLACES, 2 * PLACES, MAX_SETS, 1, false, false},
    {"more descriptors than the pool has", VK_API_VERSION_1_0, PLACES, PLACES, 40, 2, false, false},
    {"marked sets of a plain pool", VK_API_VERSION_1_3, PLACES, PLACES, 1, 1, true, false},
    {"sets that no call frees", VK_API_VERSION_1_3, PLACES, PLACES, 1, 1, false, true},
    {"a pool without places", VK_API_VERSION_1_3, 0, PLACES, 0, 1, false, false},
};

static VkDescriptorSetLayout make_layout(const struct wrong *it) {
    VkDescriptorSetLayoutBinding binding = {
        .descriptorType = VK_DESCRIPTOR_TYPE_SAMPLER,
        .descriptorCount = it->each,
        .stageFlags = VK_SHADER_STAGE_FRAGMENT_BIT,
    };
    VkDescriptorSetLayoutCreateInfo info = {
        .sType = VK_STRUCTURE_TYPE_DESCRIPTOR_SET_LAYOUT_CREATE_INFO,
        .flags = it->is_marked ? VK_DESCRIPTOR_SET_LAYOUT_CREATE_UPDATE_AFTER_BIND_POOL_BIT : 0,
        .bindingCount = 1,
        .pBindings = &binding,
    };
    VkDescriptorSetLayout made;
    CHECK(vkCreateDescriptorSetLayout(layer.device, &info, NULL, &made) == VK_SUCCESS);
    return made;
}

static VkDescriptorPool make_pool(const struct wrong *it) {
    VkDescriptorPoolSize size = {VK_DESCRIPTOR_TYPE_SAMPLER, it->samplers};
    VkDescriptorPoolCreateInfo info = {
        .sType = VK_STRUCTURE_TYPE_DESCRIPTOR_POOL_CREATE_INFO,
        .flags = it->keeps_sets ? 0 : VK_DESCRIPTOR_POOL_CREATE_FREE_DESCRIPTOR_SET_BIT,
        .maxSets = it->places,
        .poolSizeCount = 1,
        .pPoolSizes = &size,
    };
    VkDescriptorPool made = VK_NULL_HANDLE;
    vkCreateDescriptorPool(layer.device, &info, NULL, &made);
    return made;
}

static void make_calls(const struct wrong *it) {
    VkDescriptorSetLayout layout = make_layout(it), layouts[MAX_SETS];
    VkDescriptorPool pool = make_pool(it);
    VkDescriptorSet sets[MAX_SETS];
    for (uint32_t place = 0; place < it->sets; place++)
        layouts[place] = layout;
    VkDescriptorSetAllocateInfo info = {
        .sType = VK_STRUCTURE_TYPE_DESCRIPTOR_SET_ALLOCATE_INFO,
        .descriptorPool = pool,
        .descriptorSetCount = it->sets,
        .pSetLayouts = layouts,
    };
    if (it->sets > 0 && vkAllocateDescriptorSets(layer.device, &info, sets) == VK_SUCCESS)
        vkFreeDescriptorSets(layer.device, pool, it->sets, sets);
    vkDestroyDescriptorPool(layer.device, pool, NULL);
    vkDestroyDescriptorSetLayout(layer.device, layout, NULL);
}

int main(void) {
    int silent = 0;
    for (size_t place = 0; place < sizeof WRONG / sizeof *WRONG; place++) {
        layer.messages = 0;
        layer_open(WRONG[place].version);
        make_calls(&WRONG[place]);
        layer_close();
        if (layer.messages == 0)
            printf("not reported: %s\n", WRONG[place].name);
        silent += layer.messages == 0;
    }
    return silent > 0;
}
