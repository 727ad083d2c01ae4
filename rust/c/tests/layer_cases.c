// Calls on sets that the programs of rust/c/tests/real-programs don't make: sets freed one by one, requests of
// several layouts, layouts that the library doesn't serve, pools that are destroyed with their sets, and threads
// with a pool each.
// Each set is written, so that the validation layer sees whether it is of its layout.
//
// It prints 'done'. The exit code is 3 if there is no layer or no driver.
#include "host.h"
#include "layer.h"
#include <pthread.h>

// Sets of a request and threads, sets of a pool, and how often each case is repeated.
enum { FEW = 4, MANY = 40, ROUNDS = 50, THREAD_ROUNDS = 2000 };

static VkSampler sampler;

// A layout of one binding, which may have a variable count.
static VkDescriptorSetLayout make_layout(uint32_t binding, VkDescriptorType type, uint32_t count, bool is_variable) {
    VkDescriptorBindingFlags variable = VK_DESCRIPTOR_BINDING_VARIABLE_DESCRIPTOR_COUNT_BIT;
    VkDescriptorSetLayoutBindingFlagsCreateInfo flags = {
        .sType = VK_STRUCTURE_TYPE_DESCRIPTOR_SET_LAYOUT_BINDING_FLAGS_CREATE_INFO,
        .bindingCount = 1,
        .pBindingFlags = &variable,
    };
    VkDescriptorSetLayoutBinding only = {
        .binding = binding, .descriptorType = type, .descriptorCount = count, .stageFlags = VK_SHADER_STAGE_ALL};
    VkDescriptorSetLayoutCreateInfo info = {
        .sType = VK_STRUCTURE_TYPE_DESCRIPTOR_SET_LAYOUT_CREATE_INFO,
        .pNext = is_variable ? &flags : NULL,
        .bindingCount = 1,
        .pBindings = &only,
    };
    VkDescriptorSetLayout made;
    CHECK(vkCreateDescriptorSetLayout(layer.device, &info, NULL, &made) == VK_SUCCESS);
    return made;
}

static VkDescriptorPool make_pool(uint32_t max_sets) {
    VkDescriptorPoolInlineUniformBlockCreateInfo blocks = {
        .sType = VK_STRUCTURE_TYPE_DESCRIPTOR_POOL_INLINE_UNIFORM_BLOCK_CREATE_INFO,
        .maxInlineUniformBlockBindings = max_sets,
    };
    VkDescriptorPoolSize sizes[] = {{VK_DESCRIPTOR_TYPE_SAMPLER, 8 * max_sets},
                                    {VK_DESCRIPTOR_TYPE_INLINE_UNIFORM_BLOCK, 16 * max_sets}};
    VkDescriptorPoolCreateInfo info = {
        .sType = VK_STRUCTURE_TYPE_DESCRIPTOR_POOL_CREATE_INFO,
        .pNext = &blocks,
        .flags = VK_DESCRIPTOR_POOL_CREATE_FREE_DESCRIPTOR_SET_BIT,
        .maxSets = max_sets,
        .poolSizeCount = 2,
        .pPoolSizes = sizes,
    };
    VkDescriptorPool made;
    CHECK(vkCreateDescriptorPool(layer.device, &info, NULL, &made) == VK_SUCCESS);
    return made;
}

// A set of each of these layouts. If one has a variable count, its set gets one descriptor.
static void request(VkDescriptorPool pool, uint32_t count, const VkDescriptorSetLayout *of, VkDescriptorSet *sets) {
    uint32_t counts[MANY];
    for (uint32_t place = 0; place < count; place++)
        counts[place] = 1;
    VkDescriptorSetVariableDescriptorCountAllocateInfo variable = {
        .sType = VK_STRUCTURE_TYPE_DESCRIPTOR_SET_VARIABLE_DESCRIPTOR_COUNT_ALLOCATE_INFO,
        .descriptorSetCount = count,
        .pDescriptorCounts = counts,
    };
    VkDescriptorSetAllocateInfo info = {
        .sType = VK_STRUCTURE_TYPE_DESCRIPTOR_SET_ALLOCATE_INFO,
        .pNext = &variable,
        .descriptorPool = pool,
        .descriptorSetCount = count,
        .pSetLayouts = of,
    };
    CHECK(vkAllocateDescriptorSets(layer.device, &info, sets) == VK_SUCCESS);
}

// Writes one sampler to a set. The validation layer reports a binding that its layout doesn't have.
static void write(VkDescriptorSet set, uint32_t binding) {
    VkDescriptorImageInfo image = {.sampler = sampler};
    VkWriteDescriptorSet one = {
        .sType = VK_STRUCTURE_TYPE_WRITE_DESCRIPTOR_SET,
        .dstSet = set,
        .dstBinding = binding,
        .descriptorCount = 1,
        .descriptorType = VK_DESCRIPTOR_TYPE_SAMPLER,
        .pImageInfo = &image,
    };
    vkUpdateDescriptorSets(layer.device, 1, &one, 0, NULL);
}

// Two calls free the sets of a request, in another order than they came, and a handle that is none.
static void one_by_one(VkDescriptorSetLayout first, VkDescriptorSetLayout second, VkDescriptorSetLayout block) {
    VkDescriptorPool pool = make_pool(MANY);
    VkDescriptorSetLayout mixed[FEW] = {first, block, second, first};
    VkDescriptorSet sets[FEW];
    for (uint32_t round = 0; round < ROUNDS; round++) {
        request(pool, FEW, mixed, sets);
        write(sets[0], 0);
        write(sets[2], 1);
        write(sets[3], 0);
        VkDescriptorSet freed[] = {sets[3], VK_NULL_HANDLE, sets[0]};
        CHECK(vkFreeDescriptorSets(layer.device, pool, 3, freed) == VK_SUCCESS);
        CHECK(vkFreeDescriptorSets(layer.device, pool, 2, sets + 1) == VK_SUCCESS);
    }
    vkDestroyDescriptorPool(layer.device, pool, NULL);
}

// A request that the library doesn't serve comes from the pool itself, and is freed beside one that it serves.
static void not_served(VkDescriptorSetLayout first, VkDescriptorSetLayout variable) {
    VkDescriptorPool pool = make_pool(MANY);
    VkDescriptorSetLayout mixed[] = {first, variable};
    VkDescriptorSet sets[FEW];
    for (uint32_t round = 0; round < ROUNDS; round++) {
        request(pool, 2, mixed, sets);
        request(pool, 1, mixed, sets + 2);
        write(sets[0], 0);
        write(sets[2], 0);
        if (round % 2 == 0)
            CHECK(vkFreeDescriptorSets(layer.device, pool, 3, sets) == VK_SUCCESS);
        else
            CHECK(vkResetDescriptorPool(layer.device, pool, 0) == VK_SUCCESS);
    }
    request(pool, 2, mixed, sets);
    vkDestroyDescriptorPool(layer.device, pool, NULL);
}

// Layouts that come and go while sets of them are live.
static void short_lived(void) {
    VkDescriptorPool pool = make_pool(MANY);
    VkDescriptorSet sets[MANY];
    for (uint32_t round = 0; round < MANY; round++) {
        VkDescriptorSetLayout layout = make_layout(round % 3, VK_DESCRIPTOR_TYPE_SAMPLER, 1, false);
        request(pool, 1, &layout, sets + round);
        write(sets[round], round % 3);
        vkDestroyDescriptorSetLayout(layer.device, layout, NULL);
    }
    CHECK(vkFreeDescriptorSets(layer.device, pool, MANY / 2, sets) == VK_SUCCESS);
    vkDestroyDescriptorPool(layer.device, pool, NULL);
}

// A thread: it allocates from its pool, and frees its sets or resets it.
static void *use_a_pool(void *of) {
    VkDescriptorPool pool = make_pool(MANY);
    VkDescriptorSetLayout *layout = of;
    VkDescriptorSetLayout layouts[FEW] = {*layout, *layout, *layout, *layout};
    VkDescriptorSet sets[FEW];
    for (uint32_t round = 0; round < THREAD_ROUNDS; round++) {
        request(pool, FEW, layouts, sets);
        write(sets[round % FEW], 0);
        if (round % 3 == 0)
            CHECK(vkResetDescriptorPool(layer.device, pool, 0) == VK_SUCCESS);
        else
            CHECK(vkFreeDescriptorSets(layer.device, pool, FEW, sets) == VK_SUCCESS);
    }
    vkDestroyDescriptorPool(layer.device, pool, NULL);
    return NULL;
}

static void at_once(VkDescriptorSetLayout layout) {
    pthread_t threads[FEW];
    for (uint32_t place = 0; place < FEW; place++)
        CHECK(pthread_create(&threads[place], NULL, use_a_pool, &layout) == 0);
    for (uint32_t place = 0; place < FEW; place++)
        CHECK(pthread_join(threads[place], NULL) == 0);
}

int main(void) {
    layer_open(VK_API_VERSION_1_3);
    VkSamplerCreateInfo info = {.sType = VK_STRUCTURE_TYPE_SAMPLER_CREATE_INFO, .maxLod = 1};
    CHECK(vkCreateSampler(layer.device, &info, NULL, &sampler) == VK_SUCCESS);
    VkDescriptorSetLayout layouts[] = {
        make_layout(0, VK_DESCRIPTOR_TYPE_SAMPLER, 1, false),
        make_layout(1, VK_DESCRIPTOR_TYPE_SAMPLER, 2, false),
        make_layout(0, VK_DESCRIPTOR_TYPE_INLINE_UNIFORM_BLOCK, 16, false),
        make_layout(0, VK_DESCRIPTOR_TYPE_SAMPLER, 8, true),
    };
    one_by_one(layouts[0], layouts[1], layouts[2]);
    not_served(layouts[0], layouts[3]);
    short_lived();
    at_once(layouts[0]);
    for (uint32_t place = 0; place < FEW; place++)
        vkDestroyDescriptorSetLayout(layer.device, layouts[place], NULL);
    vkDestroySampler(layer.device, sampler, NULL);
    layer_close();
    puts("done");
    return 0;
}
