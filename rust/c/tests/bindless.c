// A bindless program on a Vulkan driver, under the validation layer, which must report nothing: sets of one
// layout with a variable count, of several counts, are written and read by a shader, freed, kept and read
// again.
//
// The exit code is 3 if there is no layer, no driver, or none with variable counts.
#include "bindless_shader.h"
#include "gpu_descriptor_vulkan.h"
#include "host.h"
#include "layer.h"

// The max number of items of a set, the words from one item to the next, and where the results are.
enum { MAX = 24, STRIDE = 64, RESULTS = MAX * STRIDE, WORDS = RESULTS + MAX };

static VkBuffer buffer;
static VkDeviceMemory memory;
static uint32_t *words;
static VkQueue queue;
static VkCommandPool commands_pool;
static VkCommandBuffer commands;
static VkDescriptorSetLayout layout;
static VkPipelineLayout pipeline_layout;
static VkPipeline pipeline;

static VkDescriptorSetLayoutBinding bindings[2] = {
    {0, VK_DESCRIPTOR_TYPE_STORAGE_BUFFER, 1, VK_SHADER_STAGE_COMPUTE_BIT, NULL},
    {1, VK_DESCRIPTOR_TYPE_STORAGE_BUFFER, MAX, VK_SHADER_STAGE_COMPUTE_BIT, NULL},
};
static const VkDescriptorBindingFlags binding_flags[2] = {0, VK_DESCRIPTOR_BINDING_VARIABLE_DESCRIPTOR_COUNT_BIT |
                                                                 VK_DESCRIPTOR_BINDING_UPDATE_AFTER_BIND_BIT};
static const VkDescriptorSetLayoutBindingFlagsCreateInfo flagged = {
    .sType = VK_STRUCTURE_TYPE_DESCRIPTOR_SET_LAYOUT_BINDING_FLAGS_CREATE_INFO,
    .bindingCount = 2,
    .pBindingFlags = binding_flags,
};
static const VkDescriptorSetLayoutCreateInfo layout_info = {
    .sType = VK_STRUCTURE_TYPE_DESCRIPTOR_SET_LAYOUT_CREATE_INFO,
    .pNext = &flagged,
    .flags = VK_DESCRIPTOR_SET_LAYOUT_CREATE_UPDATE_AFTER_BIND_POOL_BIT,
    .bindingCount = 2,
    .pBindings = bindings,
};

static void need_features(void) {
    const VkPhysicalDeviceVulkan12Features *has = &layer.features;
    if (has->descriptorBindingVariableDescriptorCount && has->runtimeDescriptorArray &&
        has->descriptorBindingStorageBufferUpdateAfterBind && has->shaderStorageBufferArrayNonUniformIndexing)
        return;
    printf("skipped: the driver has no variable counts of storage buffers\n");
    exit(LAYER_MISSING);
}

static void make_buffer(void) {
    const VkBufferCreateInfo info = {.sType = VK_STRUCTURE_TYPE_BUFFER_CREATE_INFO,
                                     .size = WORDS * sizeof *words,
                                     .usage = VK_BUFFER_USAGE_STORAGE_BUFFER_BIT};
    const VkFlags host = VK_MEMORY_PROPERTY_HOST_VISIBLE_BIT | VK_MEMORY_PROPERTY_HOST_COHERENT_BIT;
    VkMemoryRequirements wanted;
    VkPhysicalDeviceMemoryProperties types;
    uint32_t type = 0;
    void *start = NULL;
    CHECK(vkCreateBuffer(layer.device, &info, NULL, &buffer) == VK_SUCCESS);
    vkGetBufferMemoryRequirements(layer.device, buffer, &wanted);
    vkGetPhysicalDeviceMemoryProperties(layer.physical, &types);
    while ((wanted.memoryTypeBits >> type & 1) == 0 || (types.memoryTypes[type].propertyFlags & host) != host)
        CHECK(++type < types.memoryTypeCount);
    const VkMemoryAllocateInfo block = {VK_STRUCTURE_TYPE_MEMORY_ALLOCATE_INFO, NULL, wanted.size, type};
    CHECK(vkAllocateMemory(layer.device, &block, NULL, &memory) == VK_SUCCESS);
    CHECK(vkBindBufferMemory(layer.device, buffer, memory, 0) == VK_SUCCESS);
    CHECK(vkMapMemory(layer.device, memory, 0, VK_WHOLE_SIZE, 0, &start) == VK_SUCCESS);
    words = start;
    for (uint32_t item = 0; item < MAX; item++)
        words[item * STRIDE] = 1000 + 7 * item;
}

static void make_pipeline(void) {
    const VkPipelineLayoutCreateInfo of_sets = {.sType = VK_STRUCTURE_TYPE_PIPELINE_LAYOUT_CREATE_INFO,
                                                .setLayoutCount = 1,
                                                .pSetLayouts = &layout};
    const VkShaderModuleCreateInfo code = {.sType = VK_STRUCTURE_TYPE_SHADER_MODULE_CREATE_INFO,
                                           .codeSize = sizeof bindless_shader,
                                           .pCode = bindless_shader};
    VkComputePipelineCreateInfo info = {.sType = VK_STRUCTURE_TYPE_COMPUTE_PIPELINE_CREATE_INFO,
                                        .stage = {.sType = VK_STRUCTURE_TYPE_PIPELINE_SHADER_STAGE_CREATE_INFO,
                                                  .stage = VK_SHADER_STAGE_COMPUTE_BIT,
                                                  .pName = "main"}};
    CHECK(vkCreateDescriptorSetLayout(layer.device, &layout_info, NULL, &layout) == VK_SUCCESS);
    CHECK(vkCreatePipelineLayout(layer.device, &of_sets, NULL, &pipeline_layout) == VK_SUCCESS);
    CHECK(vkCreateShaderModule(layer.device, &code, NULL, &info.stage.module) == VK_SUCCESS);
    info.layout = pipeline_layout;
    CHECK(vkCreateComputePipelines(layer.device, VK_NULL_HANDLE, 1, &info, NULL, &pipeline) == VK_SUCCESS);
    vkDestroyShaderModule(layer.device, info.stage.module, NULL);
}

static void make_commands(void) {
    const VkCommandPoolCreateInfo pool = {.sType = VK_STRUCTURE_TYPE_COMMAND_POOL_CREATE_INFO};
    CHECK(vkCreateCommandPool(layer.device, &pool, NULL, &commands_pool) == VK_SUCCESS);
    const VkCommandBufferAllocateInfo info = {.sType = VK_STRUCTURE_TYPE_COMMAND_BUFFER_ALLOCATE_INFO,
                                              .commandPool = commands_pool,
                                              .commandBufferCount = 1};
    CHECK(vkAllocateCommandBuffers(layer.device, &info, &commands) == VK_SUCCESS);
    vkGetDeviceQueue(layer.device, 0, 0, &queue);
}

// The set has the first items, the last one first.
static void write_set(VkDescriptorSet set, uint32_t count) {
    VkDescriptorBufferInfo results = {buffer, RESULTS * sizeof *words, MAX * sizeof *words}, items[MAX];
    for (uint32_t at = 0; at < count; at++)
        items[at] = (VkDescriptorBufferInfo){buffer, (count - 1 - at) * STRIDE * sizeof *words, sizeof *words};
    const VkWriteDescriptorSet writes[] = {
        {.sType = VK_STRUCTURE_TYPE_WRITE_DESCRIPTOR_SET, .dstSet = set, .descriptorCount = 1,
         .descriptorType = VK_DESCRIPTOR_TYPE_STORAGE_BUFFER, .pBufferInfo = &results},
        {.sType = VK_STRUCTURE_TYPE_WRITE_DESCRIPTOR_SET, .dstSet = set, .dstBinding = 1, .descriptorCount = count,
         .descriptorType = VK_DESCRIPTOR_TYPE_STORAGE_BUFFER, .pBufferInfo = items},
    };
    vkUpdateDescriptorSets(layer.device, 2, writes, 0, NULL);
}

// The shader reads each item of the set.
static void read_set(VkDescriptorSet set, uint32_t count) {
    const VkCommandBufferBeginInfo begin = {.sType = VK_STRUCTURE_TYPE_COMMAND_BUFFER_BEGIN_INFO,
                                            .flags = VK_COMMAND_BUFFER_USAGE_ONE_TIME_SUBMIT_BIT};
    const VkSubmitInfo submit = {.sType = VK_STRUCTURE_TYPE_SUBMIT_INFO, .commandBufferCount = 1,
                                 .pCommandBuffers = &commands};
    CHECK(vkResetCommandPool(layer.device, commands_pool, 0) == VK_SUCCESS);
    CHECK(vkBeginCommandBuffer(commands, &begin) == VK_SUCCESS);
    vkCmdBindPipeline(commands, VK_PIPELINE_BIND_POINT_COMPUTE, pipeline);
    vkCmdBindDescriptorSets(commands, VK_PIPELINE_BIND_POINT_COMPUTE, pipeline_layout, 0, 1, &set, 0, NULL);
    vkCmdDispatch(commands, count, 1, 1);
    CHECK(vkEndCommandBuffer(commands) == VK_SUCCESS);
    CHECK(vkQueueSubmit(queue, 1, &submit, VK_NULL_HANDLE) == VK_SUCCESS && vkQueueWaitIdle(queue) == VK_SUCCESS);
    for (uint32_t at = 0; at < count; at++)
        CHECK(words[RESULTS + at] == 1000 + 7 * (count - 1 - at));
}

// Some sets of a count are allocated, read and freed, twice.
static void use_count(gd_allocator allocator, uint32_t count) {
    gd_layout known;
    gd_set sets[5];
    CHECK(gdv_add_variable_layout(allocator, layout, &layout_info, count, &known) == GD_OK);
    for (int turn = 0; turn < 2; turn++) {
        CHECK(gd_allocate(allocator, known, 5, sets) == GD_OK);
        for (uint32_t at = 0; at < 5; at++) {
            write_set(gdv_handle(sets[at]), count);
            read_set(gdv_handle(sets[at]), count);
        }
        CHECK(gd_free(allocator, sets, 5) == GD_OK);
    }
}

int main(int argument_count, char **arguments) {
    gdv_device vulkan;
    gd_allocator allocator;
    gd_layout known;
    const uint32_t keep = (uint32_t)number_at(argument_count, arguments, 1, UINT32_MAX);
    layer_open(VK_API_VERSION_1_3);
    need_features();
    make_buffer();
    make_pipeline();
    make_commands();
    CHECK(gdv_init(&vulkan, layer.device, NULL) == GD_OK && gdv_create(&vulkan, layer.limit, &allocator) == GD_OK);
    CHECK(gd_allocator_set_max_kept(allocator, keep) == GD_OK);
    CHECK(gdv_add_layout(allocator, layout, &layout_info, &known) == GD_BAD_COUNTS);
    use_count(allocator, 3);
    use_count(allocator, MAX);
    use_count(allocator, 1);
    CHECK(gd_destroy(allocator) == GD_OK);
    vkDestroyCommandPool(layer.device, commands_pool, NULL);
    vkDestroyPipeline(layer.device, pipeline, NULL);
    vkDestroyPipelineLayout(layer.device, pipeline_layout, NULL);
    vkDestroyDescriptorSetLayout(layer.device, layout, NULL);
    vkDestroyBuffer(layer.device, buffer, NULL);
    vkFreeMemory(layer.device, memory, NULL);
    layer_close();
    CHECK(layer.messages == 0);
    printf("sets of one layout with 3, %d and 1 of its descriptors\n", MAX);
    return 0;
}
