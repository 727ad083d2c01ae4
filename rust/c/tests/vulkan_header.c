// gpu_descriptor_vulkan.h over functions of its own, so that no driver is needed: how the header converts
// results and statuses, a device that is lost, what a pool with inline uniform blocks is created from, which
// flags and counts a layout may have, and a request for thousands of sets.
#include "gpu_descriptor_vulkan.h"
#include "host.h"

// The results of the calls that may fail. All later ones are VK_SUCCESS.
static VkResult results[64];
static uint32_t result_count, used;
static uint64_t pools, sets_alive, calls;

// Handles have more than 32 bits, also where they are numbers: those that the driver gives, and of layouts.
static const uint64_t FIRST_HANDLE = UINT64_C(1) << 40, LAYOUT = UINT64_C(3) << 40;
static uint64_t next_handle = UINT64_C(1) << 40;
// The variable count of each set of the last call, and whether it had some; the sampled images of the last pool.
static uint32_t variable_count, pool_images;
static bool has_variable_count;
// The inline uniform blocks of the last pool: bytes, and bindings.
static uint32_t block_bytes, block_bindings;

static VkResult next_result(void) {
    return used == result_count ? VK_SUCCESS : results[used++];
}

static void note_blocks(const VkDescriptorPoolCreateInfo *info) {
    const VkDescriptorPoolInlineUniformBlockCreateInfo *blocks = info->pNext;
    block_bytes = pool_images = 0;
    block_bindings = blocks == NULL ? 0 : blocks->maxInlineUniformBlockBindings;
    for (uint32_t at = 0; at < info->poolSizeCount; at++) {
        if (info->pPoolSizes[at].type == VK_DESCRIPTOR_TYPE_INLINE_UNIFORM_BLOCK)
            block_bytes = info->pPoolSizes[at].descriptorCount;
        if (info->pPoolSizes[at].type == VK_DESCRIPTOR_TYPE_SAMPLED_IMAGE)
            pool_images = info->pPoolSizes[at].descriptorCount;
    }
}

// A call has no variable counts, or one for each set.
static void note_variable_counts(const VkDescriptorSetAllocateInfo *info) {
    const VkDescriptorSetVariableDescriptorCountAllocateInfo *variable = info->pNext;
    has_variable_count = variable != NULL;
    if (variable == NULL)
        return;
    CHECK(variable->sType == VK_STRUCTURE_TYPE_DESCRIPTOR_SET_VARIABLE_DESCRIPTOR_COUNT_ALLOCATE_INFO);
    CHECK(variable->pNext == NULL && variable->descriptorSetCount == info->descriptorSetCount);
    variable_count = variable->pDescriptorCounts[0];
    for (uint32_t at = 0; at < info->descriptorSetCount; at++)
        CHECK(variable->pDescriptorCounts[at] == variable_count);
}

static VKAPI_ATTR VkResult VKAPI_CALL create_pool(VkDevice device, const VkDescriptorPoolCreateInfo *info,
                                                  const VkAllocationCallbacks *callbacks,
                                                  VkDescriptorPool *pool) {
    (void)device, (void)callbacks;
    CHECK(info->maxSets > 0);
    calls++;
    note_blocks(info);
    VkResult result = next_result();
    if (result == VK_SUCCESS) {
        pools++;
        *pool = GDV_HANDLE(VkDescriptorPool, ++next_handle);
    }
    return result;
}

static VKAPI_ATTR void VKAPI_CALL destroy_pool(VkDevice device, VkDescriptorPool pool,
                                               const VkAllocationCallbacks *callbacks) {
    (void)device, (void)callbacks;
    CHECK(GDV_NUMBER(pool) > FIRST_HANDLE);
    pools--;
}

static VKAPI_ATTR VkResult VKAPI_CALL allocate_sets(VkDevice device, const VkDescriptorSetAllocateInfo *info,
                                                    VkDescriptorSet *sets) {
    (void)device;
    CHECK(GDV_NUMBER(info->descriptorPool) > FIRST_HANDLE);
    for (uint32_t at = 0; at < info->descriptorSetCount; at++)
        CHECK(GDV_NUMBER(info->pSetLayouts[at]) >= LAYOUT && info->pSetLayouts[at] == info->pSetLayouts[0]);
    note_variable_counts(info);
    calls++;
    VkResult result = next_result();
    for (uint32_t at = 0; result == VK_SUCCESS && at < info->descriptorSetCount; at++) {
        sets[at] = GDV_HANDLE(VkDescriptorSet, ++next_handle);
        sets_alive++;
    }
    return result;
}

static VKAPI_ATTR VkResult VKAPI_CALL free_sets(VkDevice device, VkDescriptorPool pool, uint32_t count,
                                                const VkDescriptorSet *sets) {
    (void)device;
    CHECK(GDV_NUMBER(pool) > FIRST_HANDLE);
    for (uint32_t at = 0; at < count; at++)
        CHECK(GDV_NUMBER(sets[at]) > FIRST_HANDLE);
    sets_alive -= count;
    return VK_SUCCESS;
}

static gdv_device functions(void) {
    gdv_device vulkan = {NULL, NULL, create_pool, destroy_pool, allocate_sets, free_sets};
    return vulkan;
}

// Each error keeps its cause, and becomes one that vkAllocateDescriptorSets may return.
static void check_mappings(void) {
    static const struct {
        VkResult result;
        gd_status status;
        VkResult back;
    } ROWS[] = {
        {VK_SUCCESS, GD_OK, VK_SUCCESS},
        {VK_ERROR_OUT_OF_DEVICE_MEMORY, GD_OUT_OF_DEVICE_MEMORY, VK_ERROR_OUT_OF_DEVICE_MEMORY},
        {VK_ERROR_OUT_OF_HOST_MEMORY, GD_OUT_OF_HOST_MEMORY, VK_ERROR_OUT_OF_HOST_MEMORY},
        {VK_ERROR_FRAGMENTED_POOL, GD_FRAGMENTATION, VK_ERROR_FRAGMENTED_POOL},
        {VK_ERROR_FRAGMENTATION, GD_FRAGMENTATION, VK_ERROR_FRAGMENTED_POOL},
        {VK_ERROR_OUT_OF_POOL_MEMORY, GD_OUT_OF_POOL_MEMORY, VK_ERROR_OUT_OF_POOL_MEMORY},
        {VK_ERROR_DEVICE_LOST, GD_DEVICE_LOST, VK_ERROR_DEVICE_LOST},
        {VK_ERROR_UNKNOWN, GD_BAD_RESULT, VK_ERROR_UNKNOWN},
        {VK_ERROR_INITIALIZATION_FAILED, GD_BAD_RESULT, VK_ERROR_UNKNOWN},
    };
    for (size_t row = 0; row < sizeof ROWS / sizeof *ROWS; row++) {
        CHECK(gdv_reason(ROWS[row].result) == ROWS[row].status);
        CHECK(gdv_result(ROWS[row].status) == ROWS[row].back);
    }
    for (gd_status status = GD_NULL_POINTER; status <= GD_BAD_VERSION; status++)
        CHECK(gdv_result(status) == VK_ERROR_UNKNOWN);
}

// A layout with few sets in a pool, so that a request takes several pools.
static gd_layout large_layout(gd_allocator allocator) {
    uint32_t counts[GD_KINDS] = {[GD_SAMPLER] = 100000000};
    gd_layout layout;
    CHECK(gd_add_layout(allocator, LAYOUT, counts, 0, &layout) == GD_OK);
    return layout;
}

// The device is lost at each call of a request, and stays lost, whatever it returns later: that is the status,
// and all calls that free and destroy work.
static void lose_the_device(void) {
    gd_set many[200], few[8];
    for (uint32_t at = 0; at < 6; at++) {
        gdv_device vulkan = functions();
        gd_allocator allocator;
        gd_layout small;
        uint32_t counts[GD_KINDS] = {1};
        uint64_t out = 0;
        result_count = used = 0;
        CHECK(gdv_create(&vulkan, 100, &allocator) == GD_OK);
        gd_layout large = large_layout(allocator);
        CHECK(gd_add_layout(allocator, LAYOUT + 1, counts, 0, &small) == GD_OK);
        CHECK(gd_allocate(allocator, small, 8, few) == GD_OK && gd_free(allocator, few, 2) == GD_OK);
        for (uint32_t lost = 0; lost < 64; lost++)
            results[lost] = lost < at ? VK_SUCCESS : lost == at ? VK_ERROR_DEVICE_LOST : VK_ERROR_UNKNOWN;
        result_count = 64;
        CHECK(gd_allocate(allocator, large, 200, many) == GD_DEVICE_LOST && sets_alive == 6);
        CHECK(gd_outstanding(allocator, &out) == GD_OK && out == 6 && gdv_handle(many[0]) == VK_NULL_HANDLE);
        CHECK(gd_free_after(allocator, few + 2, 3, 1) == GD_OK && gd_frame_done(allocator, 1) == GD_OK);
        CHECK(gd_free(allocator, few + 5, 1) == GD_OK && gd_cleanup(allocator) == GD_OK && sets_alive == 2);
        CHECK(gd_free_all(allocator) == GD_OK && gd_destroy(allocator) == GD_OK);
        CHECK(sets_alive == 0 && pools == 0);
    }
}

// An unknown error first, and then the device is lost. The next request has its own status.
static void lose_the_device_late(void) {
    gdv_device vulkan = functions();
    gd_allocator allocator;
    gd_set many[200], one;
    uint32_t counts[GD_KINDS] = {1};
    gd_layout small;
    result_count = used = 0;
    CHECK(gdv_create(&vulkan, 100, &allocator) == GD_OK);
    gd_layout large = large_layout(allocator);
    CHECK(gd_add_layout(allocator, LAYOUT + 1, counts, 0, &small) == GD_OK);
    CHECK(gd_allocate(allocator, small, 1, &one) == GD_OK && gd_free(allocator, &one, 1) == GD_OK);
    results[0] = VK_ERROR_UNKNOWN;
    results[1] = VK_ERROR_DEVICE_LOST;
    results[2] = VK_ERROR_OUT_OF_DEVICE_MEMORY;
    result_count = 3;
    CHECK(gd_allocate(allocator, large, 200, many) == GD_DEVICE_LOST && used == 2);
    CHECK(gd_allocate(allocator, large, 200, many) == GD_OUT_OF_DEVICE_MEMORY && used == 3);
    CHECK(gd_destroy(allocator) == GD_OK && pools == 0);
}

// The bytes that a driver is asked for, for this many bytes and bindings of a pool.
static uint32_t bytes_asked(uint32_t bytes, uint32_t bindings) {
    gdv_device vulkan = functions();
    gd_pool_info info = {.max_sets = 1, .flags = GD_FREE_DESCRIPTOR_SET, .counts = {[GD_SAMPLER] = 1}};
    uint64_t pool;
    info.counts[GD_INLINE_UNIFORM_BLOCK_BYTES] = bytes;
    info.counts[GD_INLINE_UNIFORM_BLOCK_BINDINGS] = bindings;
    result_count = used = 0;
    CHECK(gdv_create_pool(&vulkan, &info, &pool) == GD_OK && block_bindings == bindings);
    gdv_destroy_pool(&vulkan, pool);
    return block_bytes;
}

// A driver may round the bytes of each block up to a multiple of 16: the pool holds its sets all the same.
static void round_blocks(void) {
    CHECK(bytes_asked(64 * (4 + 4 + 16), 64 * 3) == 64 * (16 + 16 + 28));
    CHECK(bytes_asked(0, 0) == 0 && bytes_asked(0, 5) == 0);
    CHECK(bytes_asked(8, UINT32_MAX) == UINT32_MAX && bytes_asked(UINT32_MAX - 23, 2) == UINT32_MAX);
    CHECK(bytes_asked(UINT32_MAX - 25, 2) == UINT32_MAX - 1 && bytes_asked(UINT32_MAX - 24, 2) == UINT32_MAX);
}

// Each flag of a layout but update-after-bind is refused, as that of layouts for the host alone, which is 4.
static void refuse_flags(void) {
    VkDescriptorSetLayoutCreateInfo info = {0};
    uint32_t counts[GD_KINDS], flags = 0;
    for (uint32_t flag = 1; flag != 0; flag <<= 1) {
        const bool is_served = flag == GD_UPDATE_AFTER_BIND;
        info.flags = flag;
        CHECK(gdv_count(&info, counts, &flags) == (is_served ? GD_OK : GD_BAD_COUNTS));
        CHECK(!is_served || flags == flag);
        info.flags = flag | GD_UPDATE_AFTER_BIND;
        CHECK(gdv_count(&info, counts, &flags) == (is_served ? GD_OK : GD_BAD_COUNTS));
    }
}

// Counts are refused past 32 bits, and not past 31.
static void count_past_31_bits(void) {
    const uint32_t half = UINT32_C(1) << 31;
    VkDescriptorSetLayoutBinding bindings[2] = {
        {.descriptorType = VK_DESCRIPTOR_TYPE_SAMPLED_IMAGE, .descriptorCount = half},
        {.binding = 1, .descriptorType = VK_DESCRIPTOR_TYPE_SAMPLED_IMAGE, .descriptorCount = half - 1}};
    const VkDescriptorSetLayoutCreateInfo info = {.bindingCount = 2, .pBindings = bindings};
    uint32_t counts[GD_KINDS], flags = 0;
    CHECK(gdv_count(&info, counts, &flags) == GD_OK && counts[GD_SAMPLED_IMAGE] == UINT32_MAX);
    bindings[1].descriptorCount = half;
    CHECK(gdv_count(&info, counts, &flags) == GD_BAD_COUNTS);
}

// A pool, and one call for it; each set has its whole handle.
static void allocate_many(void) {
    enum { MANY = 5000 };
    static gd_set sets[MANY];
    const VkDescriptorSetLayoutBinding binding = {.descriptorType = VK_DESCRIPTOR_TYPE_SAMPLER, .descriptorCount = 1};
    const VkDescriptorSetLayoutCreateInfo info = {.bindingCount = 1, .pBindings = &binding};
    gdv_device vulkan = functions();
    gd_allocator allocator;
    gd_layout layout;
    result_count = used = 0;
    calls = 0;
    CHECK(gdv_create(&vulkan, 0, &allocator) == GD_OK);
    CHECK(gdv_add_layout(allocator, GDV_HANDLE(VkDescriptorSetLayout, LAYOUT + 7), &info, &layout) == GD_OK);
    CHECK(gd_allocate(allocator, layout, MANY, sets) == GD_OK && sets_alive == MANY && calls == 2);
    for (uint32_t at = 0; at < MANY; at++) {
        const uint64_t handle = GDV_NUMBER(gdv_handle(sets[at]));
        CHECK(handle == sets[at].handle && handle > next_handle - MANY && handle <= next_handle);
    }
    CHECK(gd_free_all(allocator) == GD_OK && gd_destroy(allocator) == GD_OK && sets_alive == 0 && pools == 0);
}

// A layout of a uniform buffer and at most MAX_IMAGES sampled images in each set.
enum { MAX_IMAGES = 100000 };

static VkDescriptorSetLayoutBinding image_bindings[2] = {
    {.descriptorType = VK_DESCRIPTOR_TYPE_UNIFORM_BUFFER, .descriptorCount = 1},
    {.binding = 1, .descriptorType = VK_DESCRIPTOR_TYPE_SAMPLED_IMAGE, .descriptorCount = MAX_IMAGES}};
static VkDescriptorBindingFlags image_flags[2] = {0, VK_DESCRIPTOR_BINDING_VARIABLE_DESCRIPTOR_COUNT_BIT};
static const VkDescriptorSetLayoutBindingFlagsCreateInfo images_flagged = {
    .sType = VK_STRUCTURE_TYPE_DESCRIPTOR_SET_LAYOUT_BINDING_FLAGS_CREATE_INFO,
    .bindingCount = 2,
    .pBindingFlags = image_flags};
static const VkDescriptorSetLayoutCreateInfo images = {.pNext = &images_flagged,
                                                       .flags = GD_UPDATE_AFTER_BIND,
                                                       .bindingCount = 2,
                                                       .pBindings = image_bindings};

static void count_variable(void) {
    uint32_t counts[GD_KINDS], flags = 0;
    gd_layout layout = {77, 77};
    VkDescriptorSetLayoutCreateInfo fixed = images;
    fixed.pNext = NULL;
    CHECK(gdv_count(&images, counts, &flags) == GD_BAD_COUNTS);
    CHECK(gdv_count_variable(&images, 1000, counts, &flags) == GD_OK && flags == GD_UPDATE_AFTER_BIND);
    CHECK(counts[GD_UNIFORM_BUFFER] == 1 && counts[GD_SAMPLED_IMAGE] == 1000);
    CHECK(gdv_count_variable(&images, 0, counts, &flags) == GD_OK && counts[GD_SAMPLED_IMAGE] == 0);
    CHECK(gdv_count_variable(&images, MAX_IMAGES, counts, &flags) == GD_OK);
    CHECK(gdv_count_variable(&images, MAX_IMAGES + 1, counts, &flags) == GD_BAD_COUNTS);
    CHECK(gdv_count_variable(&fixed, 1000, counts, &flags) == GD_BAD_COUNTS);
    // The variable binding need not be the last of the array.
    const VkDescriptorSetLayoutBinding turned[2] = {image_bindings[1], image_bindings[0]};
    const VkDescriptorBindingFlags turned_flags[2] = {image_flags[1], image_flags[0]};
    VkDescriptorSetLayoutBindingFlagsCreateInfo flagged = images_flagged;
    flagged.pBindingFlags = turned_flags;
    fixed = images;
    fixed.pNext = &flagged;
    fixed.pBindings = turned;
    CHECK(gdv_count_variable(&fixed, 1000, counts, &flags) == GD_OK);
    CHECK(counts[GD_UNIFORM_BUFFER] == 1 && counts[GD_SAMPLED_IMAGE] == 1000);
    fixed = images;
    fixed.flags = 4;
    CHECK(gdv_count_variable(&fixed, 1000, counts, &flags) == GD_BAD_COUNTS);
    const gd_allocator none = {NULL, 0};
    const VkDescriptorSetLayout handle = GDV_HANDLE(VkDescriptorSetLayout, LAYOUT);
    CHECK(gdv_add_layout(none, handle, &images, &layout) == GD_BAD_COUNTS && layout.index == 77);
    CHECK(gdv_add_variable_layout(none, handle, &images, MAX_IMAGES + 1, &layout) == GD_BAD_COUNTS);
    CHECK(gdv_add_variable_layout(none, handle, &images, 5, &layout) == GD_BAD_ALLOCATOR && layout.index == 77);
}

static void count_without_pointers(void) {
    uint32_t counts[GD_KINDS], flags = 0;
    gd_layout layout = {77, 77};
    const gd_allocator none = {NULL, 0};
    const VkDescriptorSetLayout handle = GDV_HANDLE(VkDescriptorSetLayout, LAYOUT);
    CHECK(gdv_count(NULL, counts, &flags) == GD_NULL_POINTER && gdv_count(&images, NULL, &flags) == GD_NULL_POINTER);
    CHECK(gdv_count(&images, counts, NULL) == GD_NULL_POINTER);
    CHECK(gdv_count_variable(NULL, 5, counts, &flags) == GD_NULL_POINTER);
    CHECK(gdv_count_variable(&images, 5, NULL, &flags) == GD_NULL_POINTER);
    CHECK(gdv_count_variable(&images, 5, counts, NULL) == GD_NULL_POINTER);
    CHECK(gdv_add_layout(none, handle, NULL, &layout) == GD_NULL_POINTER && layout.index == 77);
    CHECK(gdv_add_variable_layout(none, handle, NULL, 5, &layout) == GD_NULL_POINTER && layout.index == 77);
}

static gd_status refuse_variable_sets(void *user, uint64_t pool, uint32_t count, const uint64_t *layouts,
                                      const uint32_t *variable_counts, uint64_t *handles) {
    (void)user, (void)pool, (void)count, (void)layouts, (void)variable_counts, (void)handles;
    return GD_OUT_OF_HOST_MEMORY;
}

// Sets of each count have it, in pools of their own, and are kept for their count alone.
static void allocate_variable(void) {
    gdv_device vulkan = functions();
    gd_allocator allocator;
    gd_layout small, large, again, fixed;
    gd_set sets[70], one;
    const VkDescriptorSetLayout handle = GDV_HANDLE(VkDescriptorSetLayout, LAYOUT + 7);
    const uint32_t counts[GD_KINDS] = {[GD_UNIFORM_BUFFER] = 1, [GD_SAMPLED_IMAGE] = 100};
    gd_statistics numbers;
    result_count = used = 0;
    CHECK(gdv_create(&vulkan, 500000, &allocator) == GD_OK);
    CHECK(gd_get_statistics(allocator, &numbers) == GD_OK && numbers.update_after_bind_limit == 500000);
    CHECK(gdv_add_variable_layout(allocator, handle, &images, 100, &small) == GD_OK);
    CHECK(gdv_add_variable_layout(allocator, handle, &images, 60000, &large) == GD_OK && large.index != small.index);
    CHECK(gdv_add_variable_layout(allocator, handle, &images, 100, &again) == GD_OK && again.index == small.index);
    // The same handle and counts without a variable count: another layout.
    CHECK(gd_add_layout(allocator, GDV_NUMBER(handle), counts, GD_UPDATE_AFTER_BIND, &fixed) == GD_OK);
    CHECK(fixed.index != small.index);
    // The function that was set last is called.
    CHECK(gd_allocator_set_allocate_variable_sets(allocator, refuse_variable_sets) == GD_OK);
    CHECK(gd_allocate(allocator, small, 1, &one) == GD_OUT_OF_HOST_MEMORY && pools == 0);
    CHECK(gd_allocator_set_allocate_variable_sets(allocator, gdv_allocate_variable_sets) == GD_OK);
    CHECK(gd_allocate(allocator, small, 70, sets) == GD_OK && has_variable_count && variable_count == 100);
    CHECK(pool_images == 128 * 100 && pools == 1 && sets_alive == 70);
    CHECK(gd_allocate(allocator, fixed, 1, &one) == GD_OK && !has_variable_count && pools == 1);
    CHECK(gd_free(allocator, &one, 1) == GD_OK && gd_free(allocator, sets, 70) == GD_OK);
    CHECK(gd_allocate(allocator, large, 2, sets) == GD_OK && has_variable_count && variable_count == 60000);
    CHECK(pool_images % 60000 == 0 && pools == 2 && sets_alive == 73);
    calls = 0;
    CHECK(gd_allocate(allocator, again, 70, sets + 0) == GD_OK && calls == 0);
    CHECK(gd_remove_layout(allocator, small) == GD_OK && gd_allocate(allocator, again, 1, &one) == GD_BAD_LAYOUT);
    CHECK(gd_allocate(allocator, large, 1, &one) == GD_OK && variable_count == 60000);
    results[0] = VK_ERROR_OUT_OF_DEVICE_MEMORY;
    result_count = 1;
    CHECK(gd_free_all(allocator) == GD_OK && gd_allocate(allocator, large, 3, sets) == GD_OUT_OF_DEVICE_MEMORY);
    CHECK(gd_free_all(allocator) == GD_OK && gd_destroy(allocator) == GD_OK && sets_alive == 0 && pools == 0);
}

int main(void) {
    check_mappings();
    count_variable();
    count_without_pointers();
    allocate_variable();
    round_blocks();
    refuse_flags();
    count_past_31_bits();
    allocate_many();
    lose_the_device();
    lose_the_device_late();
    printf("each error keeps its cause, and pools have room for what drivers round\n");
    return 0;
}
