// Random requests on a Vulkan driver through gpu_descriptor_vulkan.h, under the validation layer, which must
// report nothing.
//
// Sets are freed at once, or when a frame is done. One of the header's calls in twelve returns an error and
// doesn't reach the driver, since a driver in software never fails. One in fifty of the header's and the
// library's allocations fails too, and one in four while an allocator is created, which happens every few
// hundred operations. A free allocates no memory. On a device of 1.3 there are marked layouts and inline
// uniform blocks; on one of 1.0 there are none, and the layer reports a pool that is asked for more than it
// has left. KEEP is how many sets are kept, at first all.
//
// The exit code is 3 if there is no layer or no driver.
//
// usage: vulkan OPERATIONS SEED [VERSION [KEEP]]
#include "host.h"
#include "layer.h"
#include "memory.h"
#include <string.h>

#include "gpu_descriptor_vulkan.h"

// Bindings of a layout, sets of a request and of a free, operations of a round, and sets of the one large
// request in it.
enum { MAX_BINDINGS = 5, MAX_SETS = 200, MAX_FREED = 300, ROUND = 300, MANY = 1500 };

// How rarely the driver and the memory refuse.
enum { DRIVER_ONE_IN = 12, MEMORY_ONE_IN = 50, MEMORY_AT_OPEN_ONE_IN = 4 };

// A layout: its bindings, and what a set of it must count.
struct layout {
    bool is_marked, is_new; // marked; not on a device of 1.0
    uint32_t binding_count;
    struct {
        VkDescriptorType type;
        uint32_t count;
    } bindings[MAX_BINDINGS];
    uint32_t counts[GD_KINDS];
    VkDescriptorSetLayout handle;
    gd_layout known;
};

static struct layout layouts[] = {
    {.binding_count = 2,
     .bindings = {{VK_DESCRIPTOR_TYPE_SAMPLER, 1}, {VK_DESCRIPTOR_TYPE_UNIFORM_BUFFER, 2}},
     .counts = {[GD_SAMPLER] = 1, [GD_UNIFORM_BUFFER] = 2}},
    {.binding_count = 3,
     .bindings = {{VK_DESCRIPTOR_TYPE_SAMPLER, 2},
                  {VK_DESCRIPTOR_TYPE_COMBINED_IMAGE_SAMPLER, 3},
                  {VK_DESCRIPTOR_TYPE_SAMPLER, 2}},
     .counts = {[GD_SAMPLER] = 4, [GD_COMBINED_IMAGE_SAMPLER] = 3}},
    {.binding_count = 5,
     .bindings = {{VK_DESCRIPTOR_TYPE_UNIFORM_BUFFER_DYNAMIC, 1},
                  {VK_DESCRIPTOR_TYPE_STORAGE_BUFFER_DYNAMIC, 2},
                  {VK_DESCRIPTOR_TYPE_INPUT_ATTACHMENT, 1},
                  {VK_DESCRIPTOR_TYPE_UNIFORM_TEXEL_BUFFER, 3},
                  {VK_DESCRIPTOR_TYPE_STORAGE_TEXEL_BUFFER, 4}},
     .counts = {[GD_UNIFORM_BUFFER_DYNAMIC] = 1,
                [GD_STORAGE_BUFFER_DYNAMIC] = 2,
                [GD_INPUT_ATTACHMENT] = 1,
                [GD_UNIFORM_TEXEL_BUFFER] = 3,
                [GD_STORAGE_TEXEL_BUFFER] = 4}},
    {.binding_count = 3,
     .bindings = {{VK_DESCRIPTOR_TYPE_STORAGE_BUFFER, 2},
                  {VK_DESCRIPTOR_TYPE_STORAGE_IMAGE, 1},
                  {VK_DESCRIPTOR_TYPE_SAMPLED_IMAGE, 0}},
     .counts = {[GD_STORAGE_BUFFER] = 2, [GD_STORAGE_IMAGE] = 1}},
    {.binding_count = 0},
    {.is_new = true,
     .is_marked = true,
     .binding_count = 1,
     .bindings = {{VK_DESCRIPTOR_TYPE_SAMPLED_IMAGE, 4}},
     .counts = {[GD_SAMPLED_IMAGE] = 4}},
    {.is_new = true,
     .binding_count = 3,
     .bindings = {{VK_DESCRIPTOR_TYPE_INLINE_UNIFORM_BLOCK, 16},
                  {VK_DESCRIPTOR_TYPE_UNIFORM_BUFFER, 1},
                  {VK_DESCRIPTOR_TYPE_INLINE_UNIFORM_BLOCK, 8}},
     .counts = {[GD_INLINE_UNIFORM_BLOCK_BYTES] = 24,
                [GD_INLINE_UNIFORM_BLOCK_BINDINGS] = 2,
                [GD_UNIFORM_BUFFER] = 1}},
};

static gdv_device vulkan;
static gd_allocator allocator;
static struct layout *asked_layout; // that of the request on its way
static uint32_t layout_count;
static gd_set *held;
static size_t held_count, held_room;
static struct names names;
static gd_set freed; // any set that was freed
static VkSampler sampler;
// What the driver has, pools, sets and blocks of their memory, and how many calls there were.
static uint64_t live_pools, live_sets, live_blocks, pools_created, calls_refused, asked_count;
static uint64_t statuses[GD_INTERNAL_ERROR + 1];
static uint64_t frame = 10, waiting;
static uint32_t keep;

// ---- in front of the driver ----

// VK_SUCCESS, or an error that is returned without a call of the driver.
static VkResult refusal(void) {
    static const VkResult ERRORS[] = {
        VK_ERROR_OUT_OF_DEVICE_MEMORY, VK_ERROR_OUT_OF_HOST_MEMORY, VK_ERROR_FRAGMENTED_POOL,
        VK_ERROR_FRAGMENTATION,        VK_ERROR_OUT_OF_POOL_MEMORY, VK_ERROR_UNKNOWN,
        VK_ERROR_DEVICE_LOST,
    };
    if (!one_in(DRIVER_ONE_IN))
        return VK_SUCCESS;
    calls_refused++;
    return ERRORS[random_below(7)];
}

// A pool has what its sets take, by kind, and no more, but for 12 bytes for each inline uniform block; one of sets
// without descriptors has a sampler.
static void check_pool(const VkDescriptorPoolCreateInfo *info) {
    uint32_t counts[GD_KINDS] = {0}, sum = 0;
    for (uint32_t place = 0; place < info->poolSizeCount; place++) {
        CHECK(info->pPoolSizes[place].descriptorCount > 0);
        uint32_t kind = gdv_kind(info->pPoolSizes[place].type);
        CHECK(kind < GD_KINDS && counts[kind] == 0);
        counts[kind] = info->pPoolSizes[place].descriptorCount;
    }
    const VkDescriptorPoolInlineUniformBlockCreateInfo *blocks = info->pNext;
    CHECK((blocks != NULL) == (counts[GD_INLINE_UNIFORM_BLOCK_BYTES] > 0));
    if (blocks != NULL) {
        counts[GD_INLINE_UNIFORM_BLOCK_BINDINGS] = blocks->maxInlineUniformBlockBindings;
        counts[GD_INLINE_UNIFORM_BLOCK_BYTES] -= 12 * blocks->maxInlineUniformBlockBindings;
    }
    for (int kind = 0; kind < GD_KINDS; kind++)
        sum += asked_layout->counts[kind];
    for (int kind = 0; kind < GD_KINDS; kind++)
        CHECK(counts[kind] == (sum == 0 ? kind == 0 : asked_layout->counts[kind] * info->maxSets));
    CHECK(info->flags == (asked_layout->is_marked ? 3u : 1u));
}

static VkResult create_pool(VkDevice device, const VkDescriptorPoolCreateInfo *info,
                            const VkAllocationCallbacks *callbacks, VkDescriptorPool *pool) {
    memory_pause();
    check_pool(info);
    VkResult why = refusal();
    if (why == VK_SUCCESS) {
        CHECK(vkCreateDescriptorPool(device, info, callbacks, pool) == VK_SUCCESS);
        pools_created++;
        live_pools++;
    }
    memory_go_on();
    return why;
}

static void destroy_pool(VkDevice device, VkDescriptorPool pool,
                         const VkAllocationCallbacks *callbacks) {
    memory_pause();
    vkDestroyDescriptorPool(device, pool, callbacks);
    live_pools--;
    memory_go_on();
}

static VkResult allocate_sets(VkDevice device, const VkDescriptorSetAllocateInfo *info,
                              VkDescriptorSet *sets) {
    memory_pause();
    VkResult why = refusal();
    asked_count++;
    if (why == VK_SUCCESS) {
        CHECK(vkAllocateDescriptorSets(device, info, sets) == VK_SUCCESS);
        live_sets += info->descriptorSetCount;
    }
    memory_go_on();
    return why;
}

static VkResult free_sets(VkDevice device, VkDescriptorPool pool, uint32_t count,
                          const VkDescriptorSet *sets) {
    memory_pause();
    CHECK(count > 0);
    live_sets -= count;
    CHECK(vkFreeDescriptorSets(device, pool, count, sets) == VK_SUCCESS);
    memory_go_on();
    return VK_SUCCESS;
}

// ---- the driver's memory for pools ----

static void *allocate_block(void *user, size_t size, size_t alignment,
                            VkSystemAllocationScope scope) {
    (void)scope;
    CHECK(user == &live_blocks);
    live_blocks++;
    return aligned_alloc(alignment, (size + alignment - 1) / alignment * alignment);
}

static void free_block(void *user, void *block) {
    CHECK(user == &live_blocks);
    live_blocks -= block != NULL;
    memory_free_other(block);
}

// No driver needs it for a pool; the standard has no realloc that aligns.
static void *grow_block(void *user, void *block, size_t size, size_t alignment,
                        VkSystemAllocationScope scope) {
    (void)user, (void)block, (void)size, (void)alignment, (void)scope;
    return NULL;
}

// ---- layouts ----

static void make_layout_known(struct layout *layout, const VkDescriptorSetLayoutCreateInfo *info) {
    gd_status status;
    do
        status = LIBRARY(gdv_add_layout(allocator, layout->handle, info, &layout->known));
    while (status == GD_OUT_OF_HOST_MEMORY);
    CHECK(status == GD_OK);
}

// Makes a layout known, which is created on the device if it isn't there yet.
static void make_layout(struct layout *layout) {
    VkDescriptorSetLayoutBinding bindings[MAX_BINDINGS] = {0};
    VkDescriptorBindingFlags flags[MAX_BINDINGS] = {0};
    for (uint32_t place = 0; place < layout->binding_count; place++) {
        bindings[place].binding = place;
        bindings[place].descriptorType = layout->bindings[place].type;
        bindings[place].descriptorCount = layout->bindings[place].count;
        bindings[place].stageFlags = VK_SHADER_STAGE_FRAGMENT_BIT;
        if (layout->is_marked && layer.features.descriptorBindingSampledImageUpdateAfterBind)
            flags[place] = VK_DESCRIPTOR_BINDING_UPDATE_AFTER_BIND_BIT;
    }
    VkDescriptorSetLayoutBindingFlagsCreateInfo flagged = {
        .sType = VK_STRUCTURE_TYPE_DESCRIPTOR_SET_LAYOUT_BINDING_FLAGS_CREATE_INFO,
        .bindingCount = layout->binding_count,
        .pBindingFlags = flags,
    };
    VkDescriptorSetLayoutCreateInfo info = {
        .sType = VK_STRUCTURE_TYPE_DESCRIPTOR_SET_LAYOUT_CREATE_INFO,
        .pNext = layout->is_marked ? &flagged : NULL,
        .flags = layout->is_marked ? VK_DESCRIPTOR_SET_LAYOUT_CREATE_UPDATE_AFTER_BIND_POOL_BIT : 0,
        .bindingCount = layout->binding_count,
        .pBindings = bindings,
    };
    if (layout->handle == VK_NULL_HANDLE)
        CHECK(vkCreateDescriptorSetLayout(layer.device, &info, NULL, &layout->handle) ==
              VK_SUCCESS);
    make_layout_known(layout, &info);
}

// Layouts that the header must refuse: a type that isn't counted, counts past 32 bits, other flags,
// a binding of a variable count.
static void make_wrong_layouts(void) {
    VkDescriptorSetLayoutBinding bindings[2] = {
        {.descriptorType = VK_DESCRIPTOR_TYPE_SAMPLER, .descriptorCount = UINT32_MAX},
        {.binding = 1, .descriptorType = VK_DESCRIPTOR_TYPE_SAMPLER, .descriptorCount = 1}};
    VkDescriptorSetLayoutCreateInfo info = {.bindingCount = 2, .pBindings = bindings};
    gd_layout known = {77, 77};
    CHECK(gdv_add_layout(allocator, layouts[0].handle, &info, &known) == GD_BAD_COUNTS);
    bindings[0].descriptorType = VK_DESCRIPTOR_TYPE_MAX_ENUM;
    CHECK(gdv_add_layout(allocator, layouts[0].handle, &info, &known) == GD_BAD_COUNTS);
    uint32_t counts[GD_KINDS], no_flags;
    bindings[0].descriptorCount = 0; // then the type doesn't matter
    CHECK(gdv_count(&info, counts, &no_flags) == GD_OK && counts[GD_SAMPLER] == 1 && no_flags == 0);
    info.bindingCount = 0;
    info.flags = VK_DESCRIPTOR_SET_LAYOUT_CREATE_PUSH_DESCRIPTOR_BIT_KHR;
    CHECK(gdv_add_layout(allocator, layouts[0].handle, &info, &known) == GD_BAD_COUNTS);
    VkDescriptorBindingFlags flags[2] = {0, VK_DESCRIPTOR_BINDING_VARIABLE_DESCRIPTOR_COUNT_BIT};
    VkDescriptorSetLayoutBindingFlagsCreateInfo flagged = {
        .sType = VK_STRUCTURE_TYPE_DESCRIPTOR_SET_LAYOUT_BINDING_FLAGS_CREATE_INFO,
        .bindingCount = 2,
        .pBindingFlags = flags,
    };
    VkDescriptorSetLayoutSupport before = {.pNext = &flagged};
    info.flags = 0;
    info.pNext = &before;
    CHECK(gdv_add_layout(allocator, layouts[0].handle, &info, &known) == GD_BAD_COUNTS);
    CHECK(gdv_add_layout(allocator, layouts[0].handle, NULL, &known) == GD_NULL_POINTER);
    CHECK(known.index == 77 && known.owner == 77);
}

// ---- requests ----

// Writes to a set, so that the layer sees whether it is one of this layout.
static void write_sampler(VkDescriptorSet set) {
    VkDescriptorImageInfo image = {.sampler = sampler};
    VkWriteDescriptorSet write = {
        .sType = VK_STRUCTURE_TYPE_WRITE_DESCRIPTOR_SET,
        .dstSet = set,
        .descriptorCount = 1,
        .descriptorType = VK_DESCRIPTOR_TYPE_SAMPLER,
        .pImageInfo = &image,
    };
    vkUpdateDescriptorSets(layer.device, 1, &write, 0, NULL);
}

// In every other round requests are small, and several in a row are for one layout: so more sets of
// a pool may go back at once than were ever asked for at once.
static void allocate(void) {
    gd_set sets[MAX_SETS];
    bool is_small = operation / ROUND % 2 == 0;
    uint32_t count = 1 + random_below(one_in(10) && !is_small ? MAX_SETS : 8);
    if (asked_layout == NULL || !is_small || one_in(60))
        asked_layout = &layouts[random_below(layout_count)];
    struct layout *layout = asked_layout;
    memset(sets, 1, sizeof sets);
    gd_status status = LIBRARY(gd_allocate(allocator, layout->known, count, sets));
    CHECK(status <= GD_FRAGMENTATION || status == GD_DEVICE_LOST || status == GD_BAD_RESULT);
    statuses[status]++;
    if (status == GD_OK)
        held = grown(held, &held_room, held_count + count, sizeof *held);
    for (uint32_t place = 0; place < count; place++) {
        VkDescriptorSet set = gdv_handle(sets[place]);
        CHECK((set != VK_NULL_HANDLE) == (status == GD_OK));
        CHECK((sets[place].name != 0) == (status == GD_OK));
        if (status != GD_OK)
            continue;
        names_give(&names, sets[place].name);
        held[held_count++] = sets[place];
        if (layout->counts[GD_SAMPLER] > 0)
            write_sampler(set);
    }
}

// Frees sets, which allocates no memory.
static gd_status free_now(const gd_set *sets, uint32_t count) {
    uint64_t requests_before = memory_requests;
    gd_status status = LIBRARY(gd_free(allocator, sets, count));
    CHECK(memory_requests == requests_before);
    return status;
}

// A request of more sets than others have in sum, which are all written and freed at once.
static void allocate_many(void) {
    static gd_set many[MANY];
    gd_status status;
    asked_layout = &layouts[0];
    do
        status = LIBRARY(gd_allocate(allocator, asked_layout->known, MANY, many));
    while (status != GD_OK);
    for (uint32_t place = 0; place < MANY; place++) {
        names_give(&names, many[place].name);
        write_sampler(gdv_handle(many[place]));
    }
    CHECK(free_now(many, MANY) == GD_OK);
    for (uint32_t place = 0; place < MANY; place++)
        names_free(&names, many[place].name);
}

// Some sets that are held, the last ones or any, leave the list.
static uint32_t draw(gd_set *sets) {
    uint32_t count = 1 + random_below(one_in(5) ? MAX_FREED : 12);
    bool is_any = one_in(2);
    if (count > held_count)
        count = (uint32_t)held_count;
    for (uint32_t place = 0; place < count; place++) {
        size_t at = is_any ? random_below((uint32_t)held_count) : held_count - 1;
        sets[place] = held[at];
        names_free(&names, held[at].name);
        held[at] = held[--held_count];
    }
    return count;
}

// Frees sets. They can't be freed again, nor can one that was freed before, whose place
// may be reused.
static void free_some(void) {
    gd_set sets[MAX_FREED] = {{0, 0, 0}};
    uint32_t count = draw(sets);
    gd_status later = one_in(3) ? LIBRARY(gd_free_after(allocator, sets, count, frame)) : GD_BUSY;
    if (later == GD_OK)
        waiting += count;
    else
        CHECK(free_now(sets, count) == GD_OK);
    if (count == 0)
        return;
    CHECK(free_now(sets, 1) == GD_BAD_SET);
    if (!names_held(&names, freed.name))
        CHECK(free_now(&freed, 1) == GD_BAD_SET);
    if (one_in(4))
        freed = sets[0];
}

// Layouts and a set that aren't there, and an allocator with sets that is to be destroyed.
static void make_mistakes(void) {
    gd_set set;
    gd_layout none = {layout_count, allocator.id}, foreign = {0, allocator.id + 1};
    CHECK(LIBRARY(gd_allocate(allocator, none, 1, &set)) == GD_BAD_LAYOUT);
    CHECK(gdv_handle(set) == VK_NULL_HANDLE && free_now(&set, 1) == GD_BAD_SET);
    CHECK(LIBRARY(gd_allocate(allocator, foreign, 1, &set)) == GD_BAD_LAYOUT);
    make_wrong_layouts();
    if (held_count > 0)
        CHECK(LIBRARY(gd_destroy(allocator)) == GD_OUTSTANDING);
}

// The frame is done, and all that waited is freed.
static void end_frame(void) {
    uint64_t requests_before = memory_requests, left = 0;
    CHECK(LIBRARY(gd_frame_done(allocator, frame++)) == GD_OK);
    CHECK(memory_requests == requests_before);
    CHECK(LIBRARY(gd_waiting(allocator, &left)) == GD_OK && left == 0);
    waiting = 0;
}

// Mostly allocates in two thirds of a round, and mostly frees in the rest.
static void act(void) {
    uint32_t dice = random_below(100), asks = operation % ROUND < 2 * ROUND / 3 ? 85 : 30;
    if (dice < asks)
        allocate();
    else if (dice < 96)
        free_some();
    else if (dice < 98)
        end_frame();
    else if (dice < 99)
        CHECK(LIBRARY(gd_cleanup(allocator)) == GD_OK);
    else
        make_mistakes();
    CHECK(keep == 0 ? live_sets == held_count + waiting : live_sets >= held_count + waiting);
}

// ---- the run ----

static void open_allocator(bool is_old) {
    static VkAllocationCallbacks callbacks = {
        .pUserData = &live_blocks,
        .pfnAllocation = allocate_block,
        .pfnReallocation = grow_block,
        .pfnFree = free_block,
    };
    gd_status status;
    CHECK(gdv_init(&vulkan, layer.device, &callbacks) == GD_OK);
    vulkan.create_pool = create_pool;
    vulkan.destroy_pool = destroy_pool;
    vulkan.allocate_sets = allocate_sets;
    vulkan.free_sets = free_sets;
    memory_refused_one_in = MEMORY_AT_OPEN_ONE_IN;
    do {
        status = LIBRARY(gdv_create(&vulkan, is_old ? 0 : layer.limit, &allocator));
        CHECK(status == GD_OK || status == GD_OUT_OF_HOST_MEMORY);
    } while (status != GD_OK);
    CHECK(LIBRARY(gd_allocator_set_max_kept(allocator, keep)) == GD_OK);
    for (uint32_t place = 0; place < layout_count; place++)
        make_layout(&layouts[place]);
    memory_refused_one_in = MEMORY_ONE_IN;
}

static void close_allocator(void) {
    gd_allocator old = allocator;
    end_frame();
    while (held_count > 0)
        free_some();
    end_frame();
    CHECK(LIBRARY(gd_destroy(allocator)) == GD_OK);
    CHECK(gd_destroy(old) == GD_BAD_ALLOCATOR && gd_free(old, &freed, 1) == GD_BAD_ALLOCATOR);
    CHECK(live_pools == 0 && live_sets == 0);
    CHECK(live_blocks == 0 && memory_blocks == 1); // the slot
    names_end(&names);
    freed = (gd_set){0, 0, 0};
}

static void open_device(bool is_old) {
    VkSamplerCreateInfo info = {.sType = VK_STRUCTURE_TYPE_SAMPLER_CREATE_INFO};
    layer_open(is_old ? VK_API_VERSION_1_0 : VK_API_VERSION_1_3);
    CHECK(vkCreateSampler(layer.device, &info, NULL, &sampler) == VK_SUCCESS);
    layout_count = sizeof layouts / sizeof *layouts;
    while (is_old && layouts[layout_count - 1].is_new)
        layout_count--;
}

static void close_device(void) {
    vkDestroySampler(layer.device, sampler, NULL);
    for (uint32_t place = 0; place < layout_count; place++)
        vkDestroyDescriptorSetLayout(layer.device, layouts[place].handle, NULL);
    layer_close();
    free(held);
}

static void print_summary(void) {
    printf("%" PRIu64 " operations; requests succeeded %" PRIu64, operation, statuses[GD_OK]);
    printf(", refused %" PRIu64, statuses[GD_OUT_OF_DEVICE_MEMORY]);
    printf("+%" PRIu64 "+%" PRIu64, statuses[GD_OUT_OF_HOST_MEMORY], statuses[GD_FRAGMENTATION]);
    printf("+%" PRIu64 "+%" PRIu64, statuses[GD_DEVICE_LOST], statuses[GD_BAD_RESULT]);
    printf("; pools %" PRIu64, pools_created);
    printf(", calls for sets %" PRIu64 "; calls refused %" PRIu64, asked_count, calls_refused);
    printf(", memory refused %" PRIu64 "; messages %" PRIu64 "\n", memory_refusals, layer.messages);
}

int main(int words, char **word) {
    uint64_t operations = number_at(words, word, 1, 10000);
    bool is_old = words > 3 && strcmp(word[3], "1.0") == 0;
    seed = number_at(words, word, 2, 1);
    keep = (uint32_t)number_at(words, word, 4, UINT32_MAX);
    open_device(is_old);
    while (operation < operations) {
        open_allocator(is_old);
        allocate_many();
        for (int left = ROUND; left > 0 && operation < operations; left--, operation++)
            act();
        close_allocator();
    }
    close_device();
    print_summary();
    return layer.messages > 0;
}
