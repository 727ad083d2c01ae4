/*
 * gpu_descriptor_vulkan.h: the device of gpu_descriptor.h for a VkDevice. Header only, for C11 and
 * C++17.
 *
 *     gdv_device vulkan;                                  // gdv_create copies it
 *     gdv_init(&vulkan, device, NULL);
 *     gdv_create(&vulkan, limit, &allocator);
 *     gdv_add_layout(allocator, layout, &layout_info, &known);
 *     gd_allocate(allocator, known, 2, sets);
 *     VkDescriptorSet first = gdv_handle(sets[0]);
 *     gd_free(allocator, sets, 2);                        // or gd_free_after and gd_frame_done
 *     gd_destroy(allocator);                              // before vkDestroyDevice
 *
 * For all other calls see gpu_descriptor.h. Vulkan's own rules on threads hold as well: nobody else may use
 * the pools, which only the library knows.
 *
 * With VK_NO_PROTOTYPES gdv_init takes the functions by their names from where it is called, as volk has them,
 * and is GD_NULL_POINTER if one of them is NULL. gdv_load asks vkGetDeviceProcAddr for them.
 *
 * The header allocates no memory: the arrays of a call are the library's.
 */
#ifndef GPU_DESCRIPTOR_VULKAN_H
#define GPU_DESCRIPTOR_VULKAN_H

#include "gpu_descriptor.h"

#include <assert.h>
#include <stddef.h>
#include <string.h>
#include <vulkan/vulkan.h>

#ifndef VK_VERSION_1_3
#error "gpu_descriptor_vulkan.h needs the headers of Vulkan 1.3; the device may be older"
#endif

static_assert(sizeof(VkDescriptorPool) == 8 && sizeof(VkDescriptorSet) == 8 &&
                  sizeof(VkDescriptorSetLayout) == 8,
              "handles have 64 bits");
static_assert(GD_FREE_DESCRIPTOR_SET == 1 && VK_DESCRIPTOR_POOL_CREATE_FREE_DESCRIPTOR_SET_BIT == 1 &&
                  GD_UPDATE_AFTER_BIND == 2 && VK_DESCRIPTOR_POOL_CREATE_UPDATE_AFTER_BIND_BIT == 2 &&
                  VK_DESCRIPTOR_SET_LAYOUT_CREATE_UPDATE_AFTER_BIND_POOL_BIT == 2,
              "the flags are Vulkan's");

/* A device, and the functions that are called on it. */
typedef struct gdv_device {
    VkDevice device;
    const VkAllocationCallbacks *callbacks; /* for the driver's memory of a pool, or NULL */
    PFN_vkCreateDescriptorPool create_pool;
    PFN_vkDestroyDescriptorPool destroy_pool;
    PFN_vkAllocateDescriptorSets allocate_sets;
    PFN_vkFreeDescriptorSets free_sets;
} gdv_device;

/* ---- results ---- */

/*
 * The status for a result of the driver. VK_ERROR_OUT_OF_POOL_MEMORY, VK_ERROR_FRAGMENTED_POOL and
 * VK_ERROR_FRAGMENTATION of an existing pool don't end a request: the next pool is asked. An error without a
 * status, such as VK_ERROR_UNKNOWN, is GD_BAD_RESULT.
 */
GD_INLINE gd_status gdv_reason(VkResult result) {
    switch (result) {
    case VK_SUCCESS:
        return GD_OK;
    case VK_ERROR_OUT_OF_DEVICE_MEMORY:
        return GD_OUT_OF_DEVICE_MEMORY;
    case VK_ERROR_OUT_OF_HOST_MEMORY:
        return GD_OUT_OF_HOST_MEMORY;
    case VK_ERROR_FRAGMENTED_POOL:
    case VK_ERROR_FRAGMENTATION:
        return GD_FRAGMENTATION;
    case VK_ERROR_OUT_OF_POOL_MEMORY:
        return GD_OUT_OF_POOL_MEMORY;
    case VK_ERROR_DEVICE_LOST:
        return GD_DEVICE_LOST;
    default:
        return GD_BAD_RESULT;
    }
}

/*
 * The result for a status of gpu_descriptor.h: one that vkAllocateDescriptorSets may return, or what the driver
 * returned (VK_ERROR_DEVICE_LOST). Mistakes, such as GD_BAD_SET, are VK_ERROR_UNKNOWN.
 */
GD_INLINE VkResult gdv_result(gd_status status) {
    switch (status) {
    case GD_OK:
        return VK_SUCCESS;
    case GD_OUT_OF_DEVICE_MEMORY:
        return VK_ERROR_OUT_OF_DEVICE_MEMORY;
    case GD_OUT_OF_HOST_MEMORY:
        return VK_ERROR_OUT_OF_HOST_MEMORY;
    case GD_FRAGMENTATION:
        return VK_ERROR_FRAGMENTED_POOL;
    case GD_OUT_OF_POOL_MEMORY:
        return VK_ERROR_OUT_OF_POOL_MEMORY;
    case GD_DEVICE_LOST:
        return VK_ERROR_DEVICE_LOST;
    default:
        return VK_ERROR_UNKNOWN;
    }
}

/* On some platforms handles are pointers, on others they are numbers. */
#if (VK_USE_64_BIT_PTR_DEFINES != 1)
#define GDV_HANDLE(type, number) (number)
#define GDV_NUMBER(handle) (handle)
#elif defined(__cplusplus)
#define GDV_HANDLE(type, number) (reinterpret_cast<type>(number))
#define GDV_NUMBER(handle) (reinterpret_cast<uint64_t>(handle))
#else
#define GDV_HANDLE(type, number) ((type)(uintptr_t)(number))
#define GDV_NUMBER(handle) ((uint64_t)(uintptr_t)(handle))
#endif

/* Casts of each language. */
#ifdef __cplusplus
#define GDV_CAST(type, value) (static_cast<type>(value))
#else
#define GDV_CAST(type, value) ((type)(value))
#endif

/* The driver's handle of a set. */
GD_INLINE VkDescriptorSet gdv_handle(gd_set set) {
    return GDV_HANDLE(VkDescriptorSet, set.handle);
}

/* ---- the four functions ---- */

/* The type of a kind. GD_INLINE_UNIFORM_BLOCK_BINDINGS has none. */
GD_INLINE VkDescriptorType gdv_type(uint32_t kind) {
    if (kind == GD_ACCELERATION_STRUCTURE)
        return VK_DESCRIPTOR_TYPE_ACCELERATION_STRUCTURE_KHR;
    if (kind == GD_INLINE_UNIFORM_BLOCK_BYTES)
        return VK_DESCRIPTOR_TYPE_INLINE_UNIFORM_BLOCK;
    return GDV_CAST(VkDescriptorType, kind); /* the first eleven have Vulkan's numbers */
}

/* The kind of a type; GD_KINDS if it has none. */
GD_INLINE uint32_t gdv_kind(VkDescriptorType type) {
    for (uint32_t kind = 0; kind < GD_INLINE_UNIFORM_BLOCK_BINDINGS; kind++)
        if (gdv_type(kind) == type)
            return kind;
    return GD_KINDS;
}

/*
 * What a driver is asked for. A block's bytes are a multiple of 4, but a driver may round those of a block, or
 * of a set, up to a multiple of 16 without having allowed for it: SwiftShader's pool then has fewer sets than
 * it was created for. So it is asked for 12 more bytes for each block.
 */
GD_INLINE uint32_t gdv_pool_size(const gd_pool_info *pool_info, uint32_t kind) {
    const uint32_t padding = 12, count = pool_info->counts[kind];
    const uint32_t blocks = pool_info->counts[GD_INLINE_UNIFORM_BLOCK_BINDINGS];
    if (kind != GD_INLINE_UNIFORM_BLOCK_BYTES || count == 0)
        return count;
    return blocks > (UINT32_MAX - count) / padding ? UINT32_MAX : count + blocks * padding;
}

GD_INLINE gd_status gdv_create_pool(void *user, const gd_pool_info *pool_info,
                                        uint64_t *pool) GD_NOEXCEPT {
    const gdv_device *it = GDV_CAST(const gdv_device *, user);
    VkDescriptorPoolSize sizes[GD_KINDS];
    uint32_t size_count = 0;
    for (uint32_t kind = 0; kind < GD_INLINE_UNIFORM_BLOCK_BINDINGS; kind++) {
        if (pool_info->counts[kind] == 0)
            continue;
        sizes[size_count].type = gdv_type(kind);
        sizes[size_count].descriptorCount = gdv_pool_size(pool_info, kind);
        size_count++;
    }
    VkDescriptorPoolInlineUniformBlockCreateInfo blocks;
    memset(&blocks, 0, sizeof blocks);
    blocks.sType = VK_STRUCTURE_TYPE_DESCRIPTOR_POOL_INLINE_UNIFORM_BLOCK_CREATE_INFO;
    blocks.maxInlineUniformBlockBindings = pool_info->counts[GD_INLINE_UNIFORM_BLOCK_BINDINGS];
    VkDescriptorPoolCreateInfo info;
    memset(&info, 0, sizeof info);
    info.sType = VK_STRUCTURE_TYPE_DESCRIPTOR_POOL_CREATE_INFO;
    if (blocks.maxInlineUniformBlockBindings > 0)
        info.pNext = &blocks;
    info.flags = pool_info->flags;
    info.maxSets = pool_info->max_sets;
    info.poolSizeCount = size_count;
    info.pPoolSizes = sizes;
    VkDescriptorPool made = VK_NULL_HANDLE;
    gd_status status = gdv_reason(it->create_pool(it->device, &info, it->callbacks, &made));
    *pool = GDV_NUMBER(made);
    return status;
}

GD_INLINE void gdv_destroy_pool(void *user, uint64_t pool) GD_NOEXCEPT {
    const gdv_device *it = GDV_CAST(const gdv_device *, user);
    it->destroy_pool(it->device, GDV_HANDLE(VkDescriptorPool, pool), it->callbacks);
}

/* The arrays are passed on as they are: handles have 64 bits, and no function of C reads them. */
GD_INLINE VkDescriptorSetAllocateInfo gdv_allocate_info(uint64_t pool, uint32_t count, const uint64_t *layouts) {
    VkDescriptorSetAllocateInfo info;
    memset(&info, 0, sizeof info);
    info.sType = VK_STRUCTURE_TYPE_DESCRIPTOR_SET_ALLOCATE_INFO;
    info.descriptorPool = GDV_HANDLE(VkDescriptorPool, pool);
    info.descriptorSetCount = count;
    info.pSetLayouts = GDV_CAST(const VkDescriptorSetLayout *, GDV_CAST(const void *, layouts));
    return info;
}

GD_INLINE gd_status gdv_allocate_by(const gdv_device *it, const VkDescriptorSetAllocateInfo *info, uint64_t *sets) {
    VkDescriptorSet *handles = GDV_CAST(VkDescriptorSet *, GDV_CAST(void *, sets));
    return gdv_reason(it->allocate_sets(it->device, info, handles));
}

GD_INLINE gd_status gdv_allocate_sets(void *user, uint64_t pool, uint32_t count,
                                          const uint64_t *layouts, uint64_t *sets) GD_NOEXCEPT {
    const VkDescriptorSetAllocateInfo info = gdv_allocate_info(pool, count, layouts);
    return gdv_allocate_by(GDV_CAST(const gdv_device *, user), &info, sets);
}

GD_INLINE gd_status gdv_allocate_variable_sets(void *user, uint64_t pool, uint32_t count, const uint64_t *layouts,
                                               const uint32_t *variable_counts, uint64_t *sets) GD_NOEXCEPT {
    VkDescriptorSetAllocateInfo info = gdv_allocate_info(pool, count, layouts);
    VkDescriptorSetVariableDescriptorCountAllocateInfo variable;
    memset(&variable, 0, sizeof variable);
    variable.sType = VK_STRUCTURE_TYPE_DESCRIPTOR_SET_VARIABLE_DESCRIPTOR_COUNT_ALLOCATE_INFO;
    variable.descriptorSetCount = count;
    variable.pDescriptorCounts = variable_counts;
    info.pNext = &variable;
    return gdv_allocate_by(GDV_CAST(const gdv_device *, user), &info, sets);
}

GD_INLINE void gdv_free_sets(void *user, uint64_t pool, uint32_t count,
                                 const uint64_t *sets) GD_NOEXCEPT {
    const gdv_device *it = GDV_CAST(const gdv_device *, user);
    /* It always returns VK_SUCCESS. */
    (void)it->free_sets(it->device, GDV_HANDLE(VkDescriptorPool, pool), count,
                        GDV_CAST(const VkDescriptorSet *, GDV_CAST(const void *, sets)));
}

/* ---- your calls ---- */

/* Whether the device is there with all its functions. */
GD_INLINE gd_status gdv_check(const gdv_device *vulkan) {
    return vulkan && vulkan->create_pool && vulkan->destroy_pool && vulkan->allocate_sets && vulkan->free_sets
               ? GD_OK
               : GD_NULL_POINTER;
}

/* Writes a gdv_device. GD_NULL_POINTER if a function is NULL. */
GD_INLINE gd_status gdv_set(gdv_device *vulkan, VkDevice device, const VkAllocationCallbacks *callbacks,
                                PFN_vkCreateDescriptorPool create_pool,
                                PFN_vkDestroyDescriptorPool destroy_pool,
                                PFN_vkAllocateDescriptorSets allocate_sets,
                                PFN_vkFreeDescriptorSets free_sets) {
    if (!vulkan)
        return GD_NULL_POINTER;
    vulkan->device = device;
    vulkan->callbacks = callbacks;
    vulkan->create_pool = create_pool;
    vulkan->destroy_pool = destroy_pool;
    vulkan->allocate_sets = allocate_sets;
    vulkan->free_sets = free_sets;
    return gdv_check(vulkan);
}

/* Same as gdv_set, with the functions of Vulkan's names at the place of the call: volk's are NULL until it
 * loaded them. */
#ifdef VK_NO_PROTOTYPES
#define gdv_init(vulkan, device, callbacks)                                                              \
    gdv_set(vulkan, device, callbacks, vkCreateDescriptorPool, vkDestroyDescriptorPool,                  \
            vkAllocateDescriptorSets, vkFreeDescriptorSets)
#else
GD_INLINE gd_status gdv_init(gdv_device *vulkan, VkDevice device,
                                 const VkAllocationCallbacks *callbacks) {
    return gdv_set(vulkan, device, callbacks, vkCreateDescriptorPool, vkDestroyDescriptorPool,
                   vkAllocateDescriptorSets, vkFreeDescriptorSets);
}
#endif

#ifdef __cplusplus
#define GDV_FUNCTION(name, load, device) (reinterpret_cast<PFN_##name>(load(device, #name)))
#else
#define GDV_FUNCTION(name, load, device) ((PFN_##name)load(device, #name))
#endif

/* Same as gdv_set, with the functions that 'load' returns, which is vkGetDeviceProcAddr. */
GD_INLINE gd_status gdv_load(gdv_device *vulkan, VkDevice device,
                                 const VkAllocationCallbacks *callbacks, PFN_vkGetDeviceProcAddr load) {
    if (!load)
        return GD_NULL_POINTER;
    return gdv_set(vulkan, device, callbacks, GDV_FUNCTION(vkCreateDescriptorPool, load, device),
                   GDV_FUNCTION(vkDestroyDescriptorPool, load, device),
                   GDV_FUNCTION(vkAllocateDescriptorSets, load, device),
                   GDV_FUNCTION(vkFreeDescriptorSets, load, device));
}

/*
 * The gd_device of a VkDevice, for gd_create: 'vulkan' must stay where it is until gd_destroy. For layouts with a
 * variable count call gd_allocator_set_allocate_variable_sets(allocator, gdv_allocate_variable_sets).
 */
GD_INLINE gd_device gdv_functions(gdv_device *vulkan) {
    gd_device device;
    device.user = vulkan;
    device.create_pool = gdv_create_pool;
    device.destroy_pool = gdv_destroy_pool;
    device.allocate_sets = gdv_allocate_sets;
    device.free_sets = gdv_free_sets;
    return device;
}

/* What an allocator stores: a copy of a gdv_device and of its callbacks. */
typedef struct gdv_copy {
    gdv_device vulkan;
    VkAllocationCallbacks callbacks;
} gdv_copy;

GD_INLINE gdv_device gdv_inside(void *user) {
    const gdv_copy *copy = GDV_CAST(const gdv_copy *, user);
    gdv_device vulkan = copy->vulkan;
    if (vulkan.callbacks)
        vulkan.callbacks = &copy->callbacks;
    return vulkan;
}

GD_INLINE gd_status gdv_create_pool_inside(void *user, const gd_pool_info *pool_info,
                                               uint64_t *pool) GD_NOEXCEPT {
    gdv_device vulkan = gdv_inside(user);
    return gdv_create_pool(&vulkan, pool_info, pool);
}

GD_INLINE void gdv_destroy_pool_inside(void *user, uint64_t pool) GD_NOEXCEPT {
    gdv_device vulkan = gdv_inside(user);
    gdv_destroy_pool(&vulkan, pool);
}

/*
 * Creates an allocator for a VkDevice. 'limit' is the device's maxUpdateAfterBindDescriptorsInAllPools, or this
 * allocator's part of it (see gd_create_with_copy); without update-after-bind layouts it doesn't matter. The
 * padding of inline uniform blocks (gdv_pool_size) doesn't count against it. 'flags' are those of
 * gd_create_with_flags. 'vulkan' and its callbacks are copied.
 *
 * GD_NULL_POINTER, even if only a function of 'vulkan' is NULL; GD_BAD_FLAGS, GD_OUT_OF_HOST_MEMORY,
 * GD_BAD_VERSION.
 */
GD_INLINE gd_status gdv_create_with_flags(const gdv_device *vulkan, uint32_t limit, uint32_t flags,
                                              gd_allocator *allocator) {
    gdv_copy copy;
    memset(&copy, 0, sizeof copy);
    if (allocator)
        memset(allocator, 0, sizeof *allocator);
    if (gdv_check(vulkan) != GD_OK)
        return GD_NULL_POINTER;
    copy.vulkan = *vulkan;
    if (vulkan->callbacks)
        copy.callbacks = *vulkan->callbacks;
    gd_device device;
    device.user = &copy;
    device.create_pool = gdv_create_pool_inside;
    device.destroy_pool = gdv_destroy_pool_inside;
    device.allocate_sets = gdv_allocate_sets; /* a gdv_copy begins with a gdv_device */
    device.free_sets = gdv_free_sets;
    gd_status status = gd_create_with_copy(&device, sizeof copy, limit, flags, allocator);
    if (status != GD_OK)
        return status;
    return gd_allocator_set_allocate_variable_sets(*allocator, gdv_allocate_variable_sets); /* nobody else has it yet */
}

/* Same as gdv_create_with_flags with 'flags' 0. */
GD_INLINE gd_status gdv_create(const gdv_device *vulkan, uint32_t limit, gd_allocator *allocator) {
    return gdv_create_with_flags(vulkan, limit, 0, allocator);
}

/* The index of the binding that has a variable count; UINT32_MAX if none has, or without a layout. */
GD_INLINE uint32_t gdv_variable_binding(const VkDescriptorSetLayoutCreateInfo *info) {
    if (!info)
        return UINT32_MAX;
    const VkBaseInStructure *next = GDV_CAST(const VkBaseInStructure *, info->pNext);
    for (; next; next = next->pNext) {
        if (next->sType != VK_STRUCTURE_TYPE_DESCRIPTOR_SET_LAYOUT_BINDING_FLAGS_CREATE_INFO)
            continue;
        const VkDescriptorSetLayoutBindingFlagsCreateInfo *flags = GDV_CAST(
            const VkDescriptorSetLayoutBindingFlagsCreateInfo *, GDV_CAST(const void *, next));
        for (uint32_t number = 0; number < flags->bindingCount; number++)
            if (flags->pBindingFlags[number] & VK_DESCRIPTOR_BINDING_VARIABLE_DESCRIPTOR_COUNT_BIT)
                return number;
    }
    return UINT32_MAX;
}

/* Counts a layout whose binding of this index has 'variable_count' descriptors. UINT32_MAX stands for no
 * binding. */
GD_INLINE gd_status gdv_count_bindings(const VkDescriptorSetLayoutCreateInfo *info, uint32_t variable_binding,
                                       uint32_t variable_count, uint32_t counts[GD_KINDS], uint32_t *flags) {
    if (!info || !counts || !flags)
        return GD_NULL_POINTER;
    memset(counts, 0, GD_KINDS * sizeof *counts);
    *flags = info->flags & VK_DESCRIPTOR_SET_LAYOUT_CREATE_UPDATE_AFTER_BIND_POOL_BIT;
    if (*flags != info->flags)
        return GD_BAD_COUNTS;
    for (uint32_t number = 0; number < info->bindingCount; number++) {
        const VkDescriptorSetLayoutBinding *binding = &info->pBindings[number];
        uint32_t kind = gdv_kind(binding->descriptorType);
        uint32_t count = number == variable_binding ? variable_count : binding->descriptorCount;
        if (count == 0)
            continue;
        if (kind == GD_KINDS || count > UINT32_MAX - counts[kind])
            return GD_BAD_COUNTS;
        counts[kind] += count; /* of an inline uniform block: bytes */
        if (kind == GD_INLINE_UNIFORM_BLOCK_BYTES)
            counts[GD_INLINE_UNIFORM_BLOCK_BINDINGS] += 1;
    }
    return GD_OK;
}

/*
 * Counts the descriptors of one set of a layout: 'counts' and 'flags' for gd_add_layout.
 *
 * A sampler with YCbCr conversion may need several descriptors (VkSamplerYcbcrConversionImageFormatProperties):
 * then add to the counts and call gd_add_layout.
 *
 * GD_NULL_POINTER; GD_BAD_COUNTS for a type that has no kind, a count above 32 bits, a binding with a variable
 * count, and flags other than update-after-bind: push descriptors, descriptor buffers, host-only layouts. A
 * mutable type has no kind, since its sets need pools with descriptors of VK_DESCRIPTOR_TYPE_MUTABLE_EXT,
 * whatever counts of other types they have.
 */
GD_INLINE gd_status gdv_count(const VkDescriptorSetLayoutCreateInfo *info,
                                  uint32_t counts[GD_KINDS], uint32_t *flags) {
    gd_status status = gdv_count_bindings(info, UINT32_MAX, 0, counts, flags);
    if (status != GD_OK)
        return status;
    return gdv_variable_binding(info) == UINT32_MAX ? status : GDV_CAST(gd_status, GD_BAD_COUNTS);
}

/*
 * Same as gdv_count, for sets with 'variable_count' descriptors in the binding with a variable count.
 *
 * GD_BAD_COUNTS too if no binding has a variable count, or if that has fewer descriptors.
 */
GD_INLINE gd_status gdv_count_variable(const VkDescriptorSetLayoutCreateInfo *info, uint32_t variable_count,
                                       uint32_t counts[GD_KINDS], uint32_t *flags) {
    const uint32_t binding = gdv_variable_binding(info);
    gd_status status = gdv_count_bindings(info, binding, variable_count, counts, flags);
    if (status != GD_OK)
        return status;
    if (binding >= info->bindingCount || variable_count > info->pBindings[binding].descriptorCount)
        return GD_BAD_COUNTS;
    return GD_OK;
}

/* gdv_count and gd_add_layout, with the statuses of both. */
GD_INLINE gd_status gdv_add_layout(gd_allocator allocator, VkDescriptorSetLayout layout,
                                       const VkDescriptorSetLayoutCreateInfo *info,
                                       gd_layout *known) {
    uint32_t counts[GD_KINDS];
    uint32_t flags = 0;
    gd_status status = gdv_count(info, counts, &flags);
    if (status != GD_OK)
        return status;
    return gd_add_layout(allocator, GDV_NUMBER(layout), counts, flags, known);
}

/*
 * Adds a layout with a variable count: gdv_count_variable and gd_add_variable_layout, with the statuses of
 * both. Each of its sets has 'variable_count' descriptors in that binding, and costs no more. A layout may be
 * added with several counts, which are layouts of their own: remove each before you destroy it.
 */
GD_INLINE gd_status gdv_add_variable_layout(gd_allocator allocator, VkDescriptorSetLayout layout,
                                            const VkDescriptorSetLayoutCreateInfo *info, uint32_t variable_count,
                                            gd_layout *known) {
    uint32_t counts[GD_KINDS];
    uint32_t flags = 0;
    gd_status status = gdv_count_variable(info, variable_count, counts, &flags);
    if (status != GD_OK)
        return status;
    return gd_add_variable_layout(allocator, GDV_NUMBER(layout), variable_count, counts, flags, known);
}

#endif
