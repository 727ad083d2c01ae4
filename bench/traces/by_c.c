// A trace by the library for C, over a device that only counts, or over a driver.
#ifdef WITH_DRIVER
#include "gpu_descriptor_vulkan.h"
#endif
#include "gpu_descriptor.h"
#include <stdbool.h>
#include <stdlib.h>

// The next handle of a pool or a set, and a sum over what is returned.
static uint64_t next_handle = 1, sum;

static gd_status create_pool(void *user, const gd_pool_info *info, uint64_t *pool) {
    (void)user, (void)info;
    *pool = next_handle++;
    return GD_OK;
}

static void destroy_pool(void *user, uint64_t pool) {
    (void)user;
    sum ^= pool;
}

static gd_status allocate_sets(void *user, uint64_t pool, uint32_t count, const uint64_t *layouts,
                               uint64_t *sets) {
    (void)user, (void)pool, (void)layouts;
    for (uint32_t place = 0; place < count; place++)
        sets[place] = next_handle++;
    return GD_OK;
}

static void free_sets(void *user, uint64_t pool, uint32_t count, const uint64_t *sets) {
    (void)user;
    for (uint32_t place = 0; place < count; place++)
        sum += sets[place] ^ pool;
}

static gd_allocator allocator;

static void require(gd_status status) {
    if (status != GD_OK)
        abort();
}

void c_create_with(gd_create_pool_fn create, gd_destroy_pool_fn destroy, uint32_t limit) {
    gd_device device = {NULL, create, destroy, allocate_sets, free_sets};
    require(gd_create(&device, limit, &allocator));
}

void c_create(void) {
    c_create_with(create_pool, destroy_pool, UINT32_MAX);
}

#ifdef WITH_DRIVER
PFN_vkVoidFunction driver_function(VkDevice of, const char *name);

void c_create_over(VkDevice device) {
    gdv_device vulkan;
    require(gdv_load(&vulkan, device, NULL, driver_function));
    require(gdv_create(&vulkan, UINT32_MAX, &allocator));
}
#endif

// Over the device that counts each layout has a handle of its own, as the driver's are while they exist.
gd_layout c_add_layout(uint64_t handle, const uint32_t *counts, uint32_t flags) {
    gd_layout layout;
    require(gd_add_layout(allocator, handle != 0 ? handle : next_handle++, counts, flags, &layout));
    return layout;
}

void c_remove_layout(gd_layout layout) {
    require(gd_remove_layout(allocator, layout));
}

bool c_take(gd_layout layout, uint32_t count, gd_set *sets) {
    return gd_allocate(allocator, layout, count, sets) == GD_OK;
}

void c_free(const gd_set *sets, uint32_t count) {
    require(gd_free(allocator, sets, count));
}

void c_cleanup(void) {
    require(gd_cleanup(allocator));
}

uint64_t c_outstanding(void) {
    uint64_t sets;
    require(gd_outstanding(allocator, &sets));
    return sets;
}
