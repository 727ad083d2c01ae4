/* An allocator over a device that only counts pools and sets, and fails each fourth call. */
#include "gpu_descriptor.h"

#include <stdio.h>

enum { SETS = 100, REQUESTS = 4 };

struct device {
    uint64_t next_handle; /* no handle is given twice */
    uint32_t calls, pools, sets;
};

static gd_status create_pool(void *user, const gd_pool_info *info, uint64_t *pool) {
    struct device *device = user;
    (void)info;
    if (++device->calls % 4 == 0)
        return GD_OUT_OF_DEVICE_MEMORY;
    device->pools++;
    *pool = ++device->next_handle;
    return GD_OK;
}

static void destroy_pool(void *user, uint64_t pool) {
    struct device *device = user;
    (void)pool;
    device->pools--;
}

static gd_status allocate_sets(void *user, uint64_t pool, uint32_t count, const uint64_t *layouts,
                               uint64_t *sets) {
    struct device *device = user;
    (void)pool, (void)layouts;
    if (++device->calls % 4 == 0)
        return GD_OUT_OF_POOL_MEMORY;
    device->sets += count;
    for (uint32_t place = 0; place < count; place++)
        sets[place] = ++device->next_handle;
    return GD_OK;
}

static void free_sets(void *user, uint64_t pool, uint32_t count, const uint64_t *sets) {
    struct device *device = user;
    (void)pool, (void)sets;
    device->sets -= count;
}

int main(void) {
    struct device device = {0};
    gd_device functions = {&device, create_pool, destroy_pool, allocate_sets, free_sets};
    uint32_t counts[GD_KINDS] = {[GD_UNIFORM_BUFFER] = 2, [GD_SAMPLER] = 1};
    gd_allocator allocator;
    gd_layout layout;
    gd_set sets[REQUESTS * SETS];
    uint32_t held = 0;
    if (gd_create(&functions, UINT32_MAX, &allocator) != GD_OK ||
        gd_add_layout(allocator, 77, counts, 0, &layout) != GD_OK)
        return 1;
    for (int request = 1; request <= REQUESTS; request++) {
        gd_status status = gd_allocate(allocator, layout, SETS, &sets[held]);
        held += status == GD_OK ? SETS : 0;
        printf("request %d: status %u, %u pools, %u sets\n", request, status, device.pools,
               device.sets);
    }
    if (gd_free(allocator, sets, held) != GD_OK)
        return 1;
    printf("freed %u, which are kept: %u pools, %u sets\n", held, device.pools, device.sets);
    if (gd_cleanup(allocator) != GD_OK)
        return 1;
    printf("cleaned up: %u pools, %u sets\n", device.pools, device.sets);
    if (gd_destroy(allocator) != GD_OK)
        return 1;
    printf("destroyed: %u pools, %u sets after %u calls\n", device.pools, device.sets, device.calls);
    return 0;
}
