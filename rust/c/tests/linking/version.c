// A program is refused if its header isn't the library's: WANTED is the status that gd_create must return.
#include "gpu_descriptor.h"
#include <stdio.h>
#include <stdlib.h>

static gd_status create_pool(void *user, const gd_pool_info *info, uint64_t *pool) {
    (void)user, (void)info, (void)pool;
    return GD_OUT_OF_DEVICE_MEMORY;
}

static void destroy_pool(void *user, uint64_t pool) {
    (void)user, (void)pool;
}

static gd_status allocate_sets(void *user, uint64_t pool, uint32_t count, const uint64_t *layouts,
                               uint64_t *sets) {
    (void)user, (void)pool, (void)count, (void)layouts, (void)sets;
    return GD_OUT_OF_DEVICE_MEMORY;
}

static void free_sets(void *user, uint64_t pool, uint32_t count, const uint64_t *sets) {
    (void)user, (void)pool, (void)count, (void)sets;
}

int main(int words, char **word) {
    gd_device device = {.create_pool = create_pool,
                        .destroy_pool = destroy_pool,
                        .allocate_sets = allocate_sets,
                        .free_sets = free_sets};
    gd_allocator allocator = {&device, 77};
    gd_status status = gd_create(&device, 0, &allocator);
    if (words < 2 || status != (gd_status)atoi(word[1]))
        return 1;
    if ((status == GD_OK) != (allocator.id != 0))
        return 2;
    if (status == GD_OK && gd_destroy(allocator) != GD_OK)
        return 3;
    printf("gd_create of version %x for one of %x: status %u\n", gd_version(), GD_VERSION, status);
    return 0;
}
