// A shared object that has the static library inside. It exports this function alone.
#include "gpu_descriptor.h"

int plugin(void);

int plugin(void) {
    gd_allocator none = {0, 0};
    gd_set set = {0, 0, 0};
    uint64_t sets;
    return gd_destroy(none) == GD_BAD_ALLOCATOR && gd_free(none, &set, 1) == GD_BAD_ALLOCATOR &&
           gd_outstanding(none, &sets) == GD_BAD_ALLOCATOR;
}
