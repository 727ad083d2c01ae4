// A shared object in C++ over the headers, with the static library inside.
#include "gpu_descriptor.hpp"

extern "C" int plugin();

extern "C" int plugin() {
    const gd_device none = {};
    gd_set set = {};
    gd::allocator allocator;
    return allocator.create(none, 0) == GD_NULL_POINTER && gd_free(allocator.raw(), &set, 1) == GD_BAD_ALLOCATOR;
}
