// A program over two static libraries of Rust's: in the other one a panic is caught.
#include "gpu_descriptor.h"
#include <stdio.h>

uint64_t length_of(uint32_t number);

int main(void) {
    gd_allocator none = {NULL, 0};
    if (length_of(101) != 3 || length_of(0) != 0 || gd_destroy(none) != GD_BAD_ALLOCATOR)
        return 1;
    printf("two libraries\n");
    return 0;
}
