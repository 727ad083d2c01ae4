// A driver in memory, which refuses at random and checks each call. A pool that is asked must exist, be for
// such sets, and have room for them by number and by kind. A set is freed once, from its own pool. A pool is
// destroyed once, without sets. The limit is kept.
#ifndef DRIVER_H
#define DRIVER_H
#include "gpu_descriptor.h"
#include <stdbool.h>
#include <stddef.h>

enum { DRIVER_LAYOUTS = 9 };

struct driver_layout {
    const char *words; // of the line program's `layout`, after the name
    bool is_marked;
    uint32_t counts[GD_KINDS];
};

extern const struct driver_layout driver_layouts[DRIVER_LAYOUTS];

// What the driver did and has.
struct driver {
    uint32_t refuses_one_in; // 0: none
    uint32_t invalid_one_in;    // a failure with an unknown status; 0: none
    uint64_t limit;          // on the descriptors of pools for marked layouts
    uint64_t created, destroyed, asked, released, refused;
    uint64_t sets;           // alive
    gd_statistics numbers;   // of the pools that are alive, and of their peak
};

extern struct driver driver;

uint64_t driver_layout_handle(uint32_t layout);

// The sum of the counts of a layout.
uint64_t driver_descriptors(uint32_t layout);

// The four functions.
gd_device driver_device(void);

// What became of the calls that are to create pools or to allocate sets, since the last
// driver_forget: a status for each, and each set with its pool.
struct driver_calls {
    uint32_t results[20000];
    uint64_t sets[20000], pools[20000];
    uint64_t freed[40000]; // in their order
    size_t result_count, set_count, released, releases, destroyed;
};

extern struct driver_calls driver_calls;

void driver_forget(void);

// Called within each call of the driver, if it isn't NULL.
extern void (*driver_inside)(void);

// The number of a pool, which counts from 0 up.
uint64_t driver_pool_number(uint64_t pool);

bool driver_is_alive(uint64_t set);

// The number of a set, which counts from 0 up, and its layout.
size_t driver_set_number(uint64_t set);
uint32_t driver_layout_of(uint64_t set);

void driver_end(void);

#endif
