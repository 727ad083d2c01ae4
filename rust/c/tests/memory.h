// Refuses memory to the library, and counts its blocks. A host is linked with --wrap for malloc, calloc,
// realloc, posix_memalign, aligned_alloc and free, the only ones that Rust's std calls. The host and its
// driver use the same functions, so each call of the library is wrapped in LIBRARY, and the driver's
// functions pause it.
#ifndef MEMORY_H
#define MEMORY_H
#include "gpu_descriptor.h"

extern uint32_t memory_refused_one_in; // 0: none
extern uint64_t memory_refuses_at;     // the number of the only taking that is refused; 0: none
extern uint64_t memory_refusals;
extern uint64_t memory_blocks;  // that the library has
extern uint64_t memory_requests; // how often it asked for memory

void memory_enter(void);

gd_status memory_leave(gd_status status);

void memory_pause(void);

void memory_go_on(void);

#define LIBRARY(call) (memory_enter(), memory_leave(call))

// Frees a block that isn't the library's.
void memory_free_other(void *block);

#endif
