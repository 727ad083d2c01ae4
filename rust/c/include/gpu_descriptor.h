/*
 * gpu_descriptor.h: a descriptor set allocator for Vulkan-like APIs, for C11 and C++17.
 *
 *     gd_device device = {user, create_pool, destroy_pool, allocate_sets, free_sets};
 *     gd_allocator allocator;
 *     gd_layout layout;
 *     gd_set sets[2];
 *     gd_create(&device, limit, &allocator);
 *     gd_add_layout(allocator, handle, counts, 0, &layout);
 *     gd_allocate(allocator, layout, 2, sets);   // sets[0].handle is the driver's
 *     gd_free(allocator, sets, 2);               // once the device no longer uses them
 *     gd_destroy(allocator);
 *
 * The allocator decides which pool a set is from, how large a new pool is and when a pool is destroyed. It
 * calls four functions of yours to do so. gpu_descriptor_vulkan.h has them for a VkDevice, and
 * gpu_descriptor.hpp has classes for C++.
 *
 * Statuses: every function returns a gd_status, and its comment ends with the list of those other than GD_OK. A
 * failed call changes no live set and no count of these. A failed gd_allocate may have created pools, which are
 * empty, destroyed empty ones, or freed kept sets; any other failed call changes nothing of the allocator.
 * Outputs may be zeroed, as the function's comment says. None of this holds after GD_INTERNAL_ERROR. If several
 * statuses apply, any of them may be returned.
 *
 * Ownership: gd_destroy frees the library's memory of an allocator and destroys its pools. The values
 * gd_allocator, gd_layout and gd_set own nothing: copy them freely. You own the driver's layouts. Before you
 * destroy one, call gd_remove_layout: then no set of it is kept, now or later.
 *
 * Live sets: a set is live from gd_allocate until it is freed, at once or when its frame is done.
 * gd_outstanding counts the live sets.
 *
 * Kept sets: a freed set is kept, and gd_allocate reuses it for the same layout, under a new name, before it
 * asks the driver for new sets. gd_allocator_set_max_kept bounds the number of kept sets, which is unbounded at
 * first. The descriptors of a kept set are those that were written to it last, and what they refer to may be
 * destroyed by now. So write each set that you get before you bind it. A validation layer reports a new set
 * that is bound without being written, and one that is freed while the device uses it, but neither for kept
 * sets: so keep none in a debug build.
 *
 * Pointers must be valid, and arrays at least as long as their count. NULL is GD_NULL_POINTER, unless the count
 * is 0. While a call runs, nothing else writes the sets that it reads, or uses the memory that it writes. A
 * gd_allocator is zeroed, or was written by gd_create.
 *
 * Threads: each function may be called from any thread. Calls on an allocator run one at a time, and a call
 * from another thread waits for its turn. A call from one of your functions, on the allocator that called it,
 * changes nothing and returns GD_BUSY. An allocator that was created with GD_EXTERNALLY_SYNCHRONIZED doesn't
 * wait: a call while another one runs is GD_BUSY, from another thread too, so use a lock if threads share it. A
 * library without std has only such allocators. Two threads whose functions enter each other's allocator
 * deadlock. Make no call from a signal handler.
 *
 * Units: counts of sets are sets; counts of a layout or a pool are descriptors (for inline uniform blocks:
 * bytes, and bindings). Handles are the driver's own values, of 64 bits. The library compares them and passes
 * them back, and reads nothing else of them.
 */
#ifndef GPU_DESCRIPTOR_H
#define GPU_DESCRIPTOR_H

#include <stddef.h>
#include <stdint.h>
#include <string.h>

/* The version of this header. gd_version returns the library's. */
#define GD_VERSION_MAJOR 0u
#define GD_VERSION_MINOR 1u
#define GD_VERSION_PATCH 0u
#define GD_MAKE_VERSION(major, minor, patch) ((major) * 0x400000u + (minor) * 0x1000u + (patch))
#define GD_VERSION GD_MAKE_VERSION(GD_VERSION_MAJOR, GD_VERSION_MINOR, GD_VERSION_PATCH)

/*
 * The number of the binary interface. It changes if a program with an older header would do something else with
 * the library: by a struct, a number, or what a function takes.
 */
#define GD_ABI 5u

/* A function of the headers for C. It is static in C++ too: a shared object exports none, optimised or not. */
#define GD_INLINE static inline

#ifdef __cplusplus
#if __cplusplus < 201703L && (!defined(_MSVC_LANG) || _MSVC_LANG < 201703L)
#error "gpu_descriptor.h needs C++17"
#endif
#define GD_NOEXCEPT noexcept
extern "C" {
#else
#define GD_NOEXCEPT
#endif

/* The result of a call. */
typedef uint32_t gd_status;

enum {
    GD_OK = 0,

    /* Reasons: why gd_allocate failed, and why one of your functions fails. */
    GD_OUT_OF_DEVICE_MEMORY = 10,
    GD_OUT_OF_HOST_MEMORY = 11, /* of the driver or of the library */
    GD_FRAGMENTATION = 12,      /* of gd_allocate: the limit is reached, or a new pool failed as
                                   fragmented or as full; of your functions: memory or the pool is
                                   fragmented */
    GD_OUT_OF_POOL_MEMORY = 13, /* only of your functions: the pool has no room */
    GD_DEVICE_LOST = 14,        /* the device is lost. Other calls work: gd_free_all, then gd_destroy */

    /* Mistakes in a call. */
    GD_NULL_POINTER = 20,   /* a pointer or a function is NULL */
    GD_BAD_ALLOCATOR = 21,  /* zeroed, or destroyed */
    GD_BAD_LAYOUT = 22,     /* not one of this allocator */
    GD_BAD_SET = 23,        /* zeroed, freed, waiting, of another allocator, changed, or twice in the
                               list */
    GD_BAD_FLAGS = 24,      /* unknown flags */
    GD_BAD_COUNTS = 25,     /* a layout that can't be counted or isn't supported, a cache without places */
    GD_BAD_RESULT = 26,     /* one of your functions returned a status that it may not, or the driver an
                               unknown error */
    GD_BUSY = 27,           /* a call from one of your functions; without waiting, also while another call
                               on the allocator runs */
    GD_OUTSTANDING = 28,    /* gd_destroy while sets are live */
    GD_INTERNAL_ERROR = 29, /* a bug of the library stopped a call; each later call on the allocator
                               returns this too */
    GD_BAD_VERSION = 30     /* of gd_create: the program was compiled with a header of another ABI */
};

/* The kinds of descriptors: the indices of counts. */
enum {
    GD_SAMPLER,
    GD_COMBINED_IMAGE_SAMPLER,
    GD_SAMPLED_IMAGE,
    GD_STORAGE_IMAGE,
    GD_UNIFORM_TEXEL_BUFFER,
    GD_STORAGE_TEXEL_BUFFER,
    GD_UNIFORM_BUFFER,
    GD_STORAGE_BUFFER,
    GD_UNIFORM_BUFFER_DYNAMIC,
    GD_STORAGE_BUFFER_DYNAMIC,
    GD_INPUT_ATTACHMENT,
    GD_ACCELERATION_STRUCTURE,
    GD_INLINE_UNIFORM_BLOCK_BYTES,
    GD_INLINE_UNIFORM_BLOCK_BINDINGS,
    GD_KINDS /* 14 */
};

/* Flags of pools and layouts, with Vulkan's values. */
enum {
    GD_FREE_DESCRIPTOR_SET = 1, /* of a pool: sets can be freed one by one. Each pool has it. */
    GD_UPDATE_AFTER_BIND = 2    /* of a layout: update-after-bind; of a pool: it is for such layouts */
};

/* Flags of gd_create_with_flags. */
enum {
    GD_EXTERNALLY_SYNCHRONIZED = 1 /* a call returns GD_BUSY while one of another thread runs, and doesn't wait */
};

/* A pool to create. */
typedef struct gd_pool_info {
    uint32_t max_sets;         /* how many sets it can have, at least 1 */
    uint32_t flags;            /* GD_FREE_DESCRIPTOR_SET, and GD_UPDATE_AFTER_BIND or not */
    uint32_t counts[GD_KINDS]; /* how many descriptors all of its sets together can have; one sampler if
                                  these have none */
} gd_pool_info;

/*
 * Your functions. Each gets 'user' of the gd_device.
 *
 * gd_create_pool_fn creates a pool and writes its handle.
 *
 * gd_destroy_pool_fn destroys a pool, which has no sets.
 *
 * gd_allocate_sets_fn allocates 'count' sets, at least 1, from a pool. Both arrays have 'count' elements: the
 * same layout each, and zeros for the handles of the sets. It writes all handles, or it fails and allocates no
 * set.
 *
 * gd_free_sets_fn frees sets, at least 1, all of this pool.
 *
 * gd_create_pool_fn and gd_allocate_sets_fn return GD_OK or one of the reasons 10 to 14. If gd_allocate_sets_fn
 * returns GD_FRAGMENTATION or GD_OUT_OF_POOL_MEMORY for an existing pool, the next pool is asked. If it does so
 * for a new pool, the pool is destroyed, and gd_allocate returns GD_FRAGMENTATION, as it does if
 * gd_create_pool_fn returns one of these two. gd_allocate returns each other reason as it is, and GD_BAD_RESULT
 * for a status that is no reason.
 *
 * They run during a call on the allocator, in its thread. They may call other allocators; a call on the same
 * one is GD_BUSY. They must return: not by longjmp, and not by a C++ exception, which would end the program.
 * For this their types are noexcept in C++. If one leaves by longjmp, its allocator is stuck and its pools
 * stay: each later call on it is GD_BUSY from this thread, and waits for ever from others.
 */
typedef gd_status (*gd_create_pool_fn)(void *user, const gd_pool_info *info, uint64_t *pool) GD_NOEXCEPT;
typedef void (*gd_destroy_pool_fn)(void *user, uint64_t pool) GD_NOEXCEPT;
typedef gd_status (*gd_allocate_sets_fn)(void *user, uint64_t pool, uint32_t count,
                                      const uint64_t *layouts, uint64_t *sets) GD_NOEXCEPT;
typedef void (*gd_free_sets_fn)(void *user, uint64_t pool, uint32_t count,
                             const uint64_t *sets) GD_NOEXCEPT;

/*
 * For layouts with a variable count (gd_add_variable_layout). Same as gd_allocate_sets_fn, with the same
 * variable count for each set.
 */
typedef gd_status (*gd_allocate_variable_sets_fn)(void *user, uint64_t pool, uint32_t count, const uint64_t *layouts,
                                               const uint32_t *variable_counts, uint64_t *sets) GD_NOEXCEPT;

typedef struct gd_device {
    void *user;
    gd_create_pool_fn create_pool;
    gd_destroy_pool_fn destroy_pool;
    gd_allocate_sets_fn allocate_sets;
    gd_free_sets_fn free_sets;
} gd_device;

/* An allocator; none if it is zeroed. The fields are the library's. */
typedef struct gd_allocator {
    const void *slot;
    uint64_t id;
} gd_allocator;

/* A layout of an allocator. The fields are the library's. */
typedef struct gd_layout {
    uint64_t index;
    uint64_t owner;
} gd_layout;

/* A set; none if it is zeroed. No name is given twice, so a freed set is never taken for a new one. */
typedef struct gd_set {
    uint64_t handle; /* the driver's */
    uint64_t name;   /* the library's, as 'owner' */
    uint64_t owner;
} gd_set;

/* The numbers of an allocator. A pool's sets and descriptors are those that it can have (gd_pool_info). */
typedef struct gd_statistics {
    uint64_t outstanding; /* live sets, those that wait for a frame included */
    uint64_t waiting;     /* sets that wait for a frame */
    uint64_t kept;        /* kept sets of all layouts */
    uint64_t layouts;
    uint64_t pools;                 /* pools that exist */
    uint64_t pool_sets;             /* the sets that these pools can have */
    uint64_t pool_descriptors;      /* the descriptors that they can have, of all kinds together */
    uint64_t peak_pools;            /* the peak of 'pools' so far */
    uint64_t peak_pool_sets;        /* the peak of 'pool_sets' so far */
    uint64_t peak_pool_descriptors; /* the peak of 'pool_descriptors' so far */
    uint64_t max_pool_descriptors; /* see gd_allocator_set_max_pool_descriptors */
    uint64_t update_after_bind_capacity; /* descriptors of the pools for update-after-bind layouts: how much
                                            of the limit is in use */
    uint64_t update_after_bind_limit;    /* the limit that was passed to gd_create */
} gd_statistics;

/*
 * The numbers of a layout. Layouts with the same counts and flags share pools, so each number except 'kept'
 * covers the sets of all these layouts, and of those that were removed. 'pool_sets_used' less the 'kept' of all of
 * them is how many of their sets are live.
 */
typedef struct gd_layout_statistics {
    uint64_t kept;           /* kept sets of this layout alone */
    uint64_t pools;          /* pools that exist */
    uint64_t pool_sets_used; /* sets of these pools that are live or kept */
    uint64_t pool_sets_free; /* sets that these pools can still give. A pool that refused counts as full
                                until the driver frees a set of it */
} gd_layout_statistics;

/* The version of the library, as GD_MAKE_VERSION makes it. */
uint32_t gd_version(void);

/* The name of a status, as "GD_OK"; "unknown status" for other numbers. */
const char *gd_status_name(gd_status status);

/*
 * What the library and a host must agree on: the ABI's number and the sizes of the structs, a byte each.
 * gd_create compares it with the library's.
 */
#define GD_ABI_FINGERPRINT                                                                              \
    (sizeof(gd_layout_statistics) * (UINT64_C(1) << 56) + GD_ABI * (UINT64_C(1) << 48) +                \
     sizeof(gd_statistics) * (UINT64_C(1) << 40) + sizeof(gd_device) * (UINT64_C(1) << 32) +            \
     sizeof(gd_pool_info) * (UINT64_C(1) << 24) + sizeof(gd_allocator) * (UINT64_C(1) << 16) +          \
     sizeof(gd_layout) * (UINT64_C(1) << 8) + sizeof(gd_set))

#if defined(__cplusplus)
#define GD_FITS(type) static_assert(sizeof(type) < 256, "GD_ABI_FINGERPRINT has a byte for it")
#elif defined(__STDC_VERSION__) && __STDC_VERSION__ >= 201112L
#define GD_FITS(type) _Static_assert(sizeof(type) < 256, "GD_ABI_FINGERPRINT has a byte for it")
#else
#define GD_FITS(type) typedef char type##_fits[sizeof(type) < 256 ? 1 : -1]
#endif
GD_FITS(gd_layout_statistics);
GD_FITS(gd_statistics);
GD_FITS(gd_device);
GD_FITS(gd_pool_info);
GD_FITS(gd_allocator);
GD_FITS(gd_layout);
GD_FITS(gd_set);
#undef GD_FITS

/*
 * Same as gd_create_with_copy, for programs that load the library at run time or are written in another
 * language: 'fingerprint' is their GD_ABI_FINGERPRINT. With another one it reads and writes nothing.
 */
gd_status gd_create_checked(uint64_t fingerprint, const gd_device *device, size_t user_size, uint32_t limit,
                            uint32_t flags, gd_allocator *allocator);

/*
 * Creates an allocator. The device is copied. If 'user_size' isn't 0, that many bytes at 'user' are copied too, and
 * your functions get a pointer to the copy, aligned as a uint64_t; otherwise they get 'user' itself.
 *
 * All pools for update-after-bind layouts together have at most 'limit' descriptors: in Vulkan this is
 * maxUpdateAfterBindDescriptorsInAllPools; with a greater one the pools may exceed what the driver allows. All
 * allocators of a device, and update-after-bind pools of your own, share the driver's limit: give each a part.
 * 'flags' is 0 or GD_EXTERNALLY_SYNCHRONIZED. If it fails, 'allocator' is zeroed.
 *
 * A few hundred bytes of a destroyed allocator are retained for the next one.
 *
 * GD_NULL_POINTER, GD_BAD_FLAGS, GD_OUT_OF_HOST_MEMORY, GD_BAD_VERSION.
 */
GD_INLINE gd_status gd_create_with_copy(const gd_device *device, size_t user_size, uint32_t limit,
                                        uint32_t flags, gd_allocator *allocator) {
    if (allocator)
        memset(allocator, 0, sizeof *allocator);
    return gd_create_checked(GD_ABI_FINGERPRINT, device, user_size, limit, flags, allocator);
}

/* Same as gd_create_with_copy without a copy: what 'user' points to must stay where it is until gd_destroy. */
GD_INLINE gd_status gd_create_with_flags(const gd_device *device, uint32_t limit, uint32_t flags,
                                         gd_allocator *allocator) {
    return gd_create_with_copy(device, 0, limit, flags, allocator);
}

/* Same as gd_create_with_flags with 'flags' 0. */
GD_INLINE gd_status gd_create(const gd_device *device, uint32_t limit, gd_allocator *allocator) {
    return gd_create_with_flags(device, limit, 0, allocator);
}

/*
 * Destroys an allocator and all its pools. No set may be live; gd_free_all frees what is left. It allocates no
 * memory.
 *
 * GD_OUTSTANDING, GD_BAD_ALLOCATOR, GD_BUSY, GD_INTERNAL_ERROR.
 */
gd_status gd_destroy(gd_allocator allocator);

/*
 * Adds a layout: the driver's handle, the descriptors of one set by kind, and 0 or GD_UPDATE_AFTER_BIND. Counts
 * and flags must be those of the layout: the library can't check them. A layout that was added before, with the
 * same handle, counts and flags, gets the same index again. Layouts with the same counts and flags share pools.
 *
 * GD_NULL_POINTER, GD_BAD_FLAGS, GD_OUT_OF_HOST_MEMORY, GD_BAD_ALLOCATOR, GD_BUSY, GD_INTERNAL_ERROR.
 */
gd_status gd_add_layout(gd_allocator allocator, uint64_t handle, const uint32_t counts[GD_KINDS],
                        uint32_t flags, gd_layout *layout);

/*
 * Adds a layout with a variable count, as Vulkan has them. Same as gd_add_layout, with the number of
 * descriptors of the binding with a variable count in each set; 'counts' includes them. The same handle with
 * another count is another layout. Its sets are allocated by the function that was passed to
 * gd_allocator_set_allocate_variable_sets; without one it is GD_BAD_COUNTS. gdv_create passes one.
 *
 * GD_NULL_POINTER, GD_BAD_COUNTS, GD_BAD_FLAGS, GD_OUT_OF_HOST_MEMORY, GD_BAD_ALLOCATOR, GD_BUSY,
 * GD_INTERNAL_ERROR.
 */
gd_status gd_add_variable_layout(gd_allocator allocator, uint64_t handle, uint32_t variable_count,
                                 const uint32_t counts[GD_KINDS], uint32_t flags, gd_layout *layout);
gd_status gd_allocator_set_allocate_variable_sets(gd_allocator allocator, gd_allocate_variable_sets_fn function);

/*
 * Removes a layout. Call it before you destroy the layout. Otherwise the next layout with the same handle,
 * counts and flags is taken for it, and gets its kept sets. The removed layout is GD_BAD_LAYOUT, even after
 * other layouts were added. The driver frees its kept sets, and then the pools for its counts and flags that
 * have no set are destroyed. Its live sets stay valid until they are freed, and are freed by the driver then. A
 * pool that they leave empty may stay, and counts against the limit, until gd_trim or gd_cleanup. Other layouts
 * with these counts and flags keep their kept sets. It allocates no memory. The time is linear in the number of
 * its kept sets and of these pools.
 *
 * GD_BAD_LAYOUT, GD_BAD_ALLOCATOR, GD_BUSY, GD_INTERNAL_ERROR.
 */
gd_status gd_remove_layout(gd_allocator allocator, gd_layout layout);

/*
 * Allocates 'count' sets, all or none: kept ones of this layout first, the others new, in one request. If it
 * fails, 'sets' is zeroed, and freeing such a set is GD_BAD_SET.
 *
 * If new sets are refused while sets of any layout are kept, all kept sets are freed and empty pools are
 * destroyed, as by gd_cleanup, and it retries once, for all 'count'. It fails without that, and kept sets stay,
 * if 'count' sets alone have more update-after-bind descriptors than the limit, or if memory for the library's
 * table of sets or for their names runs out. Otherwise it fails only if the retry is refused too, or if no set
 * was kept. After a failure there may be empty pools, which count against the limit: gd_trim destroys them.
 *
 * GD_OUT_OF_DEVICE_MEMORY, GD_OUT_OF_HOST_MEMORY, GD_FRAGMENTATION, GD_DEVICE_LOST, GD_BAD_RESULT,
 * GD_NULL_POINTER, GD_BAD_LAYOUT, GD_BAD_ALLOCATOR, GD_BUSY, GD_INTERNAL_ERROR.
 */
gd_status gd_allocate(gd_allocator allocator, gd_layout layout, uint32_t count, gd_set *sets);

/*
 * Frees sets, all or none, of any layouts and in any order. The device must no longer use them. Each is kept,
 * or the driver frees it, with one call of free_sets per run of sets from one pool. They may reach the driver in
 * another order, in which sets that share pools mostly come next to each other. Pools that become empty may be
 * destroyed. It allocates no memory.
 *
 * GD_BAD_SET, GD_NULL_POINTER, GD_BAD_ALLOCATOR, GD_BUSY, GD_INTERNAL_ERROR.
 */
gd_status gd_free(gd_allocator allocator, const gd_set *sets, uint32_t count);

/*
 * Frees all live sets, those that wait for a frame too, and all kept ones; it keeps none. The device must no
 * longer use them. The layouts stay, and so do the last pools for their counts and flags. It allocates no
 * memory.
 *
 * GD_BAD_ALLOCATOR, GD_BUSY, GD_INTERNAL_ERROR.
 */
gd_status gd_free_all(gd_allocator allocator);

/*
 * Frees sets, all or none, once a frame is done: they wait, and gd_frame_done frees them. They are no longer
 * yours: freeing one again is GD_BAD_SET. Frames are numbers of your own, in any order: a set is freed by the
 * next gd_frame_done with its number or a higher one. It allocates no memory.
 *
 * An allocator has one order of frames, for all queues. If two queues count for themselves, gd_frame_done with a
 * number of one frees the sets of the other that wait for lower numbers, although its work is still pending. So
 * do one of these: number the submissions to all queues by one counter, and pass the number up to which all are
 * done; create an allocator for each queue, with a part of the limit; or free the sets of a submission by
 * gd_free once its fence or timeline semaphore has signaled.
 *
 * GD_BAD_SET, GD_NULL_POINTER, GD_BAD_ALLOCATOR, GD_BUSY, GD_INTERNAL_ERROR.
 */
gd_status gd_free_after(gd_allocator allocator, const gd_set *sets, uint32_t count, uint64_t frame);

/*
 * gd_begin_frame makes 'frame' the current one. gd_free_after_current is gd_free_after with the current frame:
 * for sets whose last use is in a command buffer of this frame or of an earlier one. So a program that calls
 * gd_begin_frame before it records a frame frees no set too early, wherever it frees it. Before the first
 * gd_begin_frame the current frame is UINT64_MAX, with which no device is done until it is idle: begin one
 * before you load, too. They allocate no memory.
 *
 * GD_BAD_SET, GD_NULL_POINTER, GD_BAD_ALLOCATOR, GD_BUSY, GD_INTERNAL_ERROR.
 */
gd_status gd_begin_frame(gd_allocator allocator, uint64_t frame);
gd_status gd_free_after_current(gd_allocator allocator, const gd_set *sets, uint32_t count);

/*
 * Frees the sets that wait for this frame or an earlier one, as gd_free does. The device must be done with
 * these frames, on every queue. UINT64_MAX frees all that wait. It allocates no memory.
 *
 * GD_BAD_ALLOCATOR, GD_BUSY, GD_INTERNAL_ERROR.
 */
gd_status gd_frame_done(gd_allocator allocator, uint64_t frame);

/*
 * Sets how many freed sets of each layout are kept at most; the driver frees those above. At first it is
 * UINT32_MAX, so all are kept; 0 keeps none. It allocates no memory.
 *
 * GD_BAD_ALLOCATOR, GD_BUSY, GD_INTERNAL_ERROR.
 */
gd_status gd_allocator_set_max_kept(gd_allocator allocator, uint32_t max);

/*
 * Bounds new pools: each has at most 'max' descriptors, of all kinds together, unless the sets that a gd_allocate
 * still needs have more. So it holds at most as many sets as have 'max' descriptors, or as are still needed if these
 * are more, and at least one. At first 'max' is 65,536. UINT64_MAX removes the bound: then a new pool is for at least
 * 64 sets however many descriptors a set has, or for as many as the limit allows. Existing pools stay as they are. It
 * allocates no memory.
 *
 * GD_BAD_ALLOCATOR, GD_BUSY, GD_INTERNAL_ERROR.
 */
gd_status gd_allocator_set_max_pool_descriptors(gd_allocator allocator, uint64_t max);

/*
 * A function of yours that gets each new pool, for example to give it a debug name by
 * vkSetDebugUtilsObjectNameEXT. 'info' is what create_pool got, valid during the call: each set of the pool has
 * counts[kind] / max_sets descriptors of a kind. (If the sets have none, the pool has one sampler.)
 *
 * gd_allocate calls it once for each pool: after create_pool returned GD_OK, and before the pool's first set is
 * allocated. It isn't called for a pool that create_pool refused. It is called for a pool whose first sets are
 * refused, which is then destroyed. Like your four functions it must return, and a call on the same allocator
 * is GD_BUSY.
 */
typedef void (*gd_pool_created_fn)(void *user, uint64_t pool, const gd_pool_info *info) GD_NOEXCEPT;

/*
 * Calls 'function' for each pool that is created from now on. 'user' isn't that of the gd_device, and must stay
 * valid until another function is set, or until gd_destroy. NULL, as at first, calls none. It allocates no
 * memory.
 *
 * GD_BAD_ALLOCATOR, GD_BUSY, GD_INTERNAL_ERROR.
 */
gd_status gd_allocator_set_pool_created(gd_allocator allocator, gd_pool_created_fn function, void *user);

/*
 * Frees all kept sets, and destroys all pools that then have no set. If no set is live, no pool is left. Sets
 * that are live now aren't kept once they are freed, so that their pools become empty; those that gd_allocate
 * returns later are kept again. It allocates no memory.
 *
 * GD_BAD_ALLOCATOR, GD_BUSY, GD_INTERNAL_ERROR.
 */
gd_status gd_cleanup(gd_allocator allocator);

/*
 * Destroys all pools that have no set. Kept sets stay, and so do their pools: gd_cleanup frees those first. It
 * visits every pool and allocates no memory.
 *
 * GD_BAD_ALLOCATOR, GD_BUSY, GD_INTERNAL_ERROR.
 */
gd_status gd_trim(gd_allocator allocator);

/*
 * gd_outstanding: how many sets are live, those that wait for a frame included, kept ones not. gd_waiting: how
 * many of these wait. gd_pool_count: how many pools exist, in constant time. The time of the others is linear in
 * the peak of the number of layouts, with the removed ones that have live sets.
 *
 * GD_NULL_POINTER, GD_BAD_ALLOCATOR, GD_BUSY, GD_INTERNAL_ERROR.
 */
gd_status gd_outstanding(gd_allocator allocator, uint64_t *sets);
gd_status gd_waiting(gd_allocator allocator, uint64_t *sets);
gd_status gd_pool_count(gd_allocator allocator, uint64_t *pools);

/*
 * All numbers of an allocator; those of a layout; and how many sets of a layout are kept. The first takes the
 * time of gd_outstanding, the second is linear in the layout's pools, and gd_kept takes constant time. They
 * allocate no memory.
 *
 * GD_NULL_POINTER, GD_BAD_LAYOUT, GD_BAD_ALLOCATOR, GD_BUSY, GD_INTERNAL_ERROR.
 */
gd_status gd_get_statistics(gd_allocator allocator, gd_statistics *statistics);
gd_status gd_get_layout_statistics(gd_allocator allocator, gd_layout layout, gd_layout_statistics *statistics);
gd_status gd_kept(gd_allocator allocator, gd_layout layout, uint64_t *sets);

/*
 * Writes the numbers of the allocator and of each layout as JSON, as snprintf writes: at most 'room' bytes, the
 * last one a zero. 'length' becomes the length of the whole text without the zero: if it isn't less than
 * 'room', the text was cut. 'text' may be NULL if 'room' is 0. It allocates no memory.
 *
 * The object has "version", and the fields of gd_statistics by their names; but "max_pool_descriptors" is null
 * without a bound, and "layouts" is a list. Each layout there has the fields of gd_layout_statistics, its
 * "handle" as a hexadecimal text, "update_after_bind" as a Boolean, and "descriptors" with the kinds that a set
 * has.
 *
 * GD_NULL_POINTER, GD_BAD_ALLOCATOR, GD_BUSY, GD_INTERNAL_ERROR.
 */
gd_status gd_write_statistics(gd_allocator allocator, char *text, size_t room, size_t *length);

#ifdef __cplusplus
}
#endif

#endif
