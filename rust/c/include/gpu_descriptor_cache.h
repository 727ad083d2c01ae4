/*
 * gpu_descriptor_cache.h: a cache of sets for one thread and one layout, for C11 and C++17. Header only.
 *
 *     gd_set places[2 * GD_CACHE_REFILL];
 *     gd_cache cache;
 *     gd_cache_init(&cache, allocator, layout, places, GD_CACHE_REFILL);
 *     gd_cache_allocate(&cache, 1, &set);
 *     gd_cache_free(&cache, &set, 1);
 *     gd_cache_flush(&cache);
 *
 * It allocates and frees many sets by one call on the allocator, so that threads seldom wait for each other.
 * Only one thread at a time may use a cache; its calls may be GD_BUSY where those of the allocator are.
 *
 * Sets in a cache are live: their pools stay, and gd_destroy is GD_OUTSTANDING. So flush all caches before
 * gd_cleanup, gd_remove_layout, gd_free_all and gd_destroy. After gd_free_all and gd_destroy, and after
 * GD_INTERNAL_ERROR, gd_cache_allocate would still return sets of the cache, which may be freed by then. A set
 * that has to wait for a frame doesn't go into a cache: free it by gd_free_after, all sets of a frame and thread
 * in one call.
 *
 * The allocator checks sets only when the cache frees them. So a set that is freed twice into caches, or into
 * one of another layout, may be allocated twice. With GD_CACHE_CHECKED, for a debug build, a set that is in the
 * cache already is GD_BAD_SET; that takes time for each set in the cache.
 */
#ifndef GPU_DESCRIPTOR_CACHE_H
#define GPU_DESCRIPTOR_CACHE_H

#include "gpu_descriptor.h"

#include <string.h>

/* A usual number of sets that a cache allocates or frees by one call. */
#define GD_CACHE_REFILL 64u

/* A cache. The fields are the header's, but you may read 'count': how many sets are in it. */
typedef struct gd_cache {
    gd_allocator allocator;
    gd_layout layout;
    gd_set *places;
    uint32_t refill;
    uint32_t count;
} gd_cache;

/*
 * Begins a cache without sets. 'places' is an array of yours with 2 * 'refill' elements, which is in use until
 * the cache is flushed. 'refill' is how many sets it allocates or frees by one call.
 *
 * GD_NULL_POINTER; GD_BAD_COUNTS if 'refill' is 0 or exceeds 31 bits.
 */
GD_INLINE gd_status gd_cache_init(gd_cache *cache, gd_allocator allocator, gd_layout layout, gd_set *places,
                                  uint32_t refill) {
    if (!cache || !places)
        return GD_NULL_POINTER;
    if (refill == 0 || refill > UINT32_MAX / 2)
        return GD_BAD_COUNTS;
    cache->allocator = allocator;
    cache->layout = layout;
    cache->places = places;
    cache->refill = refill;
    cache->count = 0;
    return GD_OK;
}

/* Takes 'count' sets, which are in the cache, out of it. */
GD_INLINE void gd_cache_take(gd_cache *cache, uint32_t count, gd_set *sets) {
    cache->count -= count;
    for (uint32_t at = 0; at < count; at++)
        sets[at] = cache->places[cache->count + at];
}

/*
 * Fills an empty cache by one call. If that is refused for memory, the limit or the device, it asks for half as
 * many, and so on down to 'missing'.
 */
GD_INLINE gd_status gd_cache_fill(gd_cache *cache, uint32_t missing) {
    uint32_t count = cache->refill;
    for (;;) {
        gd_status status = gd_allocate(cache->allocator, cache->layout, count, cache->places);
        if (status == GD_OK)
            cache->count = count;
        if (status < GD_OUT_OF_DEVICE_MEMORY || status > GD_DEVICE_LOST || count == missing)
            return status;
        count = count / 2 > missing ? count / 2 : missing;
    }
}

/*
 * Allocates sets, all or none: those in the cache first. For the missing ones it refills the cache by one
 * gd_allocate, of fewer sets if 'refill' sets are refused; if at least 'refill' are missing, it allocates just
 * these. If it fails, 'sets' is zeroed, and the cache has what it had. A refusal frees kept sets, as in
 * gd_allocate.
 *
 * The statuses of gd_allocate.
 */
GD_INLINE gd_status gd_cache_allocate(gd_cache *cache, uint32_t count, gd_set *sets) {
    gd_status status = GD_OK;
    if (!cache || (!sets && count > 0))
        return GD_NULL_POINTER;
    const uint32_t cached = count < cache->count ? count : cache->count, missing = count - cached;
    gd_cache_take(cache, cached, sets);
    if (missing == 0)
        return GD_OK;
    if (missing >= cache->refill) {
        status = gd_allocate(cache->allocator, cache->layout, missing, sets + cached);
    } else {
        status = gd_cache_fill(cache, missing);
        if (status == GD_OK)
            gd_cache_take(cache, missing, sets + cached);
    }
    if (status != GD_OK) {
        memcpy(cache->places, sets, cached * sizeof *sets);
        cache->count = cached;
        memset(sets, 0, count * sizeof *sets);
    }
    return status;
}

/* Whether a set may be put into the cache: it is of the allocator, and not in the cache yet. */
GD_INLINE int gd_cache_may_have(const gd_cache *cache, const gd_set *sets, uint32_t at) {
#ifdef GD_CACHE_CHECKED
    for (uint32_t other = 0; other < cache->count; other++)
        if (cache->places[other].name == sets[at].name)
            return 0;
    for (uint32_t other = 0; other < at; other++)
        if (sets[other].name == sets[at].name)
            return 0;
#endif
    return sets[at].owner == cache->allocator.id && sets[at].name != 0;
}

/*
 * Frees sets of the cache's layout into the cache, all or none, even if they were allocated from another cache
 * or by gd_allocate. The device must no longer use them. If the cache has no room, it first frees 'refill' of
 * its sets by one gd_free; if 'sets' has at least 'refill' sets, it frees these by gd_free instead. If that is
 * refused, the cache has what it had, and 'sets' are still yours.
 *
 * The statuses of gd_free. It is GD_BAD_SET too if a set is of another allocator. If a set of the cache itself
 * was freed elsewhere, all calls that need room are GD_BAD_SET until gd_cache_flush.
 */
GD_INLINE gd_status gd_cache_free(gd_cache *cache, const gd_set *sets, uint32_t count) {
    if (!cache || (!sets && count > 0))
        return GD_NULL_POINTER;
    for (uint32_t at = 0; at < count; at++)
        if (!gd_cache_may_have(cache, sets, at))
            return GD_BAD_SET;
    if (count > 2 * cache->refill - cache->count) {
        if (count >= cache->refill)
            return gd_free(cache->allocator, sets, count);
        const uint32_t left = cache->count - cache->refill;
        const gd_status status = gd_free(cache->allocator, cache->places + left, cache->refill);
        if (status != GD_OK)
            return status;
        cache->count = left;
    }
    for (uint32_t at = 0; at < count; at++)
        cache->places[cache->count++] = sets[at];
    return GD_OK;
}

/*
 * Frees all sets of the cache by one gd_free. If one of them was freed elsewhere, it is GD_BAD_SET, the others
 * are freed, and the cache is empty. After any other failure it has all that weren't freed.
 *
 * The statuses of gd_free.
 */
GD_INLINE gd_status gd_cache_flush(gd_cache *cache) {
    if (!cache)
        return GD_NULL_POINTER;
    if (cache->count == 0)
        return GD_OK;
    const gd_status status = gd_free(cache->allocator, cache->places, cache->count);
    if (status == GD_OK)
        cache->count = 0;
    for (; status == GD_BAD_SET && cache->count > 0; cache->count--) {
        const gd_status one = gd_free(cache->allocator, cache->places + cache->count - 1, 1);
        if (one != GD_OK && one != GD_BAD_SET)
            return one;
    }
    return status;
}

#endif
