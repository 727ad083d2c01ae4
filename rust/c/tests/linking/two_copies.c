// Two copies of the library in one process: an allocator of one takes no layout and no set of the other. With COPY
// this is a shared object that has a copy inside, and else the program that loads two of them.
//
// usage: two_copies COPY COPY
#include "gpu_descriptor.h"

struct copy {
    gd_status (*create)(gd_allocator *allocator);
    gd_status (*add_layout)(gd_allocator allocator, uint64_t handle, const uint32_t counts[GD_KINDS], uint32_t flags,
                            gd_layout *layout);
    gd_status (*allocate)(gd_allocator allocator, gd_layout layout, uint32_t count, gd_set *sets);
    gd_status (*free)(gd_allocator allocator, const gd_set *sets, uint32_t count);
    gd_status (*remove_layout)(gd_allocator allocator, gd_layout layout);
    gd_status (*destroy)(gd_allocator allocator);
};

typedef const struct copy *(*copy_fn)(void);

#ifdef COPY

static gd_status create_pool(void *user, const gd_pool_info *info, uint64_t *pool) {
    (void)user, (void)info;
    *pool = 1;
    return GD_OK;
}

static void destroy_pool(void *user, uint64_t pool) {
    (void)user, (void)pool;
}

// Each device has the same handles, so that only the owner distinguishes its sets.
static gd_status allocate_sets(void *user, uint64_t pool, uint32_t count, const uint64_t *layouts, uint64_t *sets) {
    (void)user, (void)pool, (void)layouts;
    for (uint32_t place = 0; place < count; place++)
        sets[place] = place;
    return GD_OK;
}

static void free_sets(void *user, uint64_t pool, uint32_t count, const uint64_t *sets) {
    (void)user, (void)pool, (void)count, (void)sets;
}

static gd_status create(gd_allocator *allocator) {
    const gd_device device = {NULL, create_pool, destroy_pool, allocate_sets, free_sets};
    return gd_create(&device, 0, allocator);
}

const struct copy *copy(void);

const struct copy *copy(void) {
    static const struct copy it = {create, gd_add_layout, gd_allocate, gd_free, gd_remove_layout, gd_destroy};
    return &it;
}

#else

#include <dlfcn.h>
#include <stdio.h>
#include <stdlib.h>

#define CHECK(fact) ((fact) ? (void)0 : fail(__LINE__, #fact))

static void fail(int line, const char *what) {
    printf("two_copies.c:%d: failed: %s\n", line, what);
    exit(1);
}

enum { ALLOCATORS = 300 };

static const struct copy *loaded(const char *name) {
    void *library = dlopen(name, RTLD_NOW | RTLD_LOCAL);
    CHECK(library != NULL);
    union {
        void *pointer;
        copy_fn function;
    } it = {dlsym(library, "copy")};
    CHECK(it.pointer != NULL);
    return it.function();
}

// Allocators of a copy. The first has a layout and a set.
struct made {
    gd_allocator allocators[ALLOCATORS];
    gd_layout layout;
    gd_set set;
};

static void make(const struct copy *by, struct made *made) {
    const uint32_t counts[GD_KINDS] = {1};
    for (int at = 0; at < ALLOCATORS; at++)
        CHECK(by->create(&made->allocators[at]) == GD_OK);
    CHECK(by->add_layout(made->allocators[0], 7, counts, 0, &made->layout) == GD_OK);
    CHECK(by->allocate(made->allocators[0], made->layout, 1, &made->set) == GD_OK);
}

// The allocators of a copy refuse the other's layout and set, and still have their own.
static void refuse(const struct copy *by, const struct made *own, const struct made *other) {
    gd_set set;
    for (int at = 0; at < ALLOCATORS; at++) {
        CHECK(by->allocate(own->allocators[at], other->layout, 1, &set) == GD_BAD_LAYOUT);
        CHECK(by->remove_layout(own->allocators[at], other->layout) == GD_BAD_LAYOUT);
        CHECK(by->free(own->allocators[at], &other->set, 1) == GD_BAD_SET);
    }
    CHECK(by->free(own->allocators[0], &own->set, 1) == GD_OK);
    CHECK(by->remove_layout(own->allocators[0], own->layout) == GD_OK);
    for (int at = 0; at < ALLOCATORS; at++)
        CHECK(by->destroy(own->allocators[at]) == GD_OK);
}

int main(int words, char **word) {
    static struct made first, second;
    CHECK(words == 3);
    const struct copy *one = loaded(word[1]), *two = loaded(word[2]);
    CHECK(one != two);
    make(one, &first);
    make(two, &second);
    refuse(one, &first, &second);
    refuse(two, &second, &first);
    printf("each of two copies refuses what is the other's\n");
    return 0;
}

#endif
