// The numbers of an allocator and of its layouts, and its JSON, byte by byte and into buffers of each length.
// What is expected is worked out by hand from the rule for the size of a pool.
#include "gpu_descriptor.h"
#include "host.h"
#include <string.h>

static uint64_t pools, next_handle;
static uint32_t refusals; // how many of the next requests the pool refuses as full

static gd_status create_pool(void *user, const gd_pool_info *info, uint64_t *pool) {
    (void)user, (void)info;
    pools++;
    *pool = ++next_handle;
    return GD_OK;
}

static void destroy_pool(void *user, uint64_t pool) {
    (void)user, (void)pool;
    pools--;
}

static gd_status allocate_sets(void *user, uint64_t pool, uint32_t count, const uint64_t *layouts,
                               uint64_t *sets) {
    (void)user, (void)pool, (void)layouts;
    if (refusals > 0) {
        refusals--;
        return GD_OUT_OF_POOL_MEMORY;
    }
    for (uint32_t at = 0; at < count; at++)
        sets[at] = ++next_handle;
    return GD_OK;
}

static void free_sets(void *user, uint64_t pool, uint32_t count, const uint64_t *sets) {
    (void)user, (void)pool, (void)count, (void)sets;
}

static const gd_device DEVICE = {NULL, create_pool, destroy_pool, allocate_sets, free_sets};

static void expect_numbers(gd_allocator allocator, gd_statistics wanted) {
    gd_statistics got;
    memset(&got, 1, sizeof got);
    CHECK(gd_get_statistics(allocator, &got) == GD_OK && got.pools == pools);
    CHECK(memcmp(&got, &wanted, sizeof got) == 0);
}

static void expect_numbers_of(gd_allocator allocator, gd_layout layout, gd_layout_statistics wanted) {
    gd_layout_statistics got;
    uint64_t kept = 77;
    memset(&got, 1, sizeof got);
    CHECK(gd_get_layout_statistics(allocator, layout, &got) == GD_OK && memcmp(&got, &wanted, sizeof got) == 0);
    CHECK(gd_kept(allocator, layout, &kept) == GD_OK && kept == wanted.kept);
}

// The JSON is this, and is cut to the length of any smaller buffer.
static void expect_text(gd_allocator allocator, const char *wanted) {
    char text[2048];
    size_t length = 0, whole = strlen(wanted);
    CHECK(gd_write_statistics(allocator, NULL, 0, &length) == GD_OK && length == whole);
    for (size_t room = 1; room <= whole + 2; room++) {
        memset(text, '?', sizeof text);
        CHECK(gd_write_statistics(allocator, text, room, &length) == GD_OK && length == whole);
        size_t shown = room <= whole ? room - 1 : whole;
        CHECK(memcmp(text, wanted, shown) == 0 && text[shown] == 0 && text[room] == '?');
    }
}

// A layout of all kinds: 105 descriptors, and so 6,720 of 64 sets.
#define LAYOUT                                                                                               \
    "{\"handle\": \"0xffffffffffffffff\", \"update_after_bind\": false, \"kept\": 3, \"pools\": 1, "         \
    "\"pool_sets_used\": 9, \"pool_sets_free\": 55, \"descriptors\": "                                       \
    "{\"sampler\": 1, \"combined_image_sampler\": 2, \"sampled_image\": 3, \"storage_image\": 4, "           \
    "\"uniform_texel_buffer\": 5, \"storage_texel_buffer\": 6, \"uniform_buffer\": 7, \"storage_buffer\": 8, "\
    "\"uniform_buffer_dynamic\": 9, \"storage_buffer_dynamic\": 10, \"input_attachment\": 11, "              \
    "\"acceleration_structure\": 12, \"inline_uniform_block_bytes\": 13, "                                   \
    "\"inline_uniform_block_bindings\": 14}}"

static const char ALL[] =
    "{\"version\": \"0.1.0\", \"outstanding\": 6, \"waiting\": 2, \"kept\": 3, \"pools\": 1, \"pool_sets\": 64, "
    "\"pool_descriptors\": 6720, \"peak_pools\": 1, \"peak_pool_sets\": 64, \"peak_pool_descriptors\": 6720, "
    "\"update_after_bind_capacity\": 0, \"update_after_bind_limit\": 4294967295, "
    "\"max_pool_descriptors\": 65536, \"layouts\": [" LAYOUT "]}";

// Numbers with two more layouts, and all three, which come in any order.
static const char THREE[] =
    "{\"version\": \"0.1.0\", \"outstanding\": 7, \"waiting\": 2, \"kept\": 4, \"pools\": 2, \"pool_sets\": 66, "
    "\"pool_descriptors\": 8596654, \"peak_pools\": 2, \"peak_pool_sets\": 66, "
    "\"peak_pool_descriptors\": 8596654, \"update_after_bind_capacity\": 8589934, "
    "\"update_after_bind_limit\": 4294967295, \"max_pool_descriptors\": 65536, \"layouts\": [";

static const char *const LAYOUTS[] = {
    LAYOUT,
    "{\"handle\": \"0x2\", \"update_after_bind\": true, \"kept\": 1, \"pools\": 1, \"pool_sets_used\": 2, "
    "\"pool_sets_free\": 0, \"descriptors\": {\"sampled_image\": 4294967}}",
    "{\"handle\": \"0x0\", \"update_after_bind\": false, \"kept\": 0, \"pools\": 0, \"pool_sets_used\": 0, "
    "\"pool_sets_free\": 0, \"descriptors\": {}}",
};

static gd_layout added(gd_allocator allocator, uint64_t handle, const uint32_t *counts, uint32_t flags) {
    gd_layout layout;
    CHECK(gd_add_layout(allocator, handle, counts, flags, &layout) == GD_OK);
    return layout;
}

static void expect_no_layout(gd_allocator allocator, gd_layout layout) {
    uint64_t kept = 77;
    gd_layout_statistics got = {.pools = 77};
    CHECK(gd_kept(allocator, layout, &kept) == GD_BAD_LAYOUT && kept == 77);
    CHECK(gd_get_layout_statistics(allocator, layout, &got) == GD_BAD_LAYOUT && got.pools == 77);
}

static void expect_three(gd_allocator allocator) {
    char text[4096];
    size_t length, wanted = strlen(THREE) + 2 * strlen(", ") + strlen("]}");
    CHECK(gd_write_statistics(allocator, text, sizeof text, &length) == GD_OK && length < sizeof text);
    CHECK(strncmp(text, THREE, strlen(THREE)) == 0);
    for (int at = 0; at < 3; at++) {
        CHECK(strstr(text, LAYOUTS[at]) != NULL);
        wanted += strlen(LAYOUTS[at]);
    }
    CHECK(length == wanted);
}

static void count_and_write(void) {
    gd_allocator allocator;
    gd_set sets[11];
    uint32_t all[GD_KINDS], one[GD_KINDS] = {[GD_SAMPLED_IMAGE] = 4294967}, none[GD_KINDS] = {0};
    for (uint32_t kind = 0; kind < GD_KINDS; kind++)
        all[kind] = kind + 1;
    gd_statistics wanted = {.max_pool_descriptors = 65536, .update_after_bind_limit = UINT32_MAX};
    CHECK(gd_create(&DEVICE, UINT32_MAX, &allocator) == GD_OK);
    expect_numbers(allocator, wanted);
    gd_layout first = added(allocator, UINT64_MAX, all, 0);
    CHECK(gd_allocate(allocator, first, 9, sets) == GD_OK && gd_free(allocator, sets, 3) == GD_OK);
    CHECK(gd_free_after(allocator, sets + 3, 2, 1) == GD_OK);
    wanted.outstanding = 6, wanted.waiting = 2, wanted.kept = 3, wanted.layouts = 1;
    wanted.pools = wanted.peak_pools = 1;
    wanted.pool_sets = wanted.peak_pool_sets = 64;
    wanted.pool_descriptors = wanted.peak_pool_descriptors = 6720;
    expect_numbers(allocator, wanted);
    expect_text(allocator, ALL);
    // The bound leaves a pool of the two sets that are needed.
    gd_layout second = added(allocator, 2, one, GD_UPDATE_AFTER_BIND), third = added(allocator, 0, none, 0);
    CHECK(gd_allocate(allocator, second, 2, sets + 9) == GD_OK && gd_free(allocator, sets + 10, 1) == GD_OK);
    wanted.outstanding = 7, wanted.kept = 4, wanted.layouts = 3;
    wanted.pools = wanted.peak_pools = 2;
    wanted.pool_sets = wanted.peak_pool_sets = 66;
    wanted.pool_descriptors = wanted.peak_pool_descriptors = 6720 + 2 * 4294967;
    wanted.update_after_bind_capacity = 2 * 4294967;
    expect_numbers(allocator, wanted);
    expect_three(allocator);
    // Kept sets, pools, and their sets that are used and free. Nine were allocated of 64: kept ones are used too.
    expect_numbers_of(allocator, first, (gd_layout_statistics){3, 1, 9, 55});
    expect_numbers_of(allocator, second, (gd_layout_statistics){1, 1, 2, 0});
    expect_numbers_of(allocator, third, (gd_layout_statistics){0, 0, 0, 0});
    expect_no_layout(allocator, (gd_layout){first.index + 77, first.owner});
    expect_no_layout(allocator, (gd_layout){first.index ^ UINT64_C(1) << 40, first.owner});
    expect_no_layout(allocator, (gd_layout){first.index, first.owner + 1});
    CHECK(gd_free_all(allocator) == GD_OK && gd_cleanup(allocator) == GD_OK);
    wanted.outstanding = wanted.waiting = wanted.kept = 0;
    wanted.pools = wanted.pool_sets = wanted.pool_descriptors = wanted.update_after_bind_capacity = 0;
    expect_numbers(allocator, wanted);
    CHECK(gd_destroy(allocator) == GD_OK);
}

// Two layouts of 1,000 samplers share pools of 64 sets; a third one, of one sampler, has
// a pool of 128 sets, and later one of 64.
static void share_pools(void) {
    gd_allocator allocator;
    gd_set sets[101];
    uint32_t thousand[GD_KINDS] = {1000}, one[GD_KINDS] = {1};
    gd_statistics wanted = {.max_pool_descriptors = 65536};
    CHECK(gd_create(&DEVICE, 0, &allocator) == GD_OK);
    gd_layout first = added(allocator, 1, thousand, 0), second = added(allocator, 2, thousand, 0);
    gd_layout third = added(allocator, 3, one, 0);
    CHECK(gd_allocate(allocator, first, 1, sets) == GD_OK && gd_allocate(allocator, second, 64, sets + 1) == GD_OK);
    CHECK(gd_free(allocator, sets + 1, 64) == GD_OK);
    wanted.outstanding = 1, wanted.kept = 64, wanted.layouts = 3;
    wanted.pools = wanted.peak_pools = 2;
    wanted.pool_sets = wanted.peak_pool_sets = 128;
    wanted.pool_descriptors = wanted.peak_pool_descriptors = 128000;
    expect_numbers(allocator, wanted);
    expect_numbers_of(allocator, first, (gd_layout_statistics){0, 2, 65, 63});
    expect_numbers_of(allocator, second, (gd_layout_statistics){64, 2, 65, 63});
    // The first pool has a set. The second one has none then, and goes.
    CHECK(gd_remove_layout(allocator, second) == GD_OK);
    expect_no_layout(allocator, second);
    expect_numbers_of(allocator, first, (gd_layout_statistics){0, 1, 1, 63});
    // There are more sets than ever, and fewer descriptors.
    CHECK(gd_allocate(allocator, third, 100, sets + 1) == GD_OK);
    wanted.outstanding = 101, wanted.kept = 0, wanted.layouts = 2;
    wanted.pool_sets = wanted.peak_pool_sets = 64 + 128;
    wanted.pool_descriptors = 64000 + 128;
    expect_numbers(allocator, wanted);
    expect_numbers_of(allocator, third, (gd_layout_statistics){0, 1, 100, 28});
    // There are fewer of all than before.
    CHECK(gd_free_all(allocator) == GD_OK && gd_cleanup(allocator) == GD_OK);
    CHECK(gd_allocate(allocator, third, 1, sets) == GD_OK);
    wanted.outstanding = wanted.pools = 1;
    wanted.pool_sets = wanted.pool_descriptors = 64;
    expect_numbers(allocator, wanted);
    CHECK(gd_free_all(allocator) == GD_OK && gd_destroy(allocator) == GD_OK);
}

// A pool that refused counts as full, until a set of it is freed by the driver.
static void count_after_a_refusal(void) {
    gd_allocator allocator;
    gd_set sets[3];
    uint32_t one[GD_KINDS] = {1};
    CHECK(gd_create(&DEVICE, 0, &allocator) == GD_OK && gd_allocator_set_max_kept(allocator, 0) == GD_OK);
    gd_layout layout = added(allocator, 1, one, 0);
    CHECK(gd_allocate(allocator, layout, 2, sets) == GD_OK);
    refusals = 1;
    CHECK(gd_allocate(allocator, layout, 1, sets + 2) == GD_OK);
    expect_numbers_of(allocator, layout, (gd_layout_statistics){0, 2, 3, 63});
    CHECK(gd_free(allocator, sets, 1) == GD_OK);
    expect_numbers_of(allocator, layout, (gd_layout_statistics){0, 2, 2, 64});
    CHECK(gd_free_all(allocator) == GD_OK && gd_destroy(allocator) == GD_OK);
}

// Of a limit of 100 a pool of 33 sets with three descriptors takes 99, and one for sets without any the last.
static void use_up_the_limit(void) {
    gd_allocator allocator;
    gd_set sets[2];
    uint32_t three[GD_KINDS] = {[GD_STORAGE_IMAGE] = 1, [GD_STORAGE_BUFFER] = 2}, none[GD_KINDS] = {0};
    gd_statistics wanted = {.max_pool_descriptors = 65536, .update_after_bind_limit = 100};
    CHECK(gd_create(&DEVICE, 100, &allocator) == GD_OK);
    gd_layout first = added(allocator, 1, three, GD_UPDATE_AFTER_BIND);
    gd_layout second = added(allocator, 2, none, GD_UPDATE_AFTER_BIND);
    CHECK(gd_allocate(allocator, first, 1, sets) == GD_OK && gd_allocate(allocator, second, 1, sets + 1) == GD_OK);
    wanted.outstanding = wanted.layouts = 2;
    wanted.pools = wanted.peak_pools = 2;
    wanted.pool_sets = wanted.peak_pool_sets = 33 + 64;
    wanted.pool_descriptors = wanted.peak_pool_descriptors = wanted.update_after_bind_capacity = 100;
    expect_numbers(allocator, wanted);
    expect_numbers_of(allocator, first, (gd_layout_statistics){0, 1, 1, 32});
    CHECK(gd_free_all(allocator) == GD_OK && gd_destroy(allocator) == GD_OK);
}

static void write_without_layouts(void) {
    gd_allocator allocator;
    size_t length = 77;
    char text[8];
    CHECK(gd_create(&DEVICE, 0, &allocator) == GD_OK);
    CHECK(gd_allocator_set_max_pool_descriptors(allocator, UINT64_MAX) == GD_OK);
    expect_numbers(allocator, (gd_statistics){.max_pool_descriptors = UINT64_MAX});
    expect_text(allocator,
                "{\"version\": \"0.1.0\", \"outstanding\": 0, \"waiting\": 0, \"kept\": 0, \"pools\": 0, \"pool_sets\": 0, "
                "\"pool_descriptors\": 0, \"peak_pools\": 0, \"peak_pool_sets\": 0, \"peak_pool_descriptors\": 0, "
                "\"update_after_bind_capacity\": 0, \"update_after_bind_limit\": 0, "
                "\"max_pool_descriptors\": null, \"layouts\": []}");
    CHECK(gd_allocator_set_max_pool_descriptors(allocator, UINT64_MAX - 1) == GD_OK);
    expect_numbers(allocator, (gd_statistics){.max_pool_descriptors = UINT64_MAX - 1});
    CHECK(gd_write_statistics(allocator, NULL, 1, &length) == GD_NULL_POINTER && length == 77);
    CHECK(gd_write_statistics(allocator, text, sizeof text, NULL) == GD_NULL_POINTER);
    CHECK(gd_get_statistics(allocator, NULL) == GD_NULL_POINTER);
    CHECK(gd_kept(allocator, (gd_layout){0, 0}, NULL) == GD_NULL_POINTER);
    CHECK(gd_get_layout_statistics(allocator, (gd_layout){0, 0}, NULL) == GD_NULL_POINTER);
    CHECK(gd_destroy(allocator) == GD_OK);
}

int main(void) {
    count_and_write();
    share_pools();
    count_after_a_refusal();
    use_up_the_limit();
    write_without_layouts();
    printf("%s\n", ALL);
    return 0;
}
