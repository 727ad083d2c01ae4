// What the layer stores of a device: its layouts, pools and sets, and what they took.
#ifndef GPU_DESCRIPTOR_LAYER_DEVICE_HPP
#define GPU_DESCRIPTOR_LAYER_DEVICE_HPP

#define VK_NO_PROTOTYPES
#include "gpu_descriptor_vulkan.h"

#include <algorithm>
#include <chrono>
#include <fstream>
#include <map>
#include <memory>
#include <mutex>
#include <string>
#include <unordered_map>
#include <utility>

namespace layer {

/* A number that rises and falls. */
struct level {
    uint64_t now = 0, peak = 0, total = 0; // total: all that was ever added
    void add(uint64_t more) {
        total += more;
        peak = std::max(peak, now += more);
    }
};

/* What pools and their sets took. Times have the pools that were created and destroyed for the sets. */
struct account {
    level pools, capacity, sets; // capacity: the sets that the pools may have
    // Calls of the driver; a reset frees.
    uint64_t create_calls = 0, destroy_calls = 0, allocate_calls = 0, free_calls = 0;
    uint64_t allocate_ns = 0, free_ns = 0, driver_ns = 0;
};

/* Adds the nanoseconds of its life to a sum. */
struct stopwatch {
    uint64_t &sum;
    std::chrono::steady_clock::time_point start = std::chrono::steady_clock::now();
    ~stopwatch() {
        sum += uint64_t((std::chrono::steady_clock::now() - start).count());
    }
};

struct layout {
    uint64_t number; // in the trace
    gd_layout known; // zeroed if the library doesn't serve it
};

struct held_set {
    gd_set set; // zeroed if it is of the program's own pool
    uint64_t number;
};

/* A pool of the program. The driver has it too, for sets that the library doesn't serve. */
struct pool {
    uint64_t number = 0;
    uint32_t max_sets = 0;
    std::map<uint64_t, held_set> sets; // by handle
};

struct device {
    VkDevice handle = VK_NULL_HANDLE;
    PFN_vkGetDeviceProcAddr get = nullptr;
    std::string name;
    gdv_device driver = {};
    gd_allocator allocator = {}; // zeroed if the program has its own pools
    std::string report_so_far;   // the file of the report of the last submit, if there is one
    std::timed_mutex mutex;      // for all that follows
    std::ofstream trace;
    std::unordered_map<uint64_t, layout> layouts; // by handle
    std::unordered_map<uint64_t, pool> pools;
    account library, own;
    uint64_t layout_count = 0, set_count = 0;
    std::map<gd_status, uint64_t> fell_back; // sets of the own pools, by the library's status
    uint64_t faults = 0;                     // statuses that the layer should not get
};

/* Instances or devices, by the pointer at which the loader has each of their handles begin, as a queue's.
 * Tables are never destroyed: threads may use them while the program ends. */
template <class Value> struct table {
    std::timed_mutex mutex;
    std::unordered_map<void *, std::unique_ptr<Value>> values;
    std::unique_ptr<Value> &at(void *handle) {
        std::lock_guard lock(mutex);
        return values[*static_cast<void **>(handle)];
    }
};

inline table<device> &devices = *new table<device>;

/* The next function of a name, below the layer. */
#define NEXT(it, name) reinterpret_cast<PFN_##name>((it).get((it).handle, #name))

/* The calls of the program that the layer has in place of the driver's. */
std::remove_pointer_t<PFN_vkCreateDescriptorSetLayout> create_layout;
std::remove_pointer_t<PFN_vkDestroyDescriptorSetLayout> destroy_layout;
std::remove_pointer_t<PFN_vkCreateDescriptorPool> create_pool;
std::remove_pointer_t<PFN_vkDestroyDescriptorPool> destroy_pool;
std::remove_pointer_t<PFN_vkResetDescriptorPool> reset_pool;
std::remove_pointer_t<PFN_vkAllocateDescriptorSets> allocate_sets;
std::remove_pointer_t<PFN_vkFreeDescriptorSets> free_sets;

void create_allocator(device &it, uint32_t limit);
void read_pools(device &it); // into the library's account
void destroy_allocator(device &it);

/* Writes what was taken as a table to standard error, and as JSON after it or to a file. A device that is
 * left has its report when the program ends. */
void report(device &it);

/* The file of the report of the last submit, for the device of this number in the process. */
std::string name_report_so_far(int number);

/* What a program leaves that ends by a signal: its trace, and the report in a file of its own. */
void flush(device &it);

/* A word of the environment, NULL if there is none. */
const char *setting(const char *name);

} // namespace layer

#endif
