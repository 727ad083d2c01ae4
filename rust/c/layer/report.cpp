// The report: what the library and what the program's own pools took.
#include "device.hpp"

#include <cstdio>
#include <filesystem>
#include <iomanip>
#include <iostream>
#include <sstream>
#include <unistd.h>

namespace layer {
namespace {

constexpr const char *JSON = "GPU_DESCRIPTOR_LAYER_JSON";

/* A table, and the same as JSON. */
struct tables {
    std::ostringstream text, json;

    void add(const std::string &name, uint64_t value) {
        text << std::left << std::setw(36) << name << std::right << std::setw(12) << value << '\n';
        json << ", " << std::quoted(name) << ": " << value;
    }
    void add(const char *name, uint64_t library, uint64_t own) {
        text << std::left << std::setw(36) << name << std::right << std::setw(12) << library << std::setw(12)
             << own << '\n';
        json << ", " << std::quoted(name) << ": {\"library\": " << library << ", \"own\": " << own << '}';
    }
};

uint64_t by(uint64_t sum, uint64_t count) {
    return count == 0 ? 0 : sum / count;
}

std::string program() {
    std::error_code none;
    return std::filesystem::read_symlink("/proc/self/exe", none).string();
}

void add_accounts(tables &to, const account &library, const account &own) {
    const auto add = [&](const char *name, auto of) { to.add(name, of(library), of(own)); };
    add("pools created", [](const auto &of) { return of.pools.total; });
    add("pools at most", [](const auto &of) { return of.pools.peak; });
    add("pools left", [](const auto &of) { return of.pools.now; });
    add("capacity at most", [](const auto &of) { return of.capacity.peak; });
    add("sets allocated", [](const auto &of) { return of.sets.total; });
    add("sets at most", [](const auto &of) { return of.sets.peak; });
    add("sets left", [](const auto &of) { return of.sets.now; });
    add("driver calls to allocate", [](const auto &of) { return of.allocate_calls; });
    add("driver calls to free", [](const auto &of) { return of.free_calls; });
    add("ns a set allocated", [](const auto &of) { return by(of.allocate_ns, of.sets.total); });
    add("ns a set freed", [](const auto &of) { return by(of.free_ns, of.sets.total - of.sets.now); });
    add("ns a set in the driver", [](const auto &of) { return by(of.driver_ns, of.sets.total); });
}

tables tables_of(device &it) {
    if (it.allocator.slot != nullptr)
        read_pools(it);
    tables all;
    all.text << "gpu_descriptor: " << program() << " on " << it.name << '\n'
             << std::setw(48) << "library" << std::setw(12) << "own pools" << '\n';
    all.json << "{\"program\": " << std::quoted(program()) << ", \"device\": " << std::quoted(it.name);
    it.own.driver_ns = it.own.allocate_ns + it.own.free_ns;
    add_accounts(all, it.library, it.own);
    all.add("layouts", it.layout_count);
    all.add("faults", it.faults);
    for (const auto &[status, sets] : it.fell_back)
        all.add(std::string("sets fallen back, ") + gd_status_name(status), sets);
    all.json << "}\n";
    return all;
}

/* At the end of the program: the devices that it leaves. A call of another thread has a second to end; if a
 * signal's handler ended the program within a call, it never does. */
struct end {
    ~end() {
        const std::chrono::seconds patience{1};
        const std::unique_lock all(devices.mutex, patience);
        if (!all)
            return;
        for (const auto &[handle, it] : devices.values)
            if (it != nullptr)
                if (const std::unique_lock lock(it->mutex, patience); lock)
                    report(*it);
    }
} const at_the_end;

} // namespace

void report(device &it) {
    const tables all = tables_of(it);
    std::cerr << all.text.str();
    const char *file = setting(JSON);
    std::ofstream named(file == nullptr ? "" : file, std::ios::app);
    (named.is_open() ? named : std::cerr) << all.json.str();
    // Threads of a program that ends may still call.
    std::remove(it.report_so_far.c_str());
    it.report_so_far.clear();
    it.trace.close();
}

std::string name_report_so_far(int number) {
    const char *file = setting(JSON);
    return file == nullptr ? "" : file + ("." + std::to_string(getpid()) + "." + std::to_string(number));
}

void flush(device &it) {
    it.trace.flush();
    if (it.report_so_far.empty())
        return;
    // Under another name first: a signal may come at any time.
    const std::string unfinished = it.report_so_far + ".new";
    std::ofstream(unfinished) << tables_of(it).json.str();
    std::rename(unfinished.c_str(), it.report_so_far.c_str());
}

} // namespace layer
