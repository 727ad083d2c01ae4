/*
 * gpu_descriptor.hpp: classes for C++17 over gpu_descriptor.h. Header only, without exceptions.
 *
 *     gd::allocator allocator;
 *     allocator.create(device, limit);             // or gdv_create(&vulkan, limit, allocator.put())
 *     gd::layout layout;
 *     allocator.add_layout(handle, counts, 0, layout); // or gdv_add_layout(allocator.raw(), .., layout.put(allocator))
 *
 *     allocator.begin_frame(number);               // before the frame is recorded
 *     gd::set set;
 *     allocator.allocate(layout, set);             // set.vk() is the VkDescriptorSet
 *     gd::frame frame(allocator, number);
 *     gd_set raw;
 *     frame.allocate(layout, raw);                 // gd::vk_handle(raw); the end of `frame` frees it after `number`
 *     allocator.frame_done(number - 2);            // once the device is done with that frame
 *
 * Calls that can fail are [[nodiscard]]; the example leaves their statuses out.
 *
 * Owners are moved and not copied. When a gd::set or gd::sets ends or gets new sets, its old ones are freed after the
 * frame that is current then (begin_frame), or after that of used_in. Without a begin_frame they wait for
 * frame_done(UINT64_MAX), when the device is idle, or until the allocator ends. free() frees at once what the device
 * no longer uses. The end of a gd::layout removes it. The end of a gd::allocator frees all of its sets, which the
 * device must no longer use, and destroys it; an owner that lives longer does nothing at its end. End a gd::allocator
 * before vkDestroyDevice.
 *
 * If a set of a gd::sets or gd::frame was freed elsewhere, the call that ends the owner frees the others and returns
 * GD_BAD_SET; then the owner is empty. After any other failure it has all that weren't freed.
 *
 * What can't be ended now stays: create() returns why, put() nullptr, and after `a = std::move(b)` the old one is b's.
 *
 * A destructor has no status. It waits for other threads' calls. If calls don't wait (GD_EXTERNALLY_SYNCHRONIZED, or a
 * library without std) and one of another thread runs, the sets stay live until gd_free_all, the layout stays, and the
 * allocator isn't destroyed: so hold the lock that orders your calls while owners end. The same happens in a function
 * that the allocator calls: no owner may end there.
 */
#ifndef GPU_DESCRIPTOR_HPP
#define GPU_DESCRIPTOR_HPP

#include "gpu_descriptor.h"
#include "gpu_descriptor_cache.h"

#include <memory>
#include <new>
#include <utility>

/* VkDescriptorSet is a pointer to this or a number, as in Vulkan's header, which isn't included. */
struct VkDescriptorSet_T;

namespace gd {

/* The ABI's number, so that two shared objects over headers of two ABIs don't share a function. */
inline namespace abi_5 {
static_assert(GD_ABI == 5u, "the namespace has the number of the ABI");

/* The VkDescriptorSet of a set. Its name isn't vk, which is the namespace of vulkan.hpp. */
#if defined(VK_USE_64_BIT_PTR_DEFINES) ? (VK_USE_64_BIT_PTR_DEFINES == 1) : (UINTPTR_MAX == UINT64_MAX)
using vk_descriptor_set = VkDescriptorSet_T *;
inline vk_descriptor_set vk_handle(const gd_set &raw) noexcept {
    return reinterpret_cast<vk_descriptor_set>(raw.handle);
}
#else
using vk_descriptor_set = uint64_t;
inline vk_descriptor_set vk_handle(const gd_set &raw) noexcept {
    return raw.handle;
}
#endif

/* Sets in an array, for range-for. */
struct set_range {
    const gd_set *first;
    const gd_set *last;

    const gd_set *begin() const noexcept { return first; }
    const gd_set *end() const noexcept { return last; }
};

/*
 * Frees `count` sets by `call`. If one of them was freed elsewhere, they are freed one by one, and the status
 * is GD_BAD_SET. After any other failure `count` is how many are left.
 */
template <class Call> gd_status free_all_of(const gd_set *raw, uint32_t &count, Call call) noexcept {
    if (count == 0)
        return GD_OK;
    const gd_status status = call(raw, count);
    if (status == GD_OK)
        count = 0;
    for (; status == GD_BAD_SET && count > 0; count--) {
        const gd_status one = call(raw + count - 1, 1);
        if (one != GD_OK && one != GD_BAD_SET)
            return one;
    }
    return status;
}

/* Whether what a call should have ended is still there. */
inline bool is_left(gd_status status) noexcept {
    return status == GD_BUSY || status == GD_OUTSTANDING || status == GD_INTERNAL_ERROR;
}

/* The frame after which an owner frees its sets: the current one, or the one of used_in. */
class last_use {
  public:
    /* The sets were last used in this frame, whichever frame is current when they are freed. The highest one
     * counts. */
    void used_in(uint64_t frame) noexcept {
        frame_ = is_used_ && frame_ > frame ? frame_ : frame;
        is_used_ = true;
    }

  protected:
    gd_status free_when_done(gd_allocator allocator, const gd_set *raw, uint32_t count) const noexcept {
        return is_used_ ? gd_free_after(allocator, raw, count, frame_) : gd_free_after_current(allocator, raw, count);
    }

    uint64_t frame_ = 0;
    bool is_used_ = false;
};

/* One set, or none. */
class set : public last_use {
  public:
    set() = default;
    /* Takes ownership of a set that gd_allocate returned, alone or with others. */
    set(gd_allocator allocator, gd_set raw) noexcept : allocator_(allocator), raw_(raw) {}
    set(const set &) = delete;
    set &operator=(const set &) = delete;
    set(set &&other) noexcept : last_use(other), allocator_(other.allocator_), raw_(other.release()) {}
    set &operator=(set &&other) noexcept {
        if (this != &other) {
            (void)reset();
            swap(other);
        }
        return *this;
    }
    ~set() { (void)reset(); }

    /* The driver's handle. */
    uint64_t handle() const noexcept { return raw_.handle; }
    vk_descriptor_set vk() const noexcept { return gd::vk_handle(raw_); }
    const gd_set &raw() const noexcept { return raw_; }
    explicit operator bool() const noexcept { return raw_.name != 0; }

    /* Frees it after the current frame, or that of used_in. It keeps the set if that fails. */
    [[nodiscard]] gd_status reset() noexcept {
        if (!*this)
            return GD_OK;
        return end(free_when_done(allocator_, &raw_, 1));
    }

    /* Frees it at once: the device must no longer use it. It keeps the set if that fails. */
    [[nodiscard]] gd_status free() noexcept {
        if (!*this)
            return GD_OK;
        return end(gd_free(allocator_, &raw_, 1));
    }

    /* used_in and reset: gd_free_after with the highest frame that it was used in. */
    [[nodiscard]] gd_status free_after(uint64_t frame) noexcept {
        used_in(frame);
        return reset();
    }

    /* Gives up ownership. */
    gd_set release() noexcept { return std::exchange(raw_, gd_set{}); }

  private:
    void swap(set &other) noexcept {
        std::swap(static_cast<last_use &>(*this), static_cast<last_use &>(other));
        std::swap(allocator_, other.allocator_);
        std::swap(raw_, other.raw_);
    }

    gd_status end(gd_status status) noexcept {
        if (status == GD_OK)
            (void)release();
        return status;
    }

    gd_allocator allocator_{};
    gd_set raw_{};
};

/* Some sets of one layout, or none. They are freed together, by one call. */
class sets : public last_use {
  public:
    sets() = default;
    sets(const sets &) = delete;
    sets &operator=(const sets &) = delete;
    sets(sets &&other) noexcept { swap(other); }
    sets &operator=(sets &&other) noexcept {
        if (this != &other) {
            (void)reset();
            swap(other);
        }
        return *this;
    }
    ~sets() { (void)reset(); }

    uint32_t size() const noexcept { return count_; }
    const gd_set &operator[](uint32_t index) const noexcept { return raw_[index]; }
    vk_descriptor_set vk(uint32_t index) const noexcept { return gd::vk_handle(raw_[index]); }
    const gd_set *begin() const noexcept { return raw_.get(); }
    const gd_set *end() const noexcept { return raw_.get() + count_; }

    /* Same as those of gd::set. */
    [[nodiscard]] gd_status reset() noexcept {
        return finish([this](const gd_set *raw, uint32_t count) noexcept {
            return free_when_done(allocator_, raw, count);
        });
    }
    [[nodiscard]] gd_status free() noexcept {
        return finish([this](const gd_set *raw, uint32_t count) noexcept {
            return gd_free(allocator_, raw, count);
        });
    }
    [[nodiscard]] gd_status free_after(uint64_t frame) noexcept {
        used_in(frame);
        return reset();
    }

    /* gd_allocate. If it fails, nothing changes. */
    [[nodiscard]] gd_status allocate(gd_allocator allocator, gd_layout of, uint32_t count) noexcept {
        sets made;
        made.raw_.reset(new (std::nothrow) gd_set[count]);
        if (!made.raw_)
            return GD_OUT_OF_HOST_MEMORY;
        const gd_status status = gd_allocate(allocator, of, count, made.raw_.get());
        if (status != GD_OK)
            return status;
        made.allocator_ = allocator;
        made.count_ = count;
        *this = std::move(made);
        return GD_OK;
    }

  private:
    void swap(sets &other) noexcept {
        std::swap(static_cast<last_use &>(*this), static_cast<last_use &>(other));
        std::swap(allocator_, other.allocator_);
        std::swap(raw_, other.raw_);
        std::swap(count_, other.count_);
    }

    template <class Call> gd_status finish(Call call) noexcept {
        const gd_status status = free_all_of(raw_.get(), count_, call);
        if (count_ == 0) {
            raw_.reset();
            last_use::operator=(last_use());
        }
        return status;
    }

    gd_allocator allocator_{};
    std::unique_ptr<gd_set[]> raw_;
    uint32_t count_ = 0;
};

class allocator;

/* One layout, or none. Its end removes it. The driver's layout is yours: destroy it after that. */
class layout {
  public:
    layout() = default;
    /* Takes ownership of a layout of gd_add_layout. Only one owner may have it, even if it was added more
     * than once. */
    layout(gd_allocator allocator, gd_layout raw) noexcept : allocator_(allocator), raw_(raw) {}
    layout(const layout &) = delete;
    layout &operator=(const layout &) = delete;
    layout(layout &&other) noexcept : allocator_(other.allocator_), raw_(other.release()) {}
    layout &operator=(layout &&other) noexcept {
        if (this != &other) {
            (void)remove();
            std::swap(allocator_, other.allocator_);
            std::swap(raw_, other.raw_);
        }
        return *this;
    }
    ~layout() { (void)remove(); }

    const gd_layout &raw() const noexcept { return raw_; }
    operator gd_layout() const noexcept { return raw_; }
    explicit operator bool() const noexcept { return raw_.owner != 0; }

    /* Removes the layout that is here, and returns where a function may write one that it adds to this allocator;
     * nullptr if the old one can't be removed now. */
    inline gd_layout *put(const allocator &of) noexcept;

    /* gd_remove_layout: sets of it stay valid until they are freed. It keeps the layout if that fails. */
    [[nodiscard]] gd_status remove() noexcept {
        if (!*this)
            return GD_OK;
        const gd_status status = gd_remove_layout(allocator_, raw_);
        if (status == GD_OK)
            (void)release();
        return status;
    }

    /* Gives up ownership. */
    gd_layout release() noexcept { return std::exchange(raw_, gd_layout{}); }

  private:
    gd_allocator allocator_{};
    gd_layout raw_{};
};

/* One allocator, or none. */
class allocator {
  public:
    allocator() = default;
    explicit allocator(gd_allocator raw) noexcept : raw_(raw) {}
    allocator(const allocator &) = delete;
    allocator &operator=(const allocator &) = delete;
    allocator(allocator &&other) noexcept : raw_(other.release()) {}
    allocator &operator=(allocator &&other) noexcept {
        if (this != &other) {
            (void)destroy();
            std::swap(raw_, other.raw_);
        }
        return *this;
    }
    ~allocator() { (void)destroy(); }

    /* All other functions of gpu_descriptor.h take it. */
    gd_allocator raw() const noexcept { return raw_; }
    explicit operator bool() const noexcept { return raw_.id != 0; }

    /* Destroys the allocator that is here, and returns where a function may write one that it creates; nullptr if
     * the old one can't be destroyed now. */
    gd_allocator *put() noexcept { return is_left(destroy()) ? nullptr : &raw_; }

    /* Destroys the allocator that is here, and creates one. If the old one can't be destroyed now, it stays, and the
     * status is that of destroy(). */
    [[nodiscard]] gd_status create(const gd_device &device, uint32_t limit, uint32_t flags = 0) noexcept {
        const gd_status status = destroy();
        return is_left(status) ? status : gd_create_with_flags(&device, limit, flags, &raw_);
    }

    /* Allocates a set, which replaces the old one of `to`. If it fails, `to` is as before. */
    [[nodiscard]] gd_status allocate(gd_layout of, set &to) noexcept {
        gd_set raw{};
        const gd_status status = gd_allocate(raw_, of, 1, &raw);
        if (status == GD_OK)
            to = set(raw_, raw);
        return status;
    }

    /* Adds a layout, which replaces the old one of `to`, unless `to` has it already. If it fails, `to` is as
     * before. */
    [[nodiscard]] gd_status add_layout(uint64_t handle, const uint32_t (&counts)[GD_KINDS], uint32_t flags,
                                       layout &to) noexcept {
        gd_layout raw{};
        const gd_status status = gd_add_layout(raw_, handle, counts, flags, &raw);
        const bool has_it = to.raw().owner == raw.owner && to.raw().index == raw.index;
        if (status == GD_OK && !has_it)
            to = layout(raw_, raw);
        return status;
    }

    /* Removes a layout that has no owner. Sets of it stay valid until they are freed. */
    [[nodiscard]] gd_status remove_layout(gd_layout raw) noexcept { return gd_remove_layout(raw_, raw); }

    /* From now on the end of an owner frees its sets after this frame, unless it was given another one. */
    [[nodiscard]] gd_status begin_frame(uint64_t frame) noexcept { return gd_begin_frame(raw_, frame); }

    /* The functions of gpu_descriptor.h by these names. */
    [[nodiscard]] gd_status frame_done(uint64_t frame) noexcept { return gd_frame_done(raw_, frame); }
    [[nodiscard]] gd_status set_max_kept(uint32_t max) noexcept { return gd_allocator_set_max_kept(raw_, max); }
    [[nodiscard]] gd_status cleanup() noexcept { return gd_cleanup(raw_); }
    [[nodiscard]] gd_status trim() noexcept { return gd_trim(raw_); }
    [[nodiscard]] gd_status statistics(gd_statistics &to) const noexcept { return gd_get_statistics(raw_, &to); }
    [[nodiscard]] gd_status set_pool_created(gd_pool_created_fn function, void *user) noexcept {
        return gd_allocator_set_pool_created(raw_, function, user);
    }

    /* Allocates sets, which replace the old ones of `to`. If it fails, `to` is as before. */
    [[nodiscard]] gd_status allocate(gd_layout of, uint32_t count, sets &to) noexcept {
        return to.allocate(raw_, of, count);
    }

    /* Frees all of its sets and destroys it. It does nothing if there is none. */
    [[nodiscard]] gd_status destroy() noexcept {
        if (!*this)
            return GD_OK;
        gd_status status = gd_free_all(raw_);
        if (status == GD_OK)
            status = gd_destroy(raw_);
        if (status == GD_OK)
            raw_ = gd_allocator{};
        return status;
    }

    /* Gives up ownership. */
    gd_allocator release() noexcept { return std::exchange(raw_, gd_allocator{}); }

  private:
    gd_allocator raw_{};
};

inline gd_layout *layout::put(const allocator &of) noexcept {
    if (is_left(remove()))
        return nullptr;
    allocator_ = of.raw();
    return &raw_;
}

/*
 * The sets of one frame. Its end, or begin(), frees them all after the frame, by one call.
 */
class frame {
  public:
    frame() = default;
    frame(gd_allocator of, uint64_t number) noexcept : allocator_(of), number_(number) {}
    frame(const allocator &of, uint64_t number) noexcept : frame(of.raw(), number) {}
    frame(const frame &) = delete;
    frame &operator=(const frame &) = delete;
    frame(frame &&other) noexcept : frame(other.allocator_, other.number_) { swap_sets(other); }
    frame &operator=(frame &&other) noexcept {
        if (this != &other) {
            (void)end();
            swap_sets(other);
            std::swap(allocator_, other.allocator_);
            std::swap(number_, other.number_);
            if (other.count_ == 0) { // it stays the frame that it is
                other.allocator_ = allocator_;
                other.number_ = number_;
            }
        }
        return *this;
    }
    ~frame() { (void)end(); }

    uint64_t number() const noexcept { return number_; }
    uint32_t size() const noexcept { return count_; }
    const gd_set &operator[](uint32_t index) const noexcept { return raw_[index]; }

    /* Its sets in the order of allocation, until the next one is allocated. */
    set_range all() const noexcept { return {raw_.get(), raw_.get() + count_}; }

    /* gd_allocate. The sets are the frame's. */
    [[nodiscard]] gd_status allocate(gd_layout of, uint32_t count, gd_set *to) noexcept {
        if (!reserve(count)) {
            for (uint32_t index = 0; to != nullptr && index < count; index++)
                to[index] = gd_set{};
            return GD_OUT_OF_HOST_MEMORY;
        }
        const gd_status status = gd_allocate(allocator_, of, count, to);
        if (status == GD_OK)
            for (uint32_t index = 0; index < count; index++)
                raw_[count_++] = to[index];
        return status;
    }
    [[nodiscard]] gd_status allocate(gd_layout of, gd_set &to) noexcept { return allocate(of, 1, &to); }

    /* Frees its sets after this frame. */
    [[nodiscard]] gd_status end() noexcept {
        return free_all_of(raw_.get(), count_, [this](const gd_set *raw, uint32_t count) noexcept {
            return gd_free_after(allocator_, raw, count, number_);
        });
    }

    /* Gives up ownership of its sets. */
    void release() noexcept { count_ = 0; }

    /* Ends this frame, and begins another one in its memory. If sets are left, it stays this frame. */
    [[nodiscard]] gd_status begin(uint64_t number) noexcept {
        const gd_status status = end();
        if (count_ == 0)
            number_ = number;
        return status;
    }

  private:
    bool reserve(uint32_t count) noexcept {
        if (count > UINT32_MAX - count_)
            return false;
        if (count_ + count <= room_)
            return true;
        const uint32_t wanted = count_ + count, room = wanted > UINT32_MAX / 2 ? wanted : 2 * wanted;
        std::unique_ptr<gd_set[]> grown(new (std::nothrow) gd_set[room]);
        if (!grown)
            return false;
        for (uint32_t index = 0; index < count_; index++)
            grown[index] = raw_[index];
        raw_ = std::move(grown);
        room_ = room;
        return true;
    }

    void swap_sets(frame &other) noexcept {
        std::swap(raw_, other.raw_);
        std::swap(count_, other.count_);
        std::swap(room_, other.room_);
    }

    gd_allocator allocator_{};
    uint64_t number_ = 0;
    std::unique_ptr<gd_set[]> raw_;
    uint32_t count_ = 0, room_ = 0;
};

/* A gd_cache, of one thread and one layout. Its end flushes it. */
template <uint32_t Refill = GD_CACHE_REFILL> class cache {
    static_assert(Refill > 0 && Refill <= UINT32_MAX / 2, "as gd_cache_init has it");

  public:
    cache(gd_allocator of, gd_layout with) noexcept { (void)gd_cache_init(&raw_, of, with, places_, Refill); }
    cache(const allocator &of, gd_layout with) noexcept : cache(of.raw(), with) {}
    cache(const cache &) = delete;
    cache &operator=(const cache &) = delete;
    ~cache() { (void)flush(); }

    uint32_t size() const noexcept { return raw_.count; }

    /* The functions of gpu_descriptor_cache.h by these names. */
    [[nodiscard]] gd_status allocate(gd_set &to) noexcept { return gd_cache_allocate(&raw_, 1, &to); }
    [[nodiscard]] gd_status allocate(uint32_t count, gd_set *to) noexcept {
        return gd_cache_allocate(&raw_, count, to);
    }
    [[nodiscard]] gd_status free(const gd_set &raw) noexcept { return gd_cache_free(&raw_, &raw, 1); }
    [[nodiscard]] gd_status free(const gd_set *raw, uint32_t count) noexcept {
        return gd_cache_free(&raw_, raw, count);
    }
    [[nodiscard]] gd_status flush() noexcept { return gd_cache_flush(&raw_); }

  private:
    gd_cache raw_;
    gd_set places_[2 * Refill];
};

} // namespace abi_5
} // namespace gd

#endif
