// Classes over pardz.h, whose duties hold here too: C++11 or later. What is taken is given back where it ends: a reference is released, a
// filling that wasn't published is cleared, and a pool is closed. Memory that is refused is a std::bad_alloc, and any other code that a
// call here doesn't answer itself a pardz::error. References and fillings stay with their lane and end before its pool; those of a
// shared_pool go to any thread, and end before it too. An owned_reference goes anywhere, and may outlive its pool. A reference that was
// moved from has no bytes.
#ifndef PARDZ_HPP
#define PARDZ_HPP

#include "pardz.h"

#include <cstddef>
#include <cstdint>
#include <exception>
#include <memory>
#include <new>
#include <thread>
#include <utility>
#include <vector>

namespace pardz {

/// A code that isn't PARDZ_OK.
class error : public std::exception {
public:
    explicit error(std::uint32_t code) noexcept : code_(code) {}
    std::uint32_t code() const noexcept { return code_; }
    const char *what() const noexcept override { return pardz_strerror(code_); }

private:
    std::uint32_t code_;
};

/// Throws what a code says, unless it is PARDZ_OK.
inline void must(std::uint32_t code) {
    if (code == PARDZ_MEMORY)
        throw std::bad_alloc();
    if (code != PARDZ_OK)
        throw error(code);
}

/// Whether a call found its key published. Throws any other code but PARDZ_OK.
inline bool is_there(std::uint32_t code) {
    if (code != PARDZ_GONE)
        must(code);
    return code == PARDZ_OK;
}

/// A key in the hands of a lane: the lane is forgotten where the key moves on.
struct in_hand {
    pardz_lane *lane;
    std::uint64_t key;
    in_hand(pardz_lane *slot, std::uint64_t name) noexcept : lane(slot), key(name) {}
    in_hand(in_hand &&other) noexcept : lane(other.lane), key(other.key) { other.lane = nullptr; }
};

/// Bytes to which a lane has a reference; or none, where a key isn't published.
class reference {
public:
    reference(reference &&other) noexcept : held_(nullptr, 0), bytes_{nullptr, 0} { swap(other); }
    reference &operator=(reference other) noexcept {
        swap(other);
        return *this;
    }
    ~reference() {
        if (held_.lane != nullptr)
            pardz_release(held_.lane, held_.key);
    }
    explicit operator bool() const noexcept { return held_.lane != nullptr; }
    const std::uint8_t *data() const noexcept { return bytes_.at; }
    std::size_t size() const noexcept { return bytes_.len; }
    const std::uint8_t *begin() const noexcept { return bytes_.at; }
    const std::uint8_t *end() const noexcept { return bytes_.at + bytes_.len; }
    std::uint64_t key() const noexcept { return held_.key; }

private:
    friend class filling;
    friend class lane;
    reference(pardz_lane *lane, std::uint64_t key, pardz_bytes bytes) noexcept : held_(lane, key), bytes_(bytes) {}
    void swap(reference &other) noexcept {
        std::swap(held_.lane, other.held_.lane);
        std::swap(held_.key, other.held_.key);
        std::swap(bytes_, other.bytes_);
    }
    in_hand held_;
    pardz_bytes bytes_;
};

/// A buffer that is filled. One that ends unpublished is published and cleared, so that its place is free again.
class filling {
public:
    filling(filling &&) noexcept = default;
    ~filling() {
        if (held_.lane != nullptr && pardz_publish(held_.lane, held_.key) == PARDZ_OK)
            pardz_clear(held_.lane, held_.key);
    }
    std::uint64_t key() const noexcept { return held_.key; }
    void append(const void *bytes, std::size_t len) { must(pardz_append(held_.lane, held_.key, bytes, len)); }
    /// So many bytes to write to, behind those of the filling, until the next call with it. NULL where count is 0.
    std::uint8_t *room(std::size_t count) {
        std::uint8_t *at = nullptr;
        must(pardz_room(held_.lane, held_.key, count, &at));
        return at;
    }
    /// The first so many bytes of the room belong to the filling.
    void wrote(std::size_t count) { must(pardz_wrote(held_.lane, held_.key, count)); }
    /// Publishes the bytes, and answers the key. It is the last call with the filling.
    std::uint64_t publish() {
        must(pardz_publish(held_.lane, held_.key));
        return in_hand(std::move(held_)).key;
    }
    /// Publishes the bytes, and answers a reference to them. It is the last call with the filling.
    reference downgrade() {
        must(pardz_downgrade(held_.lane, held_.key));
        const in_hand held(std::move(held_));
        pardz_bytes bytes = {nullptr, 0};
        must(pardz_read(held.lane, held.key, &bytes.at, &bytes.len));
        return reference(held.lane, held.key, bytes);
    }

private:
    friend class lane;
    filling(pardz_lane *lane, std::uint64_t key) noexcept : held_(lane, key) {}
    in_hand held_;
};

/// A lane of a pool, 64 bytes from the next. One thread calls at a time.
class lane {
public:
    lane(const lane &) = delete;
    lane &operator=(const lane &) = delete;
    /// Publishes bytes, and answers their key.
    std::uint64_t put(const void *bytes, std::size_t len) {
        std::uint64_t key = 0;
        must(pardz_put(slot(), bytes, len, &key));
        return key;
    }
    /// A filling without bytes.
    filling create() {
        std::uint64_t key = 0;
        must(pardz_create(slot(), &key));
        return filling(slot(), key);
    }
    /// A reference to what is published under the key; it is false where nothing is.
    reference get(std::uint64_t key) {
        pardz_bytes bytes = {nullptr, 0};
        const bool found = is_there(pardz_get(slot(), key, &bytes.at, &bytes.len));
        return reference(found ? slot() : nullptr, key, bytes);
    }
    /// Whether this call cleared the key.
    bool clear(std::uint64_t key) { return is_there(pardz_clear(slot(), key)); }
    /// What the lane tells of its pool and of itself.
    pardz_stats stats() {
        pardz_stats told;
        must(pardz_stats_of(slot(), &told));
        return told;
    }
    /// For the calls of pardz.h.
    pardz_lane *slot() noexcept { return &slots_[0]; }

private:
    friend class pool;
    lane() noexcept = default;
    // The first is the lane's. With the others it is 64 bytes.
    pardz_lane slots_[4] = {PARDZ_EMPTY, PARDZ_EMPTY, PARDZ_EMPTY, PARDZ_EMPTY};
};

/// A pool with its lanes.
class pool {
public:
    explicit pool(const pardz_shape &shape) : count_(lanes_of(shape)), lanes_(new lane[count_]) {
        std::vector<pardz_lane> opened(count_, pardz_lane PARDZ_EMPTY);
        must(pardz_open(&shape, opened.data(), count_));
        for (std::size_t i = 0; i < count_; i++)
            *lanes_[i].slot() = opened[i];
    }
    pool(const pool &) = delete;
    pool &operator=(const pool &) = delete;
    ~pool() {
        pardz_census census;
        close_all(&census);
    }
    std::size_t size() const noexcept { return count_; }
    lane &operator[](std::size_t i) noexcept { return lanes_[i]; }
    /// Closes the pool, and answers what its places were. No reference and no filling is left.
    pardz_census close() {
        pardz_census census;
        must(close_all(&census));
        return census;
    }

private:
    // More than a pool can have are refused in front of their memory.
    static std::size_t lanes_of(const pardz_shape &shape) {
        if (shape.lanes > 64)
            throw error(PARDZ_SHAPE);
        return shape.lanes;
    }
    std::uint32_t close_all(pardz_census *census) noexcept {
        std::uint32_t code = PARDZ_OK;
        for (std::size_t i = count_; i > 1 && code == PARDZ_OK; i--)
            code = pardz_join(lanes_[0].slot(), lanes_[i - 1].slot());
        return code == PARDZ_OK ? pardz_close(lanes_[0].slot(), census) : code;
    }
    std::size_t count_;
    std::unique_ptr<lane[]> lanes_;
};

/// Bytes to which a program owns a reference, which goes to any thread and may outlive its pool; or none. A copy has the reference too.
class owned_reference {
public:
    owned_reference() noexcept = default;
    owned_reference(const owned_reference &other) noexcept : bytes_(other.bytes_) {
        if (other)
            pardz_own_again(&other.slot_, &slot_);
    }
    owned_reference(owned_reference &&other) noexcept { swap(other); }
    owned_reference &operator=(owned_reference other) noexcept {
        swap(other);
        return *this;
    }
    ~owned_reference() { pardz_disown(&slot_); }
    explicit operator bool() const noexcept { return slot_.key != 0; }
    const std::uint8_t *data() const noexcept { return bytes_.at; }
    std::size_t size() const noexcept { return bytes_.len; }
    const std::uint8_t *begin() const noexcept { return bytes_.at; }
    const std::uint8_t *end() const noexcept { return bytes_.at + bytes_.len; }
    std::uint64_t key() const noexcept { return slot_.key; }

private:
    friend class shared_reference;
    friend class shared_pool;
    void fill(std::uint32_t code) {
        must(code);
        must(pardz_owned_bytes(&slot_, &bytes_.at, &bytes_.len));
    }
    void swap(owned_reference &other) noexcept {
        std::swap(slot_, other.slot_);
        std::swap(bytes_, other.bytes_);
    }
    pardz_owned slot_ = PARDZ_EMPTY;
    pardz_bytes bytes_ = {nullptr, 0};
};

/// Bytes to which a program has a reference, on whichever thread, as long as their shared_pool is open; or none. A copy is a reference more.
class shared_reference {
public:
    shared_reference() noexcept = default;
    shared_reference(const shared_reference &other) : pool_(other.pool_) {
        if (other)
            must(pardz_any_clone(pool_, &other.ref_, &ref_));
    }
    shared_reference(shared_reference &&other) noexcept { swap(other); }
    shared_reference &operator=(shared_reference other) noexcept {
        swap(other);
        return *this;
    }
    ~shared_reference() {
        if (*this)
            pardz_any_release(pool_, &ref_);
    }
    explicit operator bool() const noexcept { return ref_.key != 0; }
    const std::uint8_t *data() const noexcept { return static_cast<const std::uint8_t *>(ref_.at); }
    std::size_t size() const noexcept { return ref_.len; }
    const std::uint8_t *begin() const noexcept { return data(); }
    const std::uint8_t *end() const noexcept { return data() + size(); }
    std::uint64_t key() const noexcept { return ref_.key; }
    /// An owned one to the same bytes; none where this is none.
    owned_reference own() const {
        owned_reference owned;
        if (*this)
            owned.fill(pardz_any_own(pool_, &ref_, &owned.slot_));
        return owned;
    }

private:
    friend class shared_filling;
    friend class shared_pool;
    explicit shared_reference(const pardz_pool *pool) noexcept : pool_(pool) {}
    void swap(shared_reference &other) noexcept {
        std::swap(pool_, other.pool_);
        std::swap(ref_, other.ref_);
    }
    const pardz_pool *pool_ = nullptr;
    pardz_ref ref_ = {nullptr, 0, 0};
};

/// A buffer of a shared_pool that is filled, on whichever thread. Where it ends unpublished its place is free again.
class shared_filling {
public:
    shared_filling(shared_filling &&other) noexcept : pool_(other.pool_), filling_(other.filling_) { other.filling_.key = 0; }
    ~shared_filling() {
        if (filling_.key != 0)
            pardz_any_drop(pool_, &filling_);
    }
    std::uint64_t key() const noexcept { return filling_.key; }
    /// Of a pool of objects: where the object stands, until it is published.
    void *object() const noexcept { return filling_.at; }
    void append(const void *bytes, std::size_t len) { must(pardz_any_append(pool_, &filling_, bytes, len)); }
    /// So many bytes to write to, behind those of the filling, until the next call with it. NULL where count is 0.
    std::uint8_t *room(std::size_t count) {
        std::uint8_t *at = nullptr;
        must(pardz_any_room(pool_, &filling_, count, &at));
        return at;
    }
    /// The first so many bytes of the room belong to the filling.
    void wrote(std::size_t count) { must(pardz_any_wrote(pool_, &filling_, count)); }
    /// Publishes the bytes, and answers the key. It is the last call with the filling.
    std::uint64_t publish() {
        std::uint64_t key = 0;
        must(pardz_any_publish(pool_, &filling_, &key));
        return key;
    }
    /// Publishes the bytes, and answers a reference to them. It is the last call with the filling.
    shared_reference downgrade() {
        shared_reference reference(pool_);
        must(pardz_any_downgrade(pool_, &filling_, &reference.ref_));
        return reference;
    }

private:
    friend class shared_pool;
    explicit shared_filling(const pardz_pool *pool) noexcept : pool_(pool) {}
    const pardz_pool *pool_;
    pardz_filling filling_ = {nullptr, 0};
};

/// For a shared_pool that grows, but no further than its limits: shared_pool pool(pardz::grows, limits).
enum grows_t { grows };

/// A pool that any number of threads call at once, over libpardz.a or libpardz.so. They hold nothing for it. It grows; or it has a shape, and then a
/// put or a create waits where others have all its lanes.
class shared_pool {
public:
    shared_pool() : shared_pool(grows, PARDZ_LIMITS) {}
    shared_pool(grows_t, const pardz_limits &limits) { must(pardz_grow(&limits, &slot_)); }
    explicit shared_pool(const pardz_shape &shape) { must(pardz_attach(&shape, &slot_)); }
    /// One that grows, of such objects.
    explicit shared_pool(const pardz_objects &objects, const pardz_limits &limits = PARDZ_LIMITS) {
        must(pardz_open_sized(&limits, &objects, &slot_));
    }
    shared_pool(const shared_pool &) = delete;
    shared_pool &operator=(const shared_pool &) = delete;
    ~shared_pool() {
        pardz_census census;
        pardz_detach(&slot_, &census);
    }
    /// Publishes bytes, and answers their key.
    std::uint64_t put(const void *bytes, std::size_t len) const {
        std::uint64_t key = 0;
        await([&] { return pardz_any_put(&slot_, bytes, len, &key); });
        return key;
    }
    /// A filling without bytes, or an object.
    shared_filling create() const {
        shared_filling filling(&slot_);
        await([&] { return pardz_any_create(&slot_, &filling.filling_); });
        return filling;
    }
    /// A reference to what is published under the key; it is false where nothing is.
    shared_reference get(std::uint64_t key) const {
        shared_reference found(&slot_);
        is_there(pardz_any_get(&slot_, key, &found.ref_));
        return found;
    }
    /// The same, owned.
    owned_reference own(std::uint64_t key) const {
        owned_reference owned;
        const std::uint32_t code = pardz_own(&slot_, 0, key, &owned.slot_);
        if (is_there(code))
            owned.fill(code);
        return owned;
    }
    /// What its places are now.
    pardz_census census() const {
        pardz_census census;
        must(pardz_pool_census(&slot_, &census));
        return census;
    }
    /// Whether this call cleared the key.
    bool clear(std::uint64_t key) const { return is_there(pardz_any_clear(&slot_, key)); }
    /// Closes the pool, and answers what its places were. No shared_reference is left, and no thread uses it any more.
    pardz_census close() {
        pardz_census census;
        must(pardz_detach(&slot_, &census));
        return census;
    }
    /// For the calls of pardz.h.
    const pardz_pool *slot() const noexcept { return &slot_; }

private:
    template <typename Call> static void await(Call call) {
        std::uint32_t code;
        while ((code = call()) == PARDZ_BUSY)
            std::this_thread::yield();
        must(code);
    }
    pardz_pool slot_ = PARDZ_EMPTY;
};

} // namespace pardz

#endif
