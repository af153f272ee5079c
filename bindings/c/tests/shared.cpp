// pardz.hpp: a pool that any thread calls, and its references, which any thread ends; those that are owned outlive it.
#include "../pardz.hpp"
#include "check.h"

#include <algorithm>
#include <string>
#include <thread>
#include <type_traits>
#include <vector>

static_assert(!std::is_copy_constructible<pardz::shared_filling>::value && !std::is_copy_constructible<pardz::shared_pool>::value, "");
static_assert(!std::is_copy_assignable<pardz::shared_pool>::value && !std::is_move_assignable<pardz::shared_pool>::value, "it stays");
static_assert(std::is_nothrow_move_constructible<pardz::shared_filling>::value && !std::is_copy_assignable<pardz::shared_filling>::value, "moved, not copied");
static_assert(std::is_nothrow_move_constructible<pardz::shared_reference>::value && std::is_copy_constructible<pardz::shared_reference>::value, "");
static_assert(std::is_nothrow_copy_constructible<pardz::owned_reference>::value && std::is_nothrow_move_constructible<pardz::owned_reference>::value, "");

template <typename Reference> static std::string text(const Reference &found) { return std::string(found.begin(), found.end()); }

// What a call throws: a code, or PARDZ_OK where it throws nothing.
template <typename Call> static std::uint32_t code_of(Call call) {
    try {
        call();
    } catch (const pardz::error &error) {
        return error.code();
    }
    return PARDZ_OK;
}

// Owned references, copied and moved from thread to thread, that outlive their pool.
static void owned() {
    pardz::owned_reference first, second;
    {
        const pardz_shape shape = {2, 8, 1, UINT32_MAX, 3};
        pardz::shared_pool pool(shape);
        const std::uint64_t key = pool.put("owned", 5);
        CHECK(!first && !pool.own(1) && first.size() == 0 && first.key() == 0);
        first = pool.own(key);
        CHECK(first && first.key() == key && pool.clear(key) && !pool.own(key) && pool.census().marked == 1);
        std::thread([&second, first] { second = first; }).join();
        pardz::owned_reference moved(std::move(second));
        CHECK(!second && second.size() == 0 && second.data() == nullptr && moved && moved.data() == first.data());
        second = std::move(moved);
        pardz::owned_reference none(moved), empty = pool.own(pool.put(nullptr, 0));
        CHECK(!none && none.size() == 0 && empty && empty.size() == 0);
        const pardz_census census = pool.close();
        CHECK(census.marked == 1 && census.present == 1);
    }
    std::thread([&first] { first = pardz::owned_reference(); }).join();
    CHECK(!first && text(second) == "owned");
}

// Fillings and references that go from thread to thread, of a pool that grows.
static void growing() {
    pardz::shared_pool pool;
    pardz::shared_filling filling = pool.create();
    const std::uint64_t key = filling.key();
    filling.append("from ", 5);
    CHECK(!pool.get(key) && pool.census().filling == 1);
    pardz::shared_reference found;
    std::thread([&] {
        std::copy_n("two threads", 11, filling.room(16));
        filling.wrote(11);
        found = filling.downgrade();
    }).join();
    CHECK(text(found) == "from two threads" && found.key() == key && filling.key() == 0);
    pardz::shared_reference copy = found;
    pardz::owned_reference owned = copy.own();
    CHECK(pool.clear(key) && !pool.clear(key));
    found = pardz::shared_reference();
    CHECK(!found && copy.data() == owned.data() && text(copy) == "from two threads" && !found.own());
    std::thread([&copy] { copy = pardz::shared_reference(); }).join();
    pool.create().append("dropped", 7);
    CHECK(pool.census().filling == 0 && pool.census().marked == 1 && text(owned) == "from two threads");
    pardz::shared_filling moved(pool.create());
    const std::uint64_t last = pardz::shared_filling(std::move(moved)).publish();
    CHECK(moved.key() == 0 && pool.get(last) && pool.get(last).size() == 0);
    CHECK(pool.close().present == 1 && text(owned) == "from two threads");
    CHECK(code_of([] { pardz::shared_pool none(pardz::grows, {1, 1, 0, 0, 1}); }) == PARDZ_SHAPE);
}

// Objects of a fixed size, each of which is emptied once.
struct point {
    long x, y;
};

extern "C" void count(void *context, void *object, std::size_t size) {
    const point *emptied = static_cast<const point *>(object);
    *static_cast<long *>(context) += size == sizeof(point) ? emptied->x : 1000;
}

static void sized() {
    long sum = 0;
    const pardz_objects points = {sizeof(point), 0, count, nullptr, &sum};
    pardz::shared_pool pool(points);
    pardz::shared_filling filling = pool.create();
    point *begun = static_cast<point *>(filling.object());
    CHECK(begun->x == 0 && begun->y == 0 && code_of([&] { filling.append("x", 1); }) == PARDZ_ROOM);
    begun->x = 1;
    const pardz::shared_reference found = filling.downgrade();
    const point put = {2, 3};
    const std::uint64_t key = pool.put(&put, sizeof put);
    CHECK(reinterpret_cast<const point *>(found.data())->x == 1 && found.size() == sizeof(point));
    CHECK(pool.clear(key) && sum == 2 && pool.clear(found.key()) && sum == 2);
    pool.create();
    CHECK(sum == 4 && code_of([&] { pool.put(&put, 1); }) == PARDZ_ROOM);
    CHECK(code_of([&] { pardz::shared_pool none(points, {0, 1, 0, 1, 1}); }) == PARDZ_SHAPE);
}

// What one thread puts, another reads, clears and gives back, over fewer lanes than threads.
int main() {
    owned();
    growing();
    sized();
    const pardz_shape shape = {2, 8, 1, UINT32_MAX, 3};
    pardz::shared_pool pool(shape);
    pardz::shared_reference kept = pool.get(1);
    CHECK(!kept);
    std::vector<std::thread> threads;
    std::vector<std::uint64_t> keys(4);
    for (std::uint64_t &key : keys)
        threads.emplace_back([&pool, &key] { key = pool.put("shared", 6); });
    for (std::thread &thread : threads)
        thread.join();
    std::thread([&] { kept = pool.get(keys[0]); }).join();
    CHECK(kept && kept.key() == keys[0] && pool.clear(keys[0]) && !pool.clear(keys[0]) && !pool.get(keys[0]));
    pardz::shared_reference moved(std::move(kept));
    CHECK(moved && !kept && kept.size() == 0 && moved.size() == 6 && text(moved) == "shared");
    moved = pool.get(keys[1]);
    CHECK(text(moved) == "shared" && pool.get(pool.put(nullptr, 0)).size() == 0);
    moved = std::move(kept);
    CHECK(!moved && code_of([&] { pardz::shared_pool none({0, 4, 1, 1, 0}); }) == PARDZ_SHAPE);
    const pardz_census census = pool.close();
    CHECK(census.present == 4 && census.marked == 0 && code_of([&] { pool.close(); }) == PARDZ_EMPTY_LANE);
    std::printf("shared: C++ of %ld\n", static_cast<long>(__cplusplus));
    return 0;
}
