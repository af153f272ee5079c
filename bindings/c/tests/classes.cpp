// pardz.hpp: what ends is given back, also where an exception passes; what moves is given back once; codes are exceptions.
#include "../pardz.hpp"
#include "check.h"

#include <cstring>
#include <string>
#include <thread>
#include <type_traits>

static_assert(!std::is_copy_constructible<pardz::reference>::value && !std::is_copy_constructible<pardz::filling>::value, "moved, not copied");
static_assert(!std::is_copy_constructible<pardz::pool>::value && !std::is_copy_constructible<pardz::lane>::value, "they stay");
static_assert(!std::is_copy_assignable<pardz::pool>::value && !std::is_copy_assignable<pardz::lane>::value, "they stay");
static_assert(!std::is_copy_assignable<pardz::filling>::value && !std::is_move_assignable<pardz::filling>::value, "moved to a new one alone");
static_assert(std::is_nothrow_move_constructible<pardz::reference>::value && std::is_nothrow_move_constructible<pardz::filling>::value, "");
static_assert(sizeof(pardz::lane) == 64, "64 bytes from the next");

static const pardz_shape SHAPE = {2, 4, 1, UINT32_MAX, 3};

static std::string text(const pardz::reference &found) { return std::string(found.begin(), found.end()); }

// What a call throws: a code, or PARDZ_OK where it throws nothing.
template <typename Call> static std::uint32_t code_of(Call call) {
    try {
        call();
    } catch (const pardz::error &error) {
        CHECK(std::strcmp(error.what(), pardz_strerror(error.code())) == 0);
        return error.code();
    } catch (const std::bad_alloc &) {
        return PARDZ_MEMORY;
    }
    return PARDZ_OK;
}

static void references() {
    pardz::pool pool(SHAPE);
    CHECK(pool.size() == 2);
    const std::uint64_t key = pool[0].put("hello", 5);
    {
        pardz::reference found = pool[1].get(key);
        CHECK(found && found.size() == 5 && found.key() == key && text(found) == "hello");
        pardz::reference moved(std::move(found));
        CHECK(moved && !found && found.size() == 0 && found.data() == nullptr && text(moved) == "hello");
        CHECK(pool[0].clear(key) && !pool[0].clear(key) && !pool[1].get(key));
        CHECK(text(moved) == "hello");
        const std::uint64_t other = pool[0].put("other", 5);
        found = std::move(moved);
        CHECK(found && !moved && text(found) == "hello");
        found = pool[1].get(other);
        CHECK(text(found) == "other" && pardz_release(pool[1].slot(), key) == PARDZ_NO_REFERENCE && pool[0].clear(other));
    }
    CHECK(pardz_release(pool[1].slot(), key) == PARDZ_NO_REFERENCE);
    const pardz::reference empty = pool[1].get(pool[1].put(nullptr, 0));
    CHECK(empty && empty.size() == 0 && empty.begin() == empty.end());
}

static void fillings() {
    pardz::pool pool(SHAPE);
    std::uint64_t key = 0;
    {
        pardz::filling first = pool[0].create();
        first.append("abc", 3);
        std::memcpy(first.room(9), "defghi", 6);
        first.wrote(6);
        pardz::filling moved(std::move(first));
        key = moved.key();
        CHECK(moved.publish() == key);
    }
    CHECK(text(pool[1].get(key)) == "abcdefghi");
    CHECK(pool[1].stats().lane == 1 && pool[1].stats().references == 0 && pool[0].stats().shape.lanes == SHAPE.lanes);
    // One that isn't published gives its place back: the lane has four, and one is taken.
    for (int i = 0; i < 20; i++) {
        pardz::filling a = pool[0].create(), b = pool[0].create(), c = pool[0].create();
        a.append("x", 1);
        CHECK(code_of([&] { pool[0].create(); }) == PARDZ_FULL && code_of([&] { pool[0].put("x", 1); }) == PARDZ_FULL);
        if (i % 2 == 0) {
            const pardz::reference read = b.downgrade();
            CHECK(read && read.size() == 0 && pool[1].clear(read.key()));
        }
    }
    CHECK(code_of([&] {
              pardz::filling filling = pool[0].create();
              filling.wrote(1);
          }) == PARDZ_ROOM);
    const pardz_census census = pool.close();
    CHECK(census.present == 1 && census.free == 3 && census.unopened == 4 && census.filling == 0 && census.marked == 0);
    CHECK(code_of([&] { pool.close(); }) == PARDZ_EMPTY_LANE);
}

static void refusals() {
    const pardz_shape none = {0, 4, 1, 1, 0};
    CHECK(code_of([&] { pardz::pool pool(none); }) == PARDZ_SHAPE);
    for (const std::uint32_t many : {std::uint32_t{65}, UINT32_MAX})
        CHECK(code_of([&] { pardz::pool pool({many, 4, 1, 1, 0}); }) == PARDZ_SHAPE);
    CHECK(code_of([] { pardz::must(PARDZ_MEMORY); }) == PARDZ_MEMORY && code_of([] { pardz::must(PARDZ_OK); }) == PARDZ_OK);
}

static void threads() {
    pardz::pool pool(SHAPE);
    std::uint64_t keys[3];
    std::thread writer([&] {
        for (std::uint64_t &key : keys)
            key = pool[1].put(&key, sizeof key);
    });
    writer.join();
    for (const std::uint64_t key : keys)
        CHECK(pool[0].get(key).size() == sizeof key && pool[0].clear(key));
    CHECK(pool.close().free == 4);
}

int main() {
    references();
    fillings();
    refusals();
    threads();
    std::printf("classes: C++ of %ld\n", static_cast<long>(__cplusplus));
    return 0;
}
