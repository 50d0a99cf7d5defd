// Tests of blink.hpp: beside a std::map, edges by hand, and by threads: test [STEPS].
#include "blink.hpp"

#include <cstdio>
#include <map>
#include <random>
#include <string>
#include <thread>
#include <type_traits>

#define CHECK(what)                                                                     \
    do {                                                                                \
        if (!(what)) {                                                                  \
            std::fprintf(stderr, "%s:%d: %s\n", __FILE__, __LINE__, #what);             \
            std::exit(1);                                                               \
        }                                                                               \
    } while (0)

using Model = std::map<uint64_t, uint64_t>;
static const uint64_t top = UINT64_MAX;

static_assert(!std::is_copy_constructible_v<blink::Handle> && !std::is_copy_assignable_v<blink::Handle>);
static_assert(std::is_nothrow_move_constructible_v<blink::Handle> && std::is_nothrow_move_assignable_v<blink::Handle>);
static_assert(std::is_copy_constructible_v<blink::Map>);

static std::optional<uint64_t> in(const Model &model, uint64_t key) {
    const auto at = model.find(key);
    return at == model.end() ? std::nullopt : std::optional(at->second);
}

// The rows of a range, both ways, are those of the model.
static void same_range(blink::Handle &handle, const Model &model, uint64_t from, uint64_t below) {
    auto at = model.lower_bound(from);
    for (auto [key, value] : handle.range(from, below)) {
        CHECK(at != model.end() && key == at->first && value == at->second);
        ++at;
    }
    CHECK(at == model.lower_bound(std::max(from, below)));
    CHECK(handle.snapshot(from, below) == std::vector<blink::Row>(model.lower_bound(from), model.lower_bound(std::max(from, below))));
    for (auto [key, value] : handle.range_down(from, below)) {
        --at;
        CHECK(key == at->first && value == at->second);
    }
    CHECK(at == model.lower_bound(from));
}

static void write(blink::Handle &handle, Model &model, uint64_t key, uint64_t value, uint64_t what) {
    const auto there = in(model, key);
    if (what == 0) {
        const auto [now, is_new] = handle.insert(key, value);
        CHECK(is_new == !there && now == there.value_or(value));
        model.emplace(key, value);
    } else if (what == 1) {
        CHECK(handle.put(key, value) == there);
        model[key] = value;
    } else if (what == 2) {
        CHECK(handle.erase(key) == there);
        model.erase(key);
    } else if (what == 3) {
        uint64_t expected = there && value % 2 ? *there : value;
        const bool fits = there && expected == *there;
        const auto done = handle.compare_exchange(key, expected, value ^ 1);
        CHECK(done == (!there ? blink::Exchanged::absent : fits ? blink::Exchanged::done : blink::Exchanged::differs));
        CHECK(!there || fits || expected == *there);
        if (fits) model[key] = value ^ 1;
    } else if (what == 4) {
        CHECK(handle.update(key, [](uint64_t old) { return old * 3; }) == there);
        if (there) model[key] = *there * 3;
    } else {
        CHECK(handle.add(key, value) == there.value_or(0) + value);
        model[key] += value;
    }
}

// The row that an iterator of the model stands at, if it stands at one.
static std::optional<blink::Row> row_at(const Model &model, Model::const_iterator at) {
    return at == model.end() ? std::nullopt : std::optional<blink::Row>(*at);
}

// The rows beside a key, and how many there are.
static void looks_about(blink::Handle &handle, const Model &model, uint64_t key) {
    const auto from = model.lower_bound(key), below = model.lower_bound(key + 50);
    CHECK(handle.next(key) == row_at(model, model.upper_bound(key)));
    CHECK(handle.previous(key) == (from == model.begin() ? std::nullopt : row_at(model, std::prev(from))));
    CHECK(handle.first() == row_at(model, model.begin()));
    CHECK(handle.last() == (model.empty() ? std::nullopt : row_at(model, std::prev(model.end()))));
    CHECK(handle.count() == model.size() && handle.count(key) == uint64_t(std::distance(from, model.end())));
    CHECK(handle.count(key, key + 50) == (key < key + 50 ? uint64_t(std::distance(from, below)) : 0));
}

static void beside_a_map(unsigned seed, int steps) {
    std::mt19937_64 draw(seed);
    blink::Map map(4096, 1);
    Model model;
    {
        auto handle = map.handle();
        CHECK(!map.try_handle());
        for (int step = 0; step < steps; step++) {
            const uint64_t key = draw() % 2 ? draw() % 500 : draw(), value = draw(), what = draw() % 10;
            if (what < 6) write(handle, model, key, value, what);
            else if (what == 6) looks_about(handle, model, key);
            else if (what == 7) CHECK(handle.find(key) == in(model, key) && handle.contains(key) == in(model, key).has_value());
            else if (what == 8) CHECK(handle.get_many({key, 5, 7}) == std::vector({in(model, key), in(model, 5), in(model, 7)}));
            else if (step % 8 == 0) same_range(handle, model, key, key + draw() % 100);
        }
        same_range(handle, model, 0, top);
        CHECK(handle.first()->first == model.begin()->first && handle.last()->first == model.rbegin()->first);
    }
    const auto image = map.close_image();
    auto again = blink::Map::from_image(image, 3);
    auto handle = again.handle();
    same_range(handle, model, 0, top);
    CHECK(again.pages() == 4096 && !map.try_handle());
}

static void counts(blink::Handle handle, uint64_t thread, uint64_t times) {
    const uint64_t counter = uint64_t(1) << 40;
    for (uint64_t n = 0; n < times; n++) {
        CHECK(handle.update(counter, [](uint64_t old) { return old + 1; }));
        CHECK(handle.add(counter) > n);
        CHECK(handle.insert(n * 4 + thread, n).is_new);
        CHECK(handle.find(n * 4 + thread) == n);
        if (n >= 100) CHECK(handle.erase((n - 100) * 4 + thread) == n - 100);
    }
}

static void lists(blink::Handle handle) {
    const uint64_t counter = uint64_t(1) << 40;
    for (int round = 0; round < 50; round++) {
        std::optional<uint64_t> last;
        for (auto [key, value] : handle.range()) {
            CHECK((!last || *last < key) && (key == counter || key / 4 == value));
            last = key;
        }
        CHECK(last == counter);
        for (auto [key, value] : handle.range_down()) {
            CHECK((key == counter || key < *last) && (key == counter || key / 4 == value));
            last = key;
        }
    }
}

// Why a map is not closed.
static int32_t refused_close(blink::Map &map) {
    try {
        map.close_image();
        return BLINK_OK;
    } catch (const blink::Error &error) {
        CHECK(error.what() == std::string(blink_text(error.code())));
        return error.code();
    }
}

static void threads(uint64_t times) {
    blink::Map map(8192, 5);
    map.handle().insert(uint64_t(1) << 40, 0);
    std::vector<std::thread> all;
    for (uint64_t t = 0; t < 4; t++) all.emplace_back(counts, map.handle(), t, times);
    all.emplace_back(lists, map.handle());
    for (auto &thread : all) thread.join();
    auto handle = map.handle();
    CHECK(handle.find(uint64_t(1) << 40) == 2 * 4 * times);
    CHECK(std::distance(handle.range().begin(), blink::Range::iterator()) == 4 * 100 + 1);
    CHECK(refused_close(map) == BLINK_SEATS_OPEN);
}

static uint64_t one_more(uint64_t value) { return value + 1; }

// A map that gets more pages has its rows, and room for more, and its handles go on.
static void is_resized() {
    blink::Map map(16, 2);
    auto handle = map.handle();
    for (uint64_t key = 0; key < 80; key++) handle.insert(key, key + 1);
    auto range = handle.range();
    auto at = range.begin();
    for (uint32_t wrong : {15u, (1u << 28) + 1}) {
        try {
            map.resize(wrong);
            CHECK(false);
        } catch (const blink::Error &error) {
            CHECK(error.code() == BLINK_BAD_PAGES);
        }
    }
    map.resize(1024);
    CHECK(map.pages() == 1024 && map.rescued().empty());
    for (uint64_t key = 80; key < 6000; key++) handle.insert(key, key + 1);
    auto other = map.handle();
    CHECK(handle.count() == 6000 && other.find(7) == 8 && other.find(5999) == 6000);
    // A range that was begun before goes on.
    uint64_t rows = 0;
    for (; at != range.end(); ++at) CHECK(at->first == rows++);
    CHECK(rows == 6000);
}

// Inserts the thread's rows, counts a row up that all have, and looks back.
static void enters(blink::Handle handle, uint64_t thread, uint64_t rows) {
    for (uint64_t n = 0; n < rows; n++) {
        const uint64_t key = n * 4 + thread + 1;
        if (n % 3 == 0) CHECK(handle.insert(key, n).is_new);
        else if (n % 3 == 1) CHECK(handle.put(key, n) == std::nullopt);
        else CHECK(handle.add(key, n) == n);
        CHECK(handle.update(0, one_more));
        CHECK(handle.find(key - 4 * (n / 2)) == n - n / 2);
        if (n % 1000 == 999) CHECK(handle.snapshot(key, key + 1).size() == 1);
    }
}

// A map without a number of pages grows while four threads enter rows and a fifth lists them, and so does one that begins with an image.
static void grows(uint64_t rows) {
    blink::Map map(6);
    const uint32_t first = map.pages();
    map.handle().insert(0, 0);
    std::atomic<bool> is_over{false};
    std::thread lister([&is_over, handle = map.handle()]() mutable {
        uint64_t last = 0;
        while (!is_over) {
            uint64_t count = 0;
            std::optional<uint64_t> before;
            for (auto [key, value] : handle.range()) {
                CHECK(!before || *before < key);
                before = key;
                count++;
            }
            CHECK(count >= last);
            last = count;
        }
    });
    std::vector<std::thread> all;
    for (uint64_t t = 0; t < 4; t++) all.emplace_back(enters, map.handle(), t, rows);
    for (auto &thread : all) thread.join();
    is_over = true;
    lister.join();
    CHECK(map.handle().count() == 4 * rows + 1 && map.handle().find(0) == 4 * rows);
    CHECK(map.pages() >= first && (rows < 10000 || map.pages() > first));
    const uint32_t pages = map.pages();
    auto again = blink::Map::from_image(map.close_image(), 1);
    CHECK(again.pages() == pages);
    auto handle = again.handle();
    for (uint64_t key = 4 * rows + 1; again.pages() == pages; key++) CHECK(handle.insert(key, key).is_new);
    CHECK(handle.find(1) == 0 && handle.count() > 4 * rows);
}

// A map that grows shrinks again once most rows have gone, and one with a number of pages does not. At the edge it does not flap.
static void shrinks() {
    blink::Map map(2), fixed(8192, 1);
    auto handle = map.handle(), other = map.handle(), stays = fixed.handle();
    for (uint64_t key = 0; key < 40000; key++) CHECK(handle.put(key, key + 1) == std::nullopt && stays.put(key, key + 1) == std::nullopt);
    const uint32_t most = map.pages();
    CHECK(most >= 4096);
    for (uint64_t key = 0; key < 39900; key++) CHECK(handle.erase(key) == key + 1 && stays.erase(key) == key + 1);
    CHECK(map.pages() == 1024 && fixed.pages() == 8192);
    CHECK(other.count() == 100 && other.first() == blink::Row(39900, 39901) && other.find(39999) == 40000);
    // A window of rows moves on: the number of pages stays where it is once it has been found.
    for (uint64_t key = 40000; key < 50000; key++) other.insert(key, key);
    const uint32_t found = map.pages();
    for (uint64_t key = 50000; key < 150000; key++) {
        other.insert(key, key);
        CHECK(handle.erase(key - 10000) == key - 10000 && map.pages() == found);
    }
}

static void edges() {
    blink::Map map(16, 1);
    {
        auto handle = map.handle();
        CHECK(!handle.first() && !handle.last() && !handle.next(0) && !handle.previous(top) && handle.count() == 0);
        handle.insert(0, 1);
        handle.insert(top, 2);
        CHECK(handle.first() == blink::Row(0, 1) && handle.last() == blink::Row(top, 2));
        same_range(handle, {{0, 1}, {top, 2}}, 0, 0);
        same_range(handle, {{0, 1}, {top, 2}}, 5, 5);
        same_range(handle, {{0, 1}, {top, 2}}, 0, top);
        CHECK(handle.snapshot().size() == 2 && handle.snapshot(1).size() == 1 && handle.snapshot(0, top, std::nothrow, 0).value().size() == 1);
        auto range = handle.range_down(1);
        auto at = range.begin();
        CHECK(at->first == top && (*at++).second == 2 && at == range.end());
        CHECK(!handle.next(top) && !handle.previous(0) && handle.count(top) == 1 && handle.count(0, 0) == 0 && handle.count(1, top) == 0);
        CHECK(handle.add(0, top) == 0 && handle.add(0) == 1 && handle.add(5, 7) == 7);
        CHECK(handle.update(5, [](uint64_t) -> uint64_t { return 8; }, std::nothrow).value() == 7 && handle.find(5) == 8);
        const auto three = [](uint64_t) -> uint64_t { return 3; };
        CHECK(handle.update(5, three) == 8 && handle.update(6, three) == std::nullopt);
        CHECK(handle.update(5, one_more) == 3 && handle.find(5) == 4 && handle.update(5, three) == 4);
        // What the function throws ends the call, and nothing has changed.
        try {
            handle.update(5, [](uint64_t) -> uint64_t { throw std::out_of_range("no"); });
            CHECK(false);
        } catch (const std::out_of_range &) {
        }
        CHECK(handle.find(5) == 3 && handle.erase(5) == 3);
        CHECK(handle.upkeep(10));
        // The anchor and one leaf; two frames for each page, and eight for the handle.
        const blink_stats stats = handle.stats();
        CHECK(stats.pages == 16 && stats.used_pages == 2 && stats.free_pages == 14 && stats.frames == 40);
        CHECK(stats.waiting == 0 && stats.dropped == 0);
        CHECK(refused_close(map) == BLINK_SEATS_OPEN);
    }
    map.close_image();
    CHECK(refused_close(map) == BLINK_CLOSED);
}

static void refusals() {
    for (auto [pages, handles] : {std::pair(3u, size_t(1)), {(1u << 28) + 1, 1}, {16u, 0}, {16u, 65}}) {
        try {
            blink::Map map(pages, handles);
            CHECK(false);
        } catch (const blink::Error &error) {
            CHECK(error.code() == (handles == 1 ? BLINK_BAD_PAGES : BLINK_BAD_SEATS));
        }
    }
    try {
        blink::Map::from_image({1, 2, 3}, 1);
        CHECK(false);
    } catch (const blink::Error &error) {
        CHECK(error.code() == BLINK_BAD_IMAGE);
    }
    blink::Map map(8, 2);
    auto one = map.handle();
    auto other = std::move(one);
    uint64_t key = 0;
    try {
        for (;; key++) other.insert(key, key);
    } catch (const blink::NoRoom &) {
    }
    const auto refused = other.insert(key, key, std::nothrow);
    CHECK(!refused && refused.code() == BLINK_NO_ROOM && refused.what() == std::string("no room"));
    CHECK(other.add(key, 1, std::nothrow).code() == BLINK_NO_ROOM && !other.find(key));
    CHECK(other.insert(0, 9, std::nothrow)->value == 0 && (*other.find(3, std::nothrow)) == 3);
    CHECK(key >= 14 && key < 200 && std::distance(other.range().begin(), {}) == std::ptrdiff_t(key));
    one = map.handle();
    CHECK(one.find(0) == 0 && one.find(key) == std::nullopt);
    // Both are out; the seat of one that is assigned to goes back.
    CHECK(!map.try_handle());
    other = std::move(one);
    CHECK(map.try_handle() && other.find(0) == 0);
}

int main(int count, char **words) {
    const int steps = count > 1 ? std::atoi(words[1]) : 20000;
    for (unsigned seed = 1; seed < 5; seed++) beside_a_map(seed, steps);
    threads(uint64_t(steps) / 2);
    edges();
    is_resized();
    grows(uint64_t(steps));
    shrinks();
    refusals();
    std::printf("%d steps as of a std::map, edges, growth beside five threads, refusals, five threads\n", 4 * steps);
}
