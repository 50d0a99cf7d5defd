// The same as calls.c, by blink.hpp.
#include "blink.hpp"

#include <chrono>
#include <cstdio>
#include <map>
#include <string>

static std::map<std::string, double> best;

static uint64_t key_of(uint64_t n) { return n * 0x9E3779B97F4A7C15u; }

template <class Work> static void timed(const char *name, uint64_t rows, Work work) {
    const auto begin = std::chrono::steady_clock::now();
    const bool is_right = work();
    const std::chrono::duration<double, std::nano> took = std::chrono::steady_clock::now() - begin;
    if (!is_right) throw std::runtime_error(std::string(name) + " is not answered as it should be");
    const auto [at, is_new] = best.emplace(name, took.count() / double(rows));
    if (!is_new) at->second = std::min(at->second, took.count() / double(rows));
}

static void round(uint64_t rows) {
    blink::Map map(65536, 1);
    auto handle = map.handle();
    const auto all = [&](auto call) {
        bool is_right = true;
        for (uint64_t n = 0; n < rows; n++) is_right &= call(n);
        return is_right;
    };
    timed("insert", rows, [&] { return all([&](uint64_t n) { return handle.insert(key_of(n), n).is_new; }); });
    timed("find", rows, [&] { return all([&](uint64_t n) { return handle.find(key_of(n * 7919 % rows)).has_value(); }); });
    timed("put", rows, [&] { return all([&](uint64_t n) { return handle.put(key_of(n * 7919 % rows), n).has_value(); }); });
    std::vector<uint64_t> keys(rows), values(rows);
    const std::unique_ptr<bool[]> found(new bool[rows]);
    for (uint64_t n = 0; n < rows; n++) keys[n] = key_of(n * 7919 % rows);
    timed("find_many", rows, [&] { return *handle.get_many(keys.data(), rows, values.data(), found.get(), std::nothrow) == rows; });
    const auto listed = [&](blink::Range range) {
        uint64_t seen = 0;
        for (auto row : range) seen += row.second != UINT64_MAX;
        return seen == rows;
    };
    timed("row up", rows, [&] { return listed(handle.range()); });
    timed("row down", rows, [&] { return listed(handle.range_down()); });
}

int main(int, char **words) {
    for (long left = std::stol(words[2]); left > 0; left--) round(std::stoull(words[1]));
    for (const auto &[name, each] : best) std::printf("%s\t%.0f\n", name.c_str(), each);
}
