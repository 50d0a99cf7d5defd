// The load of bench/growth on this index, by its package for C++: growth PAGES ROWS THREADS rising|random. The threads insert the rows, then
// nine of ten are deleted. With 0 for PAGES the map grows and shrinks by itself, else it keeps its pages. It prints for each part how many calls
// were made, how many of them were answered as they should be, the microseconds of all together, those of the longest call, and the pages then; and
// waits for a line, so that its memory can be looked at.
#include <atomic>
#include <x86intrin.h>

#include "blink.hpp"
#include "large.h"

template <class Work> void part(const Large& load, const char* name, blink::Map& map, Work work) {
    std::atomic<u64> longest{0};
    auto begun = std::chrono::steady_clock::now();
    u64 ticks = __rdtsc();
    u64 done = together(load.threads, [&](u64 place) {
        u64 right = 0, most = 0;
        blink::Handle handle = map.handle();
        for (u64 turn = 0; turn < load.rows / load.threads; turn++) {
            u64 row = turn * load.threads + place, start = __rdtsc();
            right += work(handle, load.key(row), row);
            most = std::max<u64>(most, __rdtsc() - start);
        }
        for (u64 seen = longest; seen < most && !longest.compare_exchange_weak(seen, most);) {
        }
        return right;
    });
    ticks = __rdtsc() - ticks;
    auto passed = std::chrono::duration_cast<std::chrono::microseconds>(std::chrono::steady_clock::now() - begun).count();
    double pause = double(passed) * double(longest.load()) / double(ticks ? ticks : 1);
    u64 calls = load.rows / load.threads * load.threads;
    std::printf("%s %llu %llu %lld %.0f %u\n", name, (unsigned long long)calls, (unsigned long long)done, (long long)passed, pause, map.pages());
    std::fflush(stdout);
    std::getchar();
}

int main(int count, char** words) {
    if (count != 5) return 2;
    const auto pages = uint32_t(std::strtoul(words[1], nullptr, 10));
    const u64 threads = std::max(1ull, std::strtoull(words[3], nullptr, 10));
    const Large load{std::strtoull(words[2], nullptr, 10), threads, 0, !std::strcmp(words[4], "rising")};
    blink::Map map = pages ? blink::Map(pages, threads) : blink::Map(threads);
    part(load, "rows", map, [](blink::Handle& handle, u64 key, u64 row) { return handle.insert(key, row).is_new; });
    part(load, "gone", map, [](blink::Handle& handle, u64 key, u64 row) { return row % KEPT == 0 || handle.erase(key) == row; });
    u64 calls = load.rows / threads * threads;
    std::printf("left %llu %llu 0 0 %u\n", (unsigned long long)((calls + KEPT - 1) / KEPT), (unsigned long long)map.handle().count(), map.pages());
}
