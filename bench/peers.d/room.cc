// A window of rows that moves over a map of 1,024 pages, for bench/room: room ROWS LIVING STEP. Rows with rising keys are inserted by one handle, and
// each is deleted by another once so many live. It prints how many rows were inserted so far, how many pages are not free then, and how many
// insertions were refused; and last, when all rows are deleted and nothing is left to do, how many pages are in use.
#include <cstdio>
#include <cstdlib>

#include "blink.hpp"

constexpr uint32_t PAGES = 1024;

int main(int count, char** words) {
    if (count != 4) return 2;
    const uint64_t rows = std::strtoull(words[1], nullptr, 10), living = std::strtoull(words[2], nullptr, 10), step = std::strtoull(words[3], nullptr, 10);
    blink::Map map(PAGES, 2);
    blink::Handle one = map.handle(), two = map.handle();
    unsigned long long refused = 0;
    for (uint64_t key = 0; key < rows; key++) {
        const auto inserted = one.insert(key, key, std::nothrow);
        refused += !inserted;
        if (key >= living) two.erase(key - living);
        if (step && (key + 1) % step) continue;
        std::printf("%llu %llu %llu\n", (unsigned long long)(key + 1), (unsigned long long)(PAGES - one.stats().free_pages), refused);
        refused = 0;
    }
    for (uint64_t key = rows > living ? rows - living : 0; key < rows; key++) two.erase(key);
    // What one handle is done with may let the other one go on.
    for (int round = 0; round < 2; round++) {
        while (!one.upkeep(100) || !two.upkeep(100)) {
        }
    }
    std::printf("empty %llu\n", (unsigned long long)two.stats().used_pages);
}
