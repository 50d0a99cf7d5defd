// The load of load.c, in C++.
#include "blink.hpp"

#include <atomic>
#include <cstdio>
#include <cstdlib>
#include <fstream>
#include <thread>
#include <vector>

static uint64_t key_of(uint64_t number) { return number * 0x9E3779B97F4A7C15u; }

int main(int count, char **words) {
    const uint64_t each = count > 1 ? std::strtoull(words[1], nullptr, 10) : 100000;
    const uint32_t pages = count > 2 ? static_cast<uint32_t>(std::strtoul(words[2], nullptr, 10)) : 65536;
    blink::Map map(pages, 4);
    std::atomic<uint64_t> wrong{0};
    std::vector<std::thread> threads;
    for (uint64_t t = 0; t < 4; t++)
        threads.emplace_back([&, t, handle = map.handle()]() mutable {
            for (uint64_t n = t * each; n < (t + 1) * each; n++) wrong += !handle.insert(key_of(n), n).is_new;
            for (uint64_t n = t * each; n < (t + 1) * each; n++) wrong += handle.find(key_of(n)) != n;
            for (uint64_t n = t * each; n < (t + 1) * each; n++)
                if (n % 3 == 0) wrong += handle.erase(key_of(n)) != n;
        });
    for (auto &thread : threads) thread.join();
    uint64_t rows = 0, wanted = 0, last = 0;
    {
        auto handle = map.handle();
        for (auto [key, value] : handle.range()) {
            wrong += (rows && key <= last) || key != key_of(value) || value % 3 == 0;
            last = key;
            rows++;
        }
    }
    for (uint64_t n = 0; n < 4 * each; n++) wanted += n % 3 != 0;
    std::printf("rows %llu, wanted %llu, wrong %llu\n", (unsigned long long)rows, (unsigned long long)wanted, (unsigned long long)wrong.load());
    if (count > 3) {
        const auto bytes = map.close_image();
        std::ofstream(words[3], std::ios::binary).write(reinterpret_cast<const char *>(bytes.data()), static_cast<std::streamsize>(bytes.size()));
    }
    return rows != wanted || wrong != 0;
}
