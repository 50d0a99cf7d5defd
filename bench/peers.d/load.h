// The load of `bench_map index` on another map: PEER ROWS THREADS FINDS MIXED SCANS prints what `bench_map index` prints. A peer has insert, find, erase
// and list, each of which any thread may call. The keys are the same.
#pragma once
#include <atomic>
#include <cstdint>
#include <cstdio>
#include <cstdlib>
#include <functional>
#include <thread>
#include <utility>
#include <vector>

using u64 = std::uint64_t;
using Row = std::pair<u64, u64>;

constexpr u64 WIDTH = 100;

// A number that looks random, another one for each: the key of a row, and what is drawn next.
inline u64 scattered(u64 number) {
    u64 first = (number + 1) * 0x9e3779b97f4a7c15u;
    u64 second = (first ^ (first >> 30)) * 0xbf58476d1ce4e5b9u;
    u64 third = (second ^ (second >> 27)) * 0x94d049bb133111ebu;
    return third ^ (third >> 31);
}

// One of the rows, and how far the ends of a scan of about 100 of them are apart.
inline u64 row_of(u64 drawn, u64 rows) { return rows ? (drawn >> 8) % rows : 0; }
inline u64 width(u64 rows) { return UINT64_MAX / WIDTH / (rows / WIDTH + 1) * WIDTH; }

// What the threads have done together.
inline u64 together(u64 threads, const std::function<u64(u64)>& work) {
    std::atomic<u64> done{0};
    std::vector<std::thread> all;
    for (u64 place = 0; place < threads; place++) all.emplace_back([&, place] { done += work(place); });
    for (auto& thread : all) thread.join();
    return done;
}

template <class Peer> u64 fill(Peer& peer, u64 place, u64 rows, u64 threads) {
    u64 done = 0;
    for (u64 row = place; row < rows; row += threads) done += peer.insert(scattered(row), row);
    return done;
}

template <class Peer> u64 search(Peer& peer, u64 place, u64 rows, u64 finds) {
    u64 done = 0, seed = scattered(place), value;
    for (u64 round = 0; round < finds; round++) {
        seed = scattered(seed);
        done += peer.find(scattered(row_of(seed, rows)), value);
    }
    return done;
}

template <class Peer> u64 mix(Peer& peer, u64 place, u64 rows, u64 mixed) {
    u64 seed = scattered(place), value;
    for (u64 round = 0; round < mixed; round++) {
        if (round % 4 != 3) seed = scattered(seed);
        u64 row = row_of(seed, rows), key = scattered(row);
        if (round % 4 == 2) peer.erase(key);
        else if (round % 4 == 3) peer.insert(key, row);
        else peer.find(key, value);
    }
    return mixed;
}

template <class Peer> u64 scan(Peer& peer, u64 place, u64 rows, u64 scans) {
    u64 done = 0, seed = scattered(place);
    std::vector<Row> listed;
    for (u64 round = 0; round < scans; round++) {
        seed = scattered(seed);
        u64 from = scattered(row_of(seed, rows)), end = from > UINT64_MAX - width(rows) ? UINT64_MAX : from + width(rows);
        listed.clear();
        peer.list(from, end, listed);
        done += listed.size();
    }
    return done;
}

template <class Peer> int load(int count, char** words) {
    if (count != 6) {
        std::fprintf(stderr, "usage: %s ROWS THREADS FINDS MIXED SCANS\n", words[0]);
        return 2;
    }
    u64 given[5];
    for (int at = 0; at < 5; at++) given[at] = std::strtoull(words[at + 1], nullptr, 10);
    const u64 n = given[0], t = given[1], f = given[2], m = given[3], s = given[4];
    Peer peer;
    u64 inserted = together(t, [&](u64 place) { return fill(peer, place, n, t); });
    u64 found = together(t, [&](u64 place) { return search(peer, place, n, f); });
    u64 done = together(t, [&](u64 place) { return mix(peer, place, n, m); });
    u64 listed = together(t, [&](u64 place) { return scan(peer, place, n, s); });
    std::printf("rows %llu, found %llu, mixed %llu, listed %llu\n", (unsigned long long)inserted, (unsigned long long)found,
                (unsigned long long)done, (unsigned long long)listed);
    return 0;
}
