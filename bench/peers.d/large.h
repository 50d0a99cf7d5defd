// The load of `bench_map` on another map: PEER large ROWS THREADS CALLS rising|random prints what `bench_map` prints of rows, finds and scans:
// part, calls, how many were answered as they should be, and the microseconds of all together. The keys are the same. With 0 for CALLS nine of ten
// rows are deleted in place of the searches, and those that are left are looked for; behind each part it waits for a line, so that its memory can be
// looked at.
#pragma once
#include <algorithm>
#include <chrono>
#include <cstring>

#include "load.h"

struct Large {
    u64 rows, threads, calls;
    bool rises;

    u64 key(u64 row) const { return rises ? row : scattered(row); }
    u64 drawn(u64 seed) const { return row_of(seed, rows); }
    u64 scanned() const { return rises ? WIDTH : width(rows); }
};

inline void timed(const Large& load, const char* part, u64 calls, const std::function<u64(u64)>& work) {
    auto begun = std::chrono::steady_clock::now();
    u64 done = together(load.threads, work);
    auto passed = std::chrono::duration_cast<std::chrono::microseconds>(std::chrono::steady_clock::now() - begun);
    std::printf("%s %llu %llu %lld 0\n", part, (unsigned long long)calls, (unsigned long long)done, (long long)passed.count());
    std::fflush(stdout);
}

// Whether rows of the peer can be deleted by several threads.
template <class Peer> constexpr bool erases = true;

// Of so many rows one stays.
constexpr u64 KEPT = 10;

template <class Peer> void thin_out(const Large& load, Peer& peer) {
    std::getchar();
    if constexpr (erases<Peer>) {
        timed(load, "gone", load.rows, [&](u64 place) {
            u64 done = 0;
            for (u64 row = place; row < load.rows; row += load.threads, done++)
                if (row % KEPT) peer.erase(load.key(row));
            return done;
        });
        std::getchar();
        u64 left = 0, value;
        for (u64 row = 0; row < load.rows; row++) left += peer.find(load.key(row), value);
        std::printf("left %llu %llu 0 0\n", (unsigned long long)((load.rows + KEPT - 1) / KEPT), (unsigned long long)left);
    }
}

template <class Peer> int large(char** words) {
    const Large load{std::strtoull(words[2], nullptr, 10), std::max(1ull, std::strtoull(words[3], nullptr, 10)), std::strtoull(words[4], nullptr, 10),
                     !std::strcmp(words[5], "rising")};
    Peer peer;
    timed(load, "rows", load.rows, [&](u64 place) {
        u64 done = 0;
        for (u64 row = place; row < load.rows; row += load.threads) done += peer.insert(load.key(row), row);
        return done;
    });
    if (!load.calls) {
        thin_out(load, peer);
        return 0;
    }
    timed(load, "finds", load.calls, [&](u64 place) {
        u64 done = 0, seed = scattered(place), value;
        for (u64 call = 0; call < load.calls / load.threads; call++) {
            seed = scattered(seed);
            done += peer.find(load.key(load.drawn(seed)), value);
        }
        return done;
    });
    timed(load, "scans", load.calls / WIDTH, [&](u64 place) {
        u64 done = 0, seed = scattered(place);
        std::vector<Row> listed;
        for (u64 call = 0; call < load.calls / load.threads / WIDTH; call++) {
            seed = scattered(seed);
            u64 from = load.key(load.drawn(seed)), to = from > UINT64_MAX - load.scanned() ? UINT64_MAX : from + load.scanned();
            listed.clear();
            peer.list(from, to, listed);
            done += listed.size();
        }
        return done;
    });
    return 0;
}

// Whichever load the words ask for.
template <class Peer> int loads(int count, char** words) {
    return count == 6 && !std::strcmp(words[1], "large") ? large<Peer>(words) : load<Peer>(count, words);
}
