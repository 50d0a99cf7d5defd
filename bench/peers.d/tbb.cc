// oneTBB's concurrent_map, a skip list. Its interface has no deletion that others may run beside, so a mixed load leaves deletions out.
#include "large.h"

#include <oneapi/tbb/concurrent_map.h>

struct Map {
    tbb::concurrent_map<u64, u64> rows;

    bool insert(u64 key, u64 value) { return rows.emplace(key, value).second; }

    bool find(u64 key, u64& value) {
        auto there = rows.find(key);
        if (there == rows.end()) return false;
        value = there->second;
        return true;
    }

    void erase(u64) {}

    void list(u64 from, u64 to, std::vector<Row>& listed) {
        for (auto row = rows.lower_bound(from); row != rows.end() && row->first < to; ++row) listed.emplace_back(row->first, row->second);
    }
};

template <> constexpr bool erases<Map> = false;

int main(int count, char** words) { return loads<Map>(count, words); }
