// A B+-tree with optimistic lock coupling, after Leis, Haubenschild and Neumann (2019), of PAIRS pairs a node. A reader notes the version of a
// node and looks afterwards whether it is still the same; a writer locks a node by its version. Full nodes are split on the way down. Nodes are
// never merged, and none is given back, so no reader meets one that is freed. A node with an odd version bit 1 is locked.
#include "large.h"

#include <cstring>
#include <immintrin.h>

#ifndef PAIRS
#define PAIRS 256
#endif

struct Node {
    std::atomic<u64> version{4};
    const bool is_leaf;
    std::uint16_t count = 0;
    u64 keys[PAIRS];

    explicit Node(bool leaf) : is_leaf(leaf) {}

    // The place of the first key that is not below this one. A reader may see a count in the middle of a change.
    unsigned place(u64 key) const {
        unsigned low = 0, high = count > PAIRS ? PAIRS : count;
        while (low < high) {
            unsigned middle = (low + high) / 2;
            if (keys[middle] < key) low = middle + 1;
            else high = middle;
        }
        return low;
    }

    // The version, if nobody has the lock.
    bool looks(u64& seen) const {
        seen = version.load(std::memory_order_acquire);
        if (!(seen & 2)) return true;
        _mm_pause();
        return false;
    }

    bool is_as(u64 seen) const {
        std::atomic_thread_fence(std::memory_order_acquire);
        return version.load(std::memory_order_relaxed) == seen;
    }

    bool locks(u64 seen) { return version.compare_exchange_strong(seen, seen + 2); }
    void unlock() { version.fetch_add(2); }
};

struct Leaf : Node {
    u64 values[PAIRS];
    Leaf() : Node(true) {}
};

// Child i has the keys up to keys[i], the last one those behind all.
struct Inner : Node {
    Node* children[PAIRS + 1];
    Inner() : Node(false) {}
};

// The upper half of a node, in a new one, and the greatest key that stays.
static Node* split(Node* node, u64& separator) {
    unsigned half = node->count / 2;
    if (node->is_leaf) {
        auto *lower = static_cast<Leaf*>(node), *upper = new Leaf;
        upper->count = static_cast<std::uint16_t>(lower->count - half);
        std::memcpy(upper->keys, lower->keys + half, 8 * upper->count);
        std::memcpy(upper->values, lower->values + half, 8 * upper->count);
        separator = lower->keys[half - 1];
        lower->count = static_cast<std::uint16_t>(half);
        return upper;
    }
    auto *lower = static_cast<Inner*>(node), *upper = new Inner;
    upper->count = static_cast<std::uint16_t>(lower->count - half - 1);
    std::memcpy(upper->keys, lower->keys + half + 1, 8 * upper->count);
    std::memcpy(upper->children, lower->children + half + 1, 8 * (upper->count + 1u));
    separator = lower->keys[half];
    lower->count = static_cast<std::uint16_t>(half);
    return upper;
}

class Tree {
    std::atomic<Node*> top{new Leaf};

    // Lists the upper part of a split child behind the lower one.
    static void enter(Inner* parent, u64 separator, Node* upper) {
        unsigned at = parent->place(separator), behind = parent->count - at;
        std::memmove(parent->keys + at + 1, parent->keys + at, 8 * behind);
        std::memmove(parent->children + at + 2, parent->children + at + 1, 8 * behind);
        parent->keys[at] = separator;
        parent->children[at + 1] = upper;
        parent->count++;
    }

    // Splits a full node, and with it the locks of both are given back. Whoever called begins again.
    void part(Node* node, u64 seen, Inner* parent, u64 seen_parent) {
        if (parent && !parent->locks(seen_parent)) return;
        if (node->locks(seen)) {
            if (parent || node == top) {
                u64 separator;
                Node* upper = split(node, separator);
                if (parent) {
                    enter(parent, separator, upper);
                } else {
                    auto* above = new Inner;
                    above->count = 1;
                    above->keys[0] = separator;
                    above->children[0] = node;
                    above->children[1] = upper;
                    top = above;
                }
            }
            node->unlock();
        }
        if (parent) parent->unlock();
    }

    // A try of an insertion. Whether it came to its end.
    bool try_insert(u64 key, u64 value, bool& is_new) {
        Node* node = top;
        Inner* parent = nullptr;
        u64 seen, seen_parent = 0;
        if (!node->looks(seen) || node != top) return false;
        for (;;) {
            if (node->count >= (node->is_leaf ? PAIRS : PAIRS - 1)) {
                part(node, seen, parent, seen_parent);
                return false;
            }
            if (parent && !parent->is_as(seen_parent)) return false;
            if (node->is_leaf) break;
            parent = static_cast<Inner*>(node);
            seen_parent = seen;
            Node* child = parent->children[parent->place(key)];
            if (!parent->is_as(seen_parent)) return false;
            node = child;
            if (!node->looks(seen)) return false;
        }
        if (!node->locks(seen)) return false;
        if (parent && !parent->is_as(seen_parent)) {
            node->unlock();
            return false;
        }
        auto* leaf = static_cast<Leaf*>(node);
        unsigned at = leaf->place(key);
        is_new = at == leaf->count || leaf->keys[at] != key;
        if (is_new) {
            std::memmove(leaf->keys + at + 1, leaf->keys + at, 8 * (leaf->count - at));
            std::memmove(leaf->values + at + 1, leaf->values + at, 8 * (leaf->count - at));
            leaf->keys[at] = key;
            leaf->values[at] = value;
            leaf->count++;
        }
        leaf->unlock();
        return true;
    }

    // The leaf of a key with its version, or null where the way changed meanwhile; and the greatest key that it may have, if it has one.
    Leaf* descend(u64 key, u64& seen, u64& last, bool& has_last) {
        Node* node = top;
        has_last = false;
        if (!node->looks(seen) || node != top) return nullptr;
        while (!node->is_leaf) {
            auto* inner = static_cast<Inner*>(node);
            unsigned at = inner->place(key);
            Node* child = inner->children[at];
            u64 bound = at < PAIRS ? inner->keys[at] : 0;
            bool has_bound = at < inner->count;
            if (!inner->is_as(seen)) return nullptr;
            if (has_bound) {
                last = bound;
                has_last = true;
            }
            u64 seen_inner = seen;
            node = child;
            if (!node->looks(seen) || !inner->is_as(seen_inner)) return nullptr;
        }
        return static_cast<Leaf*>(node);
    }

public:
    bool insert(u64 key, u64 value) {
        bool is_new = false;
        while (!try_insert(key, value, is_new)) {}
        return is_new;
    }

    bool find(u64 key, u64& value) {
        for (;;) {
            u64 seen, last;
            bool has_last;
            Leaf* leaf = descend(key, seen, last, has_last);
            if (!leaf) continue;
            unsigned at = leaf->place(key);
            bool is_there = at < leaf->count && at < PAIRS && leaf->keys[at] == key;
            u64 there = is_there ? leaf->values[at] : 0;
            if (!leaf->is_as(seen)) continue;
            value = there;
            return is_there;
        }
    }

    void erase(u64 key) {
        for (;;) {
            u64 seen, last;
            bool has_last;
            Leaf* leaf = descend(key, seen, last, has_last);
            if (!leaf || !leaf->locks(seen)) continue;
            unsigned at = leaf->place(key);
            if (at < leaf->count && leaf->keys[at] == key) {
                std::memmove(leaf->keys + at, leaf->keys + at + 1, 8 * (leaf->count - at - 1u));
                std::memmove(leaf->values + at, leaf->values + at + 1, 8 * (leaf->count - at - 1u));
                leaf->count--;
            }
            leaf->unlock();
            return;
        }
    }

    void list(u64 from, u64 to, std::vector<Row>& listed) {
        while (from < to) {
            u64 seen, last = 0;
            bool has_last;
            Leaf* leaf = descend(from, seen, last, has_last);
            if (!leaf) continue;
            Row rows[PAIRS];
            unsigned many = 0, count = leaf->count > PAIRS ? PAIRS : leaf->count;
            for (unsigned at = leaf->place(from); at < count && leaf->keys[at] < to; at++) rows[many++] = {leaf->keys[at], leaf->values[at]};
            if (!leaf->is_as(seen)) continue;
            listed.insert(listed.end(), rows, rows + many);
            if (!has_last || last == UINT64_MAX) return;
            from = last + 1;
        }
    }
};

int main(int count, char** words) { return loads<Tree>(count, words); }
