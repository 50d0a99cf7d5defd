// blink.hpp: the map for C++17, over blink.h.
//
//     blink::Map map(8);                                   // handles at once
//     blink::Handle handle = map.handle();                 // one for each thread
//     handle.insert(5, 50);
//     for (auto [key, value] : handle.range(0, 100)) ...   // keys 0 to 99, rising
//     std::vector<uint8_t> image = map.close_image();
//
// A call that is refused throws blink::Error, or blink::NoRoom, which says that nothing
// has changed. With std::nothrow as its last argument it throws nothing, and answers a
// blink::Result, which has the value or the code.
//
// A map grows by two as rows come, and shrinks by two where less than an eighth of its
// pages is used, while the calls of other handles wait: a call takes long then, once for
// each doubling. One that is made with a number of pages keeps it.
//
// What blink.h asks of a caller is kept by types: a Handle owns its place, is moved, not
// copied, and is used by one thread at a time. Maps are copied and shared; handles may
// outlive them. In the child of a fork of a program with threads no call may be made.
#pragma once
#include "blink.h"

#include <algorithm>
#include <array>
#include <atomic>
#include <cstddef>
#include <cstdint>
#include <cstdlib>
#include <iterator>
#include <memory>
#include <mutex>
#include <new>
#include <optional>
#include <stdexcept>
#include <thread>
#include <utility>
#include <vector>

namespace blink {

// A call that was refused; code() is one of blink.h, and what() says what it means.
class Error : public std::runtime_error {
public:
    explicit Error(int32_t code) : std::runtime_error(blink_text(code)), code_(code) {}
    int32_t code() const noexcept { return code_; }

private:
    int32_t code_;
};

// No page or frame was free, and nothing has changed.
class NoRoom : public Error {
public:
    NoRoom() : Error(BLINK_NO_ROOM) {}
};

// A map that could neither get more pages nor be opened again as it was: it is closed, and
// this has the image of its rows.
class Lost : public Error {
public:
    explicit Lost(std::vector<uint8_t> image)
        : Error(BLINK_SEATS_LOST), image_(std::move(image)) {}
    const std::vector<uint8_t> &image() const noexcept { return image_; }

private:
    std::vector<uint8_t> image_;
};

namespace detail {

// Throws what a code means that is no answer; without exceptions it ends the program.
[[noreturn]] inline void refuse(int32_t code) {
#if defined(__cpp_exceptions)
    if (code == BLINK_NO_ROOM) throw NoRoom();
    throw Error(code);
#else
    (void)code;
    std::abort();
#endif
}

constexpr uint32_t FIRST_PAGES = 1024, MOST_PAGES = uint32_t(1) << 28;

// A handle's place at a map: its seat, whether it is in a call, and how many rows it has
// entered and taken away. Each call writes it, so it has a line of memory of its own.
struct alignas(64) Place {
    blink_seat seat{};
    std::atomic<bool> is_in_call{false};
    uint64_t entered = 0, taken = 0;
};

// A map's places. Who holds the lock may stop all calls, and may change the seats then.
struct Seats {
    std::mutex lock;
    std::vector<Place> places;
    std::vector<Place *> free; // those in no handle, with room for all
    std::atomic<bool> is_stopped{false};
    std::atomic<uint32_t> pages{0};
    bool grows = true;
    bool is_closed = false;
    std::vector<uint8_t> rescued; // the image of a map that is lost

    explicit Seats(size_t handles) : places(handles) {
        for (Place &place : places) free.push_back(&place);
    }
    Seats(const Seats &) = delete;
    Seats &operator=(const Seats &) = delete;
    ~Seats() {
        for (Place &place : places) blink_close(&place.seat);
    }

    // Room for an image of so many pages; nothing where there is no memory for it.
    static std::vector<uint8_t> image_room(uint32_t pages) noexcept {
        std::vector<uint8_t> bytes;
#if defined(__cpp_exceptions)
        try {
            bytes.resize(blink_image_length(pages));
        } catch (const std::bad_alloc &) {
        }
#else
        bytes.resize(blink_image_length(pages));
#endif
        return bytes;
    }

    // Waits until no call is made, and lets none begin. By whoever holds the lock.
    void stop() noexcept {
        is_stopped = true;
        for (const Place &place : places)
            while (place.is_in_call) std::this_thread::yield();
    }

    // Gives the map so many pages, while no call is made. By whoever holds the lock.
    int32_t resize(uint32_t wanted) noexcept {
        if (is_closed) return BLINK_CLOSED;
        std::vector<uint8_t> bytes = image_room(pages);
        if (bytes.empty()) return BLINK_NO_MEMORY;
        stop();
        uint64_t length = 0;
        const int32_t code = with_seats([&](blink_seat *seats, size_t count) {
            return blink_resize(seats, count, wanted, bytes.data(), bytes.size(), &length);
        });
        if (code == BLINK_OK) pages = wanted;
        if (code == BLINK_SEATS_LOST) {
            bytes.resize(static_cast<size_t>(length));
            rescued = std::move(bytes);
            free.clear();
            is_closed = true;
        }
        is_stopped = false;
        return code;
    }

    // Gives a map of so many pages twice as many, unless it has another number by then.
    // Whether a write that found no room may find it now.
    bool grow(uint32_t from) noexcept {
        const std::lock_guard<std::mutex> hold(lock);
        if (pages != from) return !is_closed;
        return grows && from < MOST_PAGES && resize(std::min(2 * from, MOST_PAGES)) == BLINK_OK;
    }

    // Gives a map of so many pages half as many, unless another one has done it by then, or
    // there is no memory for it.
    void shrink(uint32_t from) noexcept {
        const std::lock_guard<std::mutex> hold(lock);
        if (pages != from || is_closed) return;
        stop();
#if defined(__cpp_exceptions)
        try {
            lay_out(from / 2);
        } catch (const std::bad_alloc &) {
        }
#else
        lay_out(from / 2);
#endif
        is_stopped = false;
    }

    // Gives the map so many pages, in which its rows are laid out anew.
    void lay_out(uint32_t wanted) {
        uint64_t count = 0;
        if (blink_count(&places[0].seat, 0, UINT64_MAX, &count) != BLINK_OK) return;
        std::vector<blink_row> rows(static_cast<size_t>(count) + 1);
        std::vector<uint8_t> bytes(blink_image_length(wanted));
        const int32_t code = with_seats([&](blink_seat *seats, size_t number) {
            return blink_shrink(seats, number, wanted, rows.data(), rows.size(),
                                bytes.data(), bytes.size());
        });
        if (code == BLINK_OK) pages = wanted;
    }

    // A call of all seats, which takes an array of them.
    template <class Function> int32_t with_seats(Function &&calls) noexcept {
        std::array<blink_seat, 64> seats{};
        for (size_t at = 0; at < places.size(); at++) seats[at] = places[at].seat;
        const int32_t code = calls(seats.data(), places.size());
        for (size_t at = 0; at < places.size(); at++) places[at].seat = seats[at];
        return code;
    }
};

// A call of a place. Who resizes the map waits for its end, and it waits for them.
class Call {
public:
    Call(Seats &seats, Place &place) noexcept : place_(place) {
        for (;;) {
            place_.is_in_call = true;
            if (!seats.is_stopped) return;
            place_.is_in_call = false;
            const std::lock_guard<std::mutex> wait(seats.lock);
        }
    }
    ~Call() { place_.is_in_call.store(false, std::memory_order_release); }
    Call(const Call &) = delete;
    Call &operator=(const Call &) = delete;
    blink_seat *seat() const noexcept { return &place_.seat; }

private:
    Place &place_;
};

} // namespace detail

// A value, or the code of blink.h that says why there is none.
template <class T> class Result {
public:
    Result(T value) : value_(std::move(value)) {}
    static Result refused(int32_t code) { return Result(code, nullptr); }

    explicit operator bool() const noexcept { return value_.has_value(); }
    int32_t code() const noexcept { return code_; }
    const char *what() const noexcept { return blink_text(code_); }

    // The value; Error or NoRoom where there is none.
    const T &value() const & {
        if (!value_) detail::refuse(code_);
        return *value_;
    }
    T value() && {
        if (!value_) detail::refuse(code_);
        return std::move(*value_);
    }
    // The value, where there is one.
    const T &operator*() const & { return *value_; }
    T operator*() && { return std::move(*value_); }
    const T *operator->() const { return &*value_; }

private:
    Result(int32_t code, std::nullptr_t) : code_(code) {}
    std::optional<T> value_;
    int32_t code_ = BLINK_OK;
};

using Key = uint64_t;
using Value = uint64_t;
using Row = std::pair<Key, Value>;

// What insert answers: the value that the key has now, and whether this call has put it
// there.
struct Inserted {
    Value value;
    bool is_new;
};

// What compare_exchange answers.
enum class Exchanged {
    done,    // the key had the expected value, and has the new one
    differs, // the key has another value, which is in `expected` now
    absent   // the key is not there
};

// The rows of a range of keys, rising or falling, for a `for`. It goes along once. Each
// leaf is read at one moment; the whole is no snapshot. Rows may be changed meanwhile,
// also by the same handle, which has to be there as long as the range is used.
class Range {
public:
    class iterator {
    public:
        using iterator_category = std::input_iterator_tag;
        using value_type = Row;
        using difference_type = std::ptrdiff_t;
        using pointer = const Row *;
        using reference = const Row &;

        iterator() = default;
        reference operator*() const { return row_; }
        pointer operator->() const { return &row_; }
        iterator &operator++() {
            step();
            return *this;
        }
        // The row before the step, by value.
        class Kept {
        public:
            const Row &operator*() const { return row_; }

        private:
            friend class iterator;
            explicit Kept(const Row &row) : row_(row) {}
            Row row_;
        };
        Kept operator++(int) {
            Kept kept(row_);
            step();
            return kept;
        }
        bool operator==(const iterator &other) const { return range_ == other.range_; }
        bool operator!=(const iterator &other) const { return range_ != other.range_; }

    private:
        friend class Range;
        explicit iterator(Range *range) : range_(range) { step(); }
        void step() {
            if (!range_->next(row_)) range_ = nullptr;
        }
        Range *range_ = nullptr;
        Row row_{};
    };

    iterator begin() { return iterator(this); }
    iterator end() { return iterator(); }

    // Writes the next row; false where there is none.
    bool next(Row &row) {
        while (at_ == count_) {
            if (!more_) return false;
            read();
        }
        const blink_row &found = rows_[at_++];
        row = Row(found.key, found.value);
        return true;
    }

private:
    friend class Handle;
    Range(detail::Seats *seats, detail::Place *place, Key low, Key high, bool is_falling)
        : seats_(seats), place_(place), next_(is_falling ? high : low),
          last_(is_falling ? low : high), more_(low <= high), is_falling_(is_falling) {}

    // Reads further rows. Few at first, since many ranges are left early.
    void read() {
        const auto scan = is_falling_ ? blink_scan_down_to : blink_scan_to;
        const int32_t code = [this, scan] {
            const detail::Call call(*seats_, *place_);
            return scan(call.seat(), next_, last_, rows_.data(), room_, &count_, &next_,
                        &more_);
        }();
        at_ = 0;
        if (code != BLINK_OK) {
            count_ = 0;
            more_ = false;
            detail::refuse(code);
        }
        room_ = rows_.size();
    }

    detail::Seats *seats_;
    detail::Place *place_;
    Key next_, last_;
    bool more_, is_falling_;
    size_t at_ = 0, count_ = 0, room_ = 32;
    std::array<blink_row, 128> rows_{};
};

// One thread's place at a map. It goes back to the map at its end.
class Handle {
public:
    Handle(Handle &&other) noexcept
        : seats_(std::move(other.seats_)), place_(std::exchange(other.place_, nullptr)) {}
    // The place that it had goes back.
    Handle &operator=(Handle &&other) noexcept {
        Handle taken(std::move(other));
        std::swap(seats_, taken.seats_);
        std::swap(place_, taken.place_);
        return *this;
    }
    Handle(const Handle &) = delete;
    Handle &operator=(const Handle &) = delete;
    ~Handle() {
        if (!seats_) return;
        const std::lock_guard<std::mutex> hold(seats_->lock);
        if (!seats_->is_closed) seats_->free.push_back(place_);
    }

    // The key's value, if it is there.
    Result<std::optional<Value>> find(Key key, std::nothrow_t) noexcept {
        Value value = 0;
        const int32_t code = blink_find(call().seat(), key, &value);
        return some(code, BLINK_OK, BLINK_ABSENT, value);
    }
    std::optional<Value> find(Key key) { return find(key, std::nothrow).value(); }
    bool contains(Key key) { return find(key).has_value(); }

    // Puts the value at the key where it has none.
    Result<Inserted> insert(Key key, Value value, std::nothrow_t) noexcept {
        Value there = 0;
        const int32_t code = enter(BLINK_OK, [&](blink_seat *seat) {
            return blink_insert(seat, key, value, &there);
        });
        if (code == BLINK_OK) return Inserted{value, true};
        if (code == BLINK_PRESENT) return Inserted{there, false};
        return Result<Inserted>::refused(code);
    }
    Inserted insert(Key key, Value value) {
        return insert(key, value, std::nothrow).value();
    }

    // Puts the value at the key, whatever is there: the value that was there.
    Result<std::optional<Value>> put(Key key, Value value, std::nothrow_t) noexcept {
        Value old = 0;
        const int32_t code = enter(
            BLINK_OK, [&](blink_seat *seat) { return blink_put(seat, key, value, &old); });
        return some(code, BLINK_PRESENT, BLINK_OK, old);
    }
    std::optional<Value> put(Key key, Value value) {
        return put(key, value, std::nothrow).value();
    }

    // Takes the key away: the value that it had.
    Result<std::optional<Value>> erase(Key key, std::nothrow_t) noexcept {
        Value gone = 0;
        const int32_t code = enter(
            NOTHING, [&](blink_seat *seat) { return blink_delete(seat, key, &gone); });
        if (code == BLINK_OK && ++place_->taken % 64 == 0) shrink();
        return some(code, BLINK_OK, BLINK_ABSENT, gone);
    }
    std::optional<Value> erase(Key key) { return erase(key, std::nothrow).value(); }

    // Puts the desired value at a key that has the expected one, as std::atomic does.
    Result<Exchanged> compare_exchange(Key key, Value &expected, Value desired,
                                       std::nothrow_t) noexcept {
        Value there = 0;
        const int32_t code = enter(NOTHING, [&](blink_seat *seat) {
            return blink_change(seat, key, expected, desired, &there);
        });
        if (code == BLINK_OK) return Exchanged::done;
        if (code == BLINK_ABSENT) return Exchanged::absent;
        if (code != BLINK_PRESENT) return Result<Exchanged>::refused(code);
        expected = there;
        return Exchanged::differs;
    }
    Exchanged compare_exchange(Key key, Value &expected, Value desired) {
        return compare_exchange(key, expected, desired, std::nothrow).value();
    }

    // Puts at a key that is there what the function makes of its value: the value before,
    // if the key is there. The function is called again where others write in between.
    // What it throws ends the call, and nothing has changed.
    template <class Function>
    Result<std::optional<Value>> update(Key key, Function &&make, std::nothrow_t) {
        auto found = find(key, std::nothrow);
        while (found && *found) {
            const Value old = **found;
            Value there = old;
            const auto done = compare_exchange(key, there, make(old), std::nothrow);
            if (!done) return Result<std::optional<Value>>::refused(done.code());
            if (*done == Exchanged::done) break;
            found = *done == Exchanged::absent ? std::nullopt : std::optional<Value>(there);
        }
        return found;
    }
    template <class Function> std::optional<Value> update(Key key, Function &&make) {
        return update(key, make, std::nothrow).value();
    }

    // Adds to the key's value, modulo 2^64: the sum. A key that is absent counts as 0,
    // and is inserted.
    Result<Value> add(Key key, Value delta, std::nothrow_t) noexcept {
        Value now = 0;
        const int32_t code = enter(
            BLINK_OK, [&](blink_seat *seat) { return blink_add(seat, key, delta, &now); });
        if (code == BLINK_OK || code == BLINK_PRESENT) return now;
        return Result<Value>::refused(code);
    }
    Value add(Key key, Value delta = 1) { return add(key, delta, std::nothrow).value(); }

    // Looks so many keys up, one after another: whether each is there, and its value
    // then, else 0. How many are there.
    Result<size_t> get_many(const Key *keys, size_t count, Value *values, bool *found,
                            std::nothrow_t) noexcept {
        const int32_t code =
            blink_find_many(call().seat(), keys, count, values, found);
        if (code != BLINK_OK) return Result<size_t>::refused(code);
        return static_cast<size_t>(std::count(found, found + count, true));
    }
    std::vector<std::optional<Value>> get_many(const std::vector<Key> &keys) {
        std::vector<Value> values(keys.size());
        const std::unique_ptr<bool[]> found(new bool[keys.size()]);
        std::vector<std::optional<Value>> answers(keys.size());
        get_many(keys.data(), keys.size(), values.data(), found.get(), std::nothrow)
            .value();
        for (size_t at = 0; at < keys.size(); at++)
            if (found[at]) answers[at] = values[at];
        return answers;
    }

    // All rows, those from a key on, or those from a key on and below another one.
    Range range(Key from = 0) { return to_the_end(from, false); }
    Range range(Key from, Key below) { return bounded(from, below, false); }
    // The same rows by falling keys.
    Range range_down(Key from = 0) { return to_the_end(from, true); }
    Range range_down(Key from, Key below) { return bounded(from, below, true); }

    // All rows of such a range as the map had them at one moment. Where others change them
    // each time that they are read, `rounds` times more, the code is BLINK_UNSTEADY.
    Result<std::vector<Row>> snapshot(Key from, Key below, std::nothrow_t,
                                      uint32_t rounds = 64) {
        if (below == 0) return std::vector<Row>();
        return at_once(from, below - 1, rounds);
    }
    std::vector<Row> snapshot(Key from, Key below) {
        return snapshot(from, below, std::nothrow).value();
    }
    std::vector<Row> snapshot(Key from = 0) {
        return at_once(from, UINT64_MAX, 64).value();
    }

    // The first and the last row, and those of the next greater and the next smaller key.
    std::optional<Row> first() {
        blink_row row{};
        return row_of(blink_first(call().seat(), &row), row);
    }
    std::optional<Row> last() {
        blink_row row{};
        return row_of(blink_last(call().seat(), &row), row);
    }
    std::optional<Row> next(Key key) {
        blink_row row{};
        return row_of(blink_next(call().seat(), key, &row), row);
    }
    std::optional<Row> previous(Key key) {
        blink_row row{};
        return row_of(blink_previous(call().seat(), key, &row), row);
    }

    // How many rows there are, from a key on, or from a key on and below another one. It
    // goes along them.
    uint64_t count(Key from = 0) { return counted(from, UINT64_MAX); }
    uint64_t count(Key from, Key below) {
        return from < below ? counted(from, below - 1) : 0;
    }

    // Does so many pieces of upkeep at most: whether nothing is left to do. No program
    // need call it.
    bool upkeep(uint32_t most) {
        const int32_t code = blink_upkeep(call().seat(), most);
        if (code != BLINK_OK && code != BLINK_AGAIN) detail::refuse(code);
        return code == BLINK_OK;
    }

    // How many pages and frames the map has, in use and free, by a look at each, and what
    // upkeep this handle has left to do: exact where no other handle is in a call.
    blink_stats stats() {
        blink_stats stats{};
        const int32_t code = blink_stat(call().seat(), true, &stats);
        if (code != BLINK_OK) detail::refuse(code);
        return stats;
    }

private:
    friend class Map;
    Handle(std::shared_ptr<detail::Seats> seats, detail::Place *place) noexcept
        : seats_(std::move(seats)), place_(place) {}

    // No code: of a call that enters no row.
    static constexpr int32_t NOTHING = -1;

    // A call, until the end of the expression in which it is made.
    detail::Call call() const noexcept { return detail::Call(*seats_, *place_); }

    // A write, of which that code says that it has entered a row. Behind each 64th row the
    // map grows where it is short of pages; where the write found no room, it is made
    // again once the map has grown.
    template <class Function> int32_t enter(int32_t is_new, Function &&write) noexcept {
        for (;;) {
            const uint32_t pages = seats_->pages;
            const int32_t code = write(call().seat());
            if (code == is_new && ++place_->entered % 64 == 0 && is_short(pages))
                seats_->grow(pages);
            if (code != BLINK_NO_ROOM || !seats_->grow(pages)) return code;
        }
    }
    bool is_short(uint32_t pages) const noexcept {
        bool is_short = false;
        return seats_->grows && pages < detail::MOST_PAGES &&
               blink_is_short(call().seat(), &is_short) == BLINK_OK && is_short;
    }
    // The map shrinks, if less than an eighth of its pages is used.
    void shrink() noexcept {
        const uint32_t pages = seats_->pages;
        bool is_sparse = false;
        if (seats_->grows && pages >= 2 * detail::FIRST_PAGES &&
            blink_is_sparse(call().seat(), &is_sparse) == BLINK_OK && is_sparse)
            seats_->shrink(pages);
    }

    Range to_the_end(Key from, bool is_falling) {
        return Range(seats_.get(), place_, from, UINT64_MAX, is_falling);
    }
    // No key is below 0.
    Range bounded(Key from, Key below, bool is_falling) {
        if (below == 0) return Range(seats_.get(), place_, 1, 0, is_falling);
        return Range(seats_.get(), place_, from, below - 1, is_falling);
    }
    // With more room where there was too little.
    Result<std::vector<Row>> at_once(Key from, Key last, uint32_t rounds) {
        std::vector<blink_row> rows(256);
        uint64_t count = 0;
        for (;;) {
            const int32_t code = blink_range(call().seat(), from, last, rounds,
                                             rows.data(), rows.size(), &count);
            if (code == BLINK_OK) break;
            if (code != BLINK_FEW_ROWS)
                return Result<std::vector<Row>>::refused(code);
            rows.resize(static_cast<size_t>(count + count / 8));
        }
        std::vector<Row> found;
        found.reserve(static_cast<size_t>(count));
        for (size_t at = 0; at < count; at++)
            found.emplace_back(rows[at].key, rows[at].value);
        return found;
    }
    uint64_t counted(Key from, Key last) {
        uint64_t rows = 0;
        const int32_t code = blink_count(call().seat(), from, last, &rows);
        if (code != BLINK_OK) detail::refuse(code);
        return rows;
    }
    // A row where the code says that there is one.
    static std::optional<Row> row_of(int32_t code, const blink_row &row) {
        if (code == BLINK_OK) return Row(row.key, row.value);
        if (code != BLINK_ABSENT) detail::refuse(code);
        return std::nullopt;
    }
    // A value where the code says that there is one, nothing where it says that there is
    // none.
    static Result<std::optional<Value>> some(int32_t code, int32_t is_there,
                                             int32_t is_absent, Value value) noexcept {
        if (code == is_there) return std::optional<Value>(value);
        if (code == is_absent) return std::optional<Value>();
        return Result<std::optional<Value>>::refused(code);
    }

    std::shared_ptr<detail::Seats> seats_;
    detail::Place *place_;
};

// A map. Copies of it share the rows.
class Map {
public:
    // A map without rows, with 1 to 64 handles. It begins with 1,024 pages and grows.
    explicit Map(size_t handles) : Map(detail::FIRST_PAGES, handles) {
        seats_->grows = true;
    }
    // One of 4 to 2^28 pages (plan one for each six rows), which only resize() changes.
    Map(uint32_t pages, size_t handles) : seats_(made(handles)) {
        opened(seats_->with_seats([pages](blink_seat *seats, size_t count) {
            return pages == 0 ? BLINK_BAD_PAGES : blink_open(pages, seats, count);
        }));
        seats_->pages = pages;
        seats_->grows = false;
    }
    // A map that begins with the rows of an image, as close_image() and `blink dump` make
    // it, and with its pages. It grows.
    static Map from_image(const std::vector<uint8_t> &image, size_t handles) {
        Map map(made(handles));
        auto &seats = *map.seats_;
        opened(seats.with_seats([&image](blink_seat *all, size_t count) {
            return blink_open_image(image.data(), image.size(), all, count);
        }));
        blink_stats stats{};
        opened(blink_stat(&seats.places[0].seat, false, &stats));
        seats.pages = static_cast<uint32_t>(stats.pages);
        return map;
    }

    // A handle, if one is free.
    std::optional<Handle> try_handle() {
        const std::lock_guard<std::mutex> hold(seats_->lock);
        if (seats_->free.empty()) return std::nullopt;
        detail::Place *place = seats_->free.back();
        seats_->free.pop_back();
        return Handle(seats_, place);
    }
    // The same; std::runtime_error where all handles are out, or the map is closed.
    Handle handle() {
        if (auto handle = try_handle()) return std::move(*handle);
#if defined(__cpp_exceptions)
        throw std::runtime_error("all handles of the map are out, or it is closed");
#else
        std::abort();
#endif
    }
    uint32_t pages() const noexcept { return seats_->pages; }

    // Gives the map so many pages, as many as it has or more, while the calls of all
    // handles wait. Without memory it throws, and the map is as it was; or it throws Lost.
    void resize(uint32_t pages) {
        const std::lock_guard<std::mutex> hold(seats_->lock);
        auto &seats = *seats_;
        const int32_t code = seats.resize(pages);
        if (code == BLINK_SEATS_LOST) lose(seats.rescued);
        if (code != BLINK_OK) detail::refuse(code);
    }
    // The image of a map that was lost as it grew: there was no memory to open it again,
    // and each call of it throws. Of any other map nothing.
    std::vector<uint8_t> rescued() const {
        const std::lock_guard<std::mutex> hold(seats_->lock);
        return seats_->rescued;
    }

    // Closes the map, if all handles are back: its image. Else, or without memory, it
    // throws, and the map is open as it was.
    std::vector<uint8_t> close_image() {
        const std::lock_guard<std::mutex> hold(seats_->lock);
        auto &seats = *seats_;
        if (seats.is_closed) detail::refuse(BLINK_CLOSED);
        if (seats.free.size() != seats.places.size()) detail::refuse(BLINK_SEATS_OPEN);
        std::vector<uint8_t> bytes(blink_image_length(seats.pages));
        uint64_t length = 0;
        const int32_t code = seats.with_seats([&](blink_seat *all, size_t count) {
            return blink_close_image(all, count, bytes.data(), bytes.size(), &length);
        });
        if (code != BLINK_OK) detail::refuse(code);
        seats.free.clear();
        seats.is_closed = true;
        bytes.resize(static_cast<size_t>(length));
        return bytes;
    }

private:
    explicit Map(std::shared_ptr<detail::Seats> seats) : seats_(std::move(seats)) {}
    static std::shared_ptr<detail::Seats> made(size_t handles) {
        if (handles < 1 || handles > 64) detail::refuse(BLINK_BAD_SEATS);
        return std::make_shared<detail::Seats>(handles);
    }
    static void opened(int32_t code) {
        if (code != BLINK_OK) detail::refuse(code);
    }
    [[noreturn]] static void lose(std::vector<uint8_t> image) {
#if defined(__cpp_exceptions)
        throw Lost(std::move(image));
#else
        (void)image;
        std::abort();
#endif
    }

    std::shared_ptr<detail::Seats> seats_;
};

} // namespace blink
