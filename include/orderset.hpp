// orderset.hpp: the order set and the message log in files for C++17, without exceptions or run-time types. What the
// calls do, their numbers, locks and threads are those of orderset.h: orderset_insert(set, ...) is
// order_set::set::insert(...), orderset_log_read(log, ...) is order_set::log::read(...), and so on.
//
//     auto made = order_set::set::create("orders.img", 1000, 1);           // once
//     auto orders = order_set::set::open("orders.img", order_set::mode::write);
//     if (!orders) { std::fprintf(stderr, "%s\n", orders.text()); return 1; }
//     if (auto done = orders->book_new(7, 100); !done) ...done.number(), done.text()
//     auto all = orders->orders();
//     for (const order_set::record &order : all) ...order.key.low, order.value
//     if (!all.result()) ...the iteration was refused: all.result().text()
//
// const does not mean that two threads may call it at once: one thread at a time for each file, as for each handle.
// A file is closed by its destructor. One that was moved from or not opened holds no file; no call may follow but open
// (by assignment), is_open and the destructor.
#ifndef ORDERSET_HPP
#define ORDERSET_HPP

#if __cplusplus < 201703L
#error "orderset.hpp needs C++17 or later; orderset.h is for C++11 too"
#else

#include <cassert>
#include <cerrno>
#include <cstddef>
#include <cstdint>
#include <cstring>
#include <initializer_list>
#include <iterator>
#include <memory>
#include <optional>
#include <string_view>
#include <type_traits>
#include <utility>

#include "orderset.h"

namespace order_set {

// ---- what calls take and give

// Elements that somebody else owns. It is one type in every standard, so that files of one program may be compiled for
// C++17 and for C++20; a std::span is taken as any container is.
template <class T>
class span {
  public:
    constexpr span() = default;
    constexpr span(T *data, std::size_t size) : data_(data), size_(size) {}
    template <std::size_t N>
    constexpr span(T (&array)[N]) : data_(array), size_(N) {}
    // an array, a vector or another container of T
    template <class C, class P = decltype(std::data(std::declval<const C &>())),
              class = std::enable_if_t<std::is_convertible_v<std::remove_pointer_t<P> (*)[], T (*)[]>>>
    constexpr span(const C &elements) : data_(std::data(elements)), size_(std::size(elements)) {}

    constexpr T *data() const { return data_; }
    constexpr std::size_t size() const { return size_; }
    constexpr bool empty() const { return size_ == 0; }
    constexpr T *begin() const { return data_; }
    constexpr T *end() const { return data_ + size_; }
    constexpr T &operator[](std::size_t i) const { return data_[i]; }

  private:
    T *data_ = nullptr;
    std::size_t size_ = 0;
};
using bytes = span<const std::uint8_t>;

inline bytes bytes_of(std::string_view text) {
    return {reinterpret_cast<const std::uint8_t *>(text.data()), text.size()};
}

// The number of a call: 0 where it is done, and durable.
class [[nodiscard]] result {
  public:
    result(std::uint32_t number = ORDERSET_OK)
        : number_(number), error_(number == ORDERSET_ERRNO || number == ORDERSET_NOT_DURABLE ? errno : 0) {}

    explicit operator bool() const { return number_ == ORDERSET_OK; }
    std::uint32_t number() const { return number_; }
    const char *text() const { return orderset_strerror(number_); }
    // A refusal or an error: not done, and none of the answers NOT_FOUND, ALREADY_ACKNOWLEDGED and END.
    bool is_error() const {
        return number_ != ORDERSET_OK && (number_ < ORDERSET_NOT_FOUND || number_ >= ORDERSET_ERRNO);
    }
    // errno of ERRNO and of NOT_DURABLE, else 0
    int system_error() const { return error_; }

    friend bool operator==(const result &a, std::uint32_t number) { return a.number_ == number; }
    friend bool operator!=(const result &a, std::uint32_t number) { return a.number_ != number; }

  private:
    std::uint32_t number_;
    int error_;
};

// A number, and where it is 0 what was asked for; else T().
template <class T>
class [[nodiscard]] answer : public result {
  public:
    answer(result told, T given) : result(told), value_(told ? std::move(given) : T()) {}

    bool has_value() const { return bool(*this); }
    T &operator*() { return value_; }
    const T &operator*() const { return value_; }
    T *operator->() { return &value_; }
    const T *operator->() const { return &value_; }

  private:
    T value_;
};

// 64 bits in layout 1, where high is 0, and 128 in layout 2
struct key {
    std::uint64_t low, high;

    constexpr key(std::uint64_t low_word = 0, std::uint64_t high_word = 0) : low(low_word), high(high_word) {}
    constexpr key(const orderset_key &k) : low(k.low), high(k.high) {}
    operator orderset_key() const { return {low, high}; }

    friend constexpr bool operator==(const key &a, const key &b) { return a.low == b.low && a.high == b.high; }
    friend constexpr bool operator!=(const key &a, const key &b) { return !(a == b); }
    friend constexpr bool operator<(const key &a, const key &b) {
        return a.high != b.high ? a.high < b.high : a.low < b.low;
    }
};

// Up to N bytes that were copied out of a file.
template <std::size_t N>
class held {
  public:
    held() = default;
    held(const void *data, std::size_t size) : size_(size < N ? size : N) {
        if (size_)
            std::memcpy(data_, data, size_);
    }

    const std::uint8_t *data() const { return data_; }
    std::size_t size() const { return size_; }
    bool empty() const { return size_ == 0; }
    const std::uint8_t *begin() const { return data_; }
    const std::uint8_t *end() const { return data_ + size_; }
    std::uint8_t operator[](std::size_t i) const { return data_[i]; }
    bytes view() const { return {data_, size_}; }
    std::string_view text() const { return {reinterpret_cast<const char *>(data_), size_}; }

  private:
    std::uint8_t data_[N] = {};
    std::size_t size_ = 0;
};
using value = held<ORDERSET_VALUE_MAX>;
using message = held<ORDERSET_LOG_MESSAGE_MAX>;

// An open order, or what a slot holds: struct orderset_record.
struct record {
    std::uint32_t slot = 0, slot_class = 0, fault = 0, records = 0;
    order_set::key key;
    std::uint64_t version = 0;
    order_set::value value;

    record() = default;
    record(const orderset_record &r)
        : slot(r.slot), slot_class(r.slot_class), fault(r.fault), records(r.records), key(r.key), version(r.version),
          value(r.value, static_cast<std::size_t>(r.length)) {}
};

// A message and its number.
struct numbered {
    std::uint64_t number = 0;
    order_set::message message;
};

// One key of a basket. The value is lent until the basket is done.
struct item {
    std::uint32_t kind;
    order_set::key key;
    bytes value;

    static item insert(order_set::key k, bytes v) { return {ORDERSET_INSERT, k, v}; }
    static item insert(order_set::key k, std::string_view v) { return insert(k, bytes_of(v)); }
    static item replace(order_set::key k, bytes v) { return {ORDERSET_REPLACE, k, v}; }
    static item replace(order_set::key k, std::string_view v) { return replace(k, bytes_of(v)); }
    static item remove(order_set::key k) { return {ORDERSET_REMOVE, k, {}}; }
};

struct place {
    std::uint32_t slot = 0;
    std::uint64_t version = 0;
};

// The numbers of messages that can be read, first to last; of an empty log 1 and 0.
struct numbers {
    std::uint64_t first = 1, last = 0;
};

enum class mode : std::uint32_t {
    read = ORDERSET_READ,
    write = ORDERSET_WRITE,
    inspect = ORDERSET_INSPECT,
    live = ORDERSET_LIVE
};

// The order that a value is, if it is one.
inline std::optional<orderset_order> order_of(bytes v) {
    orderset_order order;
    if (orderset_order_of(v.data(), v.size(), &order))
        return order;
    return std::nullopt;
}

// What steps of next give, for range-for. It ends where next says END, and where next is refused, which result tells
// after the loop.
template <class Source, class T>
class steps {
  public:
    class iterator {
      public:
        using iterator_category = std::input_iterator_tag;
        using value_type = T;
        using difference_type = std::ptrdiff_t;
        using pointer = const T *;
        using reference = const T &;

        // what stood there before a step: the iterator itself has it no longer
        class passed {
          public:
            explicit passed(const T &at) : at_(at) {}
            const T &operator*() const { return at_; }

          private:
            T at_;
        };

        iterator() = default;
        explicit iterator(steps *of) : of_(of) { ++*this; }
        const T &operator*() const { return of_->at_; }
        const T *operator->() const { return &of_->at_; }
        iterator &operator++() {
            if (!of_->step())
                of_ = nullptr;
            return *this;
        }
        passed operator++(int) {
            passed before(of_->at_);
            ++*this;
            return before;
        }
        friend bool operator==(const iterator &a, const iterator &b) { return a.of_ == b.of_; }
        friend bool operator!=(const iterator &a, const iterator &b) { return a.of_ != b.of_; }

      private:
        steps *of_ = nullptr;
    };

    explicit steps(Source &source) : source_(&source) {}
    iterator begin() {
        at_ = T();
        return iterator(this);
    }
    iterator end() const { return {}; }
    order_set::result result() const { return told_ == ORDERSET_END ? order_set::result() : told_; }

  private:
    bool step() {
        told_ = source_->next(at_);
        return bool(told_);
    }

    Source *source_;
    T at_;
    order_set::result told_;
};

// ---- the set

class set {
  public:
    set() = default;

    static result create(const char *path, std::uint32_t slots, std::uint32_t layout) {
        return orderset_create(path, slots, layout);
    }
    static answer<set> open(const char *path, order_set::mode how) {
        orderset *opened = nullptr;
        result told = orderset_open(path, static_cast<std::uint32_t>(how), &opened);
        return {told, set(opened)};
    }
    // a new file with the open orders as they are now
    result snapshot(const char *path) const { return orderset_snapshot(handle(), path); }
    void close() { set_.reset(); }
    bool is_open() const { return set_ != nullptr; }
    // for the calls of orderset.h; still owned here
    orderset *handle() const {
        assert(set_);
        return set_.get();
    }

    result insert(key k, bytes v) { return orderset_insert(handle(), k, v.data(), v.size()); }
    result insert(key k, std::string_view v) { return insert(k, bytes_of(v)); }
    result replace(key k, bytes v) { return orderset_replace(handle(), k, v.data(), v.size()); }
    result replace(key k, std::string_view v) { return replace(k, bytes_of(v)); }
    result remove(key k) { return orderset_remove(handle(), k); }

    result basket(span<const item> items) {
        orderset_item given[ORDERSET_BASKET_MAX] = {};
        for (std::size_t i = 0; i < items.size() && i < ORDERSET_BASKET_MAX; i++)
            given[i] = {items[i].kind, items[i].key, items[i].value.data(), items[i].value.size()};
        return orderset_basket(handle(), given, items.size());
    }
    result basket(std::initializer_list<item> items) { return basket(span<const item>(items.begin(), items.size())); }

    answer<order_set::value> get(key k) const {
        std::uint8_t output[ORDERSET_VALUE_MAX];
        std::size_t length = 0;
        result told = orderset_get(handle(), k, output, sizeof output, &length);
        return {told, order_set::value(output, length)};
    }
    answer<place> locate(key k) const {
        place found;
        result told = orderset_locate(handle(), k, &found.slot, &found.version);
        return {told, found};
    }

    result book_new(key k, std::uint64_t quantity) { return orderset_book_new(handle(), k, quantity); }
    result book_acknowledge(key k) { return orderset_book_acknowledge(handle(), k); }
    result book_fill(key k, std::uint64_t quantity) { return orderset_book_fill(handle(), k, quantity); }
    result book_withdraw(key k) { return orderset_book_withdraw(handle(), k); }

    // The next open order after the record's slot; END after the last one.
    result next(record &r) const {
        orderset_record found = {};
        found.slot = r.slot;
        result told = orderset_next(handle(), &found);
        if (told || told == ORDERSET_END)
            r = found;
        return told;
    }
    // The open orders by rising slot, each step as next. The file outlives it and is not moved meanwhile.
    steps<const set, record> orders() const { return steps<const set, record>(*this); }

    answer<record> slot(std::uint32_t number) const {
        orderset_record found = {};
        result told = orderset_slot(handle(), number, &found);
        return {told, found};
    }
    // the slots that the last insert, replace, remove, get or locate compared
    std::uint32_t compared() const { return orderset_compared(handle()); }
    orderset_statistics statistics() const {
        orderset_statistics told;
        orderset_stat(handle(), &told);
        return told;
    }
    // 1 or 2; 0 where the header says neither
    std::uint32_t layout() const { return orderset_layout(handle()); }
    // the open orders, and for how many more there is room; neither looks at a slot
    std::uint32_t count() const { return orderset_count(handle()); }
    std::uint32_t room() const { return orderset_room(handle()); }
    // errno of the call that gave NOT_DURABLE, else 0
    int system_error() const { return orderset_errno(handle()); }

  private:
    struct closer {
        void operator()(orderset *set) const { orderset_close(set); }
    };
    explicit set(orderset *handle) : set_(handle) {}
    std::unique_ptr<orderset, closer> set_;
};

// ---- the message log

class log {
  public:
    log() = default;

    static result create(const char *path, std::uint32_t cells) { return orderset_log_create(path, cells); }
    static answer<log> open(const char *path, order_set::mode how) {
        orderset_log *opened = nullptr;
        result told = orderset_log_open(path, static_cast<std::uint32_t>(how), &opened);
        return {told, log(opened)};
    }
    void close() { log_.reset(); }
    bool is_open() const { return log_ != nullptr; }
    orderset_log *handle() const {
        assert(log_);
        return log_.get();
    }

    // the number of the message
    answer<std::uint64_t> append(bytes m) {
        std::uint64_t number = 0;
        result told = orderset_log_append(handle(), m.data(), m.size(), &number);
        return {told, number};
    }
    answer<std::uint64_t> append(std::string_view m) { return append(bytes_of(m)); }

    answer<order_set::message> read(std::uint64_t number) const {
        std::uint8_t output[ORDERSET_LOG_MESSAGE_MAX];
        std::size_t length = 0;
        result told = orderset_log_read(handle(), number, output, sizeof output, &length);
        return {told, order_set::message(output, length)};
    }
    answer<numbers> range() const {
        numbers shown;
        result told = orderset_log_range(handle(), &shown.first, &shown.last);
        return {told, shown};
    }

    // The next message after this number that can be read; END after the last one. A damaged file may leave some out.
    result next(numbered &m) const {
        const answer<numbers> shown = range();
        if (!shown)
            return shown;
        for (std::uint64_t number = m.number < shown->first ? shown->first : m.number + 1; number <= shown->last;
             number++) {
            const answer<order_set::message> found = read(number);
            if (found)
                m = {number, *found};
            if (found != ORDERSET_NO_MESSAGE)
                return found;
        }
        m = {};
        return ORDERSET_END;
    }
    // The messages that can be read, by rising number. The log outlives it and is not moved meanwhile.
    steps<const log, numbered> messages() const { return steps<const log, numbered>(*this); }

    orderset_log_statistics statistics() const {
        orderset_log_statistics told;
        orderset_log_stat(handle(), &told);
        return told;
    }
    int system_error() const { return orderset_log_errno(handle()); }

  private:
    struct closer {
        void operator()(orderset_log *log) const { orderset_log_close(log); }
    };
    explicit log(orderset_log *handle) : log_(handle) {}
    std::unique_ptr<orderset_log, closer> log_;
};

} // namespace order_set

#endif
#endif
