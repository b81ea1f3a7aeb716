// One program of two files, compiled for C++17 and for C++20: what a function of the one takes, the other can give.
//     standards
#include <cstdio>

#include "orderset.hpp"

std::size_t bytes_in(order_set::bytes view);
std::size_t items_in(order_set::span<const order_set::item> items);

#if __cplusplus < 202002L

std::size_t bytes_in(order_set::bytes view) {
    return view.size();
}

std::size_t items_in(order_set::span<const order_set::item> items) {
    return items.size();
}

#else
#include <iterator>
#include <span>

static_assert(std::input_iterator<order_set::steps<const order_set::set, order_set::record>::iterator>);

int main() {
    const std::uint8_t text[] = {1, 2, 3};
    const order_set::item item[] = {order_set::item::remove(7), order_set::item::remove(8)};
    const bool so = bytes_in(text) == 3 && bytes_in(std::span<const std::uint8_t>(text, 2)) == 2 && items_in(item) == 2
                    && std::span<const std::uint8_t>(order_set::bytes(text)).size() == 3;
    std::printf(so ? "standards: one type in C++17 and C++20\n" : "NOT SO: a view has its length in both\n");
    return so ? 0 : 1;
}
#endif
