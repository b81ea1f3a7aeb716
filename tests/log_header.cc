// The log of orderset_raw.h in C++, with all archives in one program: an area of zeros is made durable and recovered,
// messages are appended, made durable and read, more than the area keeps; an empty message, one that is too long and a
// list that is too short are refused and store nothing; after an append that was cut, recovery opens its line. Then
// messages are appended by either call.
#include <cstdio>
#include <cstring>
#include <vector>

#include "orderset_persist.h"
#include "orderset_raw.h"

namespace {

const size_t cells = 4;
alignas(64) uint8_t area[ORDERSET_LOG_BYTES(cells)];
const orderset_raw_log log = {area, sizeof area};
orderset_raw_stores stores;
const enum orderset_flush best = orderset_best_flush();

uint32_t append(const char *text, size_t length) {
    return orderset_raw_log_append(&log, text, length, &stores);
}

bool recovers(uint64_t number, uint64_t count) {
    return orderset_raw_log_recover(&log, &stores) == ORDERSET_OK && stores.refusal == ORDERSET_OK
           && stores.number == number && stores.count == count;
}

bool made_durable() {
    return orderset_persist_list(area, sizeof area, stores.at, stores.value, stores.count, best) == 0;
}

bool appends(const char *text, uint64_t number) {
    return append(text, std::strlen(text)) == ORDERSET_OK && stores.number == number
           && stores.count <= ORDERSET_LOG_STORES && made_durable();
}

// The same by the call that is lent the last number: what it hands out is made durable.
bool appends_after(uint64_t last, const char *text) {
    return orderset_raw_log_append_after(&log, last, text, std::strlen(text), &stores) == ORDERSET_OK
           && stores.refusal == ORDERSET_OK && stores.number == last + 1 && stores.count <= ORDERSET_LOG_STORES
           && made_durable();
}

bool reads(uint64_t number, const char *text) {
    const uint8_t *message;
    size_t length;
    return orderset_raw_log_read(&log, number, &message, &length) == ORDERSET_OK && length == std::strlen(text)
           && message >= area && !std::memcmp(message, text, length);
}

bool not_shown(uint64_t number) {
    const uint8_t *message = nullptr;
    size_t length = 1;
    return orderset_raw_log_read(&log, number, &message, &length) == ORDERSET_NO_MESSAGE && !message && length == 1;
}

bool starts() {
    return orderset_aligned(area) && orderset_persist_image(area, sizeof area, best) == 0 && recovers(0, 0)
           && made_durable() && not_shown(1);
}

bool refused_stores_nothing() {
    const std::vector<uint8_t> before(area, area + sizeof area);
    const std::vector<char> text(ORDERSET_LOG_MESSAGE_MAX + 1, 'x');
    const orderset_raw_log shorter = {area, sizeof area - 1};
    uint64_t answer[ORDERSET_PROVED_LOG_ANSWER];
    return append(text.data(), 0) == ORDERSET_BAD_MESSAGE && stores.refusal == ORDERSET_BAD_MESSAGE
           && append(text.data(), text.size()) == ORDERSET_BAD_MESSAGE
           && orderset_raw_log_append(&shorter, "x", 1, &stores) == ORDERSET_BAD_LOG_LENGTH
           && orderset_proved_log_append(area, sizeof area, before.data(), 1, stores.at, 7, stores.value,
                                         ORDERSET_LOG_STORES, answer)
                  == ORDERSET_BUFFER_TOO_SHORT
           && !std::memcmp(area, before.data(), sizeof area);
}

// Five messages in four cells: the last three are shown.
bool keeps_the_last() {
    return appends("new 7 100", 1) && reads(1, "new 7 100") && appends("acknowledge 7", 2) && appends("fill 7 40", 3)
           && reads(1, "new 7 100") && appends("fill 7 60", 4) && not_shown(1) && appends("new 8 5", 5) && not_shown(2)
           && reads(3, "fill 7 40") && reads(4, "fill 7 60") && reads(5, "new 8 5") && not_shown(6) && not_shown(0);
}

// The marked line of message 6 is there, its payload is not: it is opened, and the number is given again.
bool survives_a_cut() {
    return append("withdraw 8", 10) == ORDERSET_OK
           && orderset_raw_play_list(area, sizeof area, stores.at, stores.value, ORDERSET_LINE_STORES) == ORDERSET_OK
           && not_shown(6) && recovers(5, 1) && made_durable() && recovers(5, 0) && reads(5, "new 8 5")
           && reads(3, "fill 7 40") && appends("show 8", 6) && reads(6, "show 8");
}

// Refused by append_after too; there is no number above the last one.
bool after_is_refused() {
    const std::vector<uint8_t> before(area, area + sizeof area);
    const orderset_raw_log shorter = {area, sizeof area - 1};
    return orderset_raw_log_append_after(&log, UINT64_MAX, "x", 1, &stores) == ORDERSET_EXHAUSTED
           && stores.refusal == ORDERSET_EXHAUSTED
           && orderset_raw_log_append_after(&log, 0, "x", 0, &stores) == ORDERSET_BAD_MESSAGE
           && orderset_raw_log_append_after(&shorter, 0, "x", 1, &stores) == ORDERSET_BAD_LOG_LENGTH
           && !std::memcmp(area, before.data(), sizeof area);
}

// Messages 7 to 10 by either call.
bool appends_by_either() {
    return appends_after(6, "new 9 2") && reads(7, "new 9 2") && appends("acknowledge 9", 8)
           && appends_after(8, "fill 9 1") && appends_after(9, "fill 9 1") && not_shown(7) && reads(8, "acknowledge 9")
           && reads(9, "fill 9 1") && reads(10, "fill 9 1") && not_shown(11) && recovers(10, 0);
}

// What is not as it should be, or null.
const char *fault() {
    return !starts()                   ? "an empty log"
           : !refused_stores_nothing() ? "refusals of an empty log"
           : !after_is_refused()       ? "refusals of append_after by an empty log"
           : !keeps_the_last()         ? "the last messages"
           : !refused_stores_nothing() ? "refusals"
           : !survives_a_cut()         ? "a cut"
           : !recovers(6, 0)           ? "the end"
           : !after_is_refused()       ? "refusals of append_after"
           : !appends_by_either()      ? "append_after"
                                       : nullptr;
}

}

int main() {
    const char *found = fault();
    std::printf("log_header: a log through the headers in C++: %s%s\n", found ? "NOT SO: " : "as it should be",
                found ? found : "");
    return found ? 1 : 0;
}
