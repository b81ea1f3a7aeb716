/* Any bytes as a file of the log, opened in each mode: every number of the range gives a message or none, and a log
 * that a writer takes takes a message, which is then the last one. */
#include <string.h>

#include "fuzz.h"
#include "orderset.h"

static void look(struct orderset_log *log) {
    uint8_t message[ORDERSET_LOG_MESSAGE_MAX];
    uint64_t first, last;
    size_t length;
    fuzz_expect(orderset_log_range(log, &first, &last) == ORDERSET_OK, "a log has a range");
    for (uint64_t number = first; number <= last; number++) {
        const uint32_t refusal = orderset_log_read(log, number, message, sizeof message, &length);
        fuzz_expect(refusal == ORDERSET_NO_MESSAGE
                        || (refusal == ORDERSET_OK && length > 0 && length <= sizeof message),
                    "a number gives a message or none");
    }
    fuzz_expect(orderset_log_read(log, last + 1, message, sizeof message, &length) == ORDERSET_NO_MESSAGE,
                "nothing comes after the last one");
}

static void append(struct orderset_log *log) {
    static const char text[] = "a message";
    uint8_t message[ORDERSET_LOG_MESSAGE_MAX];
    uint64_t first, last, number;
    size_t length;
    const uint32_t refusal = orderset_log_append(log, text, sizeof text, &number);
    fuzz_expect(refusal == ORDERSET_OK || refusal == ORDERSET_EXHAUSTED, "a message is taken");
    if (refusal)
        return;
    fuzz_expect(orderset_log_range(log, &first, &last) == ORDERSET_OK && last == number, "it is the last one");
    fuzz_expect(orderset_log_read(log, number, message, sizeof message, &length) == ORDERSET_OK && length == sizeof text
                    && !memcmp(message, text, length),
                "it can be read");
}

int LLVMFuzzerTestOneInput(const uint8_t *data, size_t size) {
    const char *path = fuzz_file(data, size);
    struct orderset_log *log;
    for (uint32_t mode = ORDERSET_READ; mode <= ORDERSET_INSPECT; mode++) {
        const uint32_t refusal = orderset_log_open(path, mode, &log);
        fuzz_expect((refusal == ORDERSET_OK) == (log != NULL), "an open gives a handle or a refusal");
        if (!log)
            continue;
        look(log);
        if (mode == ORDERSET_WRITE)
            append(log);
        orderset_log_close(log);
    }
    return 0;
}
