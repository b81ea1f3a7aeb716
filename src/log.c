/* The message log in a file behind a handle: orderset.h says what it does. Nothing here is proved. */
#include <errno.h>
#include <stdlib.h>
#include <string.h>

#include "internal.h"

struct orderset_log {
    struct area area;
    struct orderset_raw_log raw; /* the area's bytes */
    uint64_t last;               /* the number that recovery or the last append answered: the next append is lent it */
    struct orderset_raw_stores stores; /* of the last append, or of recovery */
};

uint32_t orderset_log_make(const char *path, uint32_t cells, uint32_t mode) {
    if (cells < ORDERSET_LOG_CELLS_MIN || cells > ORDERSET_LOG_CELLS_MAX)
        return ORDERSET_BAD_LOG_LENGTH;
    struct content c = {NULL, ORDERSET_LOG_BYTES(cells), mode, NULL, NULL};
    uint8_t *zeros = calloc(1, c.length);
    if (!zeros)
        return ORDERSET_ERRNO;
    c.bytes = zeros;
    const uint32_t number = orderset_area_create(path, &c);
    const int error = errno;
    free(zeros);
    errno = error;
    return number;
}

uint32_t orderset_log_create(const char *path, uint32_t cells) {
    return orderset_log_make(path, cells, OWNER);
}

static size_t cells_of(const struct orderset_log *l) {
    return l->area.length / ORDERSET_LOG_CELL_BYTES;
}

/* A log has no header. Its marks are 0 or 1, and word 0 of a set is neither. */
static uint32_t look_at_log(const struct area *a, uint64_t *chunk) {
    return orderset_area_marks(a, chunk, 0, ORDERSET_LOG_CELL_BYTES / sizeof *chunk, ORDERSET_NOT_A_LOG);
}

static uint32_t start_log(struct orderset_log *l) {
    l->raw = (struct orderset_raw_log){l->area.bytes, l->area.length};
    const uint32_t refusal = orderset_raw_log_recover(&l->raw, &l->stores);
    if (refusal)
        return refusal;
    l->last = l->stores.number;
    return orderset_area_persist_recovery(&l->area, l->stores.at, l->stores.value, l->stores.count);
}

static const struct form log_form = {ORDERSET_LOG_CELL_BYTES, ORDERSET_LOG_CELLS_MIN, ORDERSET_LOG_CELLS_MAX,
                                     ORDERSET_BAD_LOG_LENGTH, look_at_log};

/* The log in the file of that path, or where it is null in the bytes. */
static uint32_t open_log(const char *path, const uint8_t *bytes, size_t length, uint32_t mode,
                         struct orderset_log **log) {
    struct orderset_log *l = calloc(1, sizeof *l);
    if (!l)
        return ORDERSET_ERRNO;
    l->area.mode = mode;
    l->area.file = -1;
    uint32_t number =
        path ? orderset_area_open(&l->area, path, &log_form) : orderset_area_copy(&l->area, bytes, length, &log_form);
    if (!number)
        number = start_log(l);
    if (number) {
        orderset_log_close(l);
        return number;
    }
    *log = l;
    return ORDERSET_OK;
}

uint32_t orderset_log_open(const char *path, uint32_t mode, struct orderset_log **log) {
    *log = NULL;
    if (mode > ORDERSET_INSPECT && mode != ORDERSET_LIVE)
        return ORDERSET_BAD_MODE;
    const int cancel = hold_cancel();
    const uint32_t number = path ? open_log(path, NULL, 0, mode, log) : refuse_no_path();
    release_cancel(cancel);
    return number;
}

uint32_t orderset_log_open_bytes(const uint8_t *bytes, size_t length, struct orderset_log **log) {
    *log = NULL;
    return open_log(NULL, bytes, length, ORDERSET_READ, log);
}

void orderset_log_close(struct orderset_log *log) {
    const int error = errno;
    if (!log)
        return;
    const int cancel = hold_cancel();
    orderset_area_close(&log->area);
    free(log);
    errno = error;
    release_cancel(cancel);
}

uint32_t orderset_log_append(struct orderset_log *log, const void *message, size_t length, uint64_t *number) {
    struct orderset_raw_stores *stores = &log->stores;
    uint32_t refusal = may_change(&log->area);
    if (number)
        *number = 0;
    if (!refusal)
        refusal =
            orderset_raw_log_append_after(&log->raw, log->last, length ? message : orderset_nothing, length, stores);
    if (!refusal)
        refusal = orderset_area_persist(&log->area, stores->at, stores->value, stores->count);
    if (refusal)
        return refusal;
    log->last = stores->number;
    if (number)
        *number = log->last;
    return ORDERSET_OK;
}

uint32_t orderset_log_read(struct orderset_log *log, uint64_t number, void *output, size_t room, size_t *length) {
    const uint8_t *message;
    size_t size;
    uint32_t refusal = may_read(&log->area);
    *length = 0;
    if (!refusal)
        refusal = orderset_raw_log_read(&log->raw, number, &message, &size);
    if (refusal)
        return refusal;
    if (size > room)
        return ORDERSET_BUFFER_TOO_SHORT;
    *length = size;
    memcpy(output, message, size);
    return ORDERSET_OK;
}

/* The last cells - 1 numbers, or all. */
static uint64_t first_of(const struct orderset_log *l) {
    return l->last < cells_of(l) ? 1 : l->last - cells_of(l) + 2;
}

uint32_t orderset_log_range(struct orderset_log *log, uint64_t *first, uint64_t *last) {
    *first = first_of(log);
    *last = log->last;
    return may_read(&log->area);
}

void orderset_log_stat(struct orderset_log *log, struct orderset_log_statistics *statistics) {
    const struct area *a = &log->area;
    *statistics = (struct orderset_log_statistics){
        .mode = a->mode,
        .flush = a->flush,
        .cells = (uint32_t)cells_of(log),
        .error = a->error,
        .bytes = a->length,
        .first = first_of(log),
        .last = log->last,
    };
}

int orderset_log_errno(const struct orderset_log *log) {
    return log->area.error;
}
