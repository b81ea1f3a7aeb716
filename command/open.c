/* A file, read once. */
#include <errno.h>
#include <inttypes.h>
#include <stdlib.h>
#include <string.h>

#include "tool.h"

/* A longer file than any set or log is not read: its length is all that is judged. */
static const struct form any_form = {1, 1, ORDERSET_IMAGE_BYTES(ORDERSET_SLOTS_MAX), ORDERSET_BAD_IMAGE_LENGTH, NULL};

int tool_read(struct tool *d, const char *path, int live) {
    *d = (struct tool){.path = path, .area = {.mode = live ? ORDERSET_LIVE : ORDERSET_READ, .file = -1}};
    tool_step(live ? "looking at the file" : "reading the file", 0);
    const uint32_t number = orderset_area_open(&d->area, path, &any_form);
    tool_rest();
    if (live && number == ORDERSET_OK)
        tool_say("%s: a live look: the call in flight may be shown before it is durable", path);
    if (number == ORDERSET_OK || number == any_form.refusal)
        return TOOL_GOOD;
    tool_say_number(path, number);
    orderset_area_close(&d->area);
    return TOOL_FAILED;
}

void tool_set(struct tool *d) {
    tool_step("recovering the file", 0);
    const uint32_t number = orderset_open_bytes(d->area.bytes, d->area.length, ORDERSET_INSPECT, &d->set);
    if (number == ORDERSET_ERRNO)
        tool_fail("%s: its copy in memory: %s", d->path, strerror(errno));
    if (number)
        tool_fail("%s: no %" PRIu32 ": %s", d->path, number, orderset_strerror(number));
    tool_step("counting the slots", 0);
    orderset_stat(d->set, &d->is);
    tool_rest();
    d->unknown = d->is.slots;
    for (int i = 0; i < ORDERSET_SLOT_UNKNOWN; i++)
        d->unknown -= d->is.count[i];
}

void tool_open(struct tool *d, const char *path, int live) {
    if (tool_read(d, path, live))
        exit(TOOL_FAILED);
    tool_set(d);
}

void tool_open_good(struct tool *d, const char *path, int live) {
    tool_open(d, path, live);
    if (!d->is.refusal)
        return;
    tool_say_refused(d);
    exit(TOOL_FAILED);
}

void tool_close(struct tool *d) {
    orderset_close(d->set);
    orderset_area_close(&d->area);
}

struct orderset_log *tool_log(const struct tool *d) {
    struct orderset_log *log;
    return d->area.bytes && orderset_log_open_bytes(d->area.bytes, d->area.length, &log) == ORDERSET_OK ? log : NULL;
}

/* One line, and a second one where it is a log. */
void tool_say_refused(const struct tool *d) {
    struct orderset_log_statistics is;
    char slot[30] = "";
    if (d->is.fault_slot)
        snprintf(slot, sizeof slot, " of slot %" PRIu32, d->is.fault_slot);
    tool_say("%s: refused, no %" PRIu32 "%s: %s; orderset check tells what to do", d->path, d->is.refusal, slot,
             orderset_strerror(d->is.refusal));
    struct orderset_log *log = d->is.refusal <= ORDERSET_BAD_HEADER ? tool_log(d) : NULL;
    if (!log)
        return;
    orderset_log_stat(log, &is);
    tool_say("%s: it can be read as a message log of %" PRIu32 " cells; orderset log shows it", d->path, is.cells);
    orderset_log_close(log);
}

void tool_slot(struct tool *d, uint32_t slot, struct orderset_record *record) {
    const uint32_t number = orderset_slot(d->set, slot, record);
    if (number)
        tool_fail("%s: slot %" PRIu32 ": no %" PRIu32 ": %s", d->path, slot, number, orderset_strerror(number));
    tool_done = slot;
}
