/* Keys, values and slots in words and in JSON, and keys and values from words. */
#define _GNU_SOURCE
#include <errno.h>
#include <inttypes.h>
#include <stdlib.h>
#include <string.h>

#include "tool.h"

const char *const tool_class[TOOL_CLASSES] = {"live", "hidden", "removed", "void", "broken", "empty", "unknown"};

static const char *state_of(const struct orderset_order *order) {
    return order->state == ORDERSET_SENT ? "sent" : "acknowledged";
}

/* ---- in words */

void tool_print_key(FILE *out, uint32_t layout, struct orderset_key key) {
    if (layout == ORDERSET_LAYOUT_2)
        fprintf(out, "0x%016" PRIx64 "%016" PRIx64, key.high, key.low);
    else
        fprintf(out, "%" PRIu64, key.low);
}

static void print_hex(FILE *out, const uint8_t *bytes, size_t length) {
    for (size_t i = 0; i < length; i++)
        fprintf(out, "%02x", (unsigned)bytes[i]);
}

void tool_print_value(FILE *out, const struct orderset_record *record) {
    struct orderset_order order;
    if (orderset_order_of(record->value, record->length, &order)) {
        fprintf(out, "%s, ordered %" PRIu64 ", filled %" PRIu64, state_of(&order), order.ordered, order.filled);
        return;
    }
    fprintf(out, "%" PRIu64 " byte%s", record->length, record->length == 1 ? "" : "s");
    if (record->length)
        fputc(' ', out);
    print_hex(out, record->value, record->length);
}

void tool_print_slot(FILE *out, uint32_t layout, const struct orderset_record *record) {
    fprintf(out, "slot %" PRIu32 ": %s", record->slot, tool_class[record->slot_class]);
    if (record->slot_class != ORDERSET_SLOT_EMPTY) {
        fputs(record->slot_class == ORDERSET_SLOT_BROKEN ? "; in its words: key " : ", key ", out);
        tool_print_key(out, layout, record->key);
        fprintf(out, ", version %" PRIu64, record->version);
        if (record->records)
            fprintf(out, ", one of %" PRIu32 " of a basket", record->records);
        if (record->slot_class != ORDERSET_SLOT_REMOVE) {
            fputs(": ", out);
            tool_print_value(out, record);
        }
    }
    if (record->fault)
        fprintf(out, "; no %" PRIu32 ": %s", record->fault, orderset_strerror(record->fault));
}

/* ---- from words */

int tool_read_number(const char *word, uint64_t *number) {
    errno = 0;
    *number = strtoull(word, NULL, 10);
    return *word && !word[strspn(word, "0123456789")] && !errno;
}

int tool_read_key(const char *word, struct orderset_key *key) {
    char high[17] = "";
    *key = (struct orderset_key){0, 0};
    if (strncmp(word, "0x", 2))
        return tool_read_number(word, &key->low);
    if (strlen(word) != 34 || strspn(word + 2, "0123456789abcdefABCDEF") != 32)
        return 0;
    memcpy(high, word + 2, 16);
    *key = (struct orderset_key){strtoull(word + 18, NULL, 16), strtoull(high, NULL, 16)};
    return 1;
}

/* An order in words, or the bytes in digits: whatever the text may mean. */
static void read_roughly(const char *text, struct orderset_record *r) {
    struct orderset_order order = {0};
    char state[13], digits[2 * ORDERSET_VALUE_MAX + 1] = "";
    unsigned byte;
    if (sscanf(text, "%12[a-z], ordered %" SCNu64 ", filled %" SCNu64, state, &order.ordered, &order.filled) == 3) {
        order.state = strcmp(state, "sent") ? ORDERSET_ACKNOWLEDGED : ORDERSET_SENT;
        memcpy(r->value, (const uint64_t[]){order.state, order.ordered, order.filled}, ORDERSET_ORDER_BYTES);
        r->length = ORDERSET_ORDER_BYTES;
    } else if (sscanf(text, "%*u byte%*[s] %160[0-9a-f]", digits) == 1
               || sscanf(text, "%*u byte %160[0-9a-f]", digits) == 1) {
        for (; sscanf(digits + 2 * r->length, "%2x", &byte) == 1; r->length++)
            r->value[r->length] = (uint8_t)byte;
    }
}

/* The text is a value if the value that it may mean is printed so. */
int tool_read_value(const char *text, struct orderset_record *record) {
    char *printed = NULL;
    size_t length;
    memset(record->value, 0, sizeof record->value);
    record->length = 0;
    read_roughly(text, record);
    FILE *memory = open_memstream(&printed, &length);
    if (!memory)
        tool_fail("memory: %s", strerror(errno));
    tool_print_value(memory, record);
    tool_printed(memory, "memory");
    const int same = fclose(memory) == 0 && !strcmp(printed, text);
    free(printed);
    return same;
}

/* ---- JSON */

/* How many bytes a character of UTF-8 has at the front of the text, or 0. */
static size_t utf8_length(const char *text) {
    const uint8_t *t = (const uint8_t *)text;
    const size_t length = t[0] < 0x80 ? 1 : t[0] < 0xc2 ? 0 : t[0] < 0xe0 ? 2 : t[0] < 0xf0 ? 3 : t[0] < 0xf5 ? 4 : 0;
    for (size_t i = 1; i < length; i++)
        if ((t[i] & 0xc0) != 0x80)
            return 0;
    const int overlong = (t[0] == 0xe0 && t[1] < 0xa0) || (t[0] == 0xf0 && t[1] < 0x90);
    const int outside = (t[0] == 0xed && t[1] > 0x9f) || (t[0] == 0xf4 && t[1] > 0x8f);
    return overlong || outside ? 0 : length;
}

/* A byte that is of no character of UTF-8 is U+FFFD. */
void tool_json_text(FILE *out, const char *text) {
    fputc('"', out);
    while (*text) {
        const size_t length = utf8_length(text);
        if (*text == '"' || *text == '\\')
            fprintf(out, "\\%c", *text);
        else if ((uint8_t)*text < ' ' || *text == 0x7f)
            fprintf(out, "\\u%04x", (unsigned)(uint8_t)*text);
        else if (length)
            fwrite(text, 1, length, out);
        else
            fputs("\\ufffd", out);
        text += length ? length : 1;
    }
    fputc('"', out);
}

void tool_json_bytes(FILE *out, const uint8_t *bytes, size_t length) {
    fputc('"', out);
    print_hex(out, bytes, length);
    fputc('"', out);
}

void tool_json_order(FILE *out, uint32_t layout, const struct orderset_record *record) {
    struct orderset_order order;
    fputs("\"key\":\"", out);
    tool_print_key(out, layout, record->key);
    fprintf(out, "\",\"slot\":%" PRIu32 ",\"version\":%" PRIu64 ",\"value\":", record->slot, record->version);
    tool_json_bytes(out, record->value, record->length);
    if (orderset_order_of(record->value, record->length, &order))
        fprintf(out, ",\"state\":\"%s\",\"ordered\":%" PRIu64 ",\"filled\":%" PRIu64, state_of(&order), order.ordered,
                order.filled);
}
