/* Files that version 1.0.0 wrote, below tests/stored: every later version opens them and finds the same orders and
 * messages. The files and what they hold are kept; they are not made anew with a new version.
 *
 *     stored FOLDER WORK     opens each file of FOLDER as it is, and a copy of it in WORK for writing, and compares
 * what it holds with FOLDER/expected.txt stored make FOLDER     writes such files
 *
 * layout1.img, layout2.img: orders, other values, replaced and removed ones, a value of 0 bytes and one as long as the
 * layout takes. torn.img: a power cut struck a basket of three; one of its records is broken, two are void.
 * messages.log: more messages than there are cells. */
#include <inttypes.h>
#include <stdarg.h>
#include <stdio.h>
#include <stdlib.h>
#include <string.h>

#include "orderset_raw.h"
#include "orderset.h"

static const char *const names[] = {"layout1.img", "layout2.img", "torn.img", "messages.log"};
enum { FILES = 4, LOG = 3, SLOTS = 20, CELLS = 4, TEXT = 1 << 16 };

static void __attribute__((format(printf, 2, 3))) expect(int holds, const char *words, ...) {
    va_list list;
    if (holds)
        return;
    va_start(list, words);
    printf("stored: NOT SO: ");
    vprintf(words, list);
    printf("\n");
    exit(1);
}

static void done(uint32_t number, const char *what, const char *path) {
    expect(number == 0, "%s of %s: %s", what, path, orderset_strerror(number));
}

/* ---- what a file holds, in words */

static char *add_record(char *text, const struct orderset_record *r) {
    text += sprintf(text, "%016" PRIx64 "%016" PRIx64 " version %" PRIu64 " length %" PRIu64 " ", r->key.high,
                    r->key.low, r->version, r->length);
    for (size_t i = 0; i < r->length; i++)
        text += sprintf(text, "%02x", r->value[i]);
    return text + sprintf(text, "\n");
}

static char *add_set(char *text, const char *path, uint32_t mode) {
    struct orderset *set;
    struct orderset_record record = {0};
    struct orderset_statistics is;
    uint32_t number;
    done(orderset_open(path, mode, &set), "an open", path);
    orderset_stat(set, &is);
    text += sprintf(text, "layout %u, %u slots, %u live, next version %" PRIu64 "\n", is.layout, is.slots, is.live,
                    is.next_version);
    while ((number = orderset_next(set, &record)) == 0)
        text = add_record(text, &record);
    expect(number == ORDERSET_END, "the orders of %s end", path);
    orderset_close(set);
    return text;
}

static char *add_log(char *text, const char *path, uint32_t mode) {
    struct orderset_log *log;
    uint64_t first, last;
    char message[ORDERSET_LOG_MESSAGE_MAX];
    size_t length;
    done(orderset_log_open(path, mode, &log), "an open", path);
    done(orderset_log_range(log, &first, &last), "the range", path);
    for (uint64_t i = first; i <= last; i++) {
        done(orderset_log_read(log, i, message, sizeof message, &length), "a read", path);
        text += sprintf(text, "%" PRIu64 " %.*s\n", i, (int)length, message);
    }
    orderset_log_close(log);
    return text;
}

static void described(char *text, const char *folder, uint32_t mode) {
    char path[1024];
    for (size_t i = 0; i < FILES; i++) {
        snprintf(path, sizeof path, "%s/%s", folder, names[i]);
        text += sprintf(text, "%s\n", names[i]);
        text = i == LOG ? add_log(text, path, mode) : add_set(text, path, mode);
    }
}

/* ---- the test */

static size_t contents(const char *path, void *bytes, size_t room) {
    FILE *file = fopen(path, "rb");
    expect(file != NULL, "%s can be read", path);
    const size_t length = fread(bytes, 1, room, file);
    fclose(file);
    return length;
}

static void write_file(const char *path, const void *bytes, size_t length) {
    FILE *file = fopen(path, "wb");
    expect(file && fwrite(bytes, 1, length, file) == length && fclose(file) == 0, "%s can be written", path);
}

static void compare(const char *folder, const char *work) {
    static char want[TEXT], found[TEXT], bytes[TEXT];
    char from[1024], to[1024];
    snprintf(from, sizeof from, "%s/expected.txt", folder);
    want[contents(from, want, TEXT - 1)] = 0;
    described(found, folder, ORDERSET_READ);
    expect(strcmp(want, found) == 0, "the files of %s hold what they held. Now:\n%s", folder, found);
    for (size_t i = 0; i < FILES; i++) {
        snprintf(from, sizeof from, "%s/%s", folder, names[i]);
        snprintf(to, sizeof to, "%s/%s", work, names[i]);
        write_file(to, bytes, contents(from, bytes, sizeof bytes));
    }
    described(found, work, ORDERSET_WRITE);
    expect(strcmp(want, found) == 0, "opened for writing they hold the same. Now:\n%s", found);
    for (size_t i = 0; i < FILES; i++) { /* and they go on */
        struct orderset *set;
        struct orderset_log *log;
        snprintf(to, sizeof to, "%s/%s", work, names[i]);
        if (i == LOG) {
            done(orderset_log_open(to, ORDERSET_WRITE, &log), "an open", to);
            done(orderset_log_append(log, "more", 4, NULL), "an append", to);
            orderset_log_close(log);
        } else {
            done(orderset_open(to, ORDERSET_WRITE, &set), "an open", to);
            done(orderset_book_new(set, (struct orderset_key){99, 0}, 5), "a new order", to);
            done(orderset_book_fill(set, (struct orderset_key){99, 0}, 5), "its fill", to);
            orderset_close(set);
        }
    }
    printf("stored: %d files of version 1.0.0 hold what they held, opened for reading and for writing\n", FILES);
}

/* ---- the files */

static void make_set(const char *path, uint32_t layout) {
    struct orderset *set;
    uint8_t value[ORDERSET_VALUE_MAX];
    const uint64_t high = layout == 2 ? 0x2026111800000000 : 0;
    for (size_t i = 0; i < sizeof value; i++)
        value[i] = (uint8_t)(i + 1);
    done(orderset_create(path, SLOTS, layout), "create", path);
    done(orderset_open(path, ORDERSET_WRITE, &set), "an open", path);
#define KEY(low) (struct orderset_key){low, high}
    done(orderset_book_new(set, KEY(7), 100), "new", path);
    done(orderset_book_acknowledge(set, KEY(7)), "acknowledge", path);
    done(orderset_book_fill(set, KEY(7), 40), "fill", path);
    done(orderset_book_new(set, KEY(0), UINT64_MAX), "new", path);
    done(orderset_insert(set, KEY(UINT64_MAX), value, layout == 2 ? 72 : 80), "insert", path);
    done(orderset_insert(set, KEY(1), value, 0), "insert", path);
    done(orderset_insert(set, KEY(2), value, 33), "insert", path);
    done(orderset_replace(set, KEY(2), value, 1), "replace", path);
    done(orderset_insert(set, KEY(3), value, 9), "insert", path);
    done(orderset_remove(set, KEY(3)), "remove", path);
    const struct orderset_item items[] = {{ORDERSET_INSERT, KEY(11), value, 24},
                                          {ORDERSET_REMOVE, KEY(1), NULL, 0},
                                          {ORDERSET_INSERT, KEY(12), value, 7}};
    done(orderset_basket(set, items, 3), "a basket", path);
#undef KEY
    orderset_close(set);
}

/* Of a basket of three all stores of the first and of the third record stand, and five of the second's line A. */
static void tear(const char *path) {
    static _Alignas(64) uint8_t image[ORDERSET_IMAGE_BYTES(SLOTS)];
    static uint32_t heads[1], next[SLOTS + 1];
    struct orderset_raw set = {image, sizeof image, heads, 1, next, SLOTS + 1, {0}, 0, ORDERSET_LAYOUT_1};
    struct orderset_raw_recovery found;
    struct orderset_raw_items basket = {0};
    expect(contents(path, image, sizeof image) == sizeof image, "%s has its length", path);
    done(orderset_raw_recover(&set, &found), "recovery", path);
    orderset_raw_add(&basket, ORDERSET_INSERT, (struct orderset_key){21, 0}, "one", 3);
    orderset_raw_add(&basket, ORDERSET_REPLACE, (struct orderset_key){2, 0}, "two", 3);
    orderset_raw_add(&basket, ORDERSET_REMOVE, (struct orderset_key){7, 0}, NULL, 0);
    done(orderset_raw_basket(&set, &basket), "a basket", path);
    for (size_t i = 0; i < 48; i++)
        if (i < 21 || i >= 32)
            memcpy(image + 8 * (size_t)basket.at[i], &basket.value[i], 8);
    write_file(path, image, sizeof image);
}

static void make(const char *folder) {
    static char text[TEXT];
    char path[1024], message[64];
    struct orderset_log *log;
    for (size_t i = 0; i < LOG; i++) {
        snprintf(path, sizeof path, "%s/%s", folder, names[i]);
        make_set(path, i == 1 ? 2 : 1);
    }
    tear(path);
    snprintf(path, sizeof path, "%s/%s", folder, names[LOG]);
    done(orderset_log_create(path, CELLS), "create", path);
    done(orderset_log_open(path, ORDERSET_WRITE, &log), "an open", path);
    for (int i = 1; i <= 9; i++)
        done(orderset_log_append(log, message, (size_t)snprintf(message, sizeof message, "message %d", i), NULL),
             "append", path);
    orderset_log_close(log);
    described(text, folder, ORDERSET_READ);
    snprintf(path, sizeof path, "%s/expected.txt", folder);
    write_file(path, text, strlen(text));
}

int main(int count, char **word) {
    if (count != 3) {
        fprintf(stderr, "usage: stored FOLDER WORK, or stored make FOLDER\n");
        return 2;
    }
    if (strcmp(word[1], "make") == 0)
        make(word[2]);
    else
        compare(word[1], word[2]);
    return 0;
}
