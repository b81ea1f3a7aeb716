/* gateway: an order book in a file, kept by the handle of orderset.h.
 *
 *     gateway FILE make N [L]    a new file of N slots, 2 to 65535, in layout L, 1 or 2: room for N - 1 open orders
 *     gateway FILE COMMAND...    the commands; all are read before the first is carried out
 *     gateway FILE               the same commands from standard input, one a line
 *
 *     new KEY QUANTITY           an order is sent
 *     acknowledge KEY            the exchange has acknowledged it; once is enough, and again stores nothing
 *     fill KEY QUANTITY          so much of it is filled; when nothing is open, the order is gone
 *     withdraw KEY               the rest of it is withdrawn, and the order is gone
 *     basket N ITEM...           N items, 1 to 8, each `new KEY QUANTITY` or `withdraw KEY`: all of them or none
 *     show KEY, list             an order, all orders
 *
 * QUANTITY is a 64-bit number in decimal digits, and so is KEY; an order number of 16 bytes, for layout 2, is 0x and 32
 * hexadecimal digits. What a command changed is durable before it is answered. After a refused line the next one is
 * read; after a refused argument none is carried out. A last line without its end is perhaps not all that was sent, and
 * is not carried out. Status 0: all done. 1: something was refused or failed. 2: these are no commands. */
#define _GNU_SOURCE
#include <errno.h>
#include <inttypes.h>
#include <signal.h>
#include <stdarg.h>
#include <stdio.h>
#include <stdlib.h>
#include <string.h>

#include "orderset.h"

enum { FAILED = 1, USAGE = 2, WORDS = 2 + 3 * ORDERSET_BASKET_MAX };
enum kind { NEW, ACKNOWLEDGE, FILL, WITHDRAW, SHOW, LIST, BASKET, KINDS };

static const struct {
    const char *name;
    int key, number, writes; /* whether a key follows the name, and then a number; whether it changes something */
} forms[KINDS] = {
    {"new", 1, 1, 1},  {"acknowledge", 1, 0, 1}, {"fill", 1, 1, 1},   {"withdraw", 1, 0, 1},
    {"show", 1, 0, 0}, {"list", 0, 0, 0},        {"basket", 0, 1, 1},
};

struct item {
    enum kind kind;
    struct orderset_key key;
    uint64_t number; /* the quantity, or how many items a basket has */
};

struct command {
    struct item is, item[ORDERSET_BASKET_MAX]; /* the items of a basket */
};

static const char *path;
static struct orderset *set;
static uint32_t layout; /* of the set */

/* ---- what is said */

__attribute__((format(printf, 2, 3))) static _Noreturn void stop(int status, const char *words, ...) {
    va_list list;
    va_start(list, words);
    fputs("gateway: ", stderr);
    vfprintf(stderr, words, list);
    fputc('\n', stderr);
    va_end(list);
    exit(status);
}

/* The answers so far are with the reader; without that the program ends. */
static void answered(void) {
    if (fflush(stdout) || ferror(stdout))
        stop(FAILED, "standard output: %s; what was carried out is durable, perhaps not answered", strerror(errno));
}

/* What follows a command's name: its key, or the number of a basket's items. The next call overwrites it. */
static const char *key_text(const struct item *i) {
    static char text[40];
    if ((layout == ORDERSET_LAYOUT_2 || i->key.high) && i->kind != BASKET)
        snprintf(text, sizeof text, "0x%016" PRIx64 "%016" PRIx64, i->key.high, i->key.low);
    else
        snprintf(text, sizeof text, "%" PRIu64, i->kind == BASKET ? i->number : i->key.low);
    return text;
}

static void print_order(const struct item *i, const void *value, size_t length) {
    struct orderset_order order;
    printf("%s: ", key_text(i));
    if (orderset_order_of(value, length, &order))
        printf("%s, ordered %" PRIu64 ", filled %" PRIu64 "\n", order.state == ORDERSET_SENT ? "sent" : "acknowledged",
               order.ordered, order.filled);
    else
        printf("no order: %zu bytes\n", length);
}

/* ---- the file */

static void opened(int old, uint32_t number) {
    if (number == ORDERSET_ERRNO)
        stop(FAILED, "%s: %s%s", path, strerror(errno), old && *path && errno == ENOENT ? "; 'make N' makes one" : "");
    if (number)
        stop(FAILED, "%s: no %" PRIu32 ": %s", path, number, orderset_strerror(number));
}

static void start(int writing) {
    static const char *const by[] = {"flush and fence", "msync (fallback)"};
    struct orderset_statistics is;
    opened(1, orderset_open(path, writing ? ORDERSET_WRITE : ORDERSET_READ, &set));
    orderset_stat(set, &is);
    layout = is.layout;
    printf("recovered %" PRIu32 " held keys; next version %" PRIu64 "; %s\n", is.live, is.next_version,
           writing ? by[is.flush == ORDERSET_FLUSH_MSYNC] : "reading only");
    answered();
}

/* ---- the commands; each gives 0, or the number of its refusal, and then nothing was changed */

static uint32_t show(const struct item *i) {
    uint8_t value[ORDERSET_VALUE_MAX];
    size_t length;
    const uint32_t number = orderset_get(set, i->key, value, sizeof value, &length);
    if (number == ORDERSET_NOT_FOUND)
        printf("%s: absent\n", key_text(i));
    else if (number == ORDERSET_OK)
        print_order(i, value, length);
    return number == ORDERSET_NOT_FOUND ? ORDERSET_OK : number;
}

static uint32_t list(void) {
    struct orderset_record r = {0};
    uint32_t number;
    while ((number = orderset_next(set, &r)) == ORDERSET_OK)
        print_order(&(struct item){.kind = SHOW, .key = r.key}, r.value, r.length);
    if (number == ORDERSET_END)
        printf("%" PRIu32 " held\n", orderset_count(set));
    return number == ORDERSET_END ? ORDERSET_OK : number;
}

/* The book's rules for an item of a basket: the set knows keys and bytes, and no orders. */
static uint32_t item_fault(const struct item *i) {
    uint8_t value[ORDERSET_VALUE_MAX];
    struct orderset_order order;
    size_t length;
    const uint32_t number = orderset_get(set, i->key, value, sizeof value, &length);
    if (i->kind == WITHDRAW && number == ORDERSET_OK)
        return orderset_order_of(value, length, &order) ? ORDERSET_OK : ORDERSET_NO_ORDER;
    if (number != ORDERSET_NOT_FOUND)
        return number ? number : ORDERSET_NEW_KEY_EXISTS;
    return i->kind == WITHDRAW ? ORDERSET_NO_ORDER : i->number ? ORDERSET_OK : ORDERSET_BAD_QUANTITY;
}

/* All items or none: one call of the set, and one fence. */
static uint32_t basket(const struct command *c) {
    struct orderset_item items[ORDERSET_BASKET_MAX];
    uint64_t order[ORDERSET_BASKET_MAX][ORDERSET_ORDER_BYTES / 8];
    uint32_t number = ORDERSET_OK;
    for (size_t i = 0; i < c->is.number && !number; i++) {
        const struct item *of = &c->item[i];
        number = item_fault(of);
        memcpy(order[i], (const uint64_t[]){ORDERSET_SENT, of->number, 0}, sizeof order[i]);
        items[i] = (struct orderset_item){of->kind == NEW ? ORDERSET_INSERT : ORDERSET_REMOVE, of->key, order[i],
                                          sizeof order[i]};
    }
    return number ? number : orderset_basket(set, items, c->is.number);
}

/* A change that could not be made durable is not answered: a start finds out whether it is there. */
static uint32_t carry_out(const struct command *c) {
    uint32_t number;
    switch (c->is.kind) {
    case SHOW: return show(&c->is);
    case LIST: return list();
    case NEW: number = orderset_book_new(set, c->is.key, c->is.number); break;
    case ACKNOWLEDGE: number = orderset_book_acknowledge(set, c->is.key); break;
    case FILL: number = orderset_book_fill(set, c->is.key, c->is.number); break;
    case WITHDRAW: number = orderset_book_withdraw(set, c->is.key); break;
    default: number = basket(c);
    }
    if (number == ORDERSET_NOT_DURABLE)
        stop(FAILED, "%s %s: %s; this is not answered: ask after the next start whether it is there",
             forms[c->is.kind].name, key_text(&c->is), strerror(orderset_errno(set)));
    if (number == ORDERSET_OK || number == ORDERSET_ALREADY_ACKNOWLEDGED)
        printf("%s %s: done%s\n", forms[c->is.kind].name, key_text(&c->is), number ? ", already" : "");
    return number == ORDERSET_ALREADY_ACKNOWLEDGED ? ORDERSET_OK : number;
}

/* ---- commands from words */

static int number_of(const char *word, uint64_t *number) {
    errno = 0;
    *number = strtoull(word, NULL, 10);
    return *word && !word[strspn(word, "0123456789")] && !errno;
}

static int key_of(const char *word, struct orderset_key *key) {
    char high[17] = "";
    if (strncmp(word, "0x", 2))
        return number_of(word, &key->low);
    if (strlen(word) != 34 || strspn(word + 2, "0123456789abcdefABCDEF") != 32)
        return 0;
    memcpy(high, word + 2, 16);
    *key = (struct orderset_key){strtoull(word + 18, NULL, 16), strtoull(high, NULL, 16)};
    return 1;
}

/* A name, key and number at the front of the words: how many words they are, or 0. */
static int item_of(char **word, int count, struct item *i) {
    *i = (struct item){.kind = NEW};
    while (count && i->kind < KINDS && strcmp(forms[i->kind].name, word[0]))
        i->kind++;
    if (!count || i->kind == KINDS)
        return 0;
    const int used = 1 + forms[i->kind].key + forms[i->kind].number;
    const int right = used <= count && (!forms[i->kind].key || key_of(word[1], &i->key))
                      && (!forms[i->kind].number || number_of(word[used - 1], &i->number));
    return right ? used : 0;
}

/* The command at the front of the words: how many words it has, or 0. */
static int command_of(char **word, int count, struct command *c) {
    int used = item_of(word, count, &c->is);
    if (c->is.kind != BASKET || !used)
        return used;
    if (c->is.number == 0 || c->is.number > ORDERSET_BASKET_MAX)
        return 0;
    for (uint64_t i = 0; i < c->is.number; i++) {
        const int more = item_of(word + used, count - used, &c->item[i]);
        if (!more || (c->item[i].kind != NEW && c->item[i].kind != WITHDRAW))
            return 0;
        used += more;
    }
    return used;
}

static void make(char **word, int count) {
    uint64_t slots, in_layout = ORDERSET_LAYOUT_1;
    if (count < 1 || count > 2 || !number_of(word[0], &slots) || (count == 2 && !number_of(word[1], &in_layout)))
        stop(USAGE, "make: a number of slots follows, and perhaps a layout");
    opened(0, orderset_create(path, slots > UINT32_MAX ? 0 : (uint32_t)slots, in_layout > 2 ? 0 : (uint32_t)in_layout));
    printf("made %s: %" PRIu64 " slots, layout %" PRIu64 "\n", path, slots, in_layout);
    answered();
}

static void run_words(char **word, int count) {
    struct command c;
    int writing = 0, used;
    for (int i = 0; i < count; i += used, writing |= forms[c.is.kind].writes)
        if (!(used = command_of(word + i, count - i, &c)))
            stop(USAGE, "not a command: %s", word[i]);
    start(writing);
    for (int i = 0; i < count; i += used) {
        used = command_of(word + i, count - i, &c);
        const uint32_t number = carry_out(&c);
        answered();
        if (number)
            stop(FAILED, "%s %s: no %" PRIu32 ": %s", forms[c.is.kind].name, key_text(&c.is), number,
                 orderset_strerror(number));
    }
}

static int run_lines(void) {
    char *line = NULL;
    size_t room = 0;
    int status = 0;
    start(1);
    for (ssize_t got; (got = getline(&line, &room, stdin)) > 0; answered()) {
        struct command c;
        char *word[WORDS + 1], *rest = line;
        int count = 0;
        uint32_t number = 0;
        const int whole = strlen(line) == (size_t)got && line[got - 1] == '\n';
        line[strcspn(line, "\n")] = 0;
        while (rest && count <= WORDS) /* one space between two words, and nothing after the last one */
            word[count++] = strsep(&rest, " ");
        const int right = whole && !rest && command_of(word, count, &c) == count;
        for (int i = 1; !right && i < count; i++)
            word[i][-1] = ' '; /* the line as it was */
        if (!right)
            printf("not a command: %s%s\n", line, whole ? "" : " (the input ended inside this line)");
        else if ((number = carry_out(&c)))
            printf("no %" PRIu32 ": %s\n", number, orderset_strerror(number));
        status = right && !number ? status : FAILED;
    }
    if (!feof(stdin))
        stop(FAILED, "standard input: %s", strerror(errno));
    free(line);
    return status;
}

int main(int count, char **word) {
    int status = 0;
    signal(SIGPIPE, SIG_IGN); /* a reader that is gone is a failed write */
    if (count < 2)
        stop(USAGE, "usage: gateway FILE [make N [L] | COMMAND...]");
    path = word[1];
    if (count == 2)
        status = run_lines();
    else if (!strcmp(word[2], "make"))
        make(word + 3, count - 3);
    else
        run_words(word + 2, count - 2);
    orderset_close(set);
    return status;
}
