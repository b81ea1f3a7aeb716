/* The gateway under load, killed with kill -9 at any moment and started again: every order is there as the answered
 * commands left it, the command that was under way is there wholly or not at all, and nothing else is. Twice: with the
 * gateway as it is, on the disk of this machine; and with the gateway on the simulated disk of disk.c, where syncs fail
 * and power cuts strike too. A cut leaves in the file what was synced, and of what was not each line keeps some number
 * of its words, counted from the first. Some commands are baskets of orders: all of one is there, or nothing. Between
 * two runs the test writes some stores of a basket to the file, as a cut leaves them: nothing of it may ever be there.
 * The file has the layout that the test is built for (layout.h). In layout 1 processes that have handles are killed
 * too, of both layouts and of the log (kills_handles.c).
 *
 *     kills GATEWAY GATEWAY_ON_DISK FILE [SEED]
 */
#define _GNU_SOURCE
#include <fcntl.h>
#include <inttypes.h>
#include <stdio.h>
#include <stdlib.h>
#include <string.h>
#include <unistd.h>

#include "chance.h"
#include "child.h"
#include "kills.h"
#include "layout.h"

enum { KILLS = 200, STRIKES = 400, SLOTS = 12, KEYS = 15, BATCH = 40, TEXT = 80, WORD = 40, PATH = 1024, BASKET = 4 };

static const char *gateway, *file;
static char shadow[PATH], log_file[PATH];
static uint64_t stored, cuts, kills, failures, unanswered, in_start; /* stored: changes that were answered */
static uint64_t baskets, struck_baskets,
    half_baskets;   /* answered; not answered; made by this test, as a cut leaves them */
static int failing; /* the syncs of this run will fail */

/* ---- the orders by what was answered, and the commands of one run */

static struct order {
    int state; /* 0: none; then ORDERSET_SENT or ORDERSET_ACKNOWLEDGED */
    uint64_t ordered, filled;
} map[KEYS];

/* of a basket the items, each NEW or WITHDRAW; of any other command item[0] */
static struct command {
    enum kind { NEW, ACKNOWLEDGE, FILL, WITHDRAW, SHOW, BASKETS } kind;
    int count;
    struct item {
        enum kind kind;
        int key;
        uint64_t quantity;
    } item[BASKET];
} batch[BATCH];
static int sent, done; /* commands of the batch that were sent, and that were answered */

/* Of layout 2 many keys share their low word. */
static m_key number_of(int key) {
    const uint64_t number = key % 3 ? (uint64_t)key : UINT64_MAX - (uint64_t)key;
    return LAYOUT == 1 ? number : key_of_words((uint64_t)key % 4, number);
}

/* as the gateway takes and shows it */
static const char *word_of(int key, char word[WORD]) {
    const m_key number = number_of(key);
    if (LAYOUT == 1)
        snprintf(word, WORD, "%" PRIu64, low_word(number));
    else
        snprintf(word, WORD, "0x%016" PRIx64 "%016" PRIx64, high_word(number), low_word(number));
    return word;
}

static int held(const struct order *orders) {
    int count = 0;
    for (int i = 0; i < KEYS; i++)
        count += orders[i].state != 0;
    return count;
}

/* as the gateway shows it */
static const char *text_of(const struct order *o, char text[TEXT]) {
    snprintf(text, TEXT, "%s, ordered %" PRIu64 ", filled %" PRIu64,
             o->state == ORDERSET_SENT ? "sent" : "acknowledged", o->ordered, o->filled);
    return o->state ? text : "absent";
}

/* The order after an item. Answers its refusal but for 28, or 0. */
static int carry_out(const struct item *c, struct order *o) {
    uint64_t open = o->ordered - o->filled;
    if (c->kind == NEW ? o->state != 0 : c->kind != SHOW && o->state == 0)
        return c->kind == NEW ? 17 : 18;
    if (c->kind == NEW || c->kind == FILL)
        if (c->quantity == 0 || (c->kind == FILL && c->quantity > open))
            return 19;
    if (c->kind == NEW)
        *o = (struct order){ORDERSET_SENT, c->quantity, 0};
    else if (c->kind == ACKNOWLEDGE)
        o->state = ORDERSET_ACKNOWLEDGED;
    else if (c->kind == WITHDRAW || (c->kind == FILL && c->quantity == open))
        *o = (struct order){0, 0, 0};
    else if (c->kind == FILL)
        o->filled += c->quantity;
    return 0;
}

/* The orders after the command. Answers its refusal, or 0; a basket can also be refused with 28 by the slots. */
static int carry_out_all(const struct command *c, struct order later[KEYS]) {
    memcpy(later, map, sizeof map);
    for (int i = 0; i < c->count; i++) {
        struct order before = map[c->item[i].key]; /* the book's rules of each item come before those of the set */
        int refusal = carry_out(&c->item[i], &before);
        if (refusal)
            return refusal;
    }
    for (int i = 0; i < c->count; i++)
        for (int j = 0; j < i; j++)
            if (c->item[i].key == c->item[j].key)
                return 27;
    for (int i = 0; i < c->count; i++)
        carry_out(&c->item[i], &later[c->item[i].key]);
    return held(later) >= SLOTS ? 28 : 0;
}

static const char *const name[] = {"new", "acknowledge", "fill", "withdraw", "show", "basket"};

/* What the command is to be answered, or its beginning. */
static void answer_due(const struct command *c, int refusal, const struct order *later, char wanted[LINE]) {
    char text[TEXT], key[WORD];
    word_of(c->item[0].key, key);
    if (c->kind == SHOW)
        snprintf(wanted, LINE, "%s: %s", key, text_of(&later[c->item[0].key], text));
    else if (refusal)
        snprintf(wanted, LINE, "no %d: ", refusal);
    else if (c->kind == BASKETS)
        snprintf(wanted, LINE, "basket %d: done", c->count);
    else
        snprintf(wanted, LINE, "%s %s: done", name[c->kind], key);
}

/* A command is answered as the map asks for, and the map takes its step. */
static void take(const struct command *c, const char *answer) {
    char wanted[LINE];
    struct order later[KEYS];
    int refusal = carry_out_all(c, later),
        again = c->kind == ACKNOWLEDGE && map[c->item[0].key].state == ORDERSET_ACKNOWLEDGED;
    if (c->kind == BASKETS && !refusal && !strncmp(answer, "no 28: ", 7))
        refusal = 28;
    answer_due(c, refusal, later, wanted);
    expect(c->kind == SHOW ? !strcmp(answer, wanted) : !strncmp(answer, wanted, strlen(wanted)),
           "the answer is '%s': '%s'", wanted, answer);
    expect(again == (strstr(answer, ", already") != NULL), "a second acknowledge says so, and nothing else: '%s'",
           answer);
    stored += c->kind != SHOW && !refusal && !again;
    baskets += c->kind == BASKETS && c->count > 1 && !refusal;
    if (!refusal)
        memcpy(map, later, sizeof map);
}

/* ---- one run of the gateway */

static uint64_t any_quantity(void) {
    return below(8) ? below(5) : UINT64_MAX - below(3);
}

static char *write_item(char *end, const struct item *c) {
    char key[WORD];
    end += sprintf(end, "%s %s", name[c->kind], word_of(c->key, key));
    if (c->kind == NEW || c->kind == FILL)
        end += sprintf(end, " %" PRIu64, c->quantity);
    return end;
}

/* Items that are mostly as the orders ask for, but for the commands of the batch before it. */
static void any_basket(struct command *c) {
    c->count = 1 + (int)below(BASKET);
    for (int i = 0, key = (int)below(KEYS); i < c->count; i++, key = (key + 1 + (int)below(3)) % KEYS)
        c->item[i] = (struct item){below(20)  ? map[key].state ? WITHDRAW : NEW
                                   : below(2) ? WITHDRAW
                                              : NEW,
                                   key, below(20) ? 1 + below(5) : any_quantity()};
}

static void any_command(struct command *c) {
    unsigned kind = (unsigned)below(20);
    *c = (struct command){.kind = kind < 7    ? NEW
                                  : kind < 9  ? ACKNOWLEDGE
                                  : kind < 12 ? FILL
                                  : kind < 15 ? WITHDRAW
                                  : kind < 16 ? SHOW
                                              : BASKETS,
                          .count = 1};
    c->item[0] = (struct item){c->kind, (int)below(KEYS), any_quantity()};
    if (c->kind == BASKETS)
        any_basket(c);
}

static void send_batch(struct child *child) {
    static char all[BATCH * LINE];
    char *end = all;
    sent = 1 + (int)below(BATCH);
    for (done = 0; done < sent; done++) {
        struct command *c = &batch[done];
        any_command(c);
        if (c->kind == BASKETS)
            end += sprintf(end, "basket %d", c->count);
        for (int i = 0; i < c->count; i++) {
            if (c->kind == BASKETS)
                *end++ = ' ';
            end = write_item(end, &c->item[i]);
        }
        end += sprintf(end, "\n");
    }
    done = 0;
    say(child, all);
}

/* The key that a line begins with, or KEYS. */
static int key_of(const char *line) {
    char word[WORD];
    const size_t length = strcspn(line, ":");
    int key = 0;
    while (key < KEYS && (strlen(word_of(key, word)) != length || strncmp(line, word, length)))
        key++;
    return key;
}

/* What the gateway lists. */
static void hear_list(struct child *child, char found[KEYS][LINE]) {
    char line[LINE], *text;
    int count = 0;
    for (int i = 0; i < KEYS; i++)
        strcpy(found[i], "absent");
    say(child, "list\n");
    while (expect(hear(child, line), "list ends"), (text = strchr(line, ':'))) {
        int key = key_of(line);
        expect(key < KEYS && !strcmp(found[key], "absent") && !strncmp(text, ": ", 2),
               "an order that was never sent: '%s'", line);
        strcpy(found[key], text + 2);
        count++;
    }
    expect(atoi(line) == count && strstr(line, " held"), "%d orders listed, '%s'", count, line);
}

/* The first key that is not listed as the order is, or KEYS. */
static int first_other(char found[KEYS][LINE], const struct order *orders) {
    char text[TEXT];
    int i = 0;
    while (i < KEYS && !strcmp(found[i], text_of(&orders[i], text)))
        i++;
    return i;
}

/* What is listed after a start: all as the answered commands left it, or all as the command that was under way left it
 * too. The map goes on with that. */
static void check(struct child *child) {
    char found[KEYS][LINE], text[TEXT], key[WORD];
    struct order later[KEYS];
    hear_list(child, found);
    const struct command *c = done < sent && batch[done].kind != SHOW ? &batch[done] : NULL;
    const int other = first_other(found, map),
              is_later = c && carry_out_all(c, later) == 0 && first_other(found, later) == KEYS;
    expect(other == KEYS || is_later,
           "key %s after %" PRIu64 " kills and %" PRIu64 " cuts: answered '%s', found '%s'%s",
           word_of(other % KEYS, key), kills, cuts, text_of(&map[other % KEYS], text), found[other % KEYS],
           c && c->kind == BASKETS ? ", in a basket or beside it" : "");
    if (other < KEYS)
        memcpy(map, later, sizeof map);
    unanswered += c != NULL;
    struck_baskets += c && c->kind == BASKETS && c->count > 1;
    sent = done = 0;
}

/* Whether the gateway recovers. Where its syncs fail it may say so and end. */
static int recovers(struct child *child) {
    char line[LINE];
    int heard = hear(child, line);
    if (failing && heard && !strncmp(line, "gateway: ", 9) && strstr(line, "Input/output error"))
        return 0;
    expect(heard && !strncmp(line, "recovered ", 10), "the gateway recovers: '%s'", line);
    check(child);
    return 1;
}

/* Whether there is an answer to the next command. */
static int hears_answer(struct child *child) {
    char line[LINE];
    if (!hear(child, line) || (failing && !strncmp(line, "gateway: ", 9) && strstr(line, "not answered")))
        return 0;
    expect(done < sent, "an answer to nothing: '%s'", line);
    take(&batch[done++], line);
    return 1;
}

/* Starts the gateway, checks what is there, sends commands and kills it: in its start, or after a number of answers, or
 * after a time. What it said before it was killed is heard. */
static void run_and_kill(void) {
    struct child child = start_child((const char *const[]){gateway, file, NULL});
    uint64_t when = below(8);
    int runs = when > 0 && recovers(&child);
    if (runs)
        send_batch(&child);
    for (int answers = runs && when > 3 ? (int)below((uint64_t)sent + 1) : 0; done < answers && hears_answer(&child);)
        ;
    if (when < 4)
        usleep((useconds_t)below(1u << below(15)));
    kill_child(&child);
    while (runs && hears_answer(&child))
        ;
    int status = end_of(&child);
    expect(status == -1 || (failing && status == 1), "the gateway runs until it is killed; status %d", status);
    kills += status == -1;
    failures += status == 1;
    in_start += !runs;
}

static int finish(void) {
    struct child child = start_child((const char *const[]){gateway, file, NULL});
    expect(recovers(&child), "the gateway recovers");
    return end_of(&child);
}

static void make(void) {
    char slots[8], line[LINE];
    snprintf(slots, sizeof slots, "%d", SLOTS);
    unlink(file);
    memset(map, 0, sizeof map);
    sent = done = 0;
    struct child child =
        start_child((const char *const[]){gateway, file, "make", slots, LAYOUT == 1 ? NULL : "2", NULL});
    expect(hear(&child, line) && !strncmp(line, "made ", 5), "a file is made: '%s'", line);
    expect(end_of(&child) == 0, "make ends with status 0");
}

/* Words that are no keys are no commands, and change nothing; a key of 128 bits is refused in layout 1. */
static void refuse_other_keys(void) {
    static const char *const keys[] = {"0x7",
                                       "7x",
                                       "0x0000000000000000000000000000007",
                                       "-7",
                                       "18446744073709551616",
                                       "0x0000000000000000000000000000000g",
                                       "",
                                       " 7"};
    const char *wide = "new 0x00000000000000010000000000000007 0\n";
    struct child child = start_child((const char *const[]){gateway, file, NULL});
    expect(recovers(&child), "the gateway recovers");
    char line[LINE], answer[LINE];
    for (size_t i = 0; i < sizeof keys / sizeof *keys; i++) {
        snprintf(line, sizeof line, "new %s 5", keys[i]);
        say(&child, line);
        say(&child, "\n");
        expect(hear(&child, answer) && !strncmp(answer, "not a command: ", 15) && !strcmp(answer + 15, line),
               "'%s' is answered '%s'", line, answer);
    }
    say(&child, wide);
    expect(hear(&child, answer) && !strncmp(answer, LAYOUT == 1 ? "no 1015: " : "no 19: ", 7), "a wide key: '%s'",
           answer);
    check(&child);
    expect(end_of(&child) == 1, "a run with lines that are no commands ends with status 1");
}

/* ---- power cuts on the simulated disk */

static void read_all(const char *path, uint64_t *words, size_t length) {
    int in = open(path, O_RDONLY);
    expect(in >= 0 && read(in, words, length) == (ssize_t)length, "%s is read", path);
    close(in);
}

static void write_all(const char *path, const uint64_t *words, size_t length) {
    int out = open(path, O_WRONLY | O_CREAT, 0600);
    expect(out >= 0 && write(out, words, length) == (ssize_t)length, "%s is written", path);
    close(out);
}

/* Some stores on each line of a basket's records, and not all. */
static void make_some(uint64_t *words, const uint32_t *at, const uint64_t *value, uint32_t count) {
    const uint64_t open = below(2 * count); /* this line has not all its stores */
    for (uint64_t line = 0; line < 2 * count; line++) {
        uint64_t made = line == open ? below(8) : below(2) ? 8 : below(9);
        for (uint64_t i = 8 * line; i < 8 * line + made; i++)
            words[at[i]] = value[i];
    }
}

/* What a cut leaves of a basket of orders, where the image has no void slot and the basket is not refused. */
static void half_basket(uint64_t *words, size_t length) {
    enum { ROOM = BASKET * ORDERSET_STORES };
    uint32_t heads[1], next[SLOTS + 1], state[ORDERSET_RAW_STATE], voids[1], open_at[ORDERSET_INVALIDATIONS], at[ROOM],
        kinds[ORDERSET_BASKET_MAX], count = 2 + (uint32_t)below(BASKET - 1), first = (uint32_t)below(KEYS);
    uint64_t version[1], open_value[ORDERSET_INVALIDATIONS], value[ROOM], lows[ORDERSET_BASKET_MAX],
        highs[ORDERSET_BASKET_MAX], answer[ORDERSET_PROVED_BASKET_ANSWER];
    size_t lengths[ORDERSET_BASKET_MAX];
    uint8_t values[ORDERSET_BASKET_BYTES] = {0};
    const uint8_t *image = (const uint8_t *)words;
    uint64_t refusal =
        SET(recover)(image, length, heads, 1, next, SLOTS + 1, state, version, voids, open_at, open_value);
    expect(refusal == 0, "recovery takes the file; refusal %" PRIu32, ORDERSET_PROVED_REFUSAL(refusal));
    for (uint32_t i = 0; i < ORDERSET_BASKET_MAX; i++) {
        const int key = (int)((first + i) % KEYS);
        kinds[i] = map[key].state ? ORDERSET_REPLACE : ORDERSET_INSERT;
        lows[i] = low_word(number_of(key));
        highs[i] = high_word(number_of(key));
        lengths[i] = ORDERSET_ORDER_BYTES;
        memcpy(values + ORDERSET_VALUE_MAX * i, (const uint64_t[]){ORDERSET_SENT, 200, 100}, ORDERSET_ORDER_BYTES);
    }
    (void)highs; /* of layout 1 there are none */
    if (voids[0]
        || SET(basket)(image, length, heads, 1, next, SLOTS + 1, state, version, count, kinds, BASKET_KEYS(lows, highs),
                       lengths, values, at, ROOM, value, ROOM, answer))
        return;
    make_some(words, at, value, count);
    half_baskets++;
}

static void half_basket_in_file(void) {
    static uint64_t seen[16 * (SLOTS + 1)];
    read_all(file, seen, sizeof seen);
    half_basket(seen, sizeof seen);
    write_all(file, seen, sizeof seen);
}

/* The disk writes some of what it had not written yet; and in a power cut the rest is gone. */
static void disk_writes(int cut) {
    static uint64_t seen[16 * (SLOTS + 1)], durable[16 * (SLOTS + 1)];
    read_all(file, seen, sizeof seen);
    read_all(shadow, durable, sizeof durable);
    for (size_t line = 0; line < sizeof seen / 64; line++)
        memcpy(durable + 8 * line, seen + 8 * line, 8 * below(9));
    if (cut && below(2))
        half_basket(durable, sizeof durable);
    write_all(shadow, durable, sizeof durable);
    if (cut)
        write_all(file, durable, sizeof durable);
    cuts += (uint64_t)cut;
}

/* The new file and its name are durable: the file is synced before it gets its name, and the directory after that. */
static void check_new_file(void) {
    char all[LINE] = "";
    FILE *log = fopen(log_file, "r");
    expect(log && fread(all, 1, sizeof all - 1, log) > 0, "make has synced something");
    fclose(log);
    const char *name = strstr(all, "rename\n");
    expect(name && name > all && strstr(all, "sync file\n") < name, "a new file is synced before it gets its name");
    expect(name && strstr(name, "sync directory\n"), "the directory of a new file is synced");
}

/* Some syncs of the next run go well and then all fail, or none does. */
static void set_failing(int fails) {
    char number[24];
    snprintf(number, sizeof number, "%" PRIu64, below(12));
    failing = fails;
    if (fails)
        setenv("DISK_FAILS", number, 1);
    else
        unsetenv("DISK_FAILS");
}

static void on_simulated_disk(const char *program) {
    static uint64_t image[16 * (SLOTS + 1)];
    gateway = program;
    snprintf(shadow, sizeof shadow, "%s.durable", file);
    snprintf(log_file, sizeof log_file, "%s.log", file);
    unlink(shadow);
    unlink(log_file);
    setenv("DISK_LOG", log_file, 1);
    make();
    check_new_file();
    unsetenv("DISK_LOG");
    read_all(file, image, sizeof image);
    write_all(shadow, image, sizeof image);
    setenv("DISK_SHADOW", shadow, 1);
    for (int i = 0; i < STRIKES; i++) {
        set_failing(below(4) == 0);
        run_and_kill();
        if (below(4))
            disk_writes(below(3) > 0);
    }
    set_failing(0);
    expect(finish() == 0, "the last run ends with status 0");
}

int main(int count, char **word) {
    begin_chance(LAYOUT == 1 ? "kills" : "kills of layout 2", count > 4 ? word[4] : NULL);
    expect(count > 3, "kills GATEWAY GATEWAY_ON_DISK FILE [SEED]");
    gateway = word[1];
    file = word[3];
    make();
    refuse_other_keys();
    for (int i = 0; i < KILLS; i++) {
        run_and_kill();
        if (below(2))
            half_basket_in_file();
    }
    expect(finish() == 0, "the last run ends with status 0");
    on_simulated_disk(word[2]);
    unsetenv("DISK_SHADOW");
#if LAYOUT == 1
    const int too_little = kill_handles(file);
#else
    const int too_little = 0;
#endif
    printf("%" PRIu64 " kills, %" PRIu64 " cuts and %" PRIu64 " failed syncs, %" PRIu64 " in a start and %" PRIu64
           " before a command was answered, %" PRIu64 " of these baskets, %" PRIu64
           " halves of a basket in the file, %" PRIu64 " changes answered, %" PRIu64
           " of them baskets: nothing lost (%.0f s)\n",
           kills, cuts, failures, in_start, unanswered, struck_baskets, half_baskets, stored, baskets, seconds());
    return too_little || half_baskets == 0 || struck_baskets == 0 || baskets == 0;
}
