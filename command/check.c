/* orderset check: whether recovery accepts the sets and logs in files, and if not, what is wrong and what to do. The
 * files are only read. */
#define _GNU_SOURCE
#include <dirent.h>
#include <errno.h>
#include <inttypes.h>
#include <stdlib.h>
#include <string.h>
#include <sys/stat.h>

#include "tool.h"

static struct asked {
    int heads, json, live;
    uint64_t heads_number; /* 0: as many as an open takes */
} asked;

/* ---- an accepted set */

/* The slots of a class, which are at most eight. */
static void list_slots(struct tool *d, uint32_t slot_class) {
    struct orderset_record record;
    const char *before = d->is.count[slot_class] == 1 ? " (slot " : " (slots ";
    for (uint32_t slot = 1; slot <= d->is.slots; slot++) {
        tool_slot(d, slot, &record);
        if (record.slot_class == slot_class) {
            printf("%s%" PRIu32, before, slot);
            before = ", ";
        }
    }
    fputs("):\n", stdout);
}

static void explain(struct tool *d, uint32_t slot_class, const char *meaning) {
    const uint64_t count = d->is.count[slot_class];
    if (!count)
        return;
    printf("  %" PRIu64 " %s", count, tool_class[slot_class]);
    list_slots(d, slot_class);
    fputs(meaning, stdout);
}

static void print_accepted(struct tool *d) {
    const char *before = " (";
    printf("%s: accepted, layout %" PRIu32 ", %" PRIu32 " slots, %" PRIu32 " open order%s, %" PRIu32
           " spare, next version %" PRIu64,
           d->path, d->is.layout, d->is.slots, d->is.live, d->is.live == 1 ? "" : "s", d->is.spare, d->is.next_version);
    for (int i = 0; i < ORDERSET_SLOT_UNKNOWN; i++)
        if (d->is.count[i]) {
            printf("%s%" PRIu64 " %s", before, d->is.count[i], tool_class[i]);
            before = ", ";
        }
    fputs(")\n", stdout);
    tool_step("slots looked at", d->is.slots);
    explain(d, ORDERSET_SLOT_VOID,
            "  of a basket that a power cut or a kill struck; none of it counts, and it was not answered. The next\n"
            "  start that writes opens such slots, and then they are broken. Nothing is to be done.\n");
    explain(d, ORDERSET_SLOT_BROKEN,
            "  a power cut or a kill struck the call that wrote there; it does not count, and was not answered.\n"
            "  Such slots are used again first. Nothing is to be done: up to eight broken and void slots are no\n"
            "  sign of damage.\n");
    tool_rest();
}

/* ---- with how many slots compared the held keys are found */

struct heads {
    uint32_t heads, longest, *found; /* found[c]: how many keys are found with c slots compared */
    double average;
};

/* Asked by a locate, or, with another number of heads, counted, as the j-th key of a head is found with j. */
static uint32_t compared_of(struct tool *d, struct orderset_key key, uint32_t *sharing, uint32_t heads) {
    uint32_t slot;
    if (heads)
        return ++sharing[key.low % heads];
    const uint32_t number = orderset_locate(d->set, key, &slot, NULL);
    if (number)
        tool_fail("%s: no %" PRIu32 ": %s", d->path, number, orderset_strerror(number));
    return orderset_compared(d->set);
}

static struct heads count_heads(struct tool *d, uint32_t heads) {
    struct heads h = {heads ? heads : d->is.heads, 0, tool_memory(d->is.slots, sizeof *h.found), 0};
    struct orderset_record order = {0};
    uint64_t held = 0, sum = 0;
    uint32_t number, *sharing = tool_memory(heads, sizeof *sharing);
    tool_step("slots looked at", d->is.slots);
    for (; (number = orderset_next(d->set, &order)) == ORDERSET_OK; held++) {
        const uint32_t compared = compared_of(d, order.key, sharing, heads);
        h.found[compared]++;
        sum += compared;
        h.longest = compared > h.longest ? compared : h.longest;
        tool_done = order.slot;
    }
    tool_rest();
    if (number != ORDERSET_END)
        tool_fail("%s: no %" PRIu32 ": %s", d->path, number, orderset_strerror(number));
    h.average = held ? (double)sum / (double)held : 0;
    free(sharing);
    return h;
}

static void print_heads(const struct heads *h) {
    printf("  %" PRIu32 " heads\n", h->heads);
    for (uint32_t compared = 1; compared <= h->longest; compared++)
        printf("  %" PRIu32 " compared: %" PRIu32 " held keys\n", compared, h->found[compared]);
    printf("  average %.2f, longest %" PRIu32 "\n", h->average, h->longest);
}

static void json_heads(const struct heads *h) {
    printf(",\"heads\":%" PRIu32 ",\"compared\":[", h->heads);
    for (uint32_t compared = 1; compared <= h->longest; compared++)
        printf("%s%" PRIu32, compared > 1 ? "," : "", h->found[compared]);
    printf("],\"average\":%.2f,\"longest\":%" PRIu32, h->average, h->longest);
}

/* ---- a set, a log, a file, files */

static void json_set(struct tool *d) {
    printf(",\"kind\":\"set\",\"accepted\":%s,\"refusal\":%" PRIu32 ",\"fault_slot\":%" PRIu32 ",\"layout\":%" PRIu32
           ",\"slots\":%" PRIu32 ",\"bytes\":%zu,\"spare\":%" PRIu32 ",\"next_version\":%" PRIu64,
           d->is.refusal ? "false" : "true", d->is.refusal, d->is.fault_slot, d->is.layout, d->is.slots, d->area.length,
           d->is.spare, d->is.next_version);
    for (int i = 0; i < TOOL_CLASSES; i++)
        printf(",\"%s\":%" PRIu64, tool_class[i], i == ORDERSET_SLOT_UNKNOWN ? d->unknown : d->is.count[i]);
}

static int check_set(struct tool *d) {
    if (asked.json)
        json_set(d);
    else if (d->is.refusal)
        print_refused(d);
    else
        print_accepted(d);
    if (asked.heads && !d->is.refusal) {
        struct heads h = count_heads(d, (uint32_t)asked.heads_number);
        (asked.json ? json_heads : print_heads)(&h);
        free(h.found);
    }
    return d->is.refusal ? TOOL_FOUND : TOOL_GOOD;
}

static void check_log(const struct tool *d, const struct orderset_log_statistics *is) {
    if (asked.json) {
        printf(",\"kind\":\"log\",\"accepted\":true,\"cells\":%" PRIu32 ",\"bytes\":%" PRIu64 ",\"first\":%" PRIu64
               ",\"last\":%" PRIu64,
               is->cells, is->bytes, is->first, is->last);
        return;
    }
    printf("%s: accepted, a message log, %" PRIu32 " cells, %" PRIu64 " bytes, ", d->path, is->cells, is->bytes);
    if (is->last)
        printf("messages %" PRIu64 " to %" PRIu64 "\n", is->first, is->last);
    else
        fputs("empty\n", stdout);
}

/* Whether the file, which is no set, is a log; it is closed. Bytes of zeros that have the length of a set are perhaps
 * a set that was overwritten. */
static int is_log(const struct tool *d, struct orderset_log_statistics *is) {
    struct orderset_log *log = d->is.refusal && d->is.refusal <= ORDERSET_BAD_HEADER ? tool_log(d) : NULL;
    if (!log)
        return 0;
    orderset_log_stat(log, is);
    orderset_log_close(log);
    return is->last || d->is.refusal == ORDERSET_BAD_IMAGE_LENGTH;
}

static int check_file(const char *path) {
    struct orderset_log_statistics is;
    struct tool d;
    int status = tool_read(&d, path, asked.live);
    if (asked.json) {
        fputs("{\"file\":", stdout);
        tool_json_text(stdout, path);
    }
    if (status) {
        fputs(asked.json ? ",\"kind\":null,\"accepted\":null}\n" : "", stdout);
        return status;
    }
    tool_set(&d);
    if (is_log(&d, &is))
        check_log(&d, &is);
    else
        status = check_set(&d);
    fputs(asked.json ? "}\n" : "", stdout);
    tool_close(&d);
    return status;
}

static int is_shown(const struct dirent *entry) {
    return entry->d_name[0] != '.';
}

static int is_regular(const char *path) {
    struct stat found;
    return stat(path, &found) == 0 && S_ISREG(found.st_mode);
}

/* The regular files in it, by name; those whose name begins with a dot are left out. */
static int check_directory(const char *path) {
    struct dirent **entries;
    int status = TOOL_GOOD;
    const int count = scandir(path, &entries, is_shown, alphasort);
    if (count < 0) {
        tool_say("%s: %s", path, strerror(errno));
        return TOOL_FAILED;
    }
    for (int i = 0; i < count; i++) {
        char *name;
        if (asprintf(&name, "%s%s%s", path, path[strlen(path) - 1] == '/' ? "" : "/", entries[i]->d_name) < 0)
            tool_fail("memory: %s", strerror(errno));
        const int found = is_regular(name) ? check_file(name) : TOOL_GOOD;
        status = found > status ? found : status;
        free(name);
        free(entries[i]);
    }
    free(entries);
    return status;
}

static int is_directory(const char *path) {
    struct stat found;
    return stat(path, &found) == 0 && S_ISDIR(found.st_mode);
}

/* The worst status of all of them. */
static int check(int count, char **word) {
    static const struct option options[] = {
        {"--heads", MAYBE_NUMBER, &asked.heads, &asked.heads_number, NULL, 1, ORDERSET_HEADS_MAX},
        {"--json", FLAG, &asked.json, NULL, NULL, 0, 0},
        {"--live", FLAG, &asked.live, NULL, NULL, 0, 0},
        {0}};
    int status = TOOL_GOOD;
    asked = (struct asked){0};
    const int files = tool_arguments(count, word, options, 1, count);
    for (int i = 0; i < files; i++) {
        const int found = is_directory(word[i]) ? check_directory(word[i]) : check_file(word[i]);
        status = found > status ? found : status;
    }
    return status;
}

const struct subcommand check_command = {
    "check", "says of files whether they are accepted, and if not, what is wrong and what to do",
    "usage: orderset check FILE... [--heads [B]] [--live] [--json]\n"
    "       orderset check DIRECTORY [--heads [B]] [--live] [--json]\n"
    "Recovers a copy of each file and says on a line whether it is accepted, and of what is found, what it means and\n"
    "what to do. Of a directory each regular file in it. The files are only read.\n"
    "  --heads [B]    also how many held keys are found with each count of slots compared, their average and the\n"
    "                 longest: with B heads, 1 to 65536, or as many as an open takes for the file\n"
    "  --live         a look without the lock, while a gateway has the file open\n"
    "  --json         an object for each file instead of words\n"
    "  --help, --version\n"
    "Status, the worst of all files: 0 accepted; 1 refused; 2 a file could not be read.\n",
    check};
