/* Processes that change a file through a handle of orderset.h on the simulated disk of disk.c, killed with kill
 * -9 at any moment, while syncs may fail and power cuts strike. A cut leaves in the file what was synced, and of what
 * was not each line keeps some number of its words, counted from the first. After each strike the next process opens
 * the file: every answered change is there, the one that was under way wholly or not at all, and nothing else. After a
 * failed sync a handle refuses every call. The set in both layouts, and the log. A new file is synced before it gets
 * its name, and its directory after that; a create that is killed leaves a whole new file or none.
 * Of the test kills, which does the same with the gateway. */
#define _GNU_SOURCE
#include <errno.h>
#include <fcntl.h>
#include <inttypes.h>
#include <signal.h>
#include <stdio.h>
#include <stdlib.h>
#include <string.h>
#include <sys/prctl.h>
#include <sys/wait.h>
#include <unistd.h>

#include "chance.h"
#include "child.h"
#include "file_model.h"
#include "kills.h"

enum { STRIKES = 120, CREATES = 40, CALLS = 60, PATH = 1024, BYTES = 8192, CELLS = 5 };
enum { MESSAGE = ORDERSET_LOG_MESSAGE_MAX };
enum found { AS_ANSWERED, WITH_UNDER_WAY, OTHER }; /* what a process finds at its start */

static const char *path;
static char shadow[PATH], events[PATH];
static size_t length;
static int failing; /* the syncs of this process will fail */
static uint64_t kills, cuts, failures, answered, in_open, struck, done_unanswered, made, not_made;

/* ---- what was answered, and what was under way */

static struct plain now, after;
static int under_way;
static struct {
    uint64_t count;
    size_t size[CELLS];
    uint8_t bytes[CELLS][MESSAGE];
} list, list_after; /* message s at s % CELLS; a log of CELLS cells shows the last CELLS - 1 */

static void any_message(void) {
    list_after = list;
    const uint64_t i = ++list_after.count % CELLS;
    list_after.size[i] = 1 + below(MESSAGE);
    fill(list_after.bytes[i], list_after.size[i]);
}

/* ---- the process that is killed: it tells the number of its open, what it found, and the number of each call */

static void tell(int out, uint32_t number) {
    if (write(out, &number, sizeof number) != sizeof number)
        _exit(1);
}

/* After a failed sync nothing is answered any more. */
static _Noreturn void stopped_set(struct orderset *set, int out) {
    struct orderset_record r = {0};
    size_t size;
    const int refused = orderset_remove(set, now.key[0]) == ORDERSET_STOPPED
                        && orderset_get(set, now.key[0], NULL, 0, &size) == ORDERSET_STOPPED
                        && orderset_next(set, &r) == ORDERSET_STOPPED && orderset_errno(set) == EIO;
    tell(out, refused ? ORDERSET_STOPPED : 0);
    _exit(0);
}

static void change_set(int out) {
    struct orderset *set;
    const uint32_t number = orderset_open(path, ORDERSET_WRITE, &set);
    tell(out, number);
    if (number)
        _exit(0);
    tell(out, shows(set, &now) ? AS_ANSWERED : under_way && shows(set, &after) ? WITH_UNDER_WAY : OTHER);
    if (!shows(set, &now))
        now = after;
    for (int i = 0; i < CALLS; i++) {
        struct call c;
        any_call(&now, &c);
        due(&now, &c, &after);
        const uint32_t given = carry_out(set, &now, &c);
        tell(out, given);
        if (given == ORDERSET_NOT_DURABLE)
            stopped_set(set, out);
        if (given == 0)
            now = after;
    }
    pause();
}

static int shows_list(struct orderset_log *log, const void *wanted) {
    uint8_t bytes[MESSAGE];
    uint64_t first, last;
    size_t size;
    __typeof__(list) *l = memcpy(malloc(sizeof list), wanted, sizeof list);
    int same = orderset_log_range(log, &first, &last) == 0 && last == l->count;
    for (uint64_t s = first; same && s <= last; s++)
        same = orderset_log_read(log, s, bytes, sizeof bytes, &size) == 0 && size == l->size[s % CELLS]
               && memcmp(bytes, l->bytes[s % CELLS], size) == 0;
    same &= first == (l->count < CELLS ? 1 : l->count - CELLS + 2);
    free(l);
    return same;
}

static void change_log(int out) {
    struct orderset_log *log;
    uint64_t given;
    const uint32_t number = orderset_log_open(path, ORDERSET_WRITE, &log);
    tell(out, number);
    if (number)
        _exit(0);
    const int same = shows_list(log, &list);
    tell(out, same ? AS_ANSWERED : under_way && shows_list(log, &list_after) ? WITH_UNDER_WAY : OTHER);
    if (!same)
        list = list_after;
    for (int i = 0; i < CALLS; i++) {
        any_message();
        const uint64_t s = list_after.count % CELLS;
        const uint32_t got = orderset_log_append(log, list_after.bytes[s], list_after.size[s], &given);
        tell(out, got);
        if (got == ORDERSET_NOT_DURABLE) {
            tell(out, orderset_log_append(log, "x", 1, &given));
            _exit(0);
        }
        list = list_after;
    }
    pause();
}

/* ---- the one that kills it, and goes through the same changes by what it was told */

static void (*change)(int out);
static uint64_t replay; /* the random numbers of the process */

static void swap_chance(void) {
    const uint64_t other = replay;
    replay = chance_state;
    chance_state = other;
}

static int hears(int in, uint32_t *number) {
    return read(in, number, sizeof *number) == sizeof *number;
}

/* The next change: its answer, or it is under way. */
static int take_set(int in) {
    struct call c;
    uint32_t number;
    swap_chance();
    any_call(&now, &c);
    swap_chance();
    const uint32_t wanted = due(&now, &c, &after);
    under_way = wanted == 0;
    if (!hears(in, &number))
        return 0;
    if (failing && number == ORDERSET_NOT_DURABLE) {
        expect(hears(in, &number) && number == ORDERSET_STOPPED, "a handle whose sync failed refuses every call");
        return 0;
    }
    expect(may_give(wanted, number, &c), "a call of kind %d gives %" PRIu32 ": due is %" PRIu32, c.kind, number,
           wanted);
    if (number == 0)
        now = after;
    answered += number == 0;
    under_way = 0;
    return 1;
}

static int take_log(int in) {
    uint32_t number;
    swap_chance();
    any_message();
    swap_chance();
    under_way = 1;
    if (!hears(in, &number))
        return 0;
    if (failing && number == ORDERSET_NOT_DURABLE) {
        expect(hears(in, &number) && number == ORDERSET_STOPPED, "a log whose sync failed refuses every call");
        return 0;
    }
    expect(number == 0, "an append gives %" PRIu32, number);
    list = list_after;
    answered++;
    under_way = 0;
    return 1;
}

/* What the process found at its start. Answers whether there is a process that goes on. */
static int take_start(int in) {
    uint32_t number, found;
    if (!hears(in, &number))
        return 0;
    if (failing && number == ORDERSET_ERRNO)
        return 0;
    expect(number == 0, "an open gives %" PRIu32 ": %s", number, orderset_strerror(number));
    if (!hears(in, &found))
        return 0;
    expect(found != OTHER, "after %" PRIu64 " kills and %" PRIu64 " cuts all that was answered is there, and no more",
           kills, cuts);
    if (found == WITH_UNDER_WAY) {
        now = after;
        list = list_after;
    }
    struck += (uint64_t)under_way;
    done_unanswered += found == WITH_UNDER_WAY;
    under_way = 0;
    return 1;
}

/* Runs a process and kills it: after a time, or after a number of answers. What it told before that is heard. */
static void run_and_kill(int (*take)(int in), int last) {
    int ends[2], status;
    expect(pipe2(ends, O_CLOEXEC) == 0, "a pipe");
    fflush(stdout);
    replay = chance();
    const pid_t child = fork();
    expect(child >= 0, "a process");
    if (child == 0) {
        prctl(PR_SET_PDEATHSIG, SIGKILL);
        swap_chance();
        change(ends[1]);
        _exit(0);
    }
    close(ends[1]);
    const uint64_t when = last ? 0 : below(4);
    if (when == 1)
        usleep((useconds_t)below(1u << below(15)));
    int runs = when == 1 ? 0 : take_start(ends[0]), more = runs;
    for (uint64_t answers = last ? 0 : below(CALLS); more && answers > 0; answers--)
        more = take(ends[0]);
    if (when == 2)
        usleep((useconds_t)below(2000));
    kill(child, SIGKILL);
    if (when == 1)
        more = runs = take_start(ends[0]);
    while (more)
        more = take(ends[0]);
    close(ends[0]);
    expect(waitpid(child, &status, 0) == child, "the process ends");
    kills += WIFSIGNALED(status);
    failures += WIFEXITED(status);
    expect(failing || WIFSIGNALED(status), "the process runs until it is killed");
    in_open += !runs;
}

/* ---- the disk */

static void read_all(const char *name, uint8_t *bytes) {
    int in = open(name, O_RDONLY | O_CLOEXEC);
    expect(in >= 0 && read(in, bytes, length) == (ssize_t)length, "%s is read", name);
    close(in);
}

static void write_all(const char *name, const uint8_t *bytes) {
    int out = open(name, O_WRONLY | O_CREAT | O_CLOEXEC, 0600);
    expect(out >= 0 && write(out, bytes, length) == (ssize_t)length, "%s is written", name);
    close(out);
}

/* The disk writes some of what it had not written yet; and in a power cut the rest is gone. */
static void disk_writes(int cut) {
    static uint8_t seen[BYTES], durable[BYTES];
    read_all(path, seen);
    read_all(shadow, durable);
    for (size_t line = 0; line < length / 64; line++)
        memcpy(durable + 64 * line, seen + 64 * line, 8 * below(9));
    write_all(shadow, durable);
    if (cut)
        write_all(path, durable);
    cuts += (uint64_t)cut;
}

/* Some syncs of the next process go well and then all fail, or none does. */
static void set_failing(int fails) {
    char number[24];
    snprintf(number, sizeof number, "%" PRIu64, below(12));
    failing = fails;
    if (fails)
        setenv("DISK_FAILS", number, 1);
    else
        unsetenv("DISK_FAILS");
}

/* What the disk noted. */
static void hear_events(char all[256]) {
    FILE *in = fopen(events, "r");
    memset(all, 0, 256);
    expect(in && fread(all, 1, 255, in) > 0, "a file is synced");
    fclose(in);
}

/* The new file and its name are durable: the file is synced before it gets its name, and the directory after that. */
static void check_new_file(void) {
    char all[256];
    hear_events(all);
    const char *name = strstr(all, "rename\n"), *synced = strstr(all, "sync file\n");
    expect(name && synced && synced < name, "a new file is synced before it gets its name");
    expect(name && strstr(name, "sync directory\n"), "the directory of a new file is synced");
}

static void open_and_close(void) {
    struct orderset *set;
    struct orderset_log *log;
    if (change == change_set && orderset_open(path, ORDERSET_WRITE, &set) == 0)
        orderset_close(set);
    if (change == change_log && orderset_log_open(path, ORDERSET_WRITE, &log) == 0)
        orderset_log_close(log);
}

/* After a failed sync the disk has a file of this name until the whole image is synced. */
static void check_pages(void) {
    char clean[PATH + 8];
    snprintf(clean, sizeof clean, "%s.clean", shadow);
    close(open(clean, O_WRONLY | O_CREAT | O_CLOEXEC, 0600));
    open_and_close();
    expect(access(clean, F_OK) != 0, "an open after a failed sync writes every page again");
}

/* An open for writing syncs the file and its directory: the one that made it may have been killed before that. */
static void check_open(void) {
    char all[256];
    unlink(events);
    open_and_close();
    hear_events(all);
    expect(strstr(all, "sync file\n") && strstr(all, "sync directory\n"), "an open syncs the file and its directory");
}

static int is_new(void) {
    struct orderset *set;
    struct orderset_log *log;
    int same;
    if (change == change_set) {
        if (orderset_open(path, ORDERSET_READ, &set))
            return 0;
        struct orderset_statistics s;
        orderset_stat(set, &s);
        same = s.slots == now.slots && s.layout == now.layout && s.count[ORDERSET_SLOT_EMPTY] == s.slots;
        orderset_close(set);
        return same;
    }
    if (orderset_log_open(path, ORDERSET_READ, &log))
        return 0;
    same = shows_list(log, &list);
    orderset_log_close(log);
    return same;
}

/* A create that is killed at any moment leaves a whole new file, or none of that name. */
static void kill_create(uint32_t (*create_it)(void)) {
    int ends[2];
    uint32_t begun;
    expect(pipe2(ends, O_CLOEXEC) == 0, "a pipe");
    unlink(path);
    fflush(stdout);
    const pid_t child = fork();
    expect(child >= 0, "a process");
    if (child == 0) {
        prctl(PR_SET_PDEATHSIG, SIGKILL);
        tell(ends[1], 0);
        _exit(create_it() != 0);
    }
    expect(hears(ends[0], &begun), "the process begins");
    usleep((useconds_t)below(16u << below(9)));
    kill(child, SIGKILL);
    expect(waitpid(child, NULL, 0) == child, "the process ends");
    close(ends[0]);
    close(ends[1]);
    const int found = access(path, F_OK) == 0;
    expect(!found || is_new(), "a create that is killed leaves a whole new file or none");
    made += (uint64_t)found;
    not_made += (uint64_t)!found;
}

static void kill_creates(uint32_t (*create_it)(void)) {
    char command[2 * PATH];
    for (int i = 0; i < CREATES; i++)
        kill_create(create_it);
    unlink(path);
    snprintf(command, sizeof command, "rm -f '%s'.new-??????", path);
    expect(system(command) == 0, "what is left over is removed");
}

static void begin(uint32_t (*create_it)(void)) {
    static uint8_t image[BYTES];
    unlink(path);
    unlink(shadow);
    unlink(events);
    unsetenv("DISK_SHADOW");
    kill_creates(create_it);
    setenv("DISK_LOG", events, 1);
    expect(create_it() == 0, "a file is made: %s", strerror(errno));
    check_new_file();
    check_open();
    unsetenv("DISK_LOG");
    read_all(path, image);
    write_all(shadow, image);
    setenv("DISK_SHADOW", shadow, 1);
    check_pages();
    under_way = 0;
}

static void storm(int (*take)(int in)) {
    for (int i = 0; i < STRIKES; i++) {
        set_failing(below(4) == 0);
        run_and_kill(take, 0);
        if (below(4))
            disk_writes(below(3) > 0);
    }
    set_failing(0);
    run_and_kill(take, 1);
}

static uint32_t create_set(void) {
    return orderset_create(path, now.slots, now.layout);
}

static uint32_t create_log(void) {
    return orderset_log_create(path, CELLS);
}

int kill_handles(const char *file) {
    path = file;
    snprintf(shadow, sizeof shadow, "%s.durable", path);
    snprintf(events, sizeof events, "%s.events", path);
    for (uint32_t layout = 1; layout <= 2; layout++) {
        make_plain(&now, 12 + (uint32_t)below(30), layout);
        length = ORDERSET_IMAGE_BYTES(now.slots);
        change = change_set;
        begin(create_set);
        storm(take_set);
    }
    length = ORDERSET_LOG_BYTES(CELLS);
    change = change_log;
    begin(create_log);
    storm(take_log);
    printf("of handles %" PRIu64 " kills, %" PRIu64 " cuts and %" PRIu64 " failed syncs, %" PRIu64
           " in an open and %" PRIu64 " in a call, %" PRIu64 " of these done, %" PRIu64
           " changes and messages answered; creates killed %" PRIu64 " times, %" PRIu64 " of these done; ",
           kills, cuts, failures, in_open, struck, done_unanswered, answered, made + not_made, made);
    return failures == 0 || struck == 0 || in_open == 0;
}
