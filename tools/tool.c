#define _GNU_SOURCE
#include "tool.h"

#include <errno.h>
#include <fcntl.h>
#include <inttypes.h>
#include <signal.h>
#include <stdarg.h>
#include <stdlib.h>
#include <string.h>
#include <sys/file.h>
#include <sys/mman.h>
#include <sys/resource.h>
#include <sys/stat.h>
#include <sys/time.h>
#include <time.h>
#include <unistd.h>

#ifndef MFD_NOEXEC_SEAL
#define MFD_NOEXEC_SEAL 8u
#endif

const char *const tool_class[TOOL_CLASSES] = {"live", "hidden", "removed", "void", "broken", "empty", "unknown"};

/* ---- what is said */

_Noreturn void tool_fail(const char *tool, const char *words, ...) {
    va_list list;
    va_start(list, words);
    fprintf(stderr, "%s: ", tool);
    vfprintf(stderr, words, list);
    fputc('\n', stderr);
    va_end(list);
    exit(TOOL_FAILED);
}

void tool_printed(const struct tool *d, FILE *out, const char *name) {
    if (fflush(out) || ferror(out))
        tool_fail(d->tool, "%s: %s", name, strerror(errno));
}

void tool_options(const char *tool, const char *help, int count, char **word) {
    const struct tool d = {.tool = tool};
    for (int i = 1; i < count && strcmp(word[i], "--"); i++) {
        if (!strcmp(word[i], "--help"))
            fputs(help, stdout);
        else if (!strcmp(word[i], "--version"))
            printf("%s %s\n", tool, orderset_version());
        else
            continue;
        tool_printed(&d, stdout, "standard output");
        exit(TOOL_GOOD);
    }
}

/* ---- how far it is */

static struct {
    const char *tool, *what;
    uint32_t all;
} step;
volatile uint32_t tool_done;

static char *put_text(char *to, const char *end, const char *text) {
    while (*text && to < end)
        *to++ = *text++;
    return to;
}

static char *put_number(char *to, const char *end, uint32_t number) {
    char digits[12];
    size_t at = sizeof digits;
    digits[--at] = 0;
    do
        digits[--at] = (char)('0' + number % 10);
    while (number /= 10);
    return put_text(to, end, digits + at);
}

/* In a handler of a signal: only what may be called there. */
static void tell(int number) {
    char line[400], *to = line;
    const char *end = line + sizeof line - 1;
    const int error = errno;
    (void)number;
    to = put_text(put_text(put_text(to, end, step.tool), end, ": "), end, step.what);
    if (step.all) {
        to = put_number(put_text(to, end, ", "), end, tool_done);
        to = put_number(put_text(to, end, " of "), end, step.all);
    }
    *to++ = '\n';
    if (write(STDERR_FILENO, line, (size_t)(to - line)) < 0)
        errno = error;
    errno = error;
}

static void each_second(time_t seconds) {
    const struct itimerval timer = {{seconds, 0}, {seconds, 0}};
    setitimer(ITIMER_REAL, &timer, NULL);
}

void tool_step(const char *tool, const char *what, uint32_t all) {
    struct sigaction action = {.sa_handler = tell, .sa_flags = SA_RESTART};
    tool_rest();
    step.tool = tool;
    step.what = what;
    step.all = all;
    tool_done = 0;
    sigaction(SIGALRM, &action, NULL);
    each_second(1);
}

void tool_rest(void) {
    each_second(0);
}

/* ---- the file. The model of lock, open_locked and read_all is src/area.c, with lock, open_locked and read_at.
 * They are not shared: the library has no global names but those of its headers. */

enum { TRIES = 20, PAUSE = 10000000 /* nanoseconds */ };

/* A writer has the lock for as long as it has the file open, a create for a moment: so it is worth a few tries. */
static uint32_t lock(int file, int *tries) {
    while (flock(file, LOCK_SH | LOCK_NB)) {
        struct timespec rest = {0, PAUSE};
        if (errno != EWOULDBLOCK && errno != EINTR)
            return ORDERSET_ERRNO;
        if (--*tries < 0)
            return ORDERSET_LOCKED;
        while (nanosleep(&rest, &rest) && errno == EINTR)
            ;
    }
    return ORDERSET_OK;
}

/* The file that has the name when it is locked. */
static uint32_t open_locked(const char *path, int *file, struct stat *found) {
    struct stat named;
    for (int tries = TRIES; tries >= 0; tries--) {
        *file = open(path, O_RDONLY | O_CLOEXEC | O_NONBLOCK);
        if (*file < 0 || fstat(*file, found))
            return ORDERSET_ERRNO;
        if (!S_ISREG(found->st_mode))
            return ORDERSET_NOT_REGULAR;
        const uint32_t number = lock(*file, &tries);
        if (number)
            return number;
        if (fstat(*file, found) || stat(path, &named))
            return ORDERSET_ERRNO;
        if (named.st_dev == found->st_dev && named.st_ino == found->st_ino)
            return ORDERSET_OK;
        close(*file);
        *file = -1;
    }
    return ORDERSET_LOCKED;
}

static int read_all(int file, uint8_t *bytes, size_t length) {
    for (size_t done = 0; done < length;) {
        const ssize_t got = pread(file, bytes + done, length - done, (off_t)done);
        if (got < 0 && errno == EINTR)
            continue;
        if (got == 0)
            errno = EIO; /* the file became shorter */
        if (got <= 0)
            return -1;
        done += (size_t)got;
    }
    return 0;
}

/* Reads the bytes under the lock, and no others after it. A longer file than any set or log is not read: its length is
 * all that is judged. */
static uint32_t read_file(struct tool *d, size_t *length) {
    struct stat found;
    int file = -1;
    uint32_t number = open_locked(d->path, &file, &found);
    *length = number ? 0 : (size_t)found.st_size;
    if (!number && *length <= ORDERSET_IMAGE_BYTES(ORDERSET_SLOTS_MAX)) {
        d->bytes = malloc(*length + 1);
        if (!d->bytes || read_all(file, d->bytes, *length))
            number = ORDERSET_ERRNO;
    }
    const int error = errno;
    if (file >= 0)
        close(file);
    errno = error;
    return number;
}

/* A standard stream that is closed must not become the copy: what is said would be written to it. */
static void hold_streams(const char *tool) {
    int file;
    do
        file = open("/dev/null", O_RDONLY | O_CLOEXEC);
    while (file >= 0 && file <= STDERR_FILENO);
    if (file < 0)
        tool_fail(tool, "/dev/null: %s", strerror(errno));
    close(file);
}

/* The handles open by name: the copy is a file in memory, which has one as long as it is open. Kernels before 6.3 do
 * not know that it is never to be run; later ones may refuse one of which that is not said. */
static int fill_copy(struct tool *d, size_t length) {
    int file = memfd_create("orderset", MFD_CLOEXEC | MFD_NOEXEC_SEAL);
    if (file < 0 && errno == EINVAL)
        file = memfd_create("orderset", MFD_CLOEXEC);
    if (file < 0 || ftruncate(file, (off_t)length))
        return -1;
    for (size_t done = 0; d->bytes && done < length;) {
        const ssize_t put = pwrite(file, d->bytes + done, length - done, (off_t)done);
        if (put < 0 && errno != EINTR)
            return -1;
        done += put < 0 ? 0 : (size_t)put;
    }
    snprintf(d->copy, sizeof d->copy, "/proc/self/fd/%d", file);
    return 0;
}

/* The limit of a file's size is for files in memory too: the copy may have all that the process may ask for. */
static int name_copy(struct tool *d, size_t length) {
    struct rlimit given, most;
    if (getrlimit(RLIMIT_FSIZE, &given))
        return -1;
    most = given;
    most.rlim_cur = most.rlim_max;
    if (setrlimit(RLIMIT_FSIZE, &most))
        return -1;
    const int failed = fill_copy(d, length), error = errno;
    setrlimit(RLIMIT_FSIZE, &given);
    errno = error;
    return failed;
}

void tool_open(struct tool *d, const char *tool, const char *path) {
    size_t length;
    *d = (struct tool){.tool = tool, .path = path};
    hold_streams(tool);
    signal(SIGXFSZ, SIG_IGN); /* a limit of a file's size is a failed write */
    tool_step(tool, "reading and recovering the file", 0);
    uint32_t number = read_file(d, &length);
    if (number == ORDERSET_ERRNO)
        tool_fail(tool, "%s: %s", path, strerror(errno));
    if (!number
        && (name_copy(d, length) || (number = orderset_open(d->copy, ORDERSET_INSPECT, &d->set)) == ORDERSET_ERRNO))
        tool_fail(tool, "%s: its copy in memory: %s", path, strerror(errno));
    if (number)
        tool_fail(tool, "%s: no %" PRIu32 ": %s", path, number, orderset_strerror(number));
    tool_step(tool, "counting the slots", 0);
    orderset_stat(d->set, &d->is);
    tool_rest();
    d->unknown = d->is.slots;
    for (int i = 0; i < ORDERSET_SLOT_UNKNOWN; i++)
        d->unknown -= d->is.count[i];
}

void tool_slot(struct tool *d, uint32_t slot, struct orderset_record *record) {
    uint32_t number = orderset_slot(d->set, slot, record);
    if (number)
        tool_fail(d->tool, "%s: slot %" PRIu32 ": no %" PRIu32 ": %s", d->path, slot, number,
                  orderset_strerror(number));
    tool_done = slot;
}

void tool_print_log(FILE *out, const struct tool *d) {
    struct orderset_log_statistics is;
    struct orderset_log *log;
    if (orderset_log_open(d->copy, ORDERSET_INSPECT, &log))
        return;
    orderset_log_stat(log, &is);
    orderset_log_close(log);
    fprintf(out, "%s: it can be read as a message log of %" PRIu32 " cells", d->path, is.cells);
    if (is.last)
        fprintf(out, ", with messages %" PRIu64 " to %" PRIu64, is.first, is.last);
    fputs(is.last ? "; this tool is for sets\n" : ", which is empty; this tool is for sets\n", out);
}

/* ---- keys, values and slots in words */

void tool_print_key(FILE *out, uint32_t layout, struct orderset_key key) {
    if (layout == ORDERSET_LAYOUT_2)
        fprintf(out, "0x%016" PRIx64 "%016" PRIx64, key.high, key.low);
    else
        fprintf(out, "%" PRIu64, key.low);
}

void tool_print_value(FILE *out, const struct orderset_record *record) {
    struct orderset_order order;
    if (orderset_order_of(record->value, record->length, &order)) {
        fprintf(out, "%s, ordered %" PRIu64 ", filled %" PRIu64, order.state == ORDERSET_SENT ? "sent" : "acknowledged",
                order.ordered, order.filled);
        return;
    }
    fprintf(out, "%" PRIu64 " byte%s", record->length, record->length == 1 ? "" : "s");
    for (uint64_t i = 0; i < record->length; i++)
        fprintf(out, "%s%02x", i ? "" : " ", (unsigned)record->value[i]);
}

void tool_print_slot(FILE *out, uint32_t layout, const struct orderset_record *record) {
    fprintf(out, "slot %" PRIu32 ": %s", record->slot, tool_class[record->slot_class]);
    if (record->slot_class != ORDERSET_SLOT_EMPTY) {
        fputs(record->slot_class == ORDERSET_SLOT_BROKEN ? "; in its words: key " : ", key ", out);
        tool_print_key(out, layout, record->key);
        fprintf(out, ", version %" PRIu64, record->version);
        if (record->records)
            fprintf(out, ", one of %" PRIu32 " of a basket", record->records);
        if (record->slot_class != ORDERSET_SLOT_REMOVE) {
            fputs(": ", out);
            tool_print_value(out, record);
        }
    }
    if (record->fault)
        fprintf(out, "; no %" PRIu32 ": %s", record->fault, orderset_strerror(record->fault));
}
