#define _GNU_SOURCE
#include "pieces.h"

#include <inttypes.h>
#include <signal.h>
#include <stdarg.h>
#include <stdio.h>
#include <stdlib.h>
#include <string.h>
#include <sys/mman.h>
#include <unistd.h>

#include "chance.h"

enum { NEAR = 64 };

const char *called = "";
uint64_t calls;

void show(const char *what, ...) {
    va_list list;
    printf("\nNOT SO: ");
    va_start(list, what);
    vprintf(what, list);
    va_end(list);
    printf("\nseed %" PRIu64 ", call %" PRIu64 ", %s\n", seed, calls, called);
    for (int i = 0; i < pieces; i++)
        printf("%s %zu bytes at the %s; ", piece[i].name, piece[i].length, piece[i].at ? "end" : "beginning");
    printf("\n");
    fflush(stdout);
}

static void fault(int number, siginfo_t *info, void *context) {
    (void)context;
    const uint8_t *where = info->si_addr;
    for (int i = 0; i < pieces; i++)
        for (int j = 0; j < 2; j++) {
            const uint8_t *start = (j ? piece[i].read : piece[i].write) + piece[i].at;
            if (where < start - PAGE - piece[i].at || where >= start - piece[i].at + piece[i].room + PAGE)
                continue;
            show("signal %d: %s is touched at byte %td of %zu%s", number, piece[i].name, where - start, piece[i].length,
                 j ? ", lent for reading" : "");
            _exit(1);
        }
    show("signal %d at %p", number, info->si_addr);
    _exit(1);
}

static uint8_t *map_between(int file, size_t room, int access) {
    uint8_t *all = mmap(NULL, room + 2 * PAGE, PROT_NONE, MAP_PRIVATE | MAP_ANONYMOUS, -1, 0);
    if (all == MAP_FAILED || mmap(all + PAGE, room, access, MAP_SHARED | MAP_FIXED, file, 0) == MAP_FAILED)
        abort();
    return all + PAGE;
}

void make_pieces(void) {
    static uint8_t stack[1 << 16];
    stack_t other = {.ss_sp = stack, .ss_size = sizeof stack};
    struct sigaction action = {.sa_sigaction = fault, .sa_flags = SA_SIGINFO | SA_ONSTACK};
    for (struct piece *p = piece; p < piece + pieces; p++) {
        int file = memfd_create(p->name, 0);
        if (file < 0 || ftruncate(file, (off_t)p->room))
            abort();
        p->write = map_between(file, p->room, PROT_READ | PROT_WRITE);
        p->read = map_between(file, p->room, PROT_READ);
        p->before = malloc(p->room);
        close(file);
    }
    if (sysconf(_SC_PAGESIZE) != PAGE || sigaltstack(&other, NULL) || sigaction(SIGSEGV, &action, NULL)
        || sigaction(SIGBUS, &action, NULL))
        abort();
}

void place(int what, size_t bytes) {
    piece[what].length = bytes;
    piece[what].at = below(2) ? 0 : piece[what].room - bytes;
}

void *w(int what) {
    return piece[what].write + piece[what].at;
}

const void *r(int what) {
    return piece[what].read + piece[what].at;
}

/* ---- before and after a call */

static size_t from(const struct piece *p) {
    return p->at > NEAR ? p->at - NEAR : 0;
}

static size_t to(const struct piece *p) {
    return p->at + p->length + NEAR < p->room ? p->at + p->length + NEAR : p->room;
}

void same(const struct piece *p, size_t start, size_t end, const char *why) {
    if (memcmp(p->write + start, p->before + start, end - start) == 0)
        return;
    show("%s changed, %s", p->name, why);
    exit(1);
}

void begin_call(const char *name, const int *writable) {
    calls++;
    called = name;
    for (; *writable != NONE; writable++) {
        const struct piece *p = &piece[*writable];
        memcpy(p->before + from(p), p->write + from(p), to(p) - from(p));
    }
}

void end_call(int refused, const int *writable) {
    for (; *writable != NONE; writable++) {
        const struct piece *p = &piece[*writable];
        same(p, from(p), p->at, "before what was lent");
        same(p, p->at + p->length, to(p), "after what was lent");
        if (refused)
            same(p, p->at, p->at + p->length, "by a refused call");
    }
}
