#define _GNU_SOURCE
#include "child.h"

#include <fcntl.h>
#include <inttypes.h>
#include <poll.h>
#include <signal.h>
#include <stdarg.h>
#include <stdio.h>
#include <stdlib.h>
#include <string.h>
#include <sys/prctl.h>
#include <sys/wait.h>
#include <unistd.h>

#include "chance.h"

void expect(int holds, const char *what, ...) {
    va_list list;
    if (holds)
        return;
    printf("\nNOT SO: ");
    va_start(list, what);
    vprintf(what, list);
    va_end(list);
    printf("\nseed %" PRIu64 "\n", seed);
    exit(1);
}

struct child start_child(const char *const words[]) {
    int in[2], out[2];
    struct child c = {.first = 0, .end = 0};
    signal(SIGPIPE, SIG_IGN);
    expect(pipe2(in, O_CLOEXEC) == 0 && pipe2(out, O_CLOEXEC) == 0, "pipes");
    fflush(stdout);
    c.pid = fork();
    expect(c.pid >= 0, "a process");
    if (c.pid == 0) {
        prctl(PR_SET_PDEATHSIG, SIGKILL); /* a test that fails leaves no child behind */
        dup2(in[0], 0);
        dup2(out[1], 1);
        dup2(out[1], 2);
        execv(words[0], (char *const *)words);
        _exit(127);
    }
    close(in[0]);
    close(out[1]);
    c.in = in[1];
    c.out = out[0];
    return c;
}

void say(struct child *c, const char *text) {
    size_t length = strlen(text);
    expect(write(c->in, text, length) == (ssize_t)length, "the child takes its input");
}

/* The next byte, or -1 at the end. */
static int next_byte(struct child *c) {
    struct pollfd ready = {.fd = c->out, .events = POLLIN};
    if (c->first == c->end) {
        expect(poll(&ready, 1, 60000) == 1, "the child answers within a minute");
        ssize_t got = read(c->out, c->held, HELD);
        if (got <= 0)
            return -1;
        c->first = 0;
        c->end = (size_t)got;
    }
    return (unsigned char)c->held[c->first++];
}

int hear(struct child *c, char line[LINE]) {
    for (size_t i = 0; i < LINE; i++) {
        int byte = next_byte(c);
        line[i] = (char)byte;
        if (byte < 0 || byte == '\n') {
            line[i] = 0;
            return byte == '\n';
        }
    }
    expect(0, "the child's lines are short");
    return 0;
}

int end_of(struct child *c) {
    int status;
    close(c->in);
    while (next_byte(c) >= 0)
        ;
    close(c->out);
    expect(waitpid(c->pid, &status, 0) == c->pid, "the child ends");
    return WIFEXITED(status) ? WEXITSTATUS(status) : -1;
}

void kill_child(struct child *c) {
    kill(c->pid, SIGKILL);
}
