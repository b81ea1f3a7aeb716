/* child.h: a program that a test runs, and talks to through pipes. */
#ifndef CHILD_H
#define CHILD_H

#include <stddef.h>
#include <sys/types.h>

enum { LINE = 512, HELD = 4096 };

struct child {
    pid_t pid;
    int in, out; /* its standard input; its standard output and error */
    char held[HELD];
    size_t first, end; /* what was read and not heard yet: held[first] up to held[end - 1] */
};

/* Runs the words, the last of which is NULL. */
struct child start_child(const char *const words[]);

void say(struct child *c, const char *text);

/* The next whole line without its end: 1, or 0 where there is no more. A child that says nothing for a minute fails the
 * test. */
int hear(struct child *c, char line[LINE]);

/* Closes its input and waits for it. Its exit status, or -1 where a signal ended it. */
int end_of(struct child *c);

/* A kill -9. What it has said can still be heard; end_of comes after. */
void kill_child(struct child *c);

/* Ends the test with status 1 unless it holds. */
void __attribute__((format(printf, 2, 3))) expect(int holds, const char *what, ...);

#endif
