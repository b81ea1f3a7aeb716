/* Any bytes as the file that orderset check, show, log, copy and dump are given, and as the text of load and trace:
 * each ends with status 0, 1 or 2, and what it prints goes nowhere. The command is in this program with its main
 * renamed; an end of it is a jump. */
#define _GNU_SOURCE
#include <fcntl.h>
#include <setjmp.h>
#include <stdio.h>
#include <stdlib.h>
#include <string.h>
#include <unistd.h>

#include "fuzz.h"
#include "tool.h"

int tool_main(int count, char **word);
_Noreturn void fuzz_exit(int status);

static jmp_buf ends;

_Noreturn void fuzz_exit(int status) {
    longjmp(ends, status + 1);
}

/* The words of a line, with the file's name for FILE. */
static int run(const char *line, char *path) {
    char text[200], *word[20], *rest = text;
    int count = 0;
    snprintf(text, sizeof text, "orderset %s", line);
    while (rest)
        word[count++] = strsep(&rest, " ");
    for (int i = 0; i < count; i++)
        if (!strcmp(word[i], "FILE"))
            word[i] = path;
    word[count] = NULL;
    const int ended = setjmp(ends);
    return ended ? ended - 1 : tool_main(count, word);
}

/* Standard input is the file. */
static int run_with_input(const char *line, char *path) {
    if (!freopen(path, "r", stdin))
        fuzz_expect(0, "the file is read");
    return run(line, path);
}

int LLVMFuzzerTestOneInput(const uint8_t *data, size_t size) {
    static const char *const shows[] = {"show FILE",         "show --slots FILE",       "show --count FILE",
                                        "show --svg - FILE", "show --json FILE",        "show --slots --json FILE",
                                        "show --live FILE",  "show --count --json FILE"};
    static const char *const others[] = {"log FILE",
                                         "log --json --live FILE",
                                         "check --heads 7 --json FILE",
                                         "dump FILE",
                                         "copy FILE /nowhere/to",
                                         "copy FILE /nowhere/to --layout 2",
                                         "log --last 2 --raw FILE",
                                         "check --live FILE"};
    char path[40];
    int same = 1, right = 1;
    snprintf(path, sizeof path, "%s", fuzz_file(data, size));
    const int output = dup(STDOUT_FILENO), errors = dup(STDERR_FILENO);
    const int nowhere = open("/dev/null", O_WRONLY | O_CLOEXEC);
    fuzz_expect(dup2(nowhere, STDOUT_FILENO) >= 0 && dup2(nowhere, STDERR_FILENO) >= 0, "the output goes nowhere");
    const int judged = run("check FILE", path), shown = run(shows[0], path);
    for (size_t i = 0; i < sizeof shows / sizeof *shows; i++)
        same &= run(shows[i], path) == shown;
    for (size_t i = 0; i < sizeof others / sizeof *others; i++) {
        const int status = run(others[i], path);
        right &= status >= TOOL_GOOD && status <= TOOL_FAILED;
    }
    right &= run_with_input("load /nowhere/to --slots 9", path) == TOOL_FAILED;
    const int traced = run_with_input("trace --slots 3 -", path);
    fflush(stdout);
    dup2(output, STDOUT_FILENO);
    dup2(errors, STDERR_FILENO);
    close_range((unsigned)output, ~0u, 0); /* a command that ends leaves its files to the system */
    fuzz_expect(right && traced >= TOOL_GOOD && traced <= TOOL_FAILED, "each subcommand ends with its status");
    fuzz_expect(same && shown >= TOOL_GOOD && shown <= TOOL_FAILED && judged <= shown,
                "show judges a file as check does, but for logs");
    return 0;
}
