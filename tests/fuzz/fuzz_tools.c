/* Any bytes as the file that orderset-check and orderset-show are given: each ends with status 0, 1 or 2, and what it
 * prints goes nowhere. The tools are in this program with their main renamed; an end of theirs is a jump. */
#define _GNU_SOURCE
#include <fcntl.h>
#include <setjmp.h>
#include <stdio.h>
#include <stdlib.h>
#include <unistd.h>

#include "fuzz.h"
#include "tool.h"

int check_main(int count, char **word);
int show_main(int count, char **word);
_Noreturn void fuzz_exit(int status);

static jmp_buf ends;

_Noreturn void fuzz_exit(int status) {
    longjmp(ends, status + 1);
}

static int run(int (*tool)(int, char **), int count, char **word) {
    const int ended = setjmp(ends);
    return ended ? ended - 1 : tool(count, word);
}

int LLVMFuzzerTestOneInput(const uint8_t *data, size_t size) {
    char path[40], slots[] = "--slots", counts[] = "--count", heads[] = "--heads=7", svg[] = "--svg", out[] = "-",
                   name[] = "tool";
    char *const option[] = {slots, counts, heads};
    snprintf(path, sizeof path, "%s", fuzz_file(data, size));
    const int output = dup(STDOUT_FILENO), errors = dup(STDERR_FILENO);
    const int nowhere = open("/dev/null", O_WRONLY | O_CLOEXEC);
    fuzz_expect(dup2(nowhere, STDOUT_FILENO) >= 0 && dup2(nowhere, STDERR_FILENO) >= 0, "the output goes nowhere");
    const int judged = run(check_main, 2, (char *[]){name, path, NULL});
    int shown = run(show_main, 2, (char *[]){name, path, NULL}), same = shown == judged;
    for (size_t i = 0; i < sizeof option / sizeof *option; i++)
        same &= run(show_main, 3, (char *[]){name, option[i], path, NULL}) == judged;
    same &= run(show_main, 4, (char *[]){name, svg, out, path, NULL}) == judged;
    fflush(stdout);
    dup2(output, STDOUT_FILENO);
    dup2(errors, STDERR_FILENO);
    close_range((unsigned)output, ~0u, 0); /* a tool that ends leaves its files to the system */
    fuzz_expect(judged >= TOOL_GOOD && judged <= TOOL_FAILED && same, "both tools judge a file alike");
    return 0;
}
