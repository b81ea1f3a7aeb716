/* orderset: the command for the support desk. Each subcommand has a file and a manual page of its own. */
#include <signal.h>
#include <string.h>

#include "tool.h"

static const struct subcommand *const subcommands[] = {
    &create_command, &create_log_command, &show_command, &check_command, &log_command,
    &copy_command,   &dump_command,       &load_command, &trace_command,
};
enum { SUBCOMMANDS = sizeof subcommands / sizeof *subcommands };

static void print_help(void) {
    fputs("usage: orderset SUBCOMMAND [OPTION...] [FILE...]\n", stdout);
    for (size_t i = 0; i < SUBCOMMANDS; i++)
        printf("  %-11s %s\n", subcommands[i]->name, subcommands[i]->summary);
    fputs("orderset SUBCOMMAND --help tells more, and so does the manual page, as man orderset-show.\n"
          "Status: 0 all is well; 1 there is something to see to; 2 it could not be done.\n",
          stdout);
}

/* --help and --version, wherever they stand among the options. */
static int is_answered(int count, char **word, const struct subcommand *of) {
    for (int i = 0; i < count && strcmp(word[i], "--"); i++) {
        if (!strcmp(word[i], "--help") && of)
            fputs(of->help, stdout);
        else if (!strcmp(word[i], "--help"))
            print_help();
        else if (!strcmp(word[i], "--version"))
            printf("orderset %s\n", orderset_version());
        else
            continue;
        return 1;
    }
    return 0;
}

static const struct subcommand *find(const char *name) {
    for (size_t i = 0; i < SUBCOMMANDS; i++)
        if (!strcmp(name, subcommands[i]->name))
            return subcommands[i];
    return NULL;
}

int main(int count, char **word) {
    static char name[40] = "orderset";
    int status = TOOL_GOOD;
    signal(SIGXFSZ, SIG_IGN); /* a limit of a file's size, and a reader that is gone, are failed writes */
    signal(SIGPIPE, SIG_IGN);
    const struct subcommand *of = count > 1 ? find(word[1]) : NULL;
    if (of)
        snprintf(name, sizeof name, "orderset %s", of->name);
    tool_name = name;
    if (!is_answered(of ? count - 2 : count - 1, of ? word + 2 : word + 1, of)) {
        if (!of && count > 1)
            tool_usage("no such subcommand: %s", word[1]);
        if (!of)
            tool_usage("which subcommand?");
        status = of->run(count - 2, word + 2);
    }
    tool_printed(stdout, "standard output");
    return status;
}
