/* Pictures, in SVG: what they have in common, and how one gets its name. */
#define _GNU_SOURCE
#include <errno.h>
#include <fcntl.h>
#include <inttypes.h>
#include <signal.h>
#include <stdlib.h>
#include <string.h>
#include <sys/stat.h>
#include <unistd.h>

#include "tool.h"

const char picture_begins[] = "<?xml version=\"1.0\" encoding=\"UTF-8\"?>\n<!-- orderset: a picture for the desk -->\n";

/* ---- what is drawn */

void svg_begin(FILE *out, uint32_t width, uint32_t height) {
    fputs(picture_begins, out);
    fprintf(out,
            "<svg xmlns=\"http://www.w3.org/2000/svg\" width=\"%" PRIu32 "\" height=\"%" PRIu32
            "\" viewBox=\"0 0 %" PRIu32 " %" PRIu32 "\" font-family=\"sans-serif\" font-size=\"14\">\n"
            "<path d=\"M0 0h%" PRIu32 "v%" PRIu32 "h-%" PRIu32 "z\" fill=\"#ffffff\"/>\n",
            width, height, width, height, width, height, width);
}

void svg_escaped(FILE *out, const char *text) {
    for (; *text; text++) {
        const unsigned char byte = (unsigned char)*text;
        if (byte == '&' || byte == '<' || byte == '>')
            fprintf(out, "&#%u;", (unsigned)byte);
        else
            fputc(byte < ' ' || byte > '~' ? '?' : byte, out);
    }
}

void svg_text(FILE *out, uint32_t x, uint32_t y, const char *attributes, const char *text) {
    fprintf(out, "<text x=\"%" PRIu32 "\" y=\"%" PRIu32 "\"%s>", x, y, attributes);
    svg_escaped(out, text);
    fputs("</text>\n", out);
}

/* ---- a picture, and what it may replace */

/* Whether the file that was found begins as every picture does. */
static int is_picture(const char *path, const struct stat *found) {
    const size_t length = strlen(picture_begins);
    char bytes[100];
    struct stat opened;
    const int file = open(path, O_RDONLY | O_NOFOLLOW | O_NONBLOCK | O_CLOEXEC);
    const int same = file >= 0 && fstat(file, &opened) == 0 && opened.st_dev == found->st_dev
                     && opened.st_ino == found->st_ino && read(file, bytes, length) == (ssize_t)length
                     && !memcmp(bytes, picture_begins, length);
    if (file >= 0)
        close(file);
    return same;
}

/* Why the picture may not get its name, or NULL. *there: a picture of that name is to be replaced. */
static const char *why_not(const char *svg, const char *path, int *there) {
    struct stat found, set;
    *there = lstat(svg, &found) == 0;
    if (!*there)
        return errno == ENOENT ? NULL : strerror(errno);
    if (S_ISLNK(found.st_mode))
        return "a link, and a picture is not written through one";
    if (stat(path, &set) == 0 && found.st_dev == set.st_dev && found.st_ino == set.st_ino)
        return "the picture would take the place of the file that it shows";
    return S_ISREG(found.st_mode) && is_picture(svg, &found)
               ? NULL
               : "it is there, and is no picture of this tool: give another name, or remove it";
}

/* A picture never takes the place of a set: its name ends in .svg. */
void tool_test_picture(const char *svg, const char *path) {
    const size_t length = strlen(svg);
    int there;
    if (!strcmp(svg, "-"))
        return;
    if (length < 5 || strcmp(svg + length - 4, ".svg"))
        tool_usage("the name of the picture must end in .svg: %s", svg);
    const char *why = why_not(svg, path, &there);
    if (why)
        tool_fail("%s: %s", svg, why);
}

/* The picture gets its name, which no other file has, or that of a picture which it replaces. Answers why not, or NULL.
 */
static const char *give_name(const char *fresh, const char *svg, const char *path) {
    int there;
    const char *why = why_not(svg, path, &there);
    if (why)
        return why;
    return (there ? rename(fresh, svg) : orderset_give_name(fresh, svg)) ? strerror(errno) : NULL;
}

/* The mode of a new file. */
static mode_t new_mode(void) {
    const mode_t mask = umask(0);
    umask(mask);
    return 0666 & ~mask;
}

static int write_all(int file, const char *bytes, size_t length) {
    for (size_t done = 0; done < length;) {
        const ssize_t put = write(file, bytes + done, length - done);
        if (put < 0 && errno != EINTR)
            return -1;
        done += put < 0 ? 0 : (size_t)put;
    }
    return 0;
}

/* Writes the picture under another name in the same folder and gives it its own. Signals wait meanwhile: whatever
 * fails, the other name does not stay. */
static void keep_bytes(const char *svg, const char *path, const char *bytes, size_t length) {
    const char *slash = strrchr(svg, '/'), *why = NULL;
    sigset_t all, before;
    char *fresh;
    if (asprintf(&fresh, "%.*s.orderset-picture-XXXXXX", slash ? (int)(slash - svg + 1) : 0, svg) < 0)
        tool_fail("memory: %s", strerror(errno));
    sigfillset(&all);
    sigprocmask(SIG_BLOCK, &all, &before);
    const int file = mkostemp(fresh, O_CLOEXEC);
    if (file < 0)
        tool_fail("%s: %s", svg, strerror(errno));
    if (fchmod(file, new_mode()) || write_all(file, bytes, length) || fsync(file))
        why = strerror(errno);
    if (close(file) && !why)
        why = strerror(errno);
    if (!why)
        why = give_name(fresh, svg, path);
    if (why)
        unlink(fresh);
    sigprocmask(SIG_SETMASK, &before, NULL);
    if (why)
        tool_fail("%s: %s", svg, why);
    free(fresh);
}

void tool_keep_picture(const char *svg, const char *path, void (*draw)(void *of, FILE *out), void *of) {
    char *bytes = NULL;
    size_t length = 0;
    FILE *out = strcmp(svg, "-") ? open_memstream(&bytes, &length) : stdout;
    if (!out)
        tool_fail("memory: %s", strerror(errno));
    draw(of, out);
    tool_printed(out, out == stdout ? "standard output" : "memory");
    if (out == stdout)
        return;
    if (fclose(out))
        tool_fail("memory: %s", strerror(errno));
    keep_bytes(svg, path, bytes, length);
    free(bytes);
}
