/* A slow disk with a cache, for the program under test: linked into it with --wrap in the place of mmap, msync, fsync,
 * renameat2 and, where it writes to the file, pwrite. The file that DISK_SHADOW names holds what is durable of the
 * image: only a sync brings anything there, a word at a time, so that a kill in the middle of one leaves each line some
 * number of its stores. Of a program with several files DISK_SHADOWS names a folder, with such a file of the name of
 * each. The file that DISK_LOG names gets a line for each sync and each rename. After as many syncs as
 * DISK_FAILS says, all fail. A sync that fails leaves the pages clean: an fsync writes nothing, until an msync of the
 * whole image went well or the whole file was written. DISK_SHADOW is not set when the program makes a file. */
#define _GNU_SOURCE
#include <errno.h>
#include <fcntl.h>
#include <stdint.h>
#include <stdio.h>
#include <stdlib.h>
#include <string.h>
#include <sys/mman.h>
#include <sys/stat.h>
#include <sys/syscall.h>
#include <unistd.h>

enum { SLOW = 100 }; /* microseconds before a sync and after it */

void *__real_mmap(void *address, size_t length, int access, int flags, int file, off_t offset);
int __real_renameat2(int from, const char *old, int to, const char *new, unsigned flags);

/* The files that were mapped, the last one last. */
enum { FILES = 8 };
static struct mapped {
    uint64_t *image, *shadow;
    size_t length;
} mapped[FILES];

static void note(const char *line) {
    const char *path = getenv("DISK_LOG");
    int log = path ? open(path, O_WRONLY | O_CREAT | O_APPEND | O_CLOEXEC, 0600) : -1;
    if (log >= 0 && write(log, line, strlen(line)) != (ssize_t)strlen(line))
        abort();
    close(log);
}

/* What is durable of this open file: null where nobody asks. */
static uint64_t *shadow_of(int file, size_t length) {
    const char *path = getenv("DISK_SHADOW"), *folder = getenv("DISK_SHADOWS");
    char link[64], name[1024], other[2048];
    if (!path && folder) {
        snprintf(link, sizeof link, "/proc/self/fd/%d", file);
        const ssize_t size = readlink(link, name, sizeof name - 1);
        name[size < 0 ? 0 : size] = 0;
        snprintf(other, sizeof other, "%s%s", folder, strrchr(name, '/') ? strrchr(name, '/') : "/");
        path = other;
    }
    const int durable = path ? open(path, O_RDWR | O_CLOEXEC) : -1;
    void *found = durable < 0 ? MAP_FAILED : __real_mmap(NULL, length, PROT_READ | PROT_WRITE, MAP_SHARED, durable, 0);
    close(durable);
    return found == MAP_FAILED ? NULL : found;
}

/* No non-volatile memory here. */
void *__wrap_mmap(void *address, size_t length, int access, int flags, int file, off_t offset) {
    if (file >= 0 && (flags & MAP_SYNC) == MAP_SYNC) {
        errno = EOPNOTSUPP;
        return MAP_FAILED;
    }
    void *found = __real_mmap(address, length, access, flags, file, offset);
    if (file >= 0 && found != MAP_FAILED) {
        memmove(mapped, mapped + 1, sizeof mapped - sizeof mapped[0]);
        mapped[FILES - 1] = (struct mapped){found, shadow_of(file, length), length};
    }
    return found;
}

/* The file that says that a sync failed. It outlives the process. */
static const char *mark(void) {
    static char name[1024];
    const char *path = getenv("DISK_SHADOW");
    if (!path || snprintf(name, sizeof name, "%s.clean", path) >= (int)sizeof name)
        return NULL;
    return name;
}

static int fails(void) {
    static long left = -1;
    const char *number = getenv("DISK_FAILS");
    if (!number)
        return 0;
    if (left < 0)
        left = atol(number);
    if (left == 0) {
        close(mark() ? open(mark(), O_WRONLY | O_CREAT | O_CLOEXEC, 0600) : -1);
        errno = EIO;
        return 1;
    }
    left--;
    return 0;
}

static void sync_words(const struct mapped *is, size_t first, size_t end) {
    const int asked = getenv("DISK_SHADOW") || getenv("DISK_SHADOWS"); /* else it is that of a file from before */
    usleep(SLOW);
    for (size_t i = first; asked && is->shadow && i < end && i < is->length / 8; i++)
        ((volatile uint64_t *)is->shadow)[i] = ((volatile uint64_t *)is->image)[i];
    usleep(SLOW);
}

int __wrap_msync(void *address, size_t length, int flags) {
    const uint64_t *const word = address;
    const struct mapped *is = mapped + FILES;
    do {
        if (is == mapped)
            abort();
        is--;
    } while (!is->image || word < is->image || word >= is->image + is->length / 8);
    if (flags != MS_SYNC)
        abort();
    if (fails())
        return -1;
    if (mark() && length == is->length)
        unlink(mark());
    sync_words(is, (size_t)(word - is->image), (size_t)(word - is->image) + length / 8);
    note("sync file\n");
    return 0;
}

/* The whole file, whether it is mapped or not. */
static void sync_file(int file, size_t length) {
    void *found = __real_mmap(NULL, length, PROT_READ, MAP_SHARED, file, 0);
    if (found == MAP_FAILED)
        abort();
    const struct mapped is = {found, shadow_of(file, length), length};
    sync_words(&is, 0, length / 8);
    munmap(found, length);
    if (is.shadow)
        munmap(is.shadow, length);
}

int __wrap_fsync(int file) {
    struct stat found;
    if (fstat(file, &found) || fails())
        return -1;
    const int asked = getenv("DISK_SHADOW") || getenv("DISK_SHADOWS");
    if (S_ISREG(found.st_mode) && asked && !(mark() && access(mark(), F_OK) == 0))
        sync_file(file, (size_t)found.st_size);
    else
        usleep(SLOW);
    note(S_ISDIR(found.st_mode) ? "sync directory\n" : "sync file\n");
    return 0;
}

ssize_t __wrap_pwrite(int file, const void *bytes, size_t size, off_t offset) {
    struct stat found;
    if (mark() && fstat(file, &found) == 0 && offset == 0 && size == (size_t)found.st_size)
        unlink(mark());
    return syscall(SYS_pwrite64, file, bytes, size, offset);
}

int __wrap_renameat2(int from, const char *old, int to, const char *new, unsigned flags) {
    note("rename\n");
    return __real_renameat2(from, old, to, new, flags);
}
