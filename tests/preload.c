/* What happens between two calls of a program under test, by LD_PRELOAD. The environment says what:
 *
 *     PRELOAD_SWAP=WHAT  PRELOAD_FILE=NAME    when the file of that name is closed for the first time, the name becomes
 *                                             a fifo, a file that is short, or other: the file NAME.other; where WHAT
 *                                             is cut, the file is cut short before it is read for the first time
 *     PRELOAD_FULL=1                          no file gets a block (ENOSPC)
 *     PRELOAD_OTHER_BYTES=1                   what a program has written to a file is read otherwise by it
 *     PRELOAD_NO_RENAME=1                     RENAME_NOREPLACE is not known (EINVAL)
 *     PRELOAD_NO_LOCK=1                       the file system has no locks (ENOLCK)
 *     PRELOAD_NO_UNLINK=1                     no name can be removed (EPERM)
 *     PRELOAD_NO_SYNC=1                       no mapped page is synced (EIO)
 *     PRELOAD_MEMORY=1                        files are mapped as if they were on non-volatile memory (MAP_SYNC)
 *     PRELOAD_XFS=1                           as PRELOAD_MEMORY, on xfs, which does not tell whether blocks are shared
 */
#define _GNU_SOURCE
#include <dlfcn.h>
#include <errno.h>
#include <linux/fiemap.h>
#include <linux/fs.h>
#include <stdarg.h>
#include <stdio.h>
#include <stdlib.h>
#include <string.h>
#include <sys/file.h>
#include <sys/ioctl.h>
#include <sys/mman.h>
#include <sys/stat.h>
#include <sys/syscall.h>
#include <sys/vfs.h>
#include <unistd.h>

static void swap(const char *what, const char *path) {
    char other[4096];
    snprintf(other, sizeof other, "%s.other", path);
    if (strcmp(what, "other") == 0   ? rename(other, path)
        : strcmp(what, "short") == 0 ? truncate(path, 200)
                                     : unlink(path) || mkfifo(path, 0600))
        abort();
}

/* Whether it is the file that PRELOAD_FILE names, and that is to be done for the first time. */
static int is_due(int file, int cut) {
    static int done;
    const char *what = getenv("PRELOAD_SWAP"), *path = getenv("PRELOAD_FILE");
    struct stat opened, named;
    const int due = what && path && !done && cut == !strcmp(what, "cut") && fstat(file, &opened) == 0
                    && stat(path, &named) == 0 && opened.st_dev == named.st_dev && opened.st_ino == named.st_ino;
    done |= due;
    return due;
}

int close(int file) {
    const int due = is_due(file, 0), failed = (int)syscall(SYS_close, file);
    if (due)
        swap(getenv("PRELOAD_SWAP"), getenv("PRELOAD_FILE"));
    return failed;
}

static int written = -1; /* the file that was written last */

ssize_t pread(int file, void *bytes, size_t length, off_t from) {
    if (is_due(file, 1))
        swap("short", getenv("PRELOAD_FILE"));
    const ssize_t got = syscall(SYS_pread64, file, bytes, length, from);
    if (getenv("PRELOAD_OTHER_BYTES") && file == written && got > 200)
        ((char *)bytes)[192 - from % 64] ^= 1; /* the mark of line B of slot 1 */
    return got;
}

ssize_t pwrite(int file, const void *bytes, size_t length, off_t from) {
    written = file;
    return syscall(SYS_pwrite64, file, bytes, length, from);
}

/* the library's own, which also goes on where the file system has no such call */
int posix_fallocate(int file, off_t from, off_t length) {
    int (*next)(int, off_t, off_t);
    void *const found = dlsym(RTLD_NEXT, "posix_fallocate");
    memcpy(&next, &found, sizeof next);
    return getenv("PRELOAD_FULL") ? ENOSPC : next(file, from, length);
}

/* as a compiler may call it that tests lengths */
ssize_t __pread_chk(int file, void *bytes, size_t length, off_t from, size_t room);
ssize_t __pread_chk(int file, void *bytes, size_t length, off_t from, size_t room) {
    return length > room ? (abort(), -1) : pread(file, bytes, length, from);
}

int renameat2(int from, const char *old, int to, const char *new, unsigned flags) {
    if (getenv("PRELOAD_NO_RENAME") && flags) {
        errno = EINVAL;
        return -1;
    }
    return (int)syscall(SYS_renameat2, from, old, to, new, flags);
}

int flock(int file, int how) {
    if (getenv("PRELOAD_NO_LOCK")) {
        errno = ENOLCK;
        return -1;
    }
    return (int)syscall(SYS_flock, file, how);
}

int unlink(const char *path) {
    if (getenv("PRELOAD_NO_UNLINK")) {
        errno = EPERM;
        return -1;
    }
    return (int)syscall(SYS_unlink, path);
}

int msync(void *address, size_t length, int flags) {
    if (getenv("PRELOAD_NO_SYNC")) {
        errno = EIO;
        return -1;
    }
    return (int)syscall(SYS_msync, address, length, flags);
}

int fstatfs(int file, struct statfs *found) {
    const int failed = (int)syscall(SYS_fstatfs, file, found);
    if (getenv("PRELOAD_XFS"))
        found->f_type = 0x58465342;
    return failed;
}

int ioctl(int file, unsigned long request, ...) {
    va_list list;
    va_start(list, request);
    void *argument = va_arg(list, void *);
    va_end(list);
    if (getenv("PRELOAD_XFS") && request == FS_IOC_FIEMAP) {
        errno = EOPNOTSUPP;
        return -1;
    }
    return (int)syscall(SYS_ioctl, file, request, argument);
}

void *mmap(void *address, size_t size, int access, int flags, int file, off_t offset) {
    const int sync = file >= 0 && (flags & MAP_SYNC);
    if (sync && (getenv("PRELOAD_MEMORY") || getenv("PRELOAD_XFS")))
        flags = MAP_SHARED;
    return (void *)syscall(SYS_mmap, address, size, access, flags, file, offset);
}
