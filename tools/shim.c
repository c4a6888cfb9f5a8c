/* A library that is loaded before the C library's. What it does is said by variables of the
 * environment:
 *
 * REFUSED: that allocation fails, counted from 1; with ON all after it too. COUNT names a file that
 * is made then.
 *
 * HELD names a pipe: the first allocation of 8 MiB or more, for a passphrase's key, waits until it
 * was opened to be written, and closed.
 *
 * FSYNC, FTRUNCATE, FLOCK, RENAME, LINK and WRITE (from write number AT on):
 * these fail with that error. ONLY says of which kind of file FSYNC fails: d, f or b; or 1,
 * standard output alone, or out, the file of that name. FROM: it fails from that call on. CLOSE:
 * what is written to such a file is lost, and its next close, but no later one, fails with that
 * error. Each call number EVERY of read and write is interrupted. READ: read number AT of a pipe
 * fails with that error, and no other. STATX: look number AT at a file fails with that error, and
 * with ON each later one; COUNT names a file that is made then.
 *
 * SWAP: `folder` leads to `other` before that write to a place in a file. PIPED: before that open
 * of `saved` to be written a pipe takes its place. TURNED: as `cut` is opened, `saved` becomes a
 * link to that. GONE: `out` is removed before it is opened to be written. LOST: it is, before a
 * file is locked. REPLACED: `another` takes the place of `saved` then. TRIGGER names a file that
 * gets a 1 before the first sync. SYNCED names one that gets a line for each file that is synced.
 *
 * RECORD names a file that gets each call that succeeded and changes what a regular file holds or
 * which names a folder has, waits for the disk, locks, or closes what could be written to. A line
 * has the name of the call and its arguments, with tabs between them: an inode where a file is
 * meant, and a path from the root where a name is. What was written follows its line. A write, a
 * cut or a wait that was made to fail is `broke`. */
#define _GNU_SOURCE
#include <dlfcn.h>
#include <errno.h>
#include <fcntl.h>
#include <limits.h>
#include <stdarg.h>
#include <stdio.h>
#include <stdlib.h>
#include <string.h>
#include <sys/stat.h>
#include <sys/uio.h>
#include <unistd.h>
#define NEXT(name) ((__typeof__(&name))dlsym(RTLD_NEXT, #name))
#define MODE(flags)                                                                                \
    mode_t mode = 0;                                                                               \
    if ((flags) & (O_CREAT | __O_TMPFILE)) {                                                       \
        va_list more;                                                                              \
        va_start(more, flags);                                                                     \
        mode = va_arg(more, mode_t);                                                               \
        va_end(more);                                                                              \
    }

/* ---- allocations ---- */

extern void *__libc_malloc(size_t);
extern void *__libc_calloc(size_t, size_t);
extern void *__libc_realloc(void *, size_t);

static int is_refused(void) {
    static long at = -1, count, on;
    if (at < 0)
        at = getenv("REFUSED") ? atol(getenv("REFUSED")) : 0, on = getenv("ON") != NULL;
    if (at == 0 || ++count < at || (count > at && !on))
        return 0;
    if (getenv("COUNT"))
        close(NEXT(open)(getenv("COUNT"), O_CREAT | O_WRONLY, 0600));
    errno = ENOMEM;
    return 1;
}
static void wait_at_key(size_t n) {
    const char *held = getenv("HELD");
    if (!held || n < 8 << 20)
        return;
    int fd = NEXT(open)(held, O_RDONLY);
    if (fd < 0 || NEXT(read)(fd, &(char){0}, 1) < 0)
        abort();
    NEXT(close)(fd);
    unsetenv("HELD");
}
void *malloc(size_t n) {
    wait_at_key(n);
    return is_refused() ? NULL : __libc_malloc(n);
}
void *calloc(size_t n, size_t m) { return is_refused() ? NULL : __libc_calloc(n, m); }
void *realloc(void *p, size_t n) { return is_refused() ? NULL : __libc_realloc(p, n); }

/* ---- what fails ---- */

static int fails(const char *name) {
    const char *error = getenv(name);
    if (!error)
        return 0;
    errno = atoi(error);
    return 1;
}
static long number(const char *name) { return getenv(name) ? atol(getenv(name)) : 0; }
static int is_interrupted(long *count) {
    if (!number("EVERY") || ++*count % number("EVERY"))
        return 0;
    errno = EINTR;
    return 1;
}
static int ends_in(const char *path, const char *end) {
    size_t n = strlen(path), m = strlen(end);
    return n >= m && !strcmp(path + n - m, end);
}
static int is_meant(int fd) {
    const char *only = getenv("ONLY");
    struct stat it;
    if (only && *only == '1')
        return fd == 1;
    if (only && *only == 'o') {
        char link[64], path[PATH_MAX + 1] = "";
        snprintf(link, sizeof link, "/proc/self/fd/%d", fd);
        return readlink(link, path, PATH_MAX) > 0 && ends_in(path, "/out");
    }
    if (!only || fstat(fd, &it))
        return 1;
    return (S_ISDIR(it.st_mode) && *only == 'd') || (S_ISREG(it.st_mode) && *only == 'f') ||
           (S_ISBLK(it.st_mode) && *only == 'b');
}
static void swap(void) {
    static long count;
    if (number("SWAP") && ++count == number("SWAP") &&
        (rename("folder", "moved") || symlink("other", "folder")))
        abort();
}
static void pipe_up(const char *path) {
    static long count;
    if (number("PIPED") && ends_in(path, "saved") && ++count == number("PIPED") &&
        (unlink(path) || mkfifo(path, 0600)))
        abort();
}
static void turn(const char *path) {
    if (getenv("TURNED") && ends_in(path, "cut") &&
        (unlink("saved") || symlink(getenv("TURNED"), "saved")))
        abort();
}
static void trigger(void) {
    FILE *file = getenv("TRIGGER") ? fopen(getenv("TRIGGER"), "w") : NULL;
    if (file)
        fputs("1\n", file), fclose(file), unsetenv("TRIGGER");
}
static void list(int fd) {
    const char *synced = getenv("SYNCED");
    char link[64], path[PATH_MAX];
    if (!synced)
        return;
    snprintf(link, sizeof link, "/proc/self/fd/%d", fd);
    ssize_t n = readlink(link, path, sizeof path - 1);
    FILE *log = fopen(synced, "a");
    if (log && n > 0)
        path[n] = 0, fprintf(log, "%s\n", path);
    if (log)
        fclose(log);
}

/* ---- the record ---- */

/* Its descriptor is none that the program would have got. */
static int record(void) {
    static int fd = -1;
    if (fd < 0) {
        int made = NEXT(open)(getenv("RECORD"), O_WRONLY | O_APPEND | O_CLOEXEC);
        fd = fcntl(made, F_DUPFD_CLOEXEC, 500);
        NEXT(close)(made);
    }
    return fd;
}
static void note(const char *format, ...) {
    va_list more;
    if (!getenv("RECORD"))
        return;
    va_start(more, format);
    vdprintf(record(), format, more);
    va_end(more);
}
static ino_t regular(int fd) {
    struct stat it;
    return getenv("RECORD") && fstat(fd, &it) == 0 && S_ISREG(it.st_mode) ? it.st_ino : 0;
}
static int broke(int fd) {
    int why = errno;
    ino_t file = regular(fd);
    if (file)
        note("broke\t%lu\n", file);
    errno = why;
    return -1;
}
/* Where a descriptor or the working folder is, followed by a path unless that begins at the root.
 */
struct path {
    char text[2 * PATH_MAX];
};
static struct path path(int folder, const char *name) {
    struct path it;
    char link[64] = "/proc/self/cwd";
    ssize_t n = 0;
    if (folder != AT_FDCWD)
        snprintf(link, sizeof link, "/proc/self/fd/%d", folder);
    if (*name != '/')
        n = readlink(link, it.text, PATH_MAX);
    snprintf(it.text + n, PATH_MAX, *name == '/' ? "%s" : "/%s", name);
    return it;
}

/* ---- the calls ---- */

static int opened(int folder, const char *name, int flags, mode_t mode) {
    struct stat it;
    if (flags & O_ACCMODE)
        pipe_up(name);
    turn(name);
    if ((flags & O_ACCMODE) && !(flags & O_EXCL) && getenv("GONE") && ends_in(name, "out"))
        NEXT(unlink)(name);
    int is_new = getenv("RECORD") && (flags & O_CREAT) && fstatat(folder, name, &it, 0) != 0;
    int fd = NEXT(openat)(folder, name, flags, mode);
    ino_t file = fd >= 0 ? regular(fd) : 0;
    if (file && (flags & O_TMPFILE) == O_TMPFILE)
        note("make\t%lu\n", file);
    else if (file && is_new)
        note("make\t%lu\nlink\t%lu\t%s\n", file, file, path(folder, name).text);
    else if (file && (flags & O_TRUNC))
        note("cut\t%lu\t0\n", file);
    return fd;
}
int open(const char *name, int flags, ...) {
    MODE(flags) return opened(AT_FDCWD, name, flags, mode);
}
int open64(const char *name, int flags, ...) {
    MODE(flags) return opened(AT_FDCWD, name, flags, mode);
}
int openat(int folder, const char *name, int flags, ...) {
    MODE(flags) return opened(folder, name, flags, mode);
}
int openat64(int folder, const char *name, int flags, ...) {
    MODE(flags) return opened(folder, name, flags, mode);
}
int creat(const char *name, mode_t mode) {
    return opened(AT_FDCWD, name, O_CREAT | O_WRONLY | O_TRUNC, mode);
}
int creat64(const char *name, mode_t mode) { return creat(name, mode); }

static int is_refused_read(int fd) {
    static long piped;
    struct stat it;
    return getenv("READ") && fstat(fd, &it) == 0 && S_ISFIFO(it.st_mode) &&
           ++piped == number("AT") && fails("READ");
}
ssize_t read(int fd, void *into, size_t size) {
    static long count;
    if (is_refused_read(fd))
        return -1;
    return is_interrupted(&count) ? -1 : NEXT(read)(fd, into, size);
}

static off_t place(int fd) { return getenv("RECORD") ? NEXT(lseek)(fd, 0, SEEK_CUR) : 0; }
static int is_lost;
static ssize_t wrote(int fd, const void *bytes, ssize_t n, off_t at) {
    if (n > 0 && getenv("CLOSE") && is_meant(fd))
        is_lost = 1;
    ino_t file = n > 0 ? regular(fd) : 0;
    if (file) {
        note("write\t%lu\t%ld\t%zd\n", file, at, n);
        NEXT(write)(record(), bytes, n);
    }
    return n;
}
static int is_refused_write(int fd) {
    static long all;
    return number("AT") && fd > 2 && ++all >= number("AT") && fails("WRITE");
}
ssize_t write(int fd, const void *bytes, size_t size) {
    static long count;
    if (is_interrupted(&count))
        return -1;
    if (is_refused_write(fd))
        return broke(fd);
    ssize_t n = NEXT(write)(fd, bytes, size);
    return n > 0 ? wrote(fd, bytes, n, place(fd) - n) : n;
}
ssize_t pwrite(int fd, const void *bytes, size_t size, off_t at) {
    swap();
    return is_refused_write(fd) ? broke(fd)
                                : wrote(fd, bytes, NEXT(pwrite)(fd, bytes, size, at), at);
}
ssize_t pwrite64(int fd, const void *bytes, size_t size, off_t at) {
    return pwrite(fd, bytes, size, at);
}
ssize_t writev(int fd, const struct iovec *parts, int count) {
    ssize_t n = NEXT(writev)(fd, parts, count), left = n;
    off_t at = n > 0 ? place(fd) - n : 0;
    for (int i = 0; left > 0; i++) {
        ssize_t size = left < (ssize_t)parts[i].iov_len ? left : (ssize_t)parts[i].iov_len;
        at += wrote(fd, parts[i].iov_base, size, at);
        left -= size;
    }
    return n;
}
static int is_refused_look(void) {
    static long looks;
    looks++;
    if (!getenv("STATX") || looks < number("AT") || (looks > number("AT") && !getenv("ON")))
        return 0;
    if (getenv("COUNT"))
        close(NEXT(open)(getenv("COUNT"), O_CREAT | O_WRONLY, 0600));
    return fails("STATX");
}
int statx(int folder, const char *restrict name, int flags, unsigned mask,
          struct statx *restrict found) {
    return is_refused_look() ? -1 : NEXT(statx)(folder, name, flags, mask, found);
}
int ftruncate(int fd, off_t length) {
    int ended = fails("FTRUNCATE") ? broke(fd) : NEXT(ftruncate)(fd, length);
    if (ended == 0)
        note("cut\t%lu\t%ld\n", regular(fd), length);
    return ended;
}
int ftruncate64(int fd, off_t length) { return ftruncate(fd, length); }
int flock(int fd, int how) {
    if (getenv("LOST"))
        NEXT(unlink)("out");
    if (getenv("REPLACED"))
        NEXT(renameat2)(AT_FDCWD, "another", AT_FDCWD, "saved", 0);
    int ended = fails("FLOCK") ? -1 : ((int (*)(int, int))dlsym(RTLD_NEXT, "flock"))(fd, how),
        why = errno;
    ino_t file = regular(fd);
    if (file && (ended == 0 || why != EWOULDBLOCK))
        note(ended == 0 ? "lock\t%lu\n" : "unlockable\t%lu\n", file);
    errno = why;
    return ended;
}

int close(int fd) {
    ino_t file = (fcntl(fd, F_GETFL) & O_ACCMODE) == O_RDONLY ? 0 : regular(fd);
    int tells = is_lost && is_meant(fd), ended = NEXT(close)(fd);
    if (tells && fails("CLOSE"))
        return is_lost = 0, -1;
    if (file && ended == 0)
        note("close\t%lu\n", file);
    return ended;
}

static int synced(int fd, int ended) {
    struct stat it;
    if (ended || !getenv("RECORD") || fstat(fd, &it))
        return ended;
    if (S_ISREG(it.st_mode))
        note("sync\t%lu\n", it.st_ino);
    if (S_ISDIR(it.st_mode))
        note("sync-names\t%s\n", path(fd, ".").text);
    return 0;
}
int fsync(int fd) {
    trigger();
    list(fd);
    static long count;
    return is_meant(fd) && ++count >= number("FROM") && fails("FSYNC")
               ? broke(fd)
               : synced(fd, NEXT(fsync)(fd));
}
int fdatasync(int fd) { return synced(fd, NEXT(fdatasync)(fd)); }

int renameat2(int folder, const char *name, int other, const char *to, unsigned flags) {
    int ended = fails("RENAME") ? -1 : NEXT(renameat2)(folder, name, other, to, flags);
    if (ended == 0)
        note("rename\t%s\t%s\n", path(folder, name).text, path(other, to).text);
    return ended;
}
int renameat(int folder, const char *name, int other, const char *to) {
    return renameat2(folder, name, other, to, 0);
}
int rename(const char *name, const char *to) { return renameat2(AT_FDCWD, name, AT_FDCWD, to, 0); }
int linkat(int folder, const char *name, int other, const char *to, int flags) {
    struct stat it;
    int ended = fails("LINK") ? -1 : NEXT(linkat)(folder, name, other, to, flags);
    if (ended == 0 && fstatat(other, to, &it, AT_SYMLINK_NOFOLLOW) == 0)
        note("link\t%lu\t%s\n", it.st_ino, path(other, to).text);
    return ended;
}
int link(const char *name, const char *to) { return linkat(AT_FDCWD, name, AT_FDCWD, to, 0); }
int unlinkat(int folder, const char *name, int flags) {
    int ended = NEXT(unlinkat)(folder, name, flags);
    if (ended == 0)
        note("unlink\t%s\n", path(folder, name).text);
    return ended;
}
int unlink(const char *name) { return unlinkat(AT_FDCWD, name, 0); }
