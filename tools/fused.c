/* A file system over a folder (by libfuse), whose calls fail or take time as variables of the
 * environment say. The first word is the folder; the others go to libfuse.
 *
 * FLUSH and FSYNC: closing what was written, and syncing a file, fails with that error. READ: a
 * read of what is at FROM or beyond fails with that one, and so does each read after it. NOLINK:
 * files get no second name. DELAY: each question about a file's status, and each write, takes so
 * many milliseconds; each read of a KiB takes PACE microseconds. CALLS names a file that gets a
 * letter for each of them: g or w. */
#define FUSE_USE_VERSION 31
#define _GNU_SOURCE
#include <dirent.h>
#include <errno.h>
#include <fcntl.h>
#include <fuse.h>
#include <limits.h>
#include <stdio.h>
#include <stdlib.h>
#include <string.h>
#include <sys/stat.h>
#include <time.h>
#include <unistd.h>

static const char *folder;
struct path {
    char text[PATH_MAX];
};
static struct path under(const char *name) {
    struct path it;
    if (snprintf(it.text, sizeof it.text, "%s%s", folder, name) >= (int)sizeof it.text)
        abort();
    return it;
}
static int answer(long ended) { return ended < 0 ? -errno : (int)ended; }
static int failing(const char *name) { return getenv(name) ? -atoi(getenv(name)) : 0; }
static void note(char call) {
    long delay = getenv("DELAY") ? atol(getenv("DELAY")) : 0;
    struct timespec time = {delay / 1000, delay % 1000 * 1000000};
    if (delay)
        nanosleep(&time, NULL);
    FILE *calls = getenv("CALLS") ? fopen(getenv("CALLS"), "a") : NULL;
    if (calls)
        fputc(call, calls), fclose(calls);
}

static int get_status(const char *name, struct stat *it, struct fuse_file_info *file) {
    note('g');
    return answer(file ? fstat(file->fh, it) : lstat(under(name).text, it));
}
static int list(const char *name, void *into, fuse_fill_dir_t fill, off_t at,
                struct fuse_file_info *file, enum fuse_readdir_flags how) {
    (void)at, (void)file, (void)how;
    DIR *names = opendir(under(name).text);
    if (!names)
        return -errno;
    for (struct dirent *it; (it = readdir(names));)
        fill(into, it->d_name, NULL, 0, 0);
    closedir(names);
    return 0;
}
static int opened(struct fuse_file_info *file, int fd) {
    file->fh = fd;
    file->direct_io = getenv("READ") != NULL;
    return fd < 0 ? -errno : 0;
}
static int make(const char *name, mode_t mode, struct fuse_file_info *file) {
    return opened(file, open(under(name).text, file->flags & ~O_APPEND, mode));
}
static int open_file(const char *name, struct fuse_file_info *file) {
    return opened(file, open(under(name).text, file->flags & ~O_APPEND));
}
static int read_file(const char *name, char *into, size_t size, off_t at,
                     struct fuse_file_info *file) {
    (void)name;
    static int is_broken;
    if (getenv("READ") && (is_broken || at + (off_t)size > atol(getenv("FROM"))))
        is_broken = 1;
    if (is_broken)
        return failing("READ");
    long n = pread(file->fh, into, size, at);
    if (n > 0 && getenv("PACE"))
        usleep(atol(getenv("PACE")) * n / 1024);
    return answer(n);
}
// Something was written since a file was closed.
static int has_written;
static int write_file(const char *name, const char *from, size_t size, off_t at,
                      struct fuse_file_info *file) {
    (void)name;
    note('w');
    has_written = 1;
    return answer(pwrite(file->fh, from, size, at));
}
static int cut(const char *name, off_t length, struct fuse_file_info *file) {
    return answer(file ? ftruncate(file->fh, length) : truncate(under(name).text, length));
}
static int flush(const char *name, struct fuse_file_info *file) {
    (void)name, (void)file;
    int had_written = has_written;
    has_written = 0;
    return had_written ? failing("FLUSH") : 0;
}
static int sync_file(const char *name, int only_data, struct fuse_file_info *file) {
    (void)name, (void)only_data, (void)file;
    return failing("FSYNC");
}
static int release(const char *name, struct fuse_file_info *file) {
    (void)name;
    return answer(close(file->fh));
}
static int rename_file(const char *from, const char *to, unsigned flags) {
    return flags ? -EINVAL : answer(rename(under(from).text, under(to).text));
}
static int link_file(const char *from, const char *to) {
    return getenv("NOLINK") ? -EPERM : answer(link(under(from).text, under(to).text));
}
static int unlink_file(const char *name) { return answer(unlink(under(name).text)); }

int main(int count, char **words) {
    static const struct fuse_operations calls = {
        .getattr = get_status,
        .readdir = list,
        .create = make,
        .open = open_file,
        .read = read_file,
        .write = write_file,
        .truncate = cut,
        .flush = flush,
        .fsync = sync_file,
        .release = release,
        .rename = rename_file,
        .link = link_file,
        .unlink = unlink_file,
    };
    folder = words[1];
    words[1] = words[0];
    return fuse_main(count - 1, words + 1, &calls, NULL);
}
