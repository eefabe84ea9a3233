/* Fails one call that a program makes on the files of a folder, or records all of them. It is preloaded into the program (LD_PRELOAD).
   These are variables of the environment:

       CALLS_FOLDER   the folder, an absolute path without links, by which the program is given it too
       FAIL_CALL      the number of the call that fails, counted from 1 over all kinds of calls
       FAIL_ERROR     the number of the error, or `short`: a write of several bytes then writes half of them, and another call does not fail
       CALLS_RECORD   a file to which each call is added with what it changes, and each write to standard output with its length
       FAIL_MARK      a file that gets the name of the call that failed

   A line of the record is a call that succeeded: its name, the inode, and the offset and the bytes (hexadecimal) of a write, the length of a
   cut, or the names of a renaming. A read of standard input and a write to standard output have their lengths. The write is recorded before it
   is made, all other calls after that. */
#define _GNU_SOURCE
#include <dlfcn.h>
#include <errno.h>
#include <fcntl.h>
#include <limits.h>
#include <stdarg.h>
#include <stdio.h>
#include <stdlib.h>
#include <string.h>
#include <sys/file.h>
#include <sys/stat.h>
#include <sys/syscall.h>
#include <sys/uio.h>
#include <unistd.h>

static const char *folder, *mark_path;
static int record_file = -1, error_number, is_short;
static long left;

__attribute__((constructor)) static void start(void) {
    const char *error = getenv("FAIL_ERROR"), *record = getenv("CALLS_RECORD"), *number = getenv("FAIL_CALL");
    folder = getenv("CALLS_FOLDER");
    mark_path = getenv("FAIL_MARK");
    left = number ? atol(number) : 0;
    is_short = error && !strcmp(error, "short");
    error_number = error ? atoi(error) : EIO;
    if (record) record_file = syscall(SYS_openat, AT_FDCWD, record, O_WRONLY | O_CREAT | O_APPEND | O_CLOEXEC, 0600);
}

static void raw_write(int file, const char *text, size_t size) {
    while (size > 0) {
        long done = syscall(SYS_write, file, text, size);
        if (done <= 0) return;
        text += done;
        size -= done;
    }
}

static int path_is_inside(const char *path) {
    size_t size = folder ? strlen(folder) : 0;
    return size && !strncmp(path, folder, size) && (path[size] == 0 || path[size] == '/');
}

static int is_inside(int file) {
    char link[64], path[PATH_MAX];
    if (!folder) return 0;
    snprintf(link, sizeof link, "/proc/self/fd/%d", file);
    ssize_t size = readlink(link, path, sizeof path - 1);
    if (size < 0) return 0;
    path[size] = 0;
    return path_is_inside(path);
}

static unsigned long inode(int file) {
    struct stat about;
    return fstat(file, &about) ? 0 : about.st_ino;
}

/* Counts a call on the folder, and returns whether it is the one that fails. */
static int fails(const char *name) {
    if (left == 0 || __atomic_sub_fetch(&left, 1, __ATOMIC_SEQ_CST) != 0) return 0;
    if (mark_path) {
        int file = syscall(SYS_openat, AT_FDCWD, mark_path, O_WRONLY | O_CREAT | O_TRUNC, 0600);
        raw_write(file, name, strlen(name));
        syscall(SYS_close, file);
    }
    errno = error_number;
    return 1;
}

static int fails_on(int file, const char *name) { return is_inside(file) && fails(name) && !is_short; }

static void record(const char *format, ...) {
    char line[2 * PATH_MAX + 64];
    va_list arguments;
    if (record_file < 0) return;
    va_start(arguments, format);
    int size = vsnprintf(line, sizeof line, format, arguments);
    va_end(arguments);
    raw_write(record_file, line, size);
}

static void record_bytes(int file, long offset, const unsigned char *bytes, size_t size) {
    if (record_file < 0) return;
    char *line = malloc(2 * size + 96);
    int used = sprintf(line, "write %lu %ld ", inode(file), offset);
    for (size_t at = 0; at < size; at++) used += sprintf(line + used, "%02x", bytes[at]);
    line[used++] = '\n';
    raw_write(record_file, line, used);
    free(line);
}

#define REAL(name) ((__typeof__(&name))dlsym(RTLD_NEXT, #name))

/* Opening. The new length of a file that is cut is recorded as a cut. */

static int opened(const char *path, int flags, int file) {
    if (file >= 0 && path_is_inside(path)) {
        record("open %lu %s\n", inode(file), path);
        if (flags & O_TRUNC) record("cut %lu 0\n", inode(file));
    }
    return file;
}

#define OPEN(name)                                                                    \
    int name(const char *path, int flags, ...) {                                      \
        va_list arguments;                                                            \
        va_start(arguments, flags);                                                   \
        int mode = va_arg(arguments, int);                                            \
        va_end(arguments);                                                            \
        if (path_is_inside(path) && fails("open") && !is_short) return -1;            \
        return opened(path, flags, REAL(name)(path, flags, mode));                    \
    }
OPEN(open)
OPEN(open64)

#define OPENAT(name)                                                                  \
    int name(int at, const char *path, int flags, ...) {                              \
        va_list arguments;                                                            \
        va_start(arguments, flags);                                                   \
        int mode = va_arg(arguments, int);                                            \
        va_end(arguments);                                                            \
        if (path_is_inside(path) && fails("open") && !is_short) return -1;            \
        return opened(path, flags, REAL(name)(at, path, flags, mode));                \
    }
OPENAT(openat)
OPENAT(openat64)

/* Reading. */

static ssize_t received(int file, ssize_t done) {
    if (file == 0 && done > 0) record("in %zd\n", done);
    return done;
}

ssize_t read(int file, void *bytes, size_t size) { return fails_on(file, "read") ? -1 : received(file, REAL(read)(file, bytes, size)); }
ssize_t readv(int file, const struct iovec *parts, int count) {
    return fails_on(file, "read") ? -1 : received(file, REAL(readv)(file, parts, count));
}
ssize_t pread(int file, void *bytes, size_t size, off_t at) { return fails_on(file, "read") ? -1 : REAL(pread)(file, bytes, size, at); }
ssize_t pread64(int file, void *bytes, size_t size, off64_t at) { return fails_on(file, "read") ? -1 : REAL(pread64)(file, bytes, size, at); }
int flock(int file, int how) { return fails_on(file, "flock") ? -1 : REAL(flock)(file, how); }

/* Writing. Returns how many bytes are to be written: all, half, or -1 if the call fails. */

static ssize_t allowed(int file, size_t size) {
    if (file == 1) record("out %zu\n", size);
    if (!is_inside(file) || !fails("write")) return size;
    if (!is_short) return -1;
    return size > 1 ? size / 2 : size;
}

static ssize_t written(int file, long at, const void *bytes, ssize_t done) {
    if (done > 0 && file != 1 && is_inside(file)) record_bytes(file, at, bytes, done);
    return done;
}

ssize_t write(int file, const void *bytes, size_t size) {
    ssize_t most = allowed(file, size);
    long at = folder && file > 2 ? lseek(file, 0, SEEK_CUR) : 0;
    return most < 0 ? -1 : written(file, at, bytes, REAL(write)(file, bytes, most));
}

ssize_t pwrite(int file, const void *bytes, size_t size, off_t at) {
    ssize_t most = allowed(file, size);
    return most < 0 ? -1 : written(file, at, bytes, REAL(pwrite)(file, bytes, most, at));
}

ssize_t pwrite64(int file, const void *bytes, size_t size, off64_t at) {
    ssize_t most = allowed(file, size);
    return most < 0 ? -1 : written(file, at, bytes, REAL(pwrite64)(file, bytes, most, at));
}

/* Only the first part is written, as the system may do at any time. */
ssize_t writev(int file, const struct iovec *parts, int count) {
    for (int place = 0; place < count; place++)
        if (parts[place].iov_len > 0) return write(file, parts[place].iov_base, parts[place].iov_len);
    return 0;
}

/* Syncs, cuts and renamings. */

#define SYNC(name)                                                                    \
    int name(int file) {                                                              \
        if (fails_on(file, #name)) return -1;                                         \
        int done = REAL(name)(file);                                                  \
        if (!done && is_inside(file)) record("sync %lu\n", inode(file));              \
        return done;                                                                  \
    }
SYNC(fsync)
SYNC(fdatasync)

#define CUT(name, offset)                                                             \
    int name(int file, offset size) {                                                 \
        if (fails_on(file, "ftruncate")) return -1;                                   \
        int done = REAL(name)(file, size);                                            \
        if (!done && is_inside(file)) record("cut %lu %ld\n", inode(file), (long)size); \
        return done;                                                                  \
    }
CUT(ftruncate, off_t)
CUT(ftruncate64, off64_t)

int renameat2(int from, const char *old, int to, const char *new, unsigned flags) {
    if (path_is_inside(old) && fails("rename") && !is_short) return -1;
    int done = syscall(SYS_renameat2, from, old, to, new, flags);
    if (!done && path_is_inside(old)) record("rename %s %s\n", old, new);
    return done;
}

int renameat(int from, const char *old, int to, const char *new) { return renameat2(from, old, to, new, 0); }
int rename(const char *old, const char *new) { return renameat2(AT_FDCWD, old, AT_FDCWD, new, 0); }
