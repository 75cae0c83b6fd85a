/* Preloaded before a program, makes one of its calls of the system fail: of those whose letters are in FAIL_CALLS, the one
   whose number REFUSE_AT gives, counted from 1, or each if that is 0. The error is EIO, or the one whose number FAIL_ERROR
   gives. It leaves an empty file at the path REFUSE_MARK to show that it did. The letters
   are o for open, r for read, w for write except to standard error, d for the entries of a folder, s for the state of a file,
   p for the path of a link or of a folder, l for lock, m for mode, y for sync, n for rename and link, and u for unlink. If
   FAIL_KILLS is set, the process is killed before that call instead, and if FAIL_SAVES is set, the file of that path gets the
   text "saved" before it. If FAIL_LOG is set, each of the calls adds a line to the file of that path: its letter and its paths.
   If FAIL_PIECES is set, a read or a write moves one byte at most. If FAIL_SWAPS is set, all files have one inode, and each has
   the number of its inode as that of its device. */
#define _GNU_SOURCE
#include <dlfcn.h>
#include <errno.h>
#include <fcntl.h>
#include <signal.h>
#include <stdarg.h>
#include <stdio.h>
#include <stdlib.h>
#include <string.h>
#include <sys/stat.h>
#include <sys/syscall.h>
#include <unistd.h>

static long calls;

static void append_line(char letter, int file, const char *path, const char *other)
{
    char link[64], name[4096] = "", line[16384];
    const char *log = getenv("FAIL_LOG");
    if (log == NULL)
        return;
    snprintf(link, sizeof link, "/proc/self/fd/%d", file);
    if (path == NULL && syscall(SYS_readlink, link, name, sizeof name - 1) >= 0)
        path = name;
    int length = snprintf(line, sizeof line, "%c %s%s%s\n", letter, path ? path : "", other ? " " : "", other ? other : "");
    int opened = syscall(SYS_open, log, O_WRONLY | O_CREAT | O_APPEND, 0600);
    syscall(SYS_write, opened, line, length);
    syscall(SYS_close, opened);
}

static int fails_at(char letter, int file, const char *path, const char *other)
{
    const char *letters = getenv("FAIL_CALLS");
    const char *at = getenv("REFUSE_AT");
    const char *mark = getenv("REFUSE_MARK");
    if (letters == NULL || strchr(letters, letter) == NULL)
        return 0;
    append_line(letter, file, path, other);
    calls += 1;
    if (at == NULL || mark == NULL || (atol(at) != calls && atol(at) != 0))
        return 0;
    syscall(SYS_close, syscall(SYS_open, mark, O_WRONLY | O_CREAT, 0600));
    if (getenv("FAIL_KILLS") != NULL)
        kill(getpid(), SIGKILL);
    if (getenv("FAIL_SAVES") != NULL) {
        int saved = syscall(SYS_open, getenv("FAIL_SAVES"), O_WRONLY | O_CREAT | O_TRUNC, 0666);
        syscall(SYS_write, saved, "saved", 5);
        syscall(SYS_close, saved);
        return 0;
    }
    errno = getenv("FAIL_ERROR") != NULL ? atoi(getenv("FAIL_ERROR")) : EIO;
    return 1;
}

static int fails(char letter, int file) { return fails_at(letter, file, NULL, NULL); }

static size_t piece(size_t count) { return getenv("FAIL_PIECES") != NULL && count > 1 ? 1 : count; }

int openat(int folder, const char *path, int flags, ...)
{
    va_list more;
    va_start(more, flags);
    mode_t mode = flags & O_CREAT ? va_arg(more, mode_t) : 0;
    va_end(more);
    return fails_at('o', folder, path, NULL) ? -1 : syscall(SYS_openat, folder, path, flags, mode);
}

int open(const char *path, int flags, ...)
{
    va_list more;
    va_start(more, flags);
    mode_t mode = flags & O_CREAT ? va_arg(more, mode_t) : 0;
    va_end(more);
    return openat(AT_FDCWD, path, flags, mode);
}

ssize_t read(int file, void *bytes, size_t count)
{
    return fails('r', file) ? -1 : syscall(SYS_read, file, bytes, piece(count));
}

ssize_t write(int file, const void *bytes, size_t count)
{
    return file != 2 && fails('w', file) ? -1 : syscall(SYS_write, file, bytes, piece(count));
}

ssize_t getdents64(int folder, void *entries, size_t count)
{
    return fails('d', folder) ? -1 : syscall(SYS_getdents64, folder, entries, count);
}

int statx(int folder, const char *path, int flags, unsigned mask, struct statx *state)
{
    if (fails_at('s', folder, *path ? path : NULL, NULL) || syscall(SYS_statx, folder, path, flags, mask, state) != 0)
        return -1;
    if (getenv("FAIL_SWAPS") != NULL) {
        state->stx_dev_minor = state->stx_ino & 0xFFFFF;
        state->stx_ino = 1;
    }
    return 0;
}

ssize_t readlink(const char *path, char *bytes, size_t count)
{
    return fails_at('p', -1, path, NULL) ? -1 : syscall(SYS_readlink, path, bytes, count);
}

char *realpath(const char *path, char *resolved)
{
    char *(*real)(const char *, char *) = (char *(*)(const char *, char *))dlsym(RTLD_NEXT, "realpath");
    return fails_at('p', -1, path, NULL) ? NULL : real(path, resolved);
}

int flock(int file, int operation) { return fails('l', file) ? -1 : syscall(SYS_flock, file, operation); }

int fchmod(int file, mode_t mode) { return fails('m', file) ? -1 : syscall(SYS_fchmod, file, mode); }

int fsync(int file) { return fails('y', file) ? -1 : syscall(SYS_fsync, file); }

int fdatasync(int file) { return fails('y', file) ? -1 : syscall(SYS_fdatasync, file); }

int unlink(const char *path) { return fails_at('u', -1, path, NULL) ? -1 : syscall(SYS_unlink, path); }

int rename(const char *from, const char *to)
{
    return fails_at('n', -1, from, to) ? -1 : syscall(SYS_rename, from, to);
}

int link(const char *from, const char *to) { return fails_at('n', -1, from, to) ? -1 : syscall(SYS_link, from, to); }
