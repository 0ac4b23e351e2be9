/* Makes calls of a program fail. tests/failing_calls.py builds it, and loads it with LD_PRELOAD; it says by the environment which calls:
 *
 * FAILING_FILE   the names of the files whose calls count, with ':' between them: opening one by this name, taking it away, and reading,
 *                writing, cutting and syncing it; a folder is one of them too;
 * FAILING_FD     in place of a file, the number of the descriptor whose reads and writes count;
 * FAILING_SOCKETS   in place of a file, which calls on sockets count: `recv`, `send` or `accept`;
 * FAILING_FROM, FAILING_TO   the first and the last call that fails, counted from 1;
 * FAILING_HOW    what the failing call does (`enum how`); an error is FAILING_ERRNO;
 * FAILING_CALLS  a file to which each call that counts adds a line;
 * FAILING_MEMORY_FROM, FAILING_MEMORY_TO   the first and the last request for memory that is refused, counted from 1;
 * FAILING_REFUSED   a file to which each refused request adds a line.
 *
 * The calls themselves are made by number, so that nothing here is caught again. For x86-64 and glibc.
 */
#define _GNU_SOURCE
#include <errno.h>
#include <fcntl.h>
#include <signal.h>
#include <stdarg.h>
#include <stdatomic.h>
#include <stdio.h>
#include <stdlib.h>
#include <string.h>
#include <sys/socket.h>
#include <sys/stat.h>
#include <sys/syscall.h>
#include <sys/uio.h>
#include <unistd.h>

/* What a failing call does. */
enum how {
    NOTHING,     /* nothing, and answers an error */
    PART,        /* a write writes its first byte; then as NOTHING */
    ALL,         /* all that it should; then as NOTHING */
    SHORT,       /* a read or a write takes one byte, and answers that */
    ZERO,        /* a write answers that it took nothing */
    STOP_BEFORE, /* the program is killed */
    STOP_IN,     /* a write writes its first byte; then the program is killed */
    STOP_AFTER   /* all that it should; then the program is killed */
};

static const char *HOWS[] = {"nothing", "part", "all", "short", "zero", "stop_before", "stop_in", "stop_after"};

/* How many names of files there may be, and how long they may be together. */
#define NAMES 8
#define NAME_BYTES 256

static int ready, file_count;
static char file_names[NAME_BYTES], *files[NAMES];
static const char *sockets, *calls_file, *refused_file;
static long descriptor = -1, from, to, memory_from, memory_to;
static int fault;
static enum how how;
static atomic_long calls, requests;

extern void *__libc_malloc(size_t);
extern void *__libc_calloc(size_t, size_t);
extern void *__libc_realloc(void *, size_t);
extern void *__libc_memalign(size_t, size_t);

static long number(const char *name, long otherwise)
{
    const char *text = getenv(name);
    return text ? strtol(text, NULL, 10) : otherwise;
}

static void take_names(const char *given)
{
    char *rest = file_names;
    snprintf(file_names, sizeof file_names, "%s", given ? given : "");
    for (char *name; file_count < NAMES && (name = strsep(&rest, ":")) != NULL;)
        if (*name)
            files[file_count++] = name;
}

__attribute__((constructor)) static void begin(void)
{
    const char *name = getenv("FAILING_HOW");
    take_names(getenv("FAILING_FILE"));
    sockets = getenv("FAILING_SOCKETS");
    calls_file = getenv("FAILING_CALLS");
    refused_file = getenv("FAILING_REFUSED");
    descriptor = number("FAILING_FD", -1);
    from = number("FAILING_FROM", 0);
    to = number("FAILING_TO", 0);
    memory_from = number("FAILING_MEMORY_FROM", 0);
    memory_to = number("FAILING_MEMORY_TO", 0);
    fault = (int)number("FAILING_ERRNO", EIO);
    for (int i = 0; name && i <= STOP_AFTER; i++)
        if (strcmp(name, HOWS[i]) == 0)
            how = (enum how)i;
    ready = 1;
}

/* Adds a line to a file. */
static void tell(const char *name, const char *call, long what, long size)
{
    char line[100];
    int fd = (int)syscall(SYS_openat, AT_FDCWD, name, O_WRONLY | O_CREAT | O_APPEND, 0600);
    int len = snprintf(line, sizeof line, "%s %ld %ld\n", call, what, size);
    if (fd >= 0) {
        syscall(SYS_write, fd, line, len);
        syscall(SYS_close, fd);
    }
}

/* Whether this is the name of a file whose calls count. */
static int is_named(const char *path)
{
    for (int i = 0; ready && i < file_count; i++)
        if (strcmp(path, files[i]) == 0)
            return 1;
    return 0;
}

/* Whether this is the descriptor of a file whose calls count. */
static int counts(int fd)
{
    struct stat ours, its;
    if (!ready)
        return 0;
    if (descriptor >= 0)
        return fd == descriptor;
    if (file_count == 0 || syscall(SYS_fstat, fd, &ours) != 0)
        return 0;
    for (int i = 0; i < file_count; i++)
        if (syscall(SYS_newfstatat, AT_FDCWD, files[i], &its, 0) == 0 && ours.st_dev == its.st_dev && ours.st_ino == its.st_ino)
            return 1;
    return 0;
}

/* Counts a call, and answers whether it is one that fails. */
static int is_turn(const char *call, long what, long size)
{
    long place = atomic_fetch_add(&calls, 1) + 1;
    if (calls_file)
        tell(calls_file, call, what, size);
    return from > 0 && from <= place && place <= to;
}

static long failed(void)
{
    errno = fault;
    return -1;
}

/* What a failing call that reads and writes nothing does, once the call itself is made or not. */
static long ended(long done)
{
    if (how == STOP_BEFORE || how == STOP_IN || how == STOP_AFTER)
        syscall(SYS_kill, syscall(SYS_getpid), SIGKILL);
    if (how == SHORT || how == ZERO)
        return done;
    return failed();
}

static int is_done_first(void)
{
    return how == ALL || how == SHORT || how == ZERO || how == STOP_AFTER;
}

/* A write at a place, or where it is -1 at the file's own. */
static ssize_t write_bytes(int fd, const void *bytes, size_t size, off_t at)
{
    return at < 0 ? syscall(SYS_write, fd, bytes, size) : syscall(SYS_pwrite64, fd, bytes, size, at);
}

static ssize_t caught_write(const char *call, int fd, const void *bytes, size_t size, off_t at)
{
    if (!counts(fd) || !is_turn(call, at, (long)size))
        return write_bytes(fd, bytes, size, at);
    if (how == SHORT)
        return write_bytes(fd, bytes, size ? 1 : 0, at);
    if (how == ZERO)
        return 0;
    if (how == ALL || how == STOP_AFTER)
        write_bytes(fd, bytes, size, at);
    if ((how == PART || how == STOP_IN) && size)
        write_bytes(fd, bytes, 1, at);
    return ended(0);
}

static ssize_t read_bytes(int fd, void *bytes, size_t size, off_t at)
{
    return at < 0 ? syscall(SYS_read, fd, bytes, size) : syscall(SYS_pread64, fd, bytes, size, at);
}

static ssize_t caught_read(const char *call, int fd, void *bytes, size_t size, off_t at)
{
    if (!counts(fd) || !is_turn(call, at, (long)size))
        return read_bytes(fd, bytes, size, at);
    if (how == SHORT || how == ZERO)
        return read_bytes(fd, bytes, size ? 1 : 0, at);
    return ended(0);
}

ssize_t write(int fd, const void *bytes, size_t size) { return caught_write("write", fd, bytes, size, -1); }
ssize_t pwrite(int fd, const void *bytes, size_t size, off_t at) { return caught_write("pwrite", fd, bytes, size, at); }
ssize_t pwrite64(int fd, const void *bytes, size_t size, off_t at) { return caught_write("pwrite", fd, bytes, size, at); }
ssize_t read(int fd, void *bytes, size_t size) { return caught_read("read", fd, bytes, size, -1); }
ssize_t pread(int fd, void *bytes, size_t size, off_t at) { return caught_read("pread", fd, bytes, size, at); }
ssize_t pread64(int fd, void *bytes, size_t size, off_t at) { return caught_read("pread", fd, bytes, size, at); }

static int caught_sync(const char *call, long which, int fd)
{
    long done = 0;
    if (!counts(fd) || !is_turn(call, 0, 0))
        return (int)syscall(which, fd);
    if (is_done_first())
        done = syscall(which, fd);
    return (int)ended(done);
}

int fsync(int fd) { return caught_sync("fsync", SYS_fsync, fd); }
int fdatasync(int fd) { return caught_sync("fdatasync", SYS_fdatasync, fd); }

int ftruncate(int fd, off_t size)
{
    long done = 0;
    if (!counts(fd) || !is_turn("ftruncate", 0, (long)size))
        return (int)syscall(SYS_ftruncate, fd, size);
    if (is_done_first())
        done = syscall(SYS_ftruncate, fd, size);
    return (int)ended(done);
}

int ftruncate64(int fd, off_t size) { return ftruncate(fd, size); }

int fstat(int fd, struct stat *into)
{
    if (counts(fd) && is_turn("fstat", 0, 0) && !(how == SHORT || how == ZERO))
        return (int)ended(0);
    return (int)syscall(SYS_fstat, fd, into);
}

int fstat64(int fd, struct stat64 *into) { return fstat(fd, (struct stat *)into); }

int statx(int fd, const char *path, int flags, unsigned mask, struct statx *into)
{
    if (!*path && counts(fd) && is_turn("statx", 0, 0) && !(how == SHORT || how == ZERO))
        return (int)ended(0);
    return (int)syscall(SYS_statx, fd, path, flags, mask, into);
}

static int caught_open(int folder, const char *path, int flags, int mode)
{
    int done = -1;
    if (!is_named(path) || !is_turn("open", flags, 0))
        return (int)syscall(SYS_openat, folder, path, flags, mode);
    if (is_done_first())
        done = (int)syscall(SYS_openat, folder, path, flags, mode);
    if (how == ALL && done >= 0)
        syscall(SYS_close, done);
    return (int)ended(done);
}

static int mode_of(int flags, va_list rest)
{
    return flags & (O_CREAT | O_TMPFILE) ? va_arg(rest, int) : 0;
}

#define OPEN(NAME)                                              \
    int NAME(const char *path, int flags, ...)                  \
    {                                                           \
        va_list rest;                                           \
        va_start(rest, flags);                                  \
        int mode = mode_of(flags, rest);                        \
        va_end(rest);                                           \
        return caught_open(AT_FDCWD, path, flags, mode);        \
    }

#define OPEN_AT(NAME)                                           \
    int NAME(int folder, const char *path, int flags, ...)      \
    {                                                           \
        va_list rest;                                           \
        va_start(rest, flags);                                  \
        int mode = mode_of(flags, rest);                        \
        va_end(rest);                                           \
        return caught_open(folder, path, flags, mode);          \
    }

OPEN(open)
OPEN(open64)
OPEN_AT(openat)
OPEN_AT(openat64)

int unlinkat(int folder, const char *path, int flags)
{
    long done = 0;
    if (!is_named(path) || !is_turn("unlink", flags, 0))
        return (int)syscall(SYS_unlinkat, folder, path, flags);
    if (is_done_first())
        done = syscall(SYS_unlinkat, folder, path, flags);
    return (int)ended(done);
}

int unlink(const char *path) { return unlinkat(AT_FDCWD, path, 0); }

/* Whether calls of this name on sockets count. */
static int counts_socket(const char *call)
{
    return ready && sockets && strcmp(sockets, call) == 0;
}

ssize_t recv(int fd, void *bytes, size_t size, int flags)
{
    if (!counts_socket("recv") || !is_turn("recv", flags, (long)size))
        return syscall(SYS_recvfrom, fd, bytes, size, flags, NULL, NULL);
    if (how == SHORT)
        return syscall(SYS_recvfrom, fd, bytes, size ? 1 : 0, flags, NULL, NULL);
    return ended(0);
}

static ssize_t send_bytes(int fd, const void *bytes, size_t size, int flags)
{
    return syscall(SYS_sendto, fd, bytes, size, flags, NULL, 0);
}

ssize_t send(int fd, const void *bytes, size_t size, int flags)
{
    if (!counts_socket("send") || !is_turn("send", flags, (long)size))
        return send_bytes(fd, bytes, size, flags);
    if (how == SHORT)
        return send_bytes(fd, bytes, size ? 1 : 0, flags);
    if (how == ALL)
        send_bytes(fd, bytes, size, flags);
    if (how == PART && size)
        send_bytes(fd, bytes, 1, flags);
    return ended(0);
}

int accept4(int fd, struct sockaddr *peer, socklen_t *size, int flags)
{
    if (!counts_socket("accept") || !is_turn("accept", flags, 0))
        return (int)syscall(SYS_accept4, fd, peer, size, flags);
    return (int)ended(0);
}

/* Counts a request for memory, and answers whether it is one that is refused. */
static int is_refused(const char *call, size_t size)
{
    if (!ready || memory_from <= 0)
        return 0;
    long place = atomic_fetch_add(&requests, 1) + 1;
    if (place < memory_from || place > memory_to)
        return 0;
    if (refused_file)
        tell(refused_file, call, place, (long)size);
    errno = ENOMEM;
    return 1;
}

void *malloc(size_t size) { return is_refused("malloc", size) ? NULL : __libc_malloc(size); }
void *calloc(size_t count, size_t size) { return is_refused("calloc", count * size) ? NULL : __libc_calloc(count, size); }
void *realloc(void *old, size_t size) { return size && is_refused("realloc", size) ? NULL : __libc_realloc(old, size); }
void *memalign(size_t align, size_t size) { return is_refused("memalign", size) ? NULL : __libc_memalign(align, size); }
void *aligned_alloc(size_t align, size_t size) { return is_refused("aligned_alloc", size) ? NULL : __libc_memalign(align, size); }

int posix_memalign(void **into, size_t align, size_t size)
{
    if (is_refused("posix_memalign", size))
        return ENOMEM;
    *into = __libc_memalign(align, size);
    return *into ? 0 : ENOMEM;
}
