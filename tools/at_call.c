/* Preloaded into the program, counts its calls on files and of the clock, and at one of them does what it is told:

   COUNTED    the names of the calls that count, a space behind each: open, update, create, statx, realpath, flock, read, read_at, write,
              print, tell, fchmod, fsync, unlink, rename, clock. An update opens a file for writing that is there, a print is a write to
              standard output, and a tell one to standard error.
   AT         the number of the call, counted from 1, or its name; `each` is every call, and a number with a dash behind it that
              call and all later ones
   HOW        `stop` stops the process before the call until it is told to go on; `kill`, `terminate` and `interrupt` send it
              SIGKILL, SIGTERM or SIGINT before the call; `fail` lets the call fail with EIO, `full` with ENOSPC, and `break` with EINTR,
              as where a signal interrupts it; `short` lets a read or a write move one byte alone, and `none` a write none at all; `append`, `cut`, `rewrite`, `exchange`, `remove`
              and `touch` change the file CHANGED before the call: by WITH behind its end, to the length of WITH, by WITH over its
              front, by giving WITH its name, by taking its name away, or in its times alone; by `early` the clock shows a second
              before 1970, and by `late` one after the year 9999
   WITHIN     where a read meets such a change: how many bytes it takes before it, and the others behind it
   AGAIN      the number of another call at which it does so
   CALLS_LOG  a file to which each call's name, and the last name of its path, are appended as a line before it */
#define _GNU_SOURCE
#include <dlfcn.h>
#include <errno.h>
#include <fcntl.h>
#include <signal.h>
#include <stdarg.h>
#include <stdio.h>
#include <stdlib.h>
#include <string.h>
#include <sys/stat.h>
#include <sys/syscall.h>
#include <time.h>
#include <unistd.h>

static const char *counted, *wanted_name, *how;
static long wanted, again, seen, within;
static int from_then_on;
static int log_fd = -1;

static const char *told(const char *name)
{
    const char *value = getenv(name);
    return value ? value : "";
}

__attribute__((constructor)) static void arm(void)
{
    counted = told("COUNTED");
    wanted_name = told("AT");
    char *behind;
    wanted = strtol(wanted_name, &behind, 10);
    from_then_on = wanted > 0 && *behind == '-';
    again = atol(told("AGAIN"));
    how = told("HOW");
    within = atol(told("WITHIN"));
    if (*told("CALLS_LOG"))
        log_fd = syscall(SYS_openat, AT_FDCWD, told("CALLS_LOG"), O_WRONLY | O_CREAT | O_APPEND | O_CLOEXEC, 0644);
}

static void tell(const char *name, const char *path)
{
    char line[512];
    const char *folder = strrchr(path, '/');
    int length = snprintf(line, sizeof line, "%s %.400s\n", name, folder ? folder + 1 : path);
    if (log_fd >= 0 && syscall(SYS_write, log_fd, line, length) != length)
        abort();
}

/* The signal that HOW says, or none. */
static int signal_told(void)
{
    static const struct { const char *how; int signal; } signals[] = {
        {"stop", SIGSTOP}, {"kill", SIGKILL}, {"terminate", SIGTERM}, {"interrupt", SIGINT}};
    for (size_t n = 0; n < sizeof signals / sizeof *signals; ++n)
        if (!strcmp(how, signals[n].how))
            return signals[n].signal;
    return 0;
}

/* Whether HOW says that a file is changed. */
static int changes(void)
{
    static const char *const names[] = {"append", "cut", "rewrite", "exchange", "remove", "touch"};
    for (size_t n = 0; n < sizeof names / sizeof *names; ++n)
        if (!strcmp(how, names[n]))
            return 1;
    return 0;
}

/* Aborts where a call of this library itself has failed. */
static long done_by(long result)
{
    if (result < 0)
        abort();
    return result;
}

/* Writes the bytes of WITH into CHANGED, behind its end or over its front; or cuts it to their length. */
static void change_bytes(void)
{
    static char bytes[1 << 20];
    int from = done_by(syscall(SYS_openat, AT_FDCWD, told("WITH"), O_RDONLY | O_CLOEXEC));
    int to = done_by(syscall(SYS_openat, AT_FDCWD, told("CHANGED"), O_WRONLY | O_CLOEXEC | (!strcmp(how, "append") ? O_APPEND : 0)));
    long length = done_by(syscall(SYS_read, from, bytes, sizeof bytes));
    if (!strcmp(how, "cut"))
        done_by(syscall(SYS_ftruncate, to, length));
    else if (done_by(syscall(SYS_write, to, bytes, length)) != length)
        abort();
    done_by(syscall(SYS_close, from));
    done_by(syscall(SYS_close, to));
}

/* Changes the file CHANGED as HOW says. */
static void change(void)
{
    if (!strcmp(how, "exchange"))
        done_by(syscall(SYS_renameat2, AT_FDCWD, told("WITH"), AT_FDCWD, told("CHANGED"), 0));
    else if (!strcmp(how, "remove"))
        done_by(syscall(SYS_unlinkat, AT_FDCWD, told("CHANGED"), 0));
    else if (!strcmp(how, "touch"))
        done_by(syscall(SYS_utimensat, AT_FDCWD, told("CHANGED"), NULL, 0));
    else
        change_bytes();
}

/* Whether the call of this name, which was the last one counted, is one of those that are wanted. */
static int is_wanted(const char *name)
{
    return seen == wanted || seen == again || (from_then_on && seen > wanted) || !strcmp(name, wanted_name) || !strcmp("each", wanted_name);
}

/* What is to be done with this call: what HOW says, or nothing. */
static const char *met(const char *name, const char *path)
{
    char word[32];
    snprintf(word, sizeof word, "%s ", name);
    if (!strstr(counted, word))
        return "";
    tell(name, path);
    ++seen;
    if (!is_wanted(name))
        return "";
    if (signal_told())
        kill(getpid(), signal_told());
    if (changes() && !(within && !strncmp(name, "read", 4)))
        change();
    return how;
}

/* Whether a read is to take some bytes before a change and the others behind it. */
static int is_torn(const char *done, size_t count)
{
    return within && *done && changes() && count > (size_t)within;
}

/* Whether what is done with a call lets it fail. */
static int fails(const char *done)
{
    int error = !strcmp(done, "fail") ? EIO : !strcmp(done, "full") ? ENOSPC : !strcmp(done, "break") ? EINTR : 0;
    if (error)
        errno = error;
    return error;
}

/* How many bytes of so many are moved, by what is done with a call. */
static size_t moved(const char *done, size_t count)
{
    return strcmp(done, "short") || !count ? count : 1;
}

/* The path of an open file. */
static const char *path_of(int fd)
{
    static char path[4096];
    char link[64];
    if (fd == 1)
        return "output";
    if (fd == 2)
        return "errors";
    snprintf(link, sizeof link, "/proc/self/fd/%d", fd);
    long length = syscall(SYS_readlinkat, AT_FDCWD, link, path, sizeof path - 1);
    path[length > 0 ? length : 0] = 0;
    return path;
}

#define REAL(name) ((__typeof__(&name))dlsym(RTLD_NEXT, #name))

#define OPENING(name)                                                                                                            \
    int name(const char *path, int flags, ...)                                                                                   \
    {                                                                                                                            \
        va_list rest;                                                                                                            \
        va_start(rest, flags);                                                                                                   \
        mode_t mode = flags & O_CREAT ? va_arg(rest, mode_t) : 0;                                                                \
        va_end(rest);                                                                                                            \
        const char *kind = flags & O_CREAT ? "create" : flags & O_ACCMODE ? "update" : "open";                                   \
        return fails(met(kind, path)) ? -1 : REAL(name)(path, flags, mode);                                                      \
    }

OPENING(open)
OPENING(open64)

int statx(int dir, const char *restrict path, int flags, unsigned mask, struct statx *restrict found)
{
    return fails(met("statx", *path ? path : path_of(dir))) ? -1 : REAL(statx)(dir, path, flags, mask, found);
}

char *realpath(const char *restrict path, char *restrict found)
{
    return fails(met("realpath", path)) ? 0 : REAL(realpath)(path, found);
}

int flock(int fd, int operation)
{
    return fails(met("flock", path_of(fd))) ? -1 : REAL(flock)(fd, operation);
}

ssize_t read(int fd, void *bytes, size_t count)
{
    const char *done = met("read", path_of(fd));
    if (is_torn(done, count)) {
        ssize_t first = REAL(read)(fd, bytes, within);
        change();
        ssize_t rest = first == within ? REAL(read)(fd, (char *)bytes + first, count - first) : 0;
        return first < 0 || rest < 0 ? -1 : first + rest;
    }
    return fails(done) ? -1 : REAL(read)(fd, bytes, moved(done, count));
}

#define READING_AT(name, place)                                                                                                  \
    ssize_t name(int fd, void *bytes, size_t count, place offset)                                                                \
    {                                                                                                                            \
        const char *done = met("read_at", path_of(fd));                                                                          \
        if (is_torn(done, count)) {                                                                                              \
            ssize_t first = REAL(name)(fd, bytes, within, offset);                                                               \
            change();                                                                                                            \
            ssize_t rest = first == within ? REAL(name)(fd, (char *)bytes + first, count - first, offset + first) : 0;           \
            return first < 0 || rest < 0 ? -1 : first + rest;                                                                    \
        }                                                                                                                        \
        return fails(done) ? -1 : REAL(name)(fd, bytes, moved(done, count), offset);                                             \
    }

READING_AT(pread, off_t)
READING_AT(pread64, off64_t)

ssize_t write(int fd, const void *bytes, size_t count)
{
    const char *done = met(fd == 1 ? "print" : fd == 2 ? "tell" : "write", path_of(fd));
    if (!strcmp(done, "none"))
        return 0;
    return fails(done) ? -1 : REAL(write)(fd, bytes, moved(done, count));
}

int fchmod(int fd, mode_t mode)
{
    return fails(met("fchmod", path_of(fd))) ? -1 : REAL(fchmod)(fd, mode);
}

int fsync(int fd)
{
    return fails(met("fsync", path_of(fd))) ? -1 : REAL(fsync)(fd);
}

int unlink(const char *path)
{
    return fails(met("unlink", path)) ? -1 : REAL(unlink)(path);
}

int rename(const char *old, const char *new)
{
    return fails(met("rename", old)) ? -1 : REAL(rename)(old, new);
}

int clock_gettime(clockid_t clock, struct timespec *now)
{
    const char *done = met("clock", "");
    if (fails(done) || REAL(clock_gettime)(clock, now))
        return -1;
    if (!strcmp(done, "early"))
        now->tv_sec = -1;
    if (!strcmp(done, "late"))
        now->tv_sec = 253402300800;
    return 0;
}
