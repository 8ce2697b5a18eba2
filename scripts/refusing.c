/* For the tests of the built program, by LD_PRELOAD: calls that fail or move few bytes, as the environment says.

   REFUSED_ALLOCATION, REFUSED_THREAD: the number, from 1, of the one allocation or thread that is refused. Where
   REFUSED_BEHIND_INPUT is there, only those allocations count that are made between the read of standard input of this
   number and the next one. REFUSED_PATH: a path that is not opened.

   FAILING_INPUT, FAILING_OUTPUT, FAILING_RECV, FAILING_SEND, FAILING_FILE, FAILING_READ, FAILING_ACCEPT: the number of the
   one read of standard input, write to standard output, call of a connection, write or sync of another file, read of
   another file, or connection that came, that fails. A look for what has not come does not count. MOST_INPUT, MOST_OUTPUT,
   MOST_RECV, MOST_SEND, MOST_FILE, MOST_READ: how many bytes the first such call moves at most, the second and so on,
   between blanks; the last number is that of all further calls. INTERRUPTED_INPUT, INTERRUPTED_OUTPUT, INTERRUPTED_FILE,
   INTERRUPTED_READ: how often a signal interrupts each such call before it is made. An interruption is not counted.

   What is refused or fails makes the file that REFUSED_MARK names, so that a run that met it is told from one that did
   not. Each write or sync of another file behind the one that fails puts a byte into it. Threads count together.

   FAILING_KIND: a call of which each on a file or a folder fails: read, write, fdatasync, ftruncate, fchmod, fsync, link or
   rename. LOCKED_NAMES: where it is there a file that somebody else could lock is given no other name. REPLACED: `draft`
   or `opened`. Right after it was opened a draft, which is what has a name with `.new` behind, is given the name that it is
   for, and another file has its own; or right after it was opened another file loses its name to a new one.

   CALLS: the path of a file that gets a letter for each call before it is made: `i` and `o` for a read of standard input and
   a write to standard output; `r`, `w`, `s` and `c` for a read, a write, a sync and a cut of another file; and `!` in place
   of these where a signal interrupts it. */
#define _GNU_SOURCE
#include <dlfcn.h>
#include <errno.h>
#include <fcntl.h>
#include <limits.h>
#include <pthread.h>
#include <stdarg.h>
#include <stdio.h>
#include <stdlib.h>
#include <string.h>
#include <sys/file.h>
#include <sys/socket.h>
#include <sys/stat.h>
#include <unistd.h>

static int is_regular(int descriptor)
{
    struct stat found;
    return fstat(descriptor, &found) == 0 && S_ISREG(found.st_mode);
}

/* Makes a file of this name that is another's. */
static void make_another(const char *path)
{
    static const char bytes[] = "another's";
    int made = openat(AT_FDCWD, path, O_CREAT | O_EXCL | O_WRONLY | O_CLOEXEC, 0600);
    if (made < 0 || pwrite(made, bytes, sizeof bytes - 1, 0) < 0)
        abort();
    close(made);
}

/* Takes a file's name away that was just opened, where REPLACED says so. */
static void replace(int opened, const char *path)
{
    const char *what = getenv("REPLACED");
    char named[PATH_MAX];
    if (!what || opened < 0 || !is_regular(opened))
        return;
    long length = snprintf(named, sizeof named, "%s", path) - 4;
    int is_draft = length > 0 && strcmp(named + length, ".new") == 0;
    if (is_draft != (strcmp(what, "draft") == 0))
        return;
    named[is_draft ? length : 0] = 0;
    if (is_draft ? renameat(AT_FDCWD, path, AT_FDCWD, named) : unlink(path))
        abort();
    make_another(path);
}

int open(const char *path, int flags, ...)
{
    int (*next)(const char *, int, mode_t) = dlsym(RTLD_NEXT, "open");
    const char *refused = getenv("REFUSED_PATH");
    va_list rest;
    va_start(rest, flags);
    mode_t mode = flags & O_CREAT ? va_arg(rest, mode_t) : 0;
    va_end(rest);
    if (refused && strcmp(path, refused) == 0) {
        errno = ENOENT;
        return -1;
    }
    int opened = next(path, flags, mode);
    replace(opened, path);
    return opened;
}

/* Counts a call, and tells whether it has the number that this variable gives. */
static int is_refused(const char *variable, long *count)
{
    long made = __atomic_add_fetch(count, 1, __ATOMIC_RELAXED);
    const char *number = getenv(variable);
    const char *mark = getenv("REFUSED_MARK");
    if (!number || !mark || made != atol(number))
        return 0;
    close(openat(AT_FDCWD, mark, O_CREAT | O_WRONLY | O_CLOEXEC, 0600));
    return 1;
}

/* Calls of one kind: the variables that say which fails, how many bytes they move and how often each is interrupted; how
   many there were, and how often the one under way was interrupted. */
struct calls {
    const char *failing, *most, *interrupted;
    long count, interruptions;
};

static struct calls input = {"FAILING_INPUT", "MOST_INPUT", "INTERRUPTED_INPUT", 0, 0};
static struct calls output = {"FAILING_OUTPUT", "MOST_OUTPUT", "INTERRUPTED_OUTPUT", 0, 0};
static struct calls received = {"FAILING_RECV", "MOST_RECV", "", 0, 0};
static struct calls sent = {"FAILING_SEND", "MOST_SEND", "", 0, 0};
static struct calls file = {"FAILING_FILE", "MOST_FILE", "INTERRUPTED_FILE", 0, 0};
static struct calls file_read = {"FAILING_READ", "MOST_READ", "INTERRUPTED_READ", 0, 0};
static struct calls accepted = {"FAILING_ACCEPT", "", "", 0, 0};

/* Tells a call by its letter. */
static void tell(const char *letter)
{
    ssize_t (*next)(int, const void *, size_t) = dlsym(RTLD_NEXT, "write");
    const char *path = getenv("CALLS");
    if (!path)
        return;
    int calls = openat(AT_FDCWD, path, O_CREAT | O_APPEND | O_WRONLY | O_CLOEXEC, 0600);
    if (next(calls, letter, 1) != 1)
        abort();
    close(calls);
}

/* Tells a call, and whether a signal interrupts it. */
static int is_interrupted(struct calls *calls, const char *letter)
{
    const char *often = getenv(calls->interrupted);
    if (!often || calls->interruptions == atol(often)) {
        calls->interruptions = 0;
        tell(letter);
        return 0;
    }
    calls->interruptions++;
    tell("!");
    errno = EINTR;
    return 1;
}

/* Whether all calls of this kind fail. */
static int fails(const char *kind)
{
    const char *failing = getenv("FAILING_KIND");
    if (!failing || strcmp(failing, kind) != 0)
        return 0;
    errno = ENOSPC;
    return 1;
}

/* How many of these bytes the next call of a kind moves at most. */
static size_t at_most(const struct calls *calls, size_t length)
{
    char *rest = getenv(calls->most);
    long most = 0;
    for (long number = 0; rest && *rest && number <= calls->count; number++)
        most = strtol(rest, &rest, 10);
    return most > 0 && (size_t)most < length ? (size_t)most : length;
}

/* Counts a call that found or moved something, or is to; an error where it is the one that fails. */
static ssize_t counted(struct calls *calls, ssize_t moved)
{
    if (moved < 0 || !is_refused(calls->failing, &calls->count))
        return moved;
    errno = EIO;
    return -1;
}

/* The same of a call on a file that is no stream. */
static ssize_t counted_on_file(void)
{
    ssize_t result = counted(&file, 0);
    const char *number = getenv(file.failing), *mark = getenv("REFUSED_MARK");
    if (result == 0 && number && mark && __atomic_load_n(&file.count, __ATOMIC_RELAXED) > atol(number)) {
        int marked = openat(AT_FDCWD, mark, O_WRONLY | O_APPEND | O_CLOEXEC);
        ssize_t (*next)(int, const void *, size_t) = dlsym(RTLD_NEXT, "write");
        next(marked, "!", 1);
        close(marked);
    }
    return result;
}

static int is_file(int descriptor)
{
    return descriptor > 2 && is_regular(descriptor);
}

ssize_t read(int descriptor, void *buffer, size_t length)
{
    ssize_t (*next)(int, void *, size_t) = dlsym(RTLD_NEXT, "read");
    struct calls *calls = descriptor == 0 ? &input : is_file(descriptor) ? &file_read : NULL;
    if (!calls)
        return next(descriptor, buffer, length);
    if ((calls == &file_read && fails("read")) || is_interrupted(calls, calls == &input ? "i" : "r"))
        return -1;
    return counted(calls, next(descriptor, buffer, at_most(calls, length)));
}

ssize_t recv(int descriptor, void *buffer, size_t length, int flags)
{
    ssize_t (*next)(int, void *, size_t, int) = dlsym(RTLD_NEXT, "recv");
    return counted(&received, next(descriptor, buffer, at_most(&received, length), flags));
}

int accept4(int listener, struct sockaddr *peer, socklen_t *length, int flags)
{
    int (*next)(int, struct sockaddr *, socklen_t *, int) = dlsym(RTLD_NEXT, "accept4");
    int came = next(listener, peer, length, flags);
    return counted(&accepted, came);
}

ssize_t write(int descriptor, const void *bytes, size_t length)
{
    ssize_t (*next)(int, const void *, size_t) = dlsym(RTLD_NEXT, "write");
    struct calls *calls = descriptor == 1 ? &output : is_file(descriptor) ? &file : NULL;
    if (!calls)
        return next(descriptor, bytes, length);
    if ((calls == &file && fails("write")) || is_interrupted(calls, calls == &output ? "o" : "w"))
        return -1;
    size_t most = at_most(calls, length);
    ssize_t result = calls == &file ? counted_on_file() : counted(calls, 0);
    return result < 0 ? -1 : next(descriptor, bytes, most);
}

ssize_t send(int descriptor, const void *bytes, size_t length, int flags)
{
    ssize_t (*next)(int, const void *, size_t, int) = dlsym(RTLD_NEXT, "send");
    size_t most = at_most(&sent, length);
    return counted(&sent, 0) < 0 ? -1 : next(descriptor, bytes, most, flags);
}

int fdatasync(int descriptor)
{
    int (*next)(int) = dlsym(RTLD_NEXT, "fdatasync");
    if (fails("fdatasync") || is_interrupted(&file, "s"))
        return -1;
    return counted_on_file() < 0 ? -1 : next(descriptor);
}

int fsync(int descriptor)
{
    int (*next)(int) = dlsym(RTLD_NEXT, "fsync");
    return fails("fsync") ? -1 : next(descriptor);
}

int ftruncate(int descriptor, off_t length)
{
    int (*next)(int, off_t) = dlsym(RTLD_NEXT, "ftruncate");
    tell("c");
    return fails("ftruncate") ? -1 : next(descriptor, length);
}

int fchmod(int descriptor, mode_t mode)
{
    int (*next)(int, mode_t) = dlsym(RTLD_NEXT, "fchmod");
    return fails("fchmod") ? -1 : next(descriptor, mode);
}

/* Whether a file is to get no other name, since somebody else could lock it. */
static int is_free(const char *path)
{
    int opened = getenv("LOCKED_NAMES") ? openat(AT_FDCWD, path, O_RDONLY | O_CLOEXEC) : -1;
    int is_locked = opened < 0 || flock(opened, LOCK_SH | LOCK_NB) < 0;
    if (opened >= 0)
        close(opened);
    errno = EPERM;
    return !is_locked;
}

int link(const char *path, const char *name)
{
    int (*next)(const char *, const char *) = dlsym(RTLD_NEXT, "link");
    return fails("link") || is_free(path) ? -1 : next(path, name);
}

int rename(const char *path, const char *name)
{
    int (*next)(const char *, const char *) = dlsym(RTLD_NEXT, "rename");
    return fails("rename") || is_free(path) || is_free(name) ? -1 : next(path, name);
}

static long allocations = 0;
static long threads = 0;

/* Whether an allocation counts that is made now, and has the number of the one that is refused. */
static int is_without_memory(void)
{
    const char *behind = getenv("REFUSED_BEHIND_INPUT");
    return (!behind || input.count == atol(behind)) && is_refused("REFUSED_ALLOCATION", &allocations);
}

void *malloc(size_t size)
{
    void *(*next)(size_t) = dlsym(RTLD_NEXT, "malloc");
    return is_without_memory() ? NULL : next(size);
}

void *realloc(void *block, size_t size)
{
    void *(*next)(void *, size_t) = dlsym(RTLD_NEXT, "realloc");
    return is_without_memory() ? NULL : next(block, size);
}

int pthread_create(pthread_t *thread, const pthread_attr_t *how, void *(*first)(void *), void *given)
{
    int (*next)(pthread_t *, const pthread_attr_t *, void *(*)(void *), void *) = dlsym(RTLD_NEXT, "pthread_create");
    return is_refused("REFUSED_THREAD", &threads) ? EAGAIN : next(thread, how, first, given);
}
