/* For power_loss, by LD_PRELOAD: appends to the file that RECORDING names what the program does to files and what it
   writes to standard output, each call once it succeeded, in their order. An event is a line of text, and behind it as many
   bytes as the line says:

     opened INODE BYTES           a file or folder of this path was opened, or made
     wrote INODE OFFSET BYTES     these bytes were written there
     cut INODE SIZE 0             the file was given this size
     synced INODE 0               fsync or fdatasync of a file or folder
     renamed BYTES                two paths, parted by a zero byte; so does linked; removed has one
     replied BYTES                these bytes went to standard output

   KILL_AT_SYNC=N ends the process by SIGKILL in place of the Nth sync of a file. */
#define _GNU_SOURCE
#include <dlfcn.h>
#include <fcntl.h>
#include <pthread.h>
#include <signal.h>
#include <stdarg.h>
#include <stdio.h>
#include <stdlib.h>
#include <string.h>
#include <sys/stat.h>
#include <sys/uio.h>
#include <unistd.h>

static pthread_mutex_t lock = PTHREAD_MUTEX_INITIALIZER;
static int recording = -1;
static long syncs = 0;

static void *next_of(const char *name)
{
    return dlsym(RTLD_NEXT, name);
}

/* Appends one event. Called under the lock. */
static void tell(const char *line, const void *bytes, size_t count)
{
    ssize_t (*next)(int, const struct iovec *, int) = next_of("writev");
    const char *path = getenv("RECORDING");
    if (!path)
        return;
    if (recording < 0) {
        int (*open_it)(const char *, int, mode_t) = next_of("open");
        recording = open_it(path, O_WRONLY | O_CREAT | O_APPEND | O_CLOEXEC, 0600);
    }
    struct iovec parts[] = {{(void *)line, strlen(line)}, {(void *)bytes, count}};
    if (next(recording, parts, 2) != (ssize_t)(strlen(line) + count))
        abort();
}

static void tell_paths(const char *what, const char *from, const char *to)
{
    char line[64], both[8192];
    size_t a = strlen(from), b = to ? strlen(to) + 1 : 0;
    if (a + b > sizeof both)
        abort();
    memcpy(both, from, a);
    if (to) {
        both[a] = 0;
        memcpy(both + a + 1, to, b - 1);
    }
    snprintf(line, sizeof line, "%s %zu\n", what, a + b);
    tell(line, both, a + b);
}

/* The inode of a regular file or a folder; 0 of anything else. */
static unsigned long inode_of(int file)
{
    struct stat it;
    if (fstat(file, &it) != 0 || !(S_ISREG(it.st_mode) || S_ISDIR(it.st_mode)))
        return 0;
    return it.st_ino;
}

static int opened(int file, const char *path)
{
    char line[64];
    unsigned long inode = file < 0 ? 0 : inode_of(file);
    if (inode) {
        pthread_mutex_lock(&lock);
        snprintf(line, sizeof line, "opened %lu %zu\n", inode, strlen(path));
        tell(line, path, strlen(path));
        pthread_mutex_unlock(&lock);
    }
    return file;
}

int open(const char *path, int flags, ...)
{
    int (*next)(const char *, int, mode_t) = next_of("open");
    va_list rest;
    va_start(rest, flags);
    mode_t mode = flags & O_CREAT ? va_arg(rest, mode_t) : 0;
    va_end(rest);
    return opened(next(path, flags, mode), path);
}

/* Bytes that were written to a file or to standard output. */
static ssize_t wrote(int file, const void *bytes, ssize_t count)
{
    char line[96];
    unsigned long inode;
    if (count <= 0)
        return count;
    if (file == STDOUT_FILENO) {
        snprintf(line, sizeof line, "replied %zd\n", count);
        tell(line, bytes, count);
    } else if ((inode = inode_of(file))) {
        snprintf(line, sizeof line, "wrote %lu %ld %zd\n", inode, (long)lseek(file, 0, SEEK_CUR) - (long)count, count);
        tell(line, bytes, count);
    }
    return count;
}

ssize_t write(int file, const void *bytes, size_t count)
{
    ssize_t (*next)(int, const void *, size_t) = next_of("write");
    pthread_mutex_lock(&lock);
    ssize_t written = wrote(file, bytes, next(file, bytes, count));
    pthread_mutex_unlock(&lock);
    return written;
}

/* The program does not write so: where it begins to, this has to follow. */
ssize_t writev(int file, const struct iovec *parts, int count)
{
    (void)file, (void)parts, (void)count;
    abort();
}

int ftruncate(int file, off_t size)
{
    int (*next)(int, off_t) = next_of("ftruncate");
    char line[96];
    int failed = next(file, size);
    if (failed == 0) {
        pthread_mutex_lock(&lock);
        snprintf(line, sizeof line, "cut %lu %ld 0\n", inode_of(file), (long)size);
        tell(line, "", 0);
        pthread_mutex_unlock(&lock);
    }
    return failed;
}

static int synced(int file, const char *name)
{
    int (*next)(int) = next_of(name);
    const char *last = getenv("KILL_AT_SYNC");
    struct stat it;
    char line[64];
    if (last && fstat(file, &it) == 0 && S_ISREG(it.st_mode) && ++syncs == atol(last))
        raise(SIGKILL);
    int failed = next(file);
    if (failed == 0) {
        pthread_mutex_lock(&lock);
        snprintf(line, sizeof line, "synced %lu 0\n", inode_of(file));
        tell(line, "", 0);
        pthread_mutex_unlock(&lock);
    }
    return failed;
}

int fsync(int file)
{
    return synced(file, "fsync");
}

int fdatasync(int file)
{
    return synced(file, "fdatasync");
}

static int named(const char *what, const char *from, const char *to, int failed)
{
    if (failed == 0) {
        pthread_mutex_lock(&lock);
        tell_paths(what, from, to);
        pthread_mutex_unlock(&lock);
    }
    return failed;
}

int rename(const char *from, const char *to)
{
    int (*next)(const char *, const char *) = next_of("rename");
    return named("renamed", from, to, next(from, to));
}

int link(const char *from, const char *to)
{
    int (*next)(const char *, const char *) = next_of("link");
    return named("linked", from, to, next(from, to));
}

int unlink(const char *path)
{
    int (*next)(const char *) = next_of("unlink");
    return named("removed", path, NULL, next(path));
}
