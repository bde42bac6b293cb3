/* Disturbs a program, for LD_PRELOAD: refuses memory, makes its reads and writes short or failing, and changes what it reads. By the
   environment:

   REFUSE_AT=N     the Nth growth (malloc or realloc) is refused
   REFUSE_FROM=N   the Nth growth and each later one are
   THREAD=T        only the growths of thread T are counted and refused: 0 is the program's first thread, and the others are 1, 2 and
                   so on in the order of their first growths
   BETWEEN=W       only the growths between the Wth write to standard output and the next one are counted and refused
   GROWTHS=FILE    FILE gets the number of growths that were counted, when the program ends
   FAIL_READ=N     the Nth read (of anything) and each later one fail
   FAIL_WRITE=N    the Nth write to standard output and each later one fail
   SHORT=1         each read and write moves one byte
   INTERRUPT=1     every other look at a name, opening, and reading of a folder's names is interrupted by a signal
   VANISH=NAME     a file whose path ends in NAME is removed before it is looked at as it is, were it a link or not
   REMOVE=NAME     a folder whose path ends in NAME is removed, with its files, once the first of its names were read
   SWAP=NAME       where a file whose path ends in NAME is opened, the file FOR=PATH is opened in its place */
#define _GNU_SOURCE
#include <dirent.h>
#include <dlfcn.h>
#include <errno.h>
#include <fcntl.h>
#include <stdarg.h>
#include <stdatomic.h>
#include <stddef.h>
#include <stdio.h>
#include <stdlib.h>
#include <string.h>
#include <sys/stat.h>
#include <sys/syscall.h>
#include <sys/types.h>
#include <unistd.h>

extern void *__libc_malloc(size_t);
extern void *__libc_realloc(void *, size_t);

static long refuse_at, refuse_from, thread, between, fail_read, fail_write, is_short, interrupts;
static const char *growths_file, *vanish, *removed, *swap, *swapped_for;
static atomic_long growths, threads, reads, writes, written, calls;
static _Thread_local long own_thread __attribute__((tls_model("initial-exec"))) = -1;

static long number_or(const char *name, long other) {
    const char *text = getenv(name);
    return text ? atol(text) : other;
}

static long number(const char *name) {
    return number_or(name, 0);
}

static void tell_growths(void) {
    char line[32];
    int length = snprintf(line, sizeof line, "%ld\n", atomic_load(&growths));
    int file = (int)syscall(SYS_openat, AT_FDCWD, growths_file, O_WRONLY | O_CREAT | O_TRUNC, 0644);
    if (file >= 0) {
        ssize_t (*put)(int, const void *, size_t) = dlsym(RTLD_NEXT, "write");
        put(file, line, (size_t)length);
        close(file);
    }
}

__attribute__((constructor)) static void begin(void) {
    refuse_at = number("REFUSE_AT");
    refuse_from = number("REFUSE_FROM");
    thread = number_or("THREAD", -1);
    between = number("BETWEEN");
    fail_read = number("FAIL_READ");
    fail_write = number("FAIL_WRITE");
    is_short = number("SHORT");
    interrupts = number("INTERRUPT");
    vanish = getenv("VANISH");
    removed = getenv("REMOVE");
    swap = getenv("SWAP");
    swapped_for = getenv("FOR");
    growths_file = getenv("GROWTHS");
    own_thread = 0;
    atomic_store(&threads, 1);
    atomic_store(&growths, 0);
}

/* the program ends by this call, and runs nothing that was left for its end */
void _exit(int status) {
    if (growths_file)
        tell_growths();
    syscall(SYS_exit_group, status);
    __builtin_unreachable();
}

static int refused(void) {
    if (between && atomic_load(&written) != between)
        return 0;
    if (own_thread < 0)
        own_thread = atomic_fetch_add(&threads, 1);
    if (thread >= 0 && own_thread != thread)
        return 0;
    long count = atomic_fetch_add(&growths, 1) + 1;
    return count == refuse_at || (refuse_from && count >= refuse_from);
}

void *malloc(size_t size) {
    if (refused()) {
        errno = ENOMEM;
        return NULL;
    }
    return __libc_malloc(size);
}

void *realloc(void *block, size_t size) {
    if (refused()) {
        errno = ENOMEM;
        return NULL;
    }
    return __libc_realloc(block, size);
}

ssize_t read(int file, void *bytes, size_t count) {
    static ssize_t (*get)(int, void *, size_t);
    if (!get)
        get = dlsym(RTLD_NEXT, "read");
    if (fail_read && atomic_fetch_add(&reads, 1) + 1 >= fail_read) {
        errno = EIO;
        return -1;
    }
    return get(file, bytes, is_short && count > 1 ? 1 : count);
}

ssize_t write(int file, const void *bytes, size_t count) {
    static ssize_t (*put)(int, const void *, size_t);
    if (!put)
        put = dlsym(RTLD_NEXT, "write");
    if (file == 1 && fail_write && atomic_fetch_add(&writes, 1) + 1 >= fail_write) {
        errno = ENOSPC;
        return -1;
    }
    ssize_t taken = put(file, bytes, is_short && count > 1 ? 1 : count);
    if (file == 1)
        atomic_fetch_add(&written, 1);
    return taken;
}

ssize_t __write(int file, const void *bytes, size_t count) {
    return write(file, bytes, count);
}

static int interrupted(void) {
    if (!interrupts || atomic_fetch_add(&calls, 1) % 2)
        return 0;
    errno = EINTR;
    return 1;
}

static int ends_in(const char *path, const char *name) {
    size_t whole = strlen(path), part = name ? strlen(name) : 0;
    return name && part <= whole && !strcmp(path + whole - part, name);
}

int openat(int folder, const char *path, int flags, ...) {
    va_list rest;
    va_start(rest, flags);
    unsigned mode = flags & O_CREAT ? va_arg(rest, unsigned) : 0;
    va_end(rest);
    if (interrupted())
        return -1;
    return (int)syscall(SYS_openat, folder, swapped_for && ends_in(path, swap) ? swapped_for : path, flags, mode);
}

int open(const char *path, int flags, ...) {
    va_list rest;
    va_start(rest, flags);
    unsigned mode = flags & O_CREAT ? va_arg(rest, unsigned) : 0;
    va_end(rest);
    return openat(AT_FDCWD, path, flags, mode);
}

int statx(int folder, const char *path, int flags, unsigned mask, struct statx *found) {
    if (interrupted())
        return -1;
    if (flags & AT_SYMLINK_NOFOLLOW && ends_in(path, vanish))
        unlink(path);
    return (int)syscall(SYS_statx, folder, path, flags, mask, found);
}

static void remove_folder(const char *path) {
    DIR *folder = opendir(path);
    struct dirent *it;
    while (folder && (it = readdir(folder)))
        unlinkat(dirfd(folder), it->d_name, 0);
    if (folder)
        closedir(folder);
    rmdir(path);
}

ssize_t getdents64(int folder, void *names, size_t count) {
    char link[64], path[4096];
    if (interrupted())
        return -1;
    ssize_t got = syscall(SYS_getdents64, folder, names, count);
    snprintf(link, sizeof link, "/proc/self/fd/%d", folder);
    ssize_t length = removed ? readlink(link, path, sizeof path - 1) : -1;
    if (length > 0 && got > 0) {
        path[length] = 0;
        if (ends_in(path, removed))
            remove_folder(path);
    }
    return got;
}
