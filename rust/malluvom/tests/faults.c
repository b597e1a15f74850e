/* Stands before the C library and makes one call of the program fail, or kills the program there: FAULT_AT says which
 * call, counted from 0, FAULT_ERROR the error, or 0 to kill. The file that FAULT_MARK names is made when that happens. */
#define _GNU_SOURCE
#include <dirent.h>
#include <dlfcn.h>
#include <errno.h>
#include <fcntl.h>
#include <signal.h>
#include <stdarg.h>
#include <stdlib.h>
#include <sys/stat.h>
#include <sys/syscall.h>
#include <unistd.h>

static int fault(void) {
    static int calls;
    const char *at = getenv("FAULT_AT");
    if (!at || calls++ != atoi(at)) return 0;
    syscall(SYS_close, syscall(SYS_openat, AT_FDCWD, getenv("FAULT_MARK"), O_CREAT | O_WRONLY, 0644));
    errno = atoi(getenv("FAULT_ERROR"));
    if (errno == 0) raise(SIGKILL);
    return 1;
}

#define REAL(name) ((__typeof__(&name))dlsym(RTLD_NEXT, #name))
#define WRAP(type, failed, name, parameters, arguments) \
    type name parameters { return fault() ? failed : REAL(name) arguments; }

WRAP(ssize_t, -1, read, (int file, void *to, size_t count), (file, to, count))
WRAP(ssize_t, -1, write, (int file, const void *from, size_t count), (file, from, count))
WRAP(int, -1, rename, (const char *from, const char *to), (from, to))
WRAP(int, -1, unlink, (const char *path), (path))
WRAP(int, -1, fsync, (int file), (file))
WRAP(int, -1, fchmod, (int file, mode_t mode), (file, mode))
WRAP(char *, NULL, realpath, (const char *path, char *to), (path, to))
WRAP(DIR *, NULL, opendir, (const char *path), (path))
WRAP(struct dirent64 *, NULL, readdir64, (DIR *folder), (folder))
WRAP(int, -1, statx, (int at, const char *path, int flags, unsigned mask, struct statx *to), (at, path, flags, mask, to))

int open64(const char *path, int flags, ...) {
    va_list rest;
    va_start(rest, flags);
    int mode = va_arg(rest, int);
    va_end(rest);
    return fault() ? -1 : REAL(open64)(path, flags, mode);
}
