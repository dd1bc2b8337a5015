/* Preloaded into the command by the tests: ends it at a step of its work, as a
 * power cut or SIGKILL would, or takes nameless files away from it.
 *   INTERRUPT=before:rename   killed before its first call of that function
 *   INTERRUPT=after:fsync     killed after it
 *   INTERRUPT=second:fsync    killed before the second; third and fourth alike
 *   NAMELESS=no               open fails with EOPNOTSUPP for O_TMPFILE
 *   FAIL=rename               the function fails with ENOSPC */
#define _GNU_SOURCE
#include <dlfcn.h>
#include <errno.h>
#include <fcntl.h>
#include <signal.h>
#include <stdarg.h>
#include <stdlib.h>
#include <string.h>
#include <unistd.h>

static int asked(const char *variable, const char *moment, const char *name) {
    const char *value = getenv(variable);
    return value && strncmp(value, moment, strlen(moment)) == 0 && strcmp(value + strlen(moment), name) == 0;
}

static void stop(const char *moment, const char *name) {
    if (asked("INTERRUPT", moment, name)) kill(getpid(), SIGKILL);
}

#define STEP(type, name, parameters, arguments)                               \
    type name parameters {                                                    \
        type(*real) parameters = (type(*) parameters)dlsym(RTLD_NEXT, #name); \
        static int calls;                                                     \
        type result;                                                          \
        stop("before:", #name);                                               \
        if (++calls == 2) stop("second:", #name);                             \
        if (calls == 3) stop("third:", #name);                                \
        if (calls == 4) stop("fourth:", #name);                               \
        if (asked("FAIL", "", #name)) {                                       \
            errno = ENOSPC;                                                   \
            return -1;                                                        \
        }                                                                     \
        result = real arguments;                                              \
        stop("after:", #name);                                                \
        return result;                                                        \
    }

STEP(ssize_t, write, (int file, const void *bytes, size_t length), (file, bytes, length))
STEP(int, fsync, (int file), (file))
STEP(int, fchmod, (int file, mode_t mode), (file, mode))
STEP(int, linkat, (int a, const char *from, int b, const char *to, int flags), (a, from, b, to, flags))
STEP(int, link, (const char *from, const char *to), (from, to))
STEP(int, unlink, (const char *path), (path))
STEP(int, rename, (const char *from, const char *to), (from, to))

int open64(const char *path, int flags, ...) {
    int (*real)(const char *, int, ...) = (int (*)(const char *, int, ...))dlsym(RTLD_NEXT, "open64");
    mode_t mode = 0;
    if ((flags & O_TMPFILE) == O_TMPFILE && asked("NAMELESS", "", "no")) {
        errno = EOPNOTSUPP;
        return -1;
    }
    if (flags & (O_CREAT | O_TMPFILE)) {
        va_list rest;
        va_start(rest, flags);
        mode = va_arg(rest, mode_t);
        va_end(rest);
    }
    return real(path, flags, mode);
}
