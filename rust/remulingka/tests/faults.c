/* Stands between the program and the system (LD_PRELOAD): counts every call that changes a
 * file or a folder, and at the one that FAULT names makes it fail or kills the program.
 *
 *   FAULT=N:MODE   MODE is
 *     count        nothing happens
 *     fail         call N fails
 *     fail-on      call N and all behind it fail
 *     kill         the program is killed before call N
 *     kill-behind  the program is killed behind call N
 *     half         call N, if it writes, writes half, and the program is killed
 *     fail-again-K call N fails, and call N + K too: in putting back, say
 *     fail-kill-K  call N fails, and the program is killed before call N + K
 *   FAULT_COUNT=FILE   the count of calls is written there at the end
 */
#define _GNU_SOURCE
#include <dlfcn.h>
#include <errno.h>
#include <fcntl.h>
#include <signal.h>
#include <stdarg.h>
#include <stdio.h>
#include <stdlib.h>
#include <string.h>
#include <sys/types.h>
#include <unistd.h>

static long calls, fault, second;
static const char *mode = "count";

__attribute__((constructor)) static void begin(void) {
    const char *text = getenv("FAULT");
    if (!text) return;
    fault = atol(text);
    const char *colon = strchr(text, ':');
    if (colon) mode = colon + 1;
    if (!strncmp(mode, "fail-again-", 11)) second = fault + atol(mode + 11);
    if (!strncmp(mode, "fail-kill-", 10)) second = fault + atol(mode + 10);
}

__attribute__((destructor)) static void end(void) {
    const char *path = getenv("FAULT_COUNT");
    FILE *file = path ? fopen(path, "w") : NULL;
    if (!file) return;
    fprintf(file, "%ld\n", calls);
    fclose(file);
}

static void die(void) { kill(getpid(), SIGKILL); }

/* Whether the call that begins now must fail. */
static int fails(void) {
    calls++;
    if (calls == fault && !strcmp(mode, "kill")) die();
    if (calls == second && !strncmp(mode, "fail-kill-", 10)) die();
    if ((calls == fault && !strncmp(mode, "fail", 4)) || (calls >= fault && !strcmp(mode, "fail-on")) ||
        (second && calls == second)) {
        errno = EIO;
        return 1;
    }
    return 0;
}

/* What the call gave, unless the program dies behind it. */
static long done(long result) {
    if (calls == fault && !strcmp(mode, "kill-behind")) die();
    return result;
}

#define REAL(name) ((__typeof__(&name))dlsym(RTLD_NEXT, #name))

int open64(const char *path, int flags, ...) {
    va_list rest;
    va_start(rest, flags);
    mode_t bits = flags & O_CREAT ? va_arg(rest, mode_t) : 0;
    va_end(rest);
    int (*real)(const char *, int, ...) = (int (*)(const char *, int, ...))dlsym(RTLD_NEXT, "open64");
    if (!(flags & O_CREAT)) return real(path, flags, bits);
    return fails() ? -1 : (int)done(real(path, flags, bits));
}

ssize_t write(int file, const void *bytes, size_t count) {
    if (file <= 2) return REAL(write)(file, bytes, count);
    if (fails()) return -1;
    if (calls == fault && !strcmp(mode, "half")) {
        REAL(write)(file, bytes, count / 2);
        die();
    }
    return done(REAL(write)(file, bytes, count));
}

int fsync(int file) { return fails() ? -1 : (int)done(REAL(fsync)(file)); }
int fchmod(int file, mode_t bits) { return fails() ? -1 : (int)done(REAL(fchmod)(file, bits)); }
int fchown(int file, uid_t user, gid_t group) {
    return fails() ? -1 : (int)done(REAL(fchown)(file, user, group));
}
int rename(const char *from, const char *to) {
    return fails() ? -1 : (int)done(REAL(rename)(from, to));
}
int unlink(const char *path) { return fails() ? -1 : (int)done(REAL(unlink)(path)); }
int link(const char *from, const char *to) {
    return fails() ? -1 : (int)done(REAL(link)(from, to));
}
int linkat(int a, const char *from, int b, const char *to, int flags) {
    return fails() ? -1 : (int)done(REAL(linkat)(a, from, b, to, flags));
}
