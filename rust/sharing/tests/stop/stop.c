/*
 * Loaded into a program before the C library, this counts the calls by which the program changes the disk, from 1 on,
 * and writes a line for each into the file STOP_TRACE. At the call of the number STOP_AT it does what a word of STOP_MODE
 * says:
 *   kill   the call is made, and then the process is killed
 *   tear   the same, but a call that writes writes only half of the bytes
 *   hup, int, quit, term
 *          the call is made, and then the process gets this signal
 *   fail   the call is not made and fails, as on a full disk, if it is one that needs room
 *   full   the same from this call on
 *   taken  before the call is made another process makes the file STOP_WANTED, unless there is one
 * The word early says that the signal comes after the call of the number STOP_AT by which the program asks or says what is
 * to be done about it. Other words of STOP_MODE say what the file system does not have, and are no calls that count:
 *   no-tmpfile  files without a name
 *   no-proc     a way to give them one
 *   no-links    links
 *   no-sync     folders that can be synced
 *   no-reading  the right to read folders
 * All is done by calls of the system itself, which nothing counts.
 */
#define _GNU_SOURCE
#include <dlfcn.h>
#include <errno.h>
#include <fcntl.h>
#include <signal.h>
#include <stdarg.h>
#include <stdio.h>
#include <stdlib.h>
#include <string.h>
#include <sys/stat.h>
#include <sys/syscall.h>
#include <sys/types.h>
#include <unistd.h>

static int calls;

/* No word is a part of another one. */
static int mode_has(const char *word) { return strstr(getenv("STOP_MODE"), word) != NULL; }

static int refused(const char *word, int error) {
    if (mode_has(word)) errno = error;
    return mode_has(word);
}

static int is_at(void) { return calls == atoi(getenv("STOP_AT")); }

static void trace(const char *call, const char *path, const char *to) {
    char line[8192];
    int length = snprintf(line, sizeof line, *to ? "%s %s %s\n" : "%s %s\n", call, path, to);
    int out = syscall(SYS_open, getenv("STOP_TRACE"), O_WRONLY | O_CREAT | O_APPEND, 0600);
    if (syscall(SYS_write, out, line, length) != length) abort();
    syscall(SYS_close, out);
}

/* The name of an open file. */
static const char *name(int file) {
    static char path[4096];
    char link[32];
    if (file == 1) return "output";
    snprintf(link, sizeof link, "/proc/self/fd/%d", file);
    ssize_t length = syscall(SYS_readlink, link, path, sizeof path - 1);
    path[length < 0 ? 0 : length] = 0;
    return path;
}

/* What another process does, which is faster. */
static void take(void) {
    int file = syscall(SYS_open, getenv("STOP_WANTED"), O_WRONLY | O_CREAT | O_EXCL, 0600);
    if (file >= 0 && syscall(SYS_write, file, "theirs", 6) != 6) abort();
    if (file >= 0) syscall(SYS_close, file);
}

/* Counts a call, and says whether it is to be made. */
static int begin(const char *call, const char *path, const char *to, int needs_room) {
    calls++;
    trace(call, path, to);
    if (is_at() && mode_has("taken")) take();
    if (needs_room && ((mode_has("fail") && is_at()) || (mode_has("full") && calls >= atoi(getenv("STOP_AT"))))) {
        errno = ENOSPC;
        return 0;
    }
    return 1;
}

/* The signal of the mode, 0 where there is none: such a kill does nothing. */
static int signal_of_mode(void) {
    return mode_has("hup") ? SIGHUP : mode_has("int") ? SIGINT : mode_has("quit") ? SIGQUIT : mode_has("term") ? SIGTERM : 0;
}

/* What happens after it is made. */
static long end(long answer) {
    int error = errno;
    if (is_at() && (mode_has("kill") || mode_has("tear"))) syscall(SYS_kill, getpid(), SIGKILL);
    if (is_at() && !mode_has("early")) syscall(SYS_kill, getpid(), signal_of_mode());
    errno = error;
    return answer;
}

static size_t written(size_t length) { return is_at() && mode_has("tear") ? length / 2 : length; }

static int is_folder(const char *path) {
    struct stat found;
    return !stat(path, &found) && S_ISDIR(found.st_mode);
}

static int open_at(int folder, const char *path, int flags, mode_t mode) {
    int unnamed = (flags & O_TMPFILE) == O_TMPFILE;
    if ((flags & O_ACCMODE) == O_RDONLY && !(flags & O_CREAT)) {
        if (is_folder(path) && refused("no-reading", EACCES)) return -1;
        return syscall(SYS_openat, folder, path, flags, mode);
    }
    if (unnamed && refused("no-tmpfile", EOPNOTSUPP)) return -1;
    if (!begin("open", path, "", unnamed || flags & O_CREAT)) return -1;
    return end(syscall(SYS_openat, folder, path, flags, mode));
}

/* The mode, which only some calls have. */
#define MODE(last, mode) \
    va_list rest; \
    va_start(rest, last); \
    mode_t mode = va_arg(rest, mode_t); \
    va_end(rest)

int open(const char *path, int flags, ...) {
    MODE(flags, mode);
    return open_at(AT_FDCWD, path, flags, mode);
}

int open64(const char *path, int flags, ...) {
    MODE(flags, mode);
    return open_at(AT_FDCWD, path, flags, mode);
}

int openat(int folder, const char *path, int flags, ...) {
    MODE(flags, mode);
    return open_at(folder, path, flags, mode);
}

int openat64(int folder, const char *path, int flags, ...) {
    MODE(flags, mode);
    return open_at(folder, path, flags, mode);
}

ssize_t write(int file, const void *bytes, size_t length) {
    /* What is said of a failure is not stopped. */
    if (file == 2) return syscall(SYS_write, file, bytes, length);
    if (!begin("write", name(file), "", 1)) return -1;
    return end(syscall(SYS_write, file, bytes, written(length)));
}

ssize_t pwrite64(int file, const void *bytes, size_t length, off64_t place) {
    if (!begin("pwrite", name(file), "", 1)) return -1;
    return end(syscall(SYS_pwrite64, file, bytes, written(length), place));
}

ssize_t pwrite(int file, const void *bytes, size_t length, off_t place) { return pwrite64(file, bytes, length, place); }

int fsync(int file) {
    struct stat found;
    if (!fstat(file, &found) && S_ISDIR(found.st_mode) && refused("no-sync", EINVAL)) return -1;
    return begin("fsync", name(file), "", 1) ? end(syscall(SYS_fsync, file)) : -1;
}

int fdatasync(int file) { return begin("fdatasync", name(file), "", 1) ? end(syscall(SYS_fdatasync, file)) : -1; }

int ftruncate64(int file, off64_t length) {
    return begin("ftruncate", name(file), "", 1) ? end(syscall(SYS_ftruncate, file, length)) : -1;
}

int ftruncate(int file, off_t length) { return ftruncate64(file, length); }

int linkat(int from, const char *path, int to, const char *new_path, int flags) {
    int file, unnamed = sscanf(path, "/proc/self/fd/%d", &file) == 1;
    if (unnamed ? refused("no-proc", ENOENT) : refused("no-links", EPERM)) return -1;
    return begin("link", unnamed ? name(file) : path, new_path, 1) ? end(syscall(SYS_linkat, from, path, to, new_path, flags)) : -1;
}

int link(const char *path, const char *new_path) { return linkat(AT_FDCWD, path, AT_FDCWD, new_path, 0); }

int renameat(int from, const char *path, int to, const char *new_path) {
    return begin("rename", path, new_path, 1) ? end(syscall(SYS_renameat, from, path, to, new_path)) : -1;
}

int rename(const char *path, const char *new_path) { return renameat(AT_FDCWD, path, AT_FDCWD, new_path); }

int mkdir(const char *path, mode_t mode) { return begin("mkdir", path, "", 1) ? end(syscall(SYS_mkdir, path, mode)) : -1; }

int chmod(const char *path, mode_t mode) { return begin("chmod", path, "", 1) ? end(syscall(SYS_chmod, path, mode)) : -1; }

int fchmod(int file, mode_t mode) {
    return begin("chmod", name(file), "", 1) ? end(syscall(SYS_fchmod, file, mode)) : -1;
}

int unlinkat(int folder, const char *path, int flags) {
    begin("unlink", path, "", 0);
    return end(syscall(SYS_unlinkat, folder, path, flags));
}

int unlink(const char *path) { return unlinkat(AT_FDCWD, path, 0); }

int rmdir(const char *path) {
    begin("rmdir", path, "", 0);
    return end(syscall(SYS_rmdir, path));
}

int flock(int file, int operation) {
    begin("flock", name(file), "", 0);
    return end(syscall(SYS_flock, file, operation));
}

/* After a call on what is to be done about a signal. */
static void act(int number) {
    static int acts;
    if (!mode_has("early") || number != signal_of_mode()) return;
    if (++acts == atoi(getenv("STOP_AT"))) syscall(SYS_kill, getpid(), number);
}

int sigaction(int number, const struct sigaction *new, struct sigaction *old) {
    int (*next)(int, const struct sigaction *, struct sigaction *) = dlsym(RTLD_NEXT, "sigaction");
    int answer = next(number, new, old);
    act(number);
    return answer;
}

sighandler_t signal(int number, sighandler_t handler) {
    sighandler_t (*next)(int, sighandler_t) = dlsym(RTLD_NEXT, "signal");
    sighandler_t answer = next(number, handler);
    act(number);
    return answer;
}
