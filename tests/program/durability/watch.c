/* Watches the calls by which a program reaches files and its standard output: logs each in order, makes some fail, and
 * kills the program before a call. It is put before the C library (LD_PRELOAD), and told what to do by its environment:
 *
 * WATCH_LOG     the file that it appends a line to for each call. Without it nothing is watched
 * WATCH_FAULTS  faults, each ended by a semicolon: CALL CLASS FIRST STEP COUNT WHAT. Of the calls of this name on files
 *               of this class (any: of each), counted from 1, the one of number FIRST fails, and every STEP-th after it,
 *               COUNT times in all (0: for ever). WHAT is an error's number; or -1: the call takes half of its bytes
 * WATCH_LIES    lies, each ended by a semicolon: KIND CALL CLASS AFTER FIRST. Of the calls of this name on files of this
 *               class, that follow a call of the name AFTER on their file (any: any call), those of number FIRST and on
 *               are told wrongly, as if the program didn't look. By `unmade` the call isn't made or logged, and succeeds;
 *               by `forgiven` one that fails succeeds; by `whole` one that took fewer bytes took all; by `hard` one that
 *               is to be made again fails for good
 * WATCH_KILL    the number, from 1, of the watched call before which the program is killed
 *
 * A line has ten words: the call's number, the thread, the call, the class of its file, the descriptor, the result, the
 * error, two numbers, and a path or the bytes that were written, in hexadecimal. One call is made at a time, so the
 * lines have the calls' own order, whichever threads make them.
 *
 * A C library has several names for one call: `__write` and `write`, `open64` and `open`. Which of them a program takes
 * is its toolchain's choice. So each is watched, and logged by its plain name. */
#define _GNU_SOURCE
#include <dlfcn.h>
#include <errno.h>
#include <fcntl.h>
#include <pthread.h>
#include <signal.h>
#include <stdarg.h>
#include <stdio.h>
#include <stdlib.h>
#include <string.h>
#include <sys/stat.h>
#include <sys/syscall.h>
#include <unistd.h>

#define MAX_FILES 128
#define MAX_FAULTS 16
#define MAX_BYTES 2200000
#define SHORT (-1)

enum class { OTHER, JOURNAL, FOLDER, INPUT, OUTPUT };
static const char *const class_names[] = {"other", "journal", "folder", "input", "output"};

struct fault {
    char call[16];
    char class[16];
    long first, step, count, what;
    long seen, made;
};

struct lie {
    char kind[16];
    char call[16];
    char class[16];
    char after[16];
    long first;
    long seen;
};

static pthread_mutex_t lock = PTHREAD_MUTEX_INITIALIZER;
static struct fault faults[MAX_FAULTS];
static int fault_count;
static struct lie lies[MAX_FAULTS];
static int lie_count;
/* The last call on each descriptor. */
static const char *last_calls[MAX_FILES];
static enum class classes[MAX_FILES];
static int log_file = -1;
static long calls, kill_at;
static char line[2 * MAX_BYTES + 512];

static void *next(const char *name) {
    void *found = dlsym(RTLD_NEXT, name);
    if (!found) abort();
    return found;
}

#define NEXT(type, name) \
    static type next_##name; \
    if (!next_##name) next_##name = (type)next(#name)

typedef long (*syscall_type)(long, ...);
typedef int (*open_type)(const char *, int, ...);
typedef int (*close_type)(int);
typedef int (*flock_type)(int, int);
typedef int (*fchmod_type)(int, mode_t);
typedef int (*ftruncate_type)(int, off_t);
typedef int (*sync_type)(int);
typedef ssize_t (*read_type)(int, void *, size_t);
typedef ssize_t (*write_type)(int, const void *, size_t);
typedef ssize_t (*pread_type)(int, void *, size_t, off_t);
typedef ssize_t (*pwrite_type)(int, const void *, size_t, off_t);
typedef int (*create_type)(pthread_t *, const pthread_attr_t *, void *(*)(void *), void *);

static void read_faults(const char *text) {
    for (const char *at = text; at && *at && fault_count < MAX_FAULTS; at = strchr(at, ';') + 1) {
        struct fault *it = &faults[fault_count++];
        int got = sscanf(at, "%15s %15s %ld %ld %ld %ld", it->call, it->class, &it->first, &it->step, &it->count,
                         &it->what);
        if (got != 6 || !strchr(at, ';')) abort();
    }
}

static void read_lies(const char *text) {
    for (const char *at = text; at && *at && lie_count < MAX_FAULTS; at = strchr(at, ';') + 1) {
        struct lie *it = &lies[lie_count++];
        int got = sscanf(at, "%15s %15s %15s %15s %ld", it->kind, it->call, it->class, it->after, &it->first);
        if (got != 5 || !strchr(at, ';')) abort();
    }
}

__attribute__((constructor)) static void begin(void) {
    NEXT(open_type, open);
    NEXT(close_type, close);
    const char *path = getenv("WATCH_LOG");
    if (!path) return;
    int opened = next_open(path, O_WRONLY | O_CREAT | O_APPEND | O_CLOEXEC, 0600);
    if (opened < 0) abort();
    log_file = fcntl(opened, F_DUPFD_CLOEXEC, MAX_FILES);
    if (log_file < 0) abort();
    next_close(opened);
    read_faults(getenv("WATCH_FAULTS"));
    read_lies(getenv("WATCH_LIES"));
    if (getenv("WATCH_KILL")) kill_at = atol(getenv("WATCH_KILL"));
    classes[STDOUT_FILENO] = OUTPUT;
}

static enum class class_of(int file) {
    return file >= 0 && file < MAX_FILES ? classes[file] : OTHER;
}

static enum class class_of_path(const char *path) {
    const char *slash = strrchr(path, '/');
    struct stat found;
    if (stat(path, &found) == 0 && S_ISDIR(found.st_mode)) return FOLDER;
    if (strncmp(slash ? slash + 1 : path, "journal", 7) == 0) return JOURNAL;
    return strncmp(path, "/dev/", 5) == 0 && strcmp(path, "/dev/stdin") != 0 ? OTHER : INPUT;
}

/* Whether a call is told wrongly in this way. */
static int is_told(const char *kind, const char *call, enum class class, int file) {
    int is_told = 0;
    for (int i = 0; i < lie_count; i++) {
        struct lie *it = &lies[i];
        if (strcmp(it->kind, kind) != 0 || strcmp(it->call, call) != 0) continue;
        if (strcmp(it->class, class_names[class]) != 0) continue;
        const char *last = file >= 0 && file < MAX_FILES ? last_calls[file] : 0;
        if (strcmp(it->after, "any") != 0 && (!last || strcmp(it->after, last) != 0)) continue;
        it->seen += 1;
        is_told |= it->seen >= it->first;
    }
    return is_told;
}

/* Begins a call: takes the lock, and kills the program if this is the call to do so at. Returns the fault to make, or
 * 0. */
static long begin_call(const char *call, enum class class) {
    pthread_mutex_lock(&lock);
    NEXT(syscall_type, syscall);
    calls += 1;
    if (calls == kill_at) {
        next_syscall(SYS_kill, getpid(), SIGKILL);
        for (;;) pause();
    }
    long made = 0;
    for (int i = 0; i < fault_count; i++) {
        struct fault *it = &faults[i];
        if (strcmp(it->call, call) != 0) continue;
        if (strcmp(it->class, "any") != 0 && strcmp(it->class, class_names[class]) != 0) continue;
        it->seen += 1;
        if (it->seen < it->first || (it->seen - it->first) % it->step != 0) continue;
        if (made != 0 || (it->count != 0 && it->made >= it->count)) continue;
        it->made += 1;
        made = it->what;
    }
    return made;
}

static void log_call(const char *call, enum class class, int file, long result, int error, long a, long b,
                     const char *path, const unsigned char *bytes, long count) {
    static const char digits[] = "0123456789abcdef";
    NEXT(write_type, write);
    NEXT(syscall_type, syscall);
    int length = snprintf(line, 512, "%ld %ld %s %s %d %ld %d %ld %ld ", calls, next_syscall(SYS_gettid), call,
                          class_names[class], file, result, error, a, b);
    if (path) length += snprintf(line + length, 256, "%s", path);
    if (count > MAX_BYTES) abort();
    for (long i = 0; i < count; i++) {
        line[length++] = digits[bytes[i] >> 4];
        line[length++] = digits[bytes[i] & 15];
    }
    if (!path && count <= 0) line[length++] = '-';
    line[length++] = '\n';
    for (long done = 0, count; done < length; done += count) {
        count = next_write(log_file, line + done, length - done);
        if (count <= 0) abort();
    }
}

/* Ends a call that isn't made, and succeeds. */
static long end_unmade(long result) {
    calls -= 1;
    pthread_mutex_unlock(&lock);
    return result;
}

/* What the program is told of a call that was asked for so many bytes. */
static long told(const char *call, enum class class, int file, long result, int *error, long count) {
    int is_again = *error == EINTR || *error == EAGAIN;
    if (result < 0 && is_told("forgiven", call, class, file)) return 0;
    if (result >= 0 && result < count && is_told("whole", call, class, file)) return count;
    if (result < 0 && is_again && is_told("hard", call, class, file)) *error = EIO;
    return result;
}

/* Ends a call that was begun: logs it, gives the lock back, and sets the error as it was. */
static long end_call(const char *call, enum class class, int file, long result, long a, long b, const char *path,
                     const void *bytes) {
    int error = result < 0 ? errno : 0;
    log_call(call, class, file, result, error, a, b, path, bytes, bytes ? result : 0);
    if (lie_count) result = told(call, class, file, result, &error, bytes ? b : 0);
    if (file >= 0 && file < MAX_FILES) last_calls[file] = call;
    pthread_mutex_unlock(&lock);
    if (result < 0) errno = error;
    return result;
}

static int fail(long error) {
    errno = (int)error;
    return -1;
}

static size_t half(size_t count) {
    return count > 1 ? count / 2 : count;
}

static int open_watched(const char *path, int flags, mode_t mode) {
    NEXT(open_type, open);
    if (log_file < 0) return next_open(path, flags, mode);
    enum class class = class_of_path(path);
    long fault = begin_call("open", class);
    int file = fault > 0 ? fail(fault) : next_open(path, flags, mode);
    if (file >= MAX_FILES) abort();
    if (file >= 0) classes[file] = class;
    return (int)end_call("open", class, file, file, flags, mode, path, 0);
}

int open(const char *path, int flags, ...) {
    va_list more;
    va_start(more, flags);
    mode_t mode = flags & O_CREAT ? va_arg(more, mode_t) : 0;
    va_end(more);
    return open_watched(path, flags, mode);
}

/* A name of another spelling for a call that is watched. */
#define SAME(result, name, call, given) result name given __attribute__((alias(#call)))

SAME(int, __open, open, (const char *, int, ...));
SAME(int, open64, open, (const char *, int, ...));
SAME(int, __open64, open, (const char *, int, ...));

int __open_2(const char *path, int flags) {
    return open_watched(path, flags, 0);
}

SAME(int, __open64_2, __open_2, (const char *, int));

int close(int file) {
    NEXT(close_type, close);
    if (log_file < 0 || class_of(file) == OTHER) return next_close(file);
    enum class class = class_of(file);
    begin_call("close", class);
    int result = next_close(file);
    classes[file] = OTHER;
    return (int)end_call("close", class, file, result, 0, 0, 0, 0);
}

SAME(int, __close, close, (int));

int flock(int file, int how) {
    NEXT(flock_type, flock);
    if (log_file < 0) return next_flock(file, how);
    long fault = begin_call("flock", class_of(file));
    if (is_told("unmade", "flock", class_of(file), file)) return end_unmade(0);
    int result = fault > 0 ? fail(fault) : next_flock(file, how);
    return (int)end_call("flock", class_of(file), file, result, how, 0, 0, 0);
}

int ftruncate(int file, off_t length) {
    NEXT(ftruncate_type, ftruncate);
    if (log_file < 0) return next_ftruncate(file, length);
    long fault = begin_call("ftruncate", class_of(file));
    int result = fault > 0 ? fail(fault) : next_ftruncate(file, length);
    return (int)end_call("ftruncate", class_of(file), file, result, length, 0, 0, 0);
}

SAME(int, ftruncate64, ftruncate, (int, off64_t));

int fchmod(int file, mode_t mode) {
    NEXT(fchmod_type, fchmod);
    if (log_file < 0) return next_fchmod(file, mode);
    begin_call("fchmod", class_of(file));
    return (int)end_call("fchmod", class_of(file), file, next_fchmod(file, mode), mode, 0, 0, 0);
}

static int sync_watched(const char *call, sync_type next_sync, int file) {
    if (log_file < 0) return next_sync(file);
    long fault = begin_call(call, class_of(file));
    if (is_told("unmade", call, class_of(file), file)) return end_unmade(0);
    int result = fault > 0 ? fail(fault) : next_sync(file);
    return (int)end_call(call, class_of(file), file, result, 0, 0, 0, 0);
}

int fsync(int file) {
    NEXT(sync_type, fsync);
    return sync_watched("fsync", next_fsync, file);
}

int fdatasync(int file) {
    NEXT(sync_type, fdatasync);
    return sync_watched("fdatasync", next_fdatasync, file);
}

/* A read may wait for long, so it is logged as it begins, and made without the lock. */
ssize_t read(int file, void *into, size_t count) {
    NEXT(read_type, read);
    if (log_file < 0 || class_of(file) == OTHER) return next_read(file, into, count);
    long fault = begin_call("read", class_of(file));
    int is_end = fault > 0 && is_told("forgiven", "read", class_of(file), file);
    end_call("read", class_of(file), file, 0, count, fault, 0, 0);
    if (is_end) return 0;
    return fault > 0 ? fail(fault) : next_read(file, into, fault == SHORT ? half(count) : count);
}

SAME(ssize_t, __read, read, (int, void *, size_t));

ssize_t __read_chk(int file, void *into, size_t count, size_t room) {
    if (count > room) abort();
    return read(file, into, count);
}

ssize_t pread(int file, void *into, size_t count, off_t at) {
    NEXT(pread_type, pread);
    if (log_file < 0) return next_pread(file, into, count, at);
    long fault = begin_call("pread", class_of(file));
    ssize_t result = fault > 0 ? fail(fault) : next_pread(file, into, fault == SHORT ? half(count) : count, at);
    return end_call("pread", class_of(file), file, result, at, count, 0, 0);
}

SAME(ssize_t, pread64, pread, (int, void *, size_t, off64_t));
SAME(ssize_t, __pread64, pread, (int, void *, size_t, off64_t));

ssize_t __pread_chk(int file, void *into, size_t count, off_t at, size_t room) {
    if (count > room) abort();
    return pread(file, into, count, at);
}

SAME(ssize_t, __pread64_chk, __pread_chk, (int, void *, size_t, off64_t, size_t));

ssize_t write(int file, const void *from, size_t count) {
    NEXT(write_type, write);
    if (log_file < 0 || file >= MAX_FILES) return next_write(file, from, count);
    long fault = begin_call("write", class_of(file));
    ssize_t result = fault > 0 ? fail(fault) : next_write(file, from, fault == SHORT ? half(count) : count);
    return end_call("write", class_of(file), file, result, 0, count, 0, from);
}

SAME(ssize_t, __write, write, (int, const void *, size_t));

ssize_t pwrite(int file, const void *from, size_t count, off_t at) {
    NEXT(pwrite_type, pwrite);
    if (log_file < 0) return next_pwrite(file, from, count, at);
    long fault = begin_call("pwrite", class_of(file));
    if (is_told("unmade", "pwrite", class_of(file), file)) return end_unmade(count);
    ssize_t result = fault > 0 ? fail(fault) : next_pwrite(file, from, fault == SHORT ? half(count) : count, at);
    return end_call("pwrite", class_of(file), file, result, at, count, 0, from);
}

SAME(ssize_t, pwrite64, pwrite, (int, const void *, size_t, off64_t));
SAME(ssize_t, __pwrite64, pwrite, (int, const void *, size_t, off64_t));

int pthread_create(pthread_t *thread, const pthread_attr_t *how, void *(*body)(void *), void *given) {
    NEXT(create_type, pthread_create);
    if (log_file < 0) return next_pthread_create(thread, how, body, given);
    long fault = begin_call("thread", OTHER);
    int result = fault > 0 ? (int)fault : next_pthread_create(thread, how, body, given);
    end_call("thread", OTHER, -1, result, 0, 0, 0, 0);
    return result;
}

/* The program waits for threads by this call. Any other use of it would be one that nothing here sees. */
long syscall(long number, ...) {
    NEXT(syscall_type, syscall);
    va_list more;
    va_start(more, number);
    long a = va_arg(more, long), b = va_arg(more, long), c = va_arg(more, long);
    long d = va_arg(more, long), e = va_arg(more, long), f = va_arg(more, long);
    va_end(more);
    if (log_file >= 0 && number != SYS_futex && number != SYS_gettid) {
        begin_call("syscall", OTHER);
        end_call("syscall", OTHER, -1, 0, number, 0, 0, 0);
    }
    return next_syscall(number, a, b, c, d, e, f);
}
