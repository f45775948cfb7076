/* Faults of a program that keeps a database, made from outside: built as a library and loaded before the C library
 * (LD_PRELOAD).
 *
 * Counted are the calls on the files of FAULT_FILE, which is the absolute path of the database: the file itself, those
 * with -wal, -journal and -shm behind its name, and the folder that holds it. Each of the environment's names has a
 * number, 1 for the first call.
 *
 *   STOP_AT=K      the process is killed (SIGKILL) before call K
 *   PART_AT=K      the same, but half of what call K writes is written first
 *   LOSE_AT=K      the same, behind call K where that writes, and what was written and not flushed since is lost: all
 *                  of it where LOSE_SEED is 0; else draws from the seed say of each file how much is lost, and of each
 *                  sector, of its length and of its name in the folder whether they are
 *   LOSE_AT_END    where it is set, the same is lost where the process ends by itself
 *   FAIL_AT=K      call K fails with the error number FAIL_WITH (5, an error of the device, where that isn't given)
 *   FAIL_FROM=K    call K and all after it fail so
 *   SHORT_AT=K     call K reads or writes a single byte
 *   SHORT_FROM=K   call K and all after it do; with SHORT_BYTES=N they move at most N bytes
 *   REFUSE_AT=K    request K for memory is refused
 *   REFUSE_FROM=K  request K for memory and all after it are
 *
 *   ONLY_CHANGES   where it is set, calls that change nothing on the disk (reads, lengths, names, locks) are not
 *                  counted
 *   ENDS           where it is set, writes to standard output and to sockets are counted as well
 *   ONLY_ENDS=1    instead of calls on files, reads of standard input and of sockets and writes to standard output and
 *                  to sockets are counted; with ONLY_ENDS=2 the writes alone
 *   NO_FLUSH       where it is set, a flush is answered and not done: the disk lies
 *   CLOCK=S        the clock stands still at this second
 *   TOLD_TO=FILE   at the end FILE tells, a line each, how many calls and requests for memory were counted, and where
 *                  the fault came
 *
 * A script that runs many programs is disturbed in one of them:
 *
 *   FAULT_FOLDER=F calls on the folder F (an absolute path) and on all that stands below it are counted as well, and
 *                  with them the calls by which other programs copy, list, measure, name, close and remove files
 *   FAULT_IN=NAME  no call is counted in a program of another name
 *   COUNT_IN=FILE  the count of calls stands in the first eight bytes of FILE, and goes on from one process to the next
 *
 * All calls go to the kernel by syscall(2), and memory comes from the C library by its own names, so nothing is looked
 * up.
 */
#define _GNU_SOURCE
#include <dirent.h>
#include <errno.h>
#include <fcntl.h>
#include <limits.h>
#include <linux/fs.h>
#include <signal.h>
#include <stdarg.h>
#include <stdint.h>
#include <stdio.h>
#include <stdlib.h>
#include <string.h>
#include <sys/mman.h>
#include <sys/socket.h>
#include <sys/stat.h>
#include <sys/syscall.h>
#include <sys/time.h>
#include <sys/uio.h>
#include <time.h>
#include <unistd.h>

extern void *__libc_malloc(size_t);
extern void *__libc_calloc(size_t, size_t);
extern void *__libc_realloc(void *, size_t);
extern void *__libc_memalign(size_t, size_t);

enum kind { OTHER, BASE, LOG, JOURNAL, INDEX, FOLDER, END, BELOW };
enum verdict { GO, FAIL, SHORT, PART, LOSE };
enum { READS, CHANGES };
enum { DESCRIPTORS = 1024, SECTOR = 512, SECTORS = 1 << 17 };

static const char *const NAMES[] = {"other", "file", "log", "journal", "index", "folder", "ends", "folder's content"};
static const char *const SUFFIXES[] = {NULL, "", "-wal", "-journal", "-shm"};

static char paths[FOLDER + 1][PATH_MAX], below[PATH_MAX];
static unsigned char kinds[DESCRIPTORS];
static long own_calls, *counter = &own_calls, requests;
static long stop_at, part_at, lose_at, fail_at, fail_from, short_at, short_from, refuse_at, refuse_from;
static size_t short_bytes = 1;
static int fail_with = EIO, only_changes, ends, no_flush, lose_at_end, only_ends, is_on;
static long clock_at = -1;
static uint64_t draws;
static char hit[200];

/* ---- what is told */

static void tell(void)
{
    char text[300];
    const char *name = getenv("TOLD_TO"), *where = hit[0] ? hit : "nothing";
    int length, file;
    if (!name)
        return;
    length = snprintf(text, sizeof text, "calls %ld\nmemory %ld\nhit %s\n", *counter, requests, where);
    file = syscall(SYS_openat, AT_FDCWD, name, O_WRONLY | O_CREAT | O_TRUNC | O_CLOEXEC, 0600);
    if (file < 0 || syscall(SYS_write, file, text, length) != length)
        _exit(99);
    syscall(SYS_close, file);
}

static void stop(void)
{
    tell();
    for (;;)
        syscall(SYS_kill, (long)getpid(), (long)SIGKILL);
}

/* ---- what was written and not flushed since */

static struct shadow {
    unsigned char *old[SECTORS];
    long size;
    int is_changed, is_new;
} shadows[FOLDER];

static long size_of(int file)
{
    struct stat found;
    return syscall(SYS_fstat, file, &found) ? -1 : (long)found.st_size;
}

static void keep(int file, enum kind kind, long begin, long end)
{
    struct shadow *shadow = &shadows[kind];
    if (!(lose_at || lose_at_end) || kind == OTHER || kind >= INDEX)
        return;
    if (!shadow->is_changed) {
        shadow->is_changed = 1;
        shadow->size = shadow->is_new ? 0 : size_of(file);
    }
    for (long at = begin / SECTOR; at * SECTOR < end && at < SECTORS; at++)
        if (!shadow->old[at]) {
            shadow->old[at] = __libc_calloc(1, SECTOR);
            (void)!syscall(SYS_pread64, file, shadow->old[at], SECTOR, at * SECTOR);
        }
}

static void flushed(enum kind kind)
{
    if (!(lose_at || lose_at_end) || no_flush)
        return;
    if (kind == FOLDER)
        for (int it = BASE; it < INDEX; it++)
            shadows[it].is_new = 0;
    if (kind == OTHER || kind >= INDEX)
        return;
    shadows[kind].is_changed = 0;
    for (long at = 0; at < SECTORS; at++) {
        free(shadows[kind].old[at]);
        shadows[kind].old[at] = NULL;
    }
}

/* Whether the next thing is lost, for so many of 16. */
static int drawn(int odds)
{
    if (!draws)
        return 1;
    draws ^= draws << 13;
    draws ^= draws >> 7;
    draws ^= draws << 17;
    return (int)((draws >> 32) % 16) < odds;
}

static void lose(void)
{
    for (int kind = BASE; kind < INDEX; kind++) {
        struct shadow *shadow = &shadows[kind];
        int file, odds = drawn(4) ? 16 : drawn(5) ? 15 : drawn(8) ? 8 : drawn(8) ? 1 : 0;
        long now, size;
        if (shadow->is_new && drawn(8)) {
            syscall(SYS_unlinkat, AT_FDCWD, paths[kind], 0);
            continue;
        }
        if (!shadow->is_changed)
            continue;
        file = syscall(SYS_openat, AT_FDCWD, paths[kind], O_RDWR | O_CLOEXEC, 0);
        if (file < 0)
            continue;
        now = size_of(file);
        size = now != shadow->size && drawn(odds) ? shadow->size : now;
        for (long at = 0; at < SECTORS; at++)
            if (shadow->old[at] && at * SECTOR < size && (at * SECTOR >= now || drawn(odds)))
                (void)!syscall(SYS_pwrite64, file, shadow->old[at], SECTOR, at * SECTOR);
        syscall(SYS_ftruncate, file, size);
        syscall(SYS_close, file);
    }
}

/* ---- the turn of a call */

static enum verdict turn(const char *name, enum kind kind, int changes)
{
    enum verdict verdict = GO;
    long calls;
    if (!is_on || kind == OTHER || (only_changes && changes != CHANGES) || (only_ends && kind != END))
        return GO;
    calls = *counter += 1;
    if (calls == part_at)
        verdict = PART;
    else if (calls == lose_at)
        verdict = LOSE;
    else if (calls == fail_at || (fail_from && calls >= fail_from))
        verdict = FAIL;
    else if (calls == short_at || (short_from && calls >= short_from))
        verdict = SHORT;
    if (verdict == GO && calls != stop_at)
        return GO;
    if (!hit[0])
        snprintf(hit, sizeof hit, "%s the %s at call %ld", name, NAMES[kind], calls);
    if (calls == stop_at)
        stop();
    if (verdict == FAIL)
        errno = fail_with;
    return verdict;
}

/* The turn of a call that isn't done in part: before it is lost what was not flushed. */
static int fails(const char *name, enum kind kind, int changes)
{
    enum verdict verdict = turn(name, kind, changes);
    if (verdict == LOSE)
        lose();
    if (verdict == LOSE || verdict == PART)
        stop();
    return verdict == FAIL;
}

static enum kind kind_of(int file)
{
    return file >= 0 && file < DESCRIPTORS ? kinds[file] : OTHER;
}

/* The kind of the file at a path. */
static enum kind kind_at(const char *path)
{
    char whole[2 * PATH_MAX], folder[PATH_MAX];
    size_t length = strlen(below);
    if ((!paths[BASE][0] && !length) || !path)
        return OTHER;
    if (path[0] != '/' && getcwd(folder, sizeof folder)) {
        snprintf(whole, sizeof whole, "%s/%s", folder, path);
        path = whole;
    }
    for (int kind = BASE; kind <= FOLDER; kind++)
        if (!strcmp(path, paths[kind]))
            return kind;
    return length && !strncmp(path, below, length) && (path[length] == '/' || !path[length]) ? BELOW : OTHER;
}

/* The kind of the file at a path that begins at an open folder, where it isn't whole. */
static enum kind kind_from(int folder, const char *path)
{
    char whole[2 * PATH_MAX], link[40];
    long length;
    if (folder == AT_FDCWD || !path || path[0] == '/')
        return kind_at(path);
    if (!path[0])
        return kind_of(folder);
    if (!below[0])
        return OTHER;
    snprintf(link, sizeof link, "/proc/self/fd/%d", folder);
    length = syscall(SYS_readlinkat, AT_FDCWD, link, whole, PATH_MAX);
    if (length < 0)
        return OTHER;
    snprintf(whole + length, PATH_MAX, "/%s", path);
    return kind_at(whole);
}

/* ---- opening */

static int opens(int folder, const char *path, int flags, int mode)
{
    enum kind kind = is_on ? kind_from(folder, path) : OTHER;
    int makes = kind != OTHER && kind != FOLDER && (flags & O_CREAT) && syscall(SYS_faccessat, AT_FDCWD, path, F_OK);
    int file;
    if (fails(makes ? "making" : "opening", kind, makes ? CHANGES : READS))
        return -1;
    file = syscall(SYS_openat, folder, path, flags, mode);
    if (file >= 0 && file < DESCRIPTORS)
        kinds[file] = kind;
    if (file >= 0 && makes && kind < INDEX)
        shadows[kind].is_new = 1;
    if (file >= 0 && kind != OTHER && kind < INDEX && (flags & O_TRUNC))
        keep(file, kind, 0, 0);
    return file;
}

#define MODE(flags, mode)                                         \
    int mode = 0;                                                 \
    if ((flags) & (O_CREAT | O_TMPFILE)) {                        \
        va_list more;                                             \
        va_start(more, flags);                                    \
        mode = va_arg(more, int);                                 \
        va_end(more);                                             \
    }
int open(const char *path, int flags, ...) { MODE(flags, mode) return opens(AT_FDCWD, path, flags, mode); }
int open64(const char *path, int flags, ...) { MODE(flags, mode) return opens(AT_FDCWD, path, flags, mode); }
int openat(int folder, const char *path, int flags, ...) { MODE(flags, mode) return opens(folder, path, flags, mode); }
int openat64(int folder, const char *path, int flags, ...)
{
    MODE(flags, mode)
    return opens(folder, path, flags, mode);
}
int creat(const char *path, mode_t mode) { return opens(AT_FDCWD, path, O_WRONLY | O_CREAT | O_TRUNC, mode); }

static int fails_below(const char *name, enum kind kind, int changes) { return below[0] && fails(name, kind, changes); }

/* A file whose closing fails is closed. */
int close(int file)
{
    int has_failed = fails_below("closing", kind_of(file), CHANGES);
    if (file >= 0 && file < DESCRIPTORS)
        kinds[file] = OTHER;
    if (syscall(SYS_close, file))
        return -1;
    if (has_failed)
        errno = fail_with;
    return has_failed ? -1 : 0;
}

int fcntl(int file, int command, ...)
{
    va_list more;
    void *rest;
    int made;
    va_start(more, command);
    rest = va_arg(more, void *);
    va_end(more);
    if ((command == F_SETLK || command == F_OFD_SETLK) && fails("locking", kind_of(file), READS))
        return -1;
    made = syscall(SYS_fcntl, file, command, rest);
    if ((command == F_DUPFD || command == F_DUPFD_CLOEXEC) && made >= 0 && made < DESCRIPTORS)
        kinds[made] = kind_of(file);
    return made;
}

/* ---- lengths, names and modes */

int statx(int folder, const char *restrict path, int flags, unsigned int mask, struct statx *restrict found)
{
    if (fails("measuring", path[0] ? kind_at(path) : kind_of(folder), READS))
        return -1;
    return syscall(SYS_statx, folder, path, flags, mask, found);
}

static int measures(int folder, const char *path, struct stat *found, int flags)
{
    if (fails_below("measuring", kind_from(folder, path), READS))
        return -1;
    return syscall(SYS_newfstatat, folder, path, found, flags);
}

int stat(const char *restrict path, struct stat *restrict found) { return measures(AT_FDCWD, path, found, 0); }
int lstat(const char *restrict path, struct stat *restrict found)
{
    return measures(AT_FDCWD, path, found, AT_SYMLINK_NOFOLLOW);
}
int fstat(int file, struct stat *found) { return measures(file, "", found, AT_EMPTY_PATH); }

ssize_t readlink(const char *restrict path, char *restrict link, size_t size)
{
    return fails_below("reading", kind_at(path), READS) ? -1 : syscall(SYS_readlinkat, AT_FDCWD, path, link, size);
}

int fstatat(int folder, const char *restrict path, struct stat *restrict found, int flags)
{
    return measures(folder, path, found, flags);
}

int fchmod(int file, mode_t mode)
{
    return fails("setting the mode of", kind_of(file), CHANGES) ? -1 : syscall(SYS_fchmod, file, mode);
}

int fchown(int file, uid_t owner, gid_t group)
{
    return fails("setting the owner of", kind_of(file), CHANGES) ? -1 : syscall(SYS_fchown, file, owner, group);
}

static int removes(const char *path)
{
    enum kind kind = kind_at(path);
    if (fails("removing", kind, CHANGES))
        return -1;
    return syscall(SYS_unlinkat, AT_FDCWD, path, 0);
}

int unlink(const char *path) { return removes(path); }

int unlinkat(int folder, const char *path, int flags)
{
    return fails_below("removing", kind_from(folder, path), CHANGES) ? -1 : syscall(SYS_unlinkat, folder, path, flags);
}

int rmdir(const char *path) { return unlinkat(AT_FDCWD, path, AT_REMOVEDIR); }

int mkdir(const char *path, mode_t mode)
{
    return fails_below("making", kind_at(path), CHANGES) ? -1 : syscall(SYS_mkdirat, AT_FDCWD, path, mode);
}

int renameat2(int from_folder, const char *from, int to_folder, const char *to, unsigned int flags)
{
    enum kind kind = kind_from(from_folder, from) ? kind_from(from_folder, from) : kind_from(to_folder, to);
    if (fails_below("renaming", kind, CHANGES))
        return -1;
    return syscall(SYS_renameat2, from_folder, from, to_folder, to, flags);
}

int renameat(int from_folder, const char *from, int to_folder, const char *to)
{
    return renameat2(from_folder, from, to_folder, to, 0);
}

/* ---- other programs' ways to open, list and copy */

int __open_2(const char *path, int flags) { return opens(AT_FDCWD, path, flags, 0); }

FILE *fopen(const char *restrict path, const char *restrict how)
{
    int more = strchr(how, '+') != NULL, file;
    int made = (more ? O_RDWR : O_WRONLY) | O_CREAT | (how[0] == 'a' ? O_APPEND : O_TRUNC);
    int flags = how[0] != 'r' ? made : more ? O_RDWR : O_RDONLY;
    file = opens(AT_FDCWD, path, flags | (strchr(how, 'e') ? O_CLOEXEC : 0), 0666);
    return file < 0 ? NULL : fdopen(file, how);
}

FILE *fopen64(const char *restrict path, const char *restrict how) { return fopen(path, how); }

DIR *opendir(const char *path)
{
    int file = opens(AT_FDCWD, path, O_RDONLY | O_DIRECTORY | O_CLOEXEC, 0);
    return file < 0 ? NULL : fdopendir(file);
}

ssize_t copy_file_range(int from, off64_t *from_at, int to, off64_t *to_at, size_t count, unsigned int flags)
{
    enum kind kind = kind_of(to) ? kind_of(to) : kind_of(from);
    enum verdict verdict = below[0] ? turn("copying", kind, CHANGES) : GO;
    if (verdict == FAIL)
        return -1;
    if (verdict == SHORT && count > short_bytes)
        count = short_bytes;
    return syscall(SYS_copy_file_range, from, from_at, to, to_at, count, flags);
}

int ioctl(int file, unsigned long request, ...)
{
    va_list more;
    void *rest;
    va_start(more, request);
    rest = va_arg(more, void *);
    va_end(more);
    if (request == FICLONE && fails_below("cloning", kind_of(file), CHANGES))
        return -1;
    return syscall(SYS_ioctl, file, request, rest);
}

int rename(const char *from, const char *to)
{
    if (fails("renaming", kind_at(from) ? kind_at(from) : kind_at(to), CHANGES))
        return -1;
    return syscall(SYS_renameat2, AT_FDCWD, from, AT_FDCWD, to, 0);
}

/* ---- reading */

ssize_t pread(int file, void *bytes, size_t count, off_t at)
{
    enum verdict verdict = turn("reading", kind_of(file), READS);
    if (verdict == FAIL)
        return -1;
    if (verdict == LOSE)
        lose();
    if (verdict == LOSE || verdict == PART)
        stop();
    return syscall(SYS_pread64, file, bytes, verdict == SHORT && count > short_bytes ? short_bytes : count, at);
}

ssize_t pread64(int file, void *bytes, size_t count, off_t at) { return pread(file, bytes, count, at); }

ssize_t read(int file, void *bytes, size_t count)
{
    enum verdict verdict = turn("reading", file == 0 && only_ends == 1 ? END : kind_of(file), READS);
    if (verdict == FAIL)
        return -1;
    if (verdict == LOSE)
        lose();
    if (verdict == LOSE || verdict == PART)
        stop();
    return syscall(SYS_read, file, bytes, verdict == SHORT && count > short_bytes ? short_bytes : count);
}

ssize_t recv(int file, void *bytes, size_t count, int flags)
{
    enum verdict verdict = turn("receiving", only_ends == 1 ? END : OTHER, READS);
    if (verdict == FAIL)
        return -1;
    if (verdict == SHORT && count > short_bytes)
        count = short_bytes;
    return syscall(SYS_recvfrom, file, bytes, count, flags, NULL, NULL);
}

/* ---- writing */

ssize_t pwrite(int file, const void *bytes, size_t count, off_t at)
{
    enum kind kind = kind_of(file);
    enum verdict verdict = turn("writing", kind, CHANGES);
    ssize_t put;
    if (verdict == FAIL)
        return -1;
    if (verdict == PART)
        count /= 2;
    if (verdict == SHORT && count > short_bytes)
        count = short_bytes;
    keep(file, kind, at, at + count);
    put = syscall(SYS_pwrite64, file, bytes, count, at);
    if (verdict == LOSE)
        lose();
    if (verdict == LOSE || verdict == PART)
        stop();
    return put;
}

ssize_t pwrite64(int file, const void *bytes, size_t count, off_t at) { return pwrite(file, bytes, count, at); }

/* Bytes of an answer: to standard output or a socket. */
static enum verdict end_turn(void)
{
    return turn("sending", ends || only_ends ? END : OTHER, CHANGES);
}

ssize_t write(int file, const void *bytes, size_t count)
{
    enum kind kind = kind_of(file);
    enum verdict verdict;
    ssize_t put;
    if (kind != OTHER) {
        put = pwrite(file, bytes, count, lseek(file, 0, SEEK_CUR));
        if (put > 0)
            lseek(file, put, SEEK_CUR);
        return put;
    }
    verdict = file == 1 ? end_turn() : GO;
    if (verdict == FAIL)
        return -1;
    if (verdict == LOSE)
        lose();
    if (verdict == PART || verdict == LOSE)
        count /= 2;
    if (verdict == SHORT && count > short_bytes)
        count = short_bytes;
    put = syscall(SYS_write, file, bytes, count);
    if (verdict == PART || verdict == LOSE)
        stop();
    return put;
}

ssize_t __write(int file, const void *bytes, size_t count) { return write(file, bytes, count); }

ssize_t sendmsg(int file, const struct msghdr *message, int flags)
{
    enum verdict verdict = end_turn();
    if (verdict == FAIL)
        return -1;
    if (verdict == LOSE)
        lose();
    if (verdict == PART || verdict == LOSE)
        stop();
    return syscall(SYS_sendmsg, file, message, flags);
}

ssize_t sendto(int file, const void *bytes, size_t count, int flags, const struct sockaddr *to, socklen_t length)
{
    enum verdict verdict = end_turn();
    ssize_t put;
    if (verdict == FAIL)
        return -1;
    if (verdict == LOSE)
        lose();
    if (verdict == PART || verdict == LOSE)
        count /= 2;
    if (verdict == SHORT && count > short_bytes)
        count = short_bytes;
    put = syscall(SYS_sendto, file, bytes, count, flags, to, length);
    if (verdict == PART || verdict == LOSE)
        stop();
    return put;
}

ssize_t send(int file, const void *bytes, size_t count, int flags)
{
    return sendto(file, bytes, count, flags, NULL, 0);
}

static int cuts(int file, off_t length)
{
    enum kind kind = kind_of(file);
    enum verdict verdict = turn("cutting", kind, CHANGES);
    long size;
    if (verdict == FAIL)
        return -1;
    if (verdict == PART)
        stop();
    size = kind == OTHER ? 0 : size_of(file);
    keep(file, kind, length < size ? length : size, size);
    if (syscall(SYS_ftruncate, file, length))
        return -1;
    if (verdict == LOSE) {
        lose();
        stop();
    }
    return 0;
}

int ftruncate(int file, off_t length) { return cuts(file, length); }
int ftruncate64(int file, off_t length) { return cuts(file, length); }

static int flushes(int file, const char *name, long number)
{
    enum kind kind = kind_of(file);
    if (fails(name, kind, CHANGES))
        return -1;
    if (no_flush && kind != OTHER)
        return 0;
    if (syscall(number, file))
        return -1;
    flushed(kind);
    return 0;
}

int fsync(int file) { return flushes(file, "flushing", SYS_fsync); }
int fdatasync(int file) { return flushes(file, "flushing", SYS_fdatasync); }

int posix_fadvise(int file, off_t at, off_t length, int advice)
{
    /* It answers the error's number. */
    return fails("advising", kind_of(file), READS) ? fail_with : -(int)syscall(SYS_fadvise64, file, at, length, advice);
}

/* ---- the clock */

int clock_gettime(clockid_t clock, struct timespec *now)
{
    if (clock == CLOCK_REALTIME && clock_at >= 0) {
        now->tv_sec = clock_at;
        now->tv_nsec = 0;
        return 0;
    }
    return syscall(SYS_clock_gettime, clock, now);
}

/* ---- memory */

static int refuses(void)
{
    if (!is_on)
        return 0;
    requests += 1;
    if (requests != refuse_at && !(refuse_from && requests >= refuse_from))
        return 0;
    if (!hit[0])
        snprintf(hit, sizeof hit, "request %ld for memory, after call %ld", requests, *counter);
    errno = ENOMEM;
    return 1;
}

void *malloc(size_t size) { return refuses() ? NULL : __libc_malloc(size); }
void *calloc(size_t items, size_t size) { return refuses() ? NULL : __libc_calloc(items, size); }
void *realloc(void *old, size_t size) { return refuses() ? NULL : __libc_realloc(old, size); }
void *memalign(size_t align, size_t size) { return refuses() ? NULL : __libc_memalign(align, size); }
void *aligned_alloc(size_t align, size_t size) { return refuses() ? NULL : __libc_memalign(align, size); }

int posix_memalign(void **made, size_t align, size_t size)
{
    *made = refuses() ? NULL : __libc_memalign(align, size);
    return *made ? 0 : ENOMEM;
}

/* ---- begin and end */

static long number(const char *name, long otherwise)
{
    const char *text = getenv(name);
    return text && text[0] ? atol(text) : otherwise;
}

/* The count that the processes of a script have in common. */
static void count_in(const char *name)
{
    int file = syscall(SYS_openat, AT_FDCWD, name, O_RDWR | O_CREAT | O_CLOEXEC, 0600);
    void *shared = MAP_FAILED;
    if (file >= 0 && !syscall(SYS_ftruncate, file, sizeof *counter))
        shared = mmap(NULL, sizeof *counter, PROT_READ | PROT_WRITE, MAP_SHARED, file, 0);
    if (shared == MAP_FAILED)
        _exit(99);
    syscall(SYS_close, file);
    counter = shared;
}

__attribute__((constructor)) static void begin(void)
{
    const char *file = getenv("FAULT_FILE"), *folder = getenv("FAULT_FOLDER"), *program = getenv("FAULT_IN");
    char *slash;
    if (folder && strlen(folder) < PATH_MAX)
        strcpy(below, folder);
    if (program && strcmp(program, program_invocation_short_name))
        return;
    if (getenv("COUNT_IN"))
        count_in(getenv("COUNT_IN"));
    if (file && strlen(file) + 10 < PATH_MAX) {
        for (int kind = BASE; kind <= INDEX; kind++)
            snprintf(paths[kind], PATH_MAX, "%s%s", file, SUFFIXES[kind]);
        strcpy(paths[FOLDER], file);
        slash = strrchr(paths[FOLDER], '/');
        if (slash)
            *slash = 0;
    }
    stop_at = number("STOP_AT", 0);
    part_at = number("PART_AT", 0);
    lose_at = number("LOSE_AT", 0);
    fail_at = number("FAIL_AT", 0);
    fail_from = number("FAIL_FROM", 0);
    fail_with = number("FAIL_WITH", EIO);
    short_at = number("SHORT_AT", 0);
    short_from = number("SHORT_FROM", 0);
    short_bytes = number("SHORT_BYTES", 1);
    refuse_at = number("REFUSE_AT", 0);
    refuse_from = number("REFUSE_FROM", 0);
    only_changes = getenv("ONLY_CHANGES") != NULL;
    ends = getenv("ENDS") != NULL;
    only_ends = number("ONLY_ENDS", 0);
    no_flush = getenv("NO_FLUSH") != NULL;
    lose_at_end = getenv("LOSE_AT_END") != NULL;
    clock_at = number("CLOCK", -1);
    draws = (uint64_t)number("LOSE_SEED", 0) * 0x9E3779B97F4A7C15u;
    is_on = 1;
}

__attribute__((destructor)) static void finish(void)
{
    is_on = 0;
    if (lose_at_end)
        lose();
    tell();
}
