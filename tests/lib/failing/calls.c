/* Stands before the C library under the program, and lets calls fail. The environment says which:
 *
 *   FAIL_HOW   `memory`: allocations; `fail`: calls of the outside, which do nothing; `late`: these, which do it and tell a failure all the
 *              same, but that no thread is started; `short`: reads and writes, of which one byte is moved
 *   FAIL_FROM, FAIL_TO   the first and the last of those calls that fails, counted from 1
 *   FAIL_NOW   the moment that the clock tells, in seconds since 1970
 *   FAIL_TOLD  the file in which is told how many allocations and how many calls there were, and the sum of what failed (`of` below)
 */
#define _GNU_SOURCE
#include <dlfcn.h>
#include <errno.h>
#include <fcntl.h>
#include <poll.h>
#include <pthread.h>
#include <stdarg.h>
#include <stdio.h>
#include <stdlib.h>
#include <string.h>
#include <sys/ioctl.h>
#include <sys/socket.h>
#include <sys/stat.h>
#include <sys/syscall.h>
#include <sys/uio.h>
#include <time.h>
#include <unistd.h>

enum how { NOT, FAIL, LATE, SHORT };
/* what a call is of: the three streams, files, files that are taken away, the network, a caller's connection, the clock that tells the
 * moment, the one that tells how long something took, and threads */
enum of { INPUT = 1, OUTPUT = 2, NOTES = 4, FILES = 8, AWAY = 16, NETWORK = 32, CALLER = 64, CLOCK = 128, TIMER = 256, THREADS = 512 };

void *__libc_malloc(size_t), *__libc_calloc(size_t, size_t), *__libc_realloc(void *, size_t);

static unsigned long from, to, allocations, calls, failed;
static long now = -1;
static int started, memory;
static enum how how;
static unsigned char sockets[1024];

#define EACH(X) X(read) X(write) X(writev) X(sendmsg) X(open) X(openat) X(fsync) X(fdatasync) X(rename) X(unlink) X(statx) X(fcntl) X(ioctl) \
    X(socket) X(setsockopt) X(getsockopt) X(getsockname) X(bind) X(listen) X(accept4) X(connect) X(send) X(recv) X(shutdown) X(poll) \
    X(clock_gettime) X(pthread_create) X(close)
#define KEPT(name) static __typeof__(&name) real_##name;
EACH(KEPT)

static unsigned long number(const char *name) {
    const char *text = getenv(name);
    return text ? strtoul(text, NULL, 10) : 0;
}

__attribute__((constructor)) static void start(void) {
    const char *word = getenv("FAIL_HOW");
#define FOUND(name) real_##name = dlsym(RTLD_NEXT, #name);
    EACH(FOUND)
    from = number("FAIL_FROM");
    to = number("FAIL_TO");
    if (getenv("FAIL_NOW")) now = number("FAIL_NOW");
    memory = word && !strcmp(word, "memory");
    how = !word || memory ? NOT : !strcmp(word, "short") ? SHORT : !strcmp(word, "late") ? LATE : FAIL;
    started = 1;
}

__attribute__((destructor)) static void tell(void) {
    const char *name = getenv("FAIL_TOLD");
    char text[80];
    int file, length;
    if (!started) return;
    started = 0;
    if (!name || (file = syscall(SYS_openat, AT_FDCWD, name, O_WRONLY | O_CREAT | O_TRUNC, 0600)) < 0) return;
    length = snprintf(text, sizeof text, "%lu %lu %lu\n", allocations, calls, failed);
    if (syscall(SYS_write, file, text, length) < 0) syscall(SYS_exit_group, 99);
    syscall(SYS_close, file);
}

/* a program that ends at once runs no destructors */
void _exit(int status) {
    tell();
    for (;;) syscall(SYS_exit_group, status);
}

/* ---- allocations */

static int no_memory(void) {
    unsigned long n;
    if (!started) return 0;
    n = __atomic_add_fetch(&allocations, 1, __ATOMIC_SEQ_CST);
    if (!memory || n < from || n > to) return 0;
    errno = ENOMEM;
    return 1;
}
void *malloc(size_t n) { return no_memory() ? NULL : __libc_malloc(n); }
void *calloc(size_t n, size_t m) { return no_memory() ? NULL : __libc_calloc(n, m); }
void *realloc(void *p, size_t n) { return no_memory() ? NULL : __libc_realloc(p, n); }

/* ---- calls of the outside */

static enum of of(int fd) {
    if (fd >= 0 && fd < 1024 && sockets[fd]) return sockets[fd];
    return fd == 0 ? INPUT : fd == 1 ? OUTPUT : fd == 2 ? NOTES : FILES;
}

static enum how due(enum of what, int moves) {
    unsigned long n;
    if (!started || (how == SHORT && !moves)) return NOT;
    n = __atomic_add_fetch(&calls, 1, __ATOMIC_SEQ_CST);
    if (how == NOT || n < from || n > to) return NOT;
    __atomic_fetch_or(&failed, what, __ATOMIC_SEQ_CST);
    return how;
}

/* a call that does the thing or doesn't: what it answers, or -1 with that error */
#define DOES(what, error, call) \
    do { \
        enum how this_how = due(what, 0); \
        if (this_how != FAIL) { \
            __typeof__(call) answer = call; \
            if (this_how == NOT) return answer; \
        } \
        errno = error; \
        return -1; \
    } while (0)

/* a call that moves some of n bytes */
#define MOVES(what, error, n, call) \
    do { \
        enum how this_how = due(what, 1); \
        if (this_how == SHORT && n > 1) n = 1; \
        if (this_how != FAIL) { \
            ssize_t answer = call; \
            if (this_how != LATE) return answer; \
        } \
        errno = error; \
        return -1; \
    } while (0)

ssize_t read(int fd, void *into, size_t n) { MOVES(of(fd), EIO, n, real_read(fd, into, n)); }
ssize_t write(int fd, const void *piece, size_t n) { MOVES(of(fd), of(fd) == FILES ? ENOSPC : EIO, n, real_write(fd, piece, n)); }
ssize_t send(int fd, const void *piece, size_t n, int flags) { MOVES(of(fd), ECONNRESET, n, real_send(fd, piece, n, flags)); }
ssize_t recv(int fd, void *into, size_t n, int flags) { MOVES(of(fd), ECONNRESET, n, real_recv(fd, into, n, flags)); }

/* the first piece that has a byte, alone */
static struct iovec one_byte(const struct iovec *pieces, size_t n) {
    struct iovec one = {NULL, 0};
    for (size_t at = 0; at < n && !one.iov_len; at++)
        if (pieces[at].iov_len) one = (struct iovec){pieces[at].iov_base, 1};
    return one;
}
ssize_t writev(int fd, const struct iovec *pieces, int n) {
    struct iovec one = one_byte(pieces, n);
    enum how this_how = due(of(fd), 1);
    ssize_t answer = this_how == FAIL ? -1 : this_how == SHORT ? real_writev(fd, &one, 1) : real_writev(fd, pieces, n);
    if (this_how == NOT || this_how == SHORT) return answer;
    errno = EIO;
    return -1;
}
ssize_t sendmsg(int fd, const struct msghdr *message, int flags) {
    struct iovec one = one_byte(message->msg_iov, message->msg_iovlen);
    struct msghdr other = *message;
    enum how this_how = due(of(fd), 1);
    ssize_t answer;
    if (this_how == SHORT) other.msg_iov = &one, other.msg_iovlen = 1;
    answer = this_how == FAIL ? -1 : real_sendmsg(fd, &other, flags);
    if (this_how == NOT || this_how == SHORT) return answer;
    errno = ECONNRESET;
    return -1;
}

/* the last argument of a call that may have one more */
#define REST(last, type) \
    va_list list; \
    type rest; \
    va_start(list, last); \
    rest = va_arg(list, type); \
    va_end(list);

int open(const char *path, int flags, ...) {
    REST(flags, int)
    DOES(FILES, EIO, real_open(path, flags, rest));
}
int openat(int folder, const char *path, int flags, ...) {
    REST(flags, int)
    DOES(FILES, EIO, real_openat(folder, path, flags, rest));
}
int fsync(int fd) { DOES(FILES, EIO, real_fsync(fd)); }
int fdatasync(int fd) { DOES(FILES, EIO, real_fdatasync(fd)); }
int rename(const char *old, const char *new) { DOES(FILES, EIO, real_rename(old, new)); }
int unlink(const char *path) { DOES(AWAY, EIO, real_unlink(path)); }
int statx(int folder, const char *path, int flags, unsigned mask, struct statx *found) { DOES(FILES, EIO, real_statx(folder, path, flags, mask, found)); }
int fcntl(int fd, int command, ...) {
    REST(command, long)
    DOES(of(fd), EINVAL, real_fcntl(fd, command, rest));
}
int ioctl(int fd, unsigned long command, ...) {
    REST(command, void *)
    DOES(of(fd), EINVAL, real_ioctl(fd, command, rest));
}

static int noted(int fd, enum of what) {
    if (fd >= 0 && fd < 1024) sockets[fd] = what;
    return fd;
}
int socket(int domain, int type, int protocol) { DOES(NETWORK, EMFILE, noted(real_socket(domain, type, protocol), NETWORK)); }
int accept4(int fd, struct sockaddr *from_whom, socklen_t *length, int flags) { DOES(NETWORK, EMFILE, noted(real_accept4(fd, from_whom, length, flags), CALLER)); }
int setsockopt(int fd, int level, int name, const void *value, socklen_t length) { DOES(of(fd), EINVAL, real_setsockopt(fd, level, name, value, length)); }
int getsockopt(int fd, int level, int name, void *value, socklen_t *length) { DOES(of(fd), EINVAL, real_getsockopt(fd, level, name, value, length)); }
int getsockname(int fd, struct sockaddr *address, socklen_t *length) { DOES(of(fd), ENOBUFS, real_getsockname(fd, address, length)); }
int bind(int fd, const struct sockaddr *address, socklen_t length) { DOES(NETWORK, EADDRINUSE, real_bind(fd, address, length)); }
int listen(int fd, int backlog) { DOES(NETWORK, EADDRINUSE, real_listen(fd, backlog)); }
int connect(int fd, const struct sockaddr *address, socklen_t length) { DOES(NETWORK, ECONNREFUSED, real_connect(fd, address, length)); }
int shutdown(int fd, int side) { DOES(of(fd), ENOTCONN, real_shutdown(fd, side)); }
int poll(struct pollfd *asked, nfds_t n, int wait) { DOES(n ? of(asked->fd) : NETWORK, ENOMEM, real_poll(asked, n, wait)); }

/* closing doesn't fail: nothing could be done about it */
int close(int fd) {
    if (fd >= 0 && fd < 1024) sockets[fd] = 0;
    return real_close(fd);
}

static int time_of(clockid_t clock, struct timespec *found) {
    int answer = real_clock_gettime(clock, found);
    if (now >= 0 && clock == CLOCK_REALTIME) *found = (struct timespec){now, 0};
    return answer;
}
int clock_gettime(clockid_t clock, struct timespec *found) { DOES(clock == CLOCK_REALTIME ? CLOCK : TIMER, EINVAL, time_of(clock, found)); }

/* a thread that runs is never told as failed, and so none is started here in either way */
int pthread_create(pthread_t *thread, const pthread_attr_t *attributes, void *(*runs)(void *), void *given) {
    return due(THREADS, 0) == NOT ? real_pthread_create(thread, attributes, runs, given) : EAGAIN;
}
