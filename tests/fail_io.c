/* Lets the Nth call fail that reads or writes, or opens, takes or waits for what is read or written, counted from 1 over all threads:
     FAIL_IO=N LD_PRELOAD=./fail_io.so PROGRAM ARGUMENTS..
   With FAIL_FOREVER=1 each later one fails too. It fails with EIO, and nothing is read or written. At its end the process writes how many
   calls it made to the file that FAIL_REPORT names, also where it ends by _exit, as a program with threads does. */
#define _GNU_SOURCE
#include <errno.h>
#include <fcntl.h>
#include <poll.h>
#include <stdarg.h>
#include <stdio.h>
#include <stdlib.h>
#include <sys/epoll.h>
#include <sys/socket.h>
#include <sys/syscall.h>
#include <sys/uio.h>
#include <unistd.h>

static long wanted = -1, made = 0;
static int is_forever = 0;
static const char *report = NULL;

__attribute__((constructor)) static void begin(void) {
    const char *number = getenv("FAIL_IO"), *forever = getenv("FAIL_FOREVER");
    report = getenv("FAIL_REPORT");
    is_forever = forever != NULL && forever[0] == '1';
    wanted = number == NULL ? -1 : atol(number);
    made = 0;
}

static void tell(void) {
    char line[32];
    int file = report == NULL ? -1 : syscall(SYS_openat, AT_FDCWD, report, O_WRONLY | O_CREAT | O_TRUNC, 0600);
    if (file >= 0) {
        int length = snprintf(line, sizeof line, "%ld\n", made);
        syscall(SYS_write, file, line, length);
        syscall(SYS_close, file);
    }
}

__attribute__((destructor)) static void at_end(void) { tell(); }

void _exit(int status) {
    tell();
    for (;;) {
        syscall(SYS_exit_group, status);
    }
}

static int fails(void) {
    long number = __atomic_add_fetch(&made, 1, __ATOMIC_SEQ_CST);
    if (wanted < 1 || number < wanted || (number > wanted && !is_forever)) {
        return 0;
    }
    errno = EIO;
    return 1;
}

ssize_t read(int fd, void *to, size_t size) { return fails() ? -1 : syscall(SYS_read, fd, to, size); }
ssize_t pread(int fd, void *to, size_t size, off_t place) { return fails() ? -1 : syscall(SYS_pread64, fd, to, size, place); }
ssize_t write(int fd, const void *of, size_t size) { return fails() ? -1 : syscall(SYS_write, fd, of, size); }
ssize_t readv(int fd, const struct iovec *to, int count) { return fails() ? -1 : syscall(SYS_readv, fd, to, count); }
ssize_t writev(int fd, const struct iovec *of, int count) { return fails() ? -1 : syscall(SYS_writev, fd, of, count); }
ssize_t recv(int fd, void *to, size_t size, int flags) { return fails() ? -1 : syscall(SYS_recvfrom, fd, to, size, flags, NULL, NULL); }
ssize_t send(int fd, const void *of, size_t size, int flags) { return fails() ? -1 : syscall(SYS_sendto, fd, of, size, flags, NULL, 0); }
ssize_t sendmsg(int fd, const struct msghdr *of, int flags) { return fails() ? -1 : syscall(SYS_sendmsg, fd, of, flags); }
ssize_t recvmsg(int fd, struct msghdr *to, int flags) { return fails() ? -1 : syscall(SYS_recvmsg, fd, to, flags); }
int accept4(int fd, struct sockaddr *who, socklen_t *length, int flags) { return fails() ? -1 : syscall(SYS_accept4, fd, who, length, flags); }
int epoll_ctl(int fd, int what, int of, struct epoll_event *event) { return fails() ? -1 : syscall(SYS_epoll_ctl, fd, what, of, event); }
int epoll_wait(int fd, struct epoll_event *events, int most, int wait) { return fails() ? -1 : syscall(SYS_epoll_wait, fd, events, most, wait); }
int poll(struct pollfd *fds, nfds_t count, int wait) { return fails() ? -1 : syscall(SYS_poll, fds, count, wait); }

static int opened(int folder, const char *path, int flags, mode_t mode) { return fails() ? -1 : syscall(SYS_openat, folder, path, flags, mode); }

int open(const char *path, int flags, ...) {
    va_list more;
    va_start(more, flags);
    mode_t mode = flags & (O_CREAT | O_TMPFILE) ? va_arg(more, mode_t) : 0;
    va_end(more);
    return opened(AT_FDCWD, path, flags, mode);
}

int openat(int folder, const char *path, int flags, ...) {
    va_list more;
    va_start(more, flags);
    mode_t mode = flags & (O_CREAT | O_TMPFILE) ? va_arg(more, mode_t) : 0;
    va_end(more);
    return opened(folder, path, flags, mode);
}
