/* Loses connections between two ends in one process:
     LOSE=PAIR:N[,PAIR:N..] LD_PRELOAD=./lose_service.so PROGRAM ARGUMENTS..
   Pairs of connected sockets are counted from 1, in the order in which the process makes them. With the Nth message that is sent over a
   pair, by either end, both ends are shut: what was sent before may be read, then the end is there. A message is a call of `send`. At its
   end the process writes how often that happened to the file that LOSE_REPORT names. */
#define _GNU_SOURCE
#include <stdio.h>
#include <stdlib.h>
#include <sys/socket.h>
#include <sys/stat.h>
#include <sys/syscall.h>
#include <unistd.h>

#define MOST 64

static struct {
    ino_t ends[2];
    long left;
} pairs[MOST];
static int made = 0, lost = 0;

static void end(void) {
    const char *report = getenv("LOSE_REPORT");
    FILE *file = report == NULL ? NULL : fopen(report, "w");
    if (file != NULL) {
        fprintf(file, "%d\n", lost);
        fclose(file);
    }
}

__attribute__((destructor)) static void at_end(void) {
    end();
}

void _exit(int status) {
    end();
    for (;;) {
        syscall(SYS_exit_group, status);
    }
}

static ino_t inode_of(int fd) {
    struct stat of;
    return fstat(fd, &of) == 0 ? of.st_ino : 0;
}

static long sends_until_loss(int pair) {
    const char *at = getenv("LOSE");
    while (at != NULL && *at != '\0') {
        char *behind;
        long which = strtol(at, &behind, 10);
        long sends = *behind == ':' ? strtol(behind + 1, &behind, 10) : 0;
        if (which == pair) {
            return sends;
        }
        at = *behind == ',' ? behind + 1 : NULL;
    }
    return 0;
}

int socketpair(int domain, int type, int protocol, int ends[2]) {
    int status = syscall(SYS_socketpair, domain, type, protocol, ends);
    int at = __atomic_fetch_add(&made, 1, __ATOMIC_SEQ_CST);
    if (status == 0 && at < MOST) {
        pairs[at].ends[0] = inode_of(ends[0]);
        pairs[at].ends[1] = inode_of(ends[1]);
        pairs[at].left = sends_until_loss(at + 1);
    }
    return status;
}

ssize_t send(int fd, const void *bytes, size_t length, int flags) {
    ino_t inode = inode_of(fd);
    for (int at = 0; at < made && at < MOST; at++) {
        if (pairs[at].ends[0] != inode && pairs[at].ends[1] != inode) {
            continue;
        }
        if (__atomic_sub_fetch(&pairs[at].left, 1, __ATOMIC_SEQ_CST) == 0) {
            __atomic_add_fetch(&lost, 1, __ATOMIC_SEQ_CST);
            shutdown(fd, SHUT_RDWR);
        }
    }
    return syscall(SYS_sendto, fd, bytes, length, flags, NULL, 0);
}
