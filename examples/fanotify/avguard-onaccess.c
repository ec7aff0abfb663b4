/* Hands each open of a folder, or of a mount, to `avguard run`, and lets it through only if its content is granted. The help text below
 * says how it is used, README.md what it needs and what it does not see. Linux alone. */
#define _GNU_SOURCE
#define _FILE_OFFSET_BITS 64
#include "../client/avask.h"
#include <fcntl.h>
#include <limits.h>
#include <linux/capability.h>
#include <linux/magic.h>
#include <pthread.h>
#include <signal.h>
#include <stddef.h>
#include <stdio.h>
#include <stdlib.h>
#include <sys/fanotify.h>
#include <sys/resource.h>
#include <sys/signalfd.h>
#include <sys/stat.h>
#include <sys/syscall.h>
#include <sys/vfs.h>
#include <time.h>
#ifndef FAN_MARK_EVICTABLE
#define FAN_MARK_EVICTABLE 0x200 /* since Linux 5.19 */
#endif

enum { USAGE = 2, DEVICE = 4 };
enum { PASSING = 8, WORKERS = 8, MOST_WORKERS = 64, MOST_KEPT = 65536 };
enum { TURNS = 4 };              /* how often a file is read at most, while it changes or newer signatures come */
enum { LINE = 4000, NAME = 64 }; /* the most bytes of a line: a pipe takes so many at once; and of a program's name in it */
enum { EACH = 5 };               /* seconds between two tries to hear of versions, and between two looks for kept files that were deleted */
/* What is said of a file beside the answers of avask.h. */
enum { UNREAD = -3, CHANGES = -4, UNASKED = -5 };

static const char HELP[] =
    "usage: avguard-onaccess [-m] [-o] [-j N] [-k N] [-p PID].. OPENS FOLDER..\n"
    "\n"
    "Holds each open of a file in FOLDER until the guard at OPENS has judged its content.\n"
    "Only a file that the guard grants may be opened. A file that can't be read, and every\n"
    "file while no guard answers, is denied. Standard error has a line for each denial.\n"
    "It needs CAP_SYS_ADMIN, and runs until it is ended; from then on every open passes.\n"
    "\n"
    "  -m      each open of the mount that FOLDER is on, not of its own files alone\n"
    "  -o      lets through what the guard lets through unscanned (avguard run --open)\n"
    "  -j N    judges N files at once, 1 to 64; otherwise 8\n"
    "  -k N    has the kernel remember the grants of N files, 1 to 65536, until someone\n"
    "          opens them for writing or newer signatures come; otherwise of none\n"
    "  -p PID  lets through the opens of this process, up to 8: guard and service,\n"
    "          whose opens would wait for themselves\n"
    "  -h      this text\n";

/* How it was started. Nothing of this changes once the workers run. */
static struct {
    const char *opens; /* the path of the guard */
    int events;        /* where the kernel's questions come from */
    int is_open;       /* -o */
    pid_t passing[PASSING + 1];
    int known; /* how many of these there are */
} settings;

/* A thread that takes one event at a time, with a connection of its own. */
struct worker {
    pthread_t thread;
    int connection;  /* or -1 */
    int takes_parts; /* 0 once the guard answered over it that its service takes none */
    unsigned char content[AV_MOST + 1];
    struct av_answer answer; /* of the guard, about the file of the event */
    struct stat before;      /* that file, before it was read */
};

/* What the kernel remembers, with -k. A file is LEASED before it is read, and KEPT while its grant has a mark: its descriptor stays open then.
 * The kernel leases no file that someone has open or mapped for writing. It holds each open for writing of a leased one until the lease is
 * given back, and the mark goes before that. So nobody has a file open for writing while it has a mark. */
enum { FREE, LEASED, KEPT };
static struct {
    long most, count;     /* how many files may be KEPT, 0 without -k, and how many are */
    int end, hand;        /* the descriptors below `end` have a state; `keep` looks for the next one to forget from `hand` on */
    unsigned char *state; /* of each descriptor */
    int versions;         /* the connection over which the guard names its versions, or -1: then all are FREE */
    uint64_t newest;      /* the newest version that it named since then: KEPT files were granted under it */
    pthread_mutex_t lock; /* for all of this but `most` and `end` */
} kept = {.versions = -1, .lock = PTHREAD_MUTEX_INITIALIZER};

static int failed(const char *name) {
    fprintf(stderr, "avguard-onaccess: %s: %s\n", name, strerror(errno));
    return DEVICE;
}

static time_t seconds(void) {
    struct timespec now;
    return clock_gettime(CLOCK_MONOTONIC, &now) == 0 ? now.tv_sec : 0;
}

/* Fills in from a place of a file, fewer bytes than `most` only at its end: how many, or -1. */
static ssize_t read_at(int file, unsigned char *content, size_t most, off_t at) {
    size_t length = 0;
    while (length < most) {
        ssize_t some = pread(file, content + length, most - length, at + (off_t)length);
        if (some < 0 && errno == EINTR) continue;
        if (some < 0) return -1;
        if (some == 0) break;
        length += (size_t)some;
    }
    return (ssize_t)length;
}

/* Whether a file of which `count` bytes were read has another length now, or is longer than it was before. */
static int changes(int file, off_t before, off_t count) {
    struct stat now;
    return count > before || fstat(file, &now) < 0 || now.st_size != count;
}

/* Sends a file in parts, of which the first `some` bytes were read. If its length changes meanwhile, the ask is given up: the verdict would
 * be of a content that the file has no more. */
static int in_parts(struct worker *worker, int file, off_t before, ssize_t some, struct av_answer *answer) {
    struct av_content parts;
    off_t count = 0;
    int said = av_begin(&parts, worker->connection), fault = 0;
    while (said == AV_OPEN && some > 0 && count <= before) {
        said = av_part(&parts, worker->content, (size_t)some);
        count += some;
        if (said == AV_OPEN) some = read_at(file, worker->content, AV_SMALL, count);
    }
    if (said == AV_LOST) return AV_LOST;
    if (said == AV_OPEN) fault = some < 0 ? UNREAD : changes(file, before, count) ? CHANGES : 0;
    if (fault == 0) return av_end(&parts, answer);
    return av_give_up(&parts, answer) == AV_LOST ? AV_LOST : fault;
}

/* Reads a file once and asks about what was read. */
static int ask_once(struct worker *worker, int file, struct av_answer *answer) {
    size_t small = worker->takes_parts ? AV_SMALL : AV_MOST;
    struct stat before;
    if (fstat(file, &before) < 0) return UNREAD;
    ssize_t some = read_at(file, worker->content, small + 1, 0);
    if (some < 0) return UNREAD;
    if ((size_t)some > small) return in_parts(worker, file, before.st_size, some > AV_MOST ? AV_MOST : some, answer);
    if (changes(file, before.st_size, some)) return CHANGES;
    return av_ask(worker->connection, worker->content, (size_t)some, answer);
}

/* What is said of a file. A connection that was lost, as by a guard that was started anew, is made again. A guard that takes or gives
 * nothing for AV_SECONDS is lost, and is not asked again then: no open waits for ever. */
static int ask(struct worker *worker, int file, struct av_answer *answer) {
    int said = AV_LOST;
    time_t begun = seconds();
    for (int turn = 0; turn < TURNS; turn++) {
        if (worker->connection < 0) {
            worker->connection = av_connect(settings.opens);
            worker->takes_parts = 1;
        }
        if (worker->connection < 0) return AV_LOST;
        said = ask_once(worker, file, answer);
        if (said == AV_LOST) {
            close(worker->connection);
            worker->connection = -1;
            if (seconds() - begun >= AV_SECONDS) return AV_LOST;
        } else if (said == AV_DENIED || said == AV_UNSCANNED) {
            int takes_none = answer->cause == AV_NO_PARTS && worker->takes_parts;
            if (!takes_none && answer->cause != AV_AGAIN) return said;
            if (takes_none) worker->takes_parts = 0; /* up to AV_MOST bytes go as one ask */
        } else if (said != CHANGES) {
            return said;
        }
    }
    return said;
}

/* Has the kernel ask about the next open of a file. Its mark stays, without its effect: while the kernel destroys the mark of a file, it lets
 * opens of that file pass. */
static void forget(int file) {
    int is_kept = kept.state[file] == KEPT;
    unsigned how = FAN_MARK_REMOVE | FAN_MARK_IGNORED_MASK;
    /* ENOENT: it had no mark, as one that was deleted. */
    if (is_kept && fanotify_mark(settings.events, how, FAN_OPEN_PERM, file, NULL) < 0 && errno != ENOENT) exit(failed("fanotify"));
    fcntl(file, F_SETLEASE, F_UNLCK);
    kept.state[file] = FREE;
    if (!is_kept) return; /* a worker has it open still */
    kept.count--;
    close(file);
}

/* Forgets the files that are KEPT, or all that are at least LEASED. */
static void forget_all(int least) {
    for (int file = 0; file < kept.end; file++)
        if (kept.state[file] >= least) forget(file);
}

/* Forgets of these files those that were deleted, so that their space is freed, and those whose lease the kernel wants back for a writer. */
static void forget_changed(int file, int end) {
    struct stat now;
    for (; file < end; file++)
        if (kept.state[file] != FREE && (fcntl(file, F_GETLEASE) != F_RDLCK || fstat(file, &now) < 0 || now.st_nlink == 0)) forget(file);
}

/* The guard named a version: from here on no open rests on an older one. */
static void learn(uint64_t version) {
    if (version <= kept.newest) return;
    kept.newest = version;
    forget_all(KEPT);
}

/* Whether a lease of a file sees each writer: no other machine writes to its file system. Not tmpfs: io_uring may keep the memory of a file there,
 * and write to it after the file was closed. */
static int is_local(int file) {
    struct statfs on;
    if (fstatfs(file, &on) < 0) return 0;
    return on.f_type == EXT4_SUPER_MAGIC || on.f_type == XFS_SUPER_MAGIC || on.f_type == BTRFS_SUPER_MAGIC;
}

/* Leases a file before it is read, if its grant may be kept. */
static void lease(struct worker *worker, int file) {
    if (file >= kept.end || !is_local(file)) return;
    pthread_mutex_lock(&kept.lock);
    if (kept.versions >= 0 && fcntl(file, F_SETSIG, SIGRTMIN) == 0 && fcntl(file, F_SETLEASE, F_RDLCK) == 0) {
        kept.state[file] = LEASED;
        if (fstat(file, &worker->before) < 0) forget(file);
    }
    pthread_mutex_unlock(&kept.lock);
}

/* Has the kernel remember a grant. FAN_ONDIR, which no event of a file has, is for `forget`. The file is looked at once the mark has its effect:
 * a truncation by an open for reading waits for no lease. If one comes later, the kernel takes the effect back. */
static void keep(int file, const struct stat *before) {
    struct stat now;
    for (; kept.count >= kept.most; kept.hand = (kept.hand + 1) % kept.end)
        if (kept.state[kept.hand] == KEPT) forget(kept.hand);
    kept.state[file] = KEPT;
    kept.count++;
    unsigned how = FAN_MARK_ADD | FAN_MARK_EVICTABLE;
    int marked = fanotify_mark(settings.events, how, FAN_ONDIR, file, NULL);
    if (marked == 0) marked = fanotify_mark(settings.events, how | FAN_MARK_IGNORED_MASK, FAN_OPEN_PERM, file, NULL);
    if (marked < 0 || fcntl(file, F_GETLEASE) != F_RDLCK || fstat(file, &now) < 0 || now.st_size != before->st_size ||
        now.st_ctim.tv_sec != before->st_ctim.tv_sec || now.st_ctim.tv_nsec != before->st_ctim.tv_nsec)
        forget(file);
}

/* Ends what an event began, once the kernel has its answer: the descriptor is kept or closed. */
static void settle(struct worker *worker, int file, int said) {
    pthread_mutex_lock(&kept.lock);
    int is_leased = file < kept.end && kept.state[file] == LEASED;
    if (is_leased && said == AV_GRANTED && worker->answer.version == kept.newest) {
        keep(file, &worker->before);
    } else {
        if (is_leased) forget(file);
        close(file);
    }
    pthread_mutex_unlock(&kept.lock);
}

/* Asks the guard to name its versions. Without the lock, since a guard may be slow. */
static void ask_for_versions(void) {
    uint64_t version;
    int guard = av_connect(settings.opens);
    if (guard < 0) return;
    if (av_wait(guard, EACH) < 0 || av_watch(guard) == AV_LOST || av_version(guard, EACH * 1000, &version) != AV_VERSION) {
        close(guard);
        return;
    }
    pthread_mutex_lock(&kept.lock);
    kept.versions = guard;
    kept.newest = version;
    pthread_mutex_unlock(&kept.lock);
}

static void hear_versions(void) {
    uint64_t version;
    int said;
    while ((said = av_version(kept.versions, 0, &version)) == AV_VERSION) learn(version);
    if (said != AV_LOST) return;
    forget_all(LEASED);
    close(kept.versions);
    kept.versions = -1;
}

/* Forgets what must not be kept any longer, in a thread of its own. */
static void *watch(void *of) {
    struct signalfd_siginfo signal;
    int signals = *(int *)of;
    for (time_t next = 0;;) {
        int is_time = seconds() >= next;
        if (is_time) next = seconds() + EACH;
        if (is_time && kept.versions < 0) ask_for_versions();
        struct pollfd at[] = {{signals, POLLIN, 0}, {kept.versions, POLLIN, 0}};
        poll(at, 2, is_time ? 0 : EACH * 1000);
        pthread_mutex_lock(&kept.lock);
        if (is_time) forget_changed(0, kept.end);
        while (read(signals, &signal, sizeof signal) == (ssize_t)sizeof signal) {
            /* SIGIO: no room was left for a signal that names its descriptor */
            if (signal.ssi_signo == SIGIO) forget_changed(0, kept.end);
            else if (signal.ssi_fd >= 0 && signal.ssi_fd < kept.end) forget_changed(signal.ssi_fd, signal.ssi_fd + 1);
        }
        if (kept.versions >= 0) hear_versions();
        pthread_mutex_unlock(&kept.lock);
    }
    return NULL;
}

/* Whether this process may read each file. The kernel asks for that when a mark is changed, and the owner of a file may take its rights away
 * in between: `forget` must not fail then. */
static int reads_all(void) {
    struct __user_cap_header_struct head = {_LINUX_CAPABILITY_VERSION_3, 0};
    struct __user_cap_data_struct caps[2];
    uint32_t either = 1u << CAP_DAC_OVERRIDE | 1u << CAP_DAC_READ_SEARCH;
    if (syscall(SYS_capget, &head, caps) < 0) return 0;
    errno = EPERM;
    return (caps[0].effective & either) != 0;
}

/* Makes room for kept files, and starts the thread that watches them: 0, or the status. */
static int start_to_keep(long workers) {
    static int signals;
    pthread_t watcher;
    sigset_t of_leases;
    struct rlimit files;
    rlim_t end = (rlim_t)(kept.most + 3 * workers + 64);
    if (!reads_all()) return failed("CAP_DAC_READ_SEARCH");
    if (getrlimit(RLIMIT_NOFILE, &files) < 0) return failed("descriptors");
    if (files.rlim_max < end) files.rlim_max = end;
    if (files.rlim_cur < end) files.rlim_cur = end;
    if (setrlimit(RLIMIT_NOFILE, &files) < 0) return failed("descriptors");
    if ((kept.state = calloc(end, 1)) == NULL) return failed("memory");
    kept.end = (int)end;
    sigemptyset(&of_leases);
    sigaddset(&of_leases, SIGRTMIN);
    sigaddset(&of_leases, SIGIO);
    if ((errno = pthread_sigmask(SIG_BLOCK, &of_leases, NULL)) != 0) return failed("signals");
    if ((signals = signalfd(-1, &of_leases, SFD_NONBLOCK | SFD_CLOEXEC)) < 0) return failed("signals");
    if ((errno = pthread_create(&watcher, NULL, watch, &signals)) != 0) return failed("thread");
    return 0;
}

/* Appends bytes in quotes. A byte is written as \xHH if it is a double quote, a backslash, or neither a visible character of ASCII nor a
 * space, so that no name ends its quotes or its line. Two dots after the quotes show that it was cut. */
static size_t quote(char *line, size_t at, size_t most, const char *name, size_t length) {
    size_t i = 0;
    line[at++] = '"';
    for (; i < length && at + 8 < most; i++) {
        unsigned char byte = (unsigned char)name[i];
        if (byte >= ' ' && byte <= '~' && byte != '"' && byte != '\\') line[at++] = (char)byte;
        else at += (size_t)sprintf(line + at, "\\x%02x", byte);
    }
    line[at++] = '"';
    return at + (size_t)sprintf(line + at, "%s", i < length ? ".." : "");
}

/* Writes a line to standard error if that takes it at once, so that nobody's open waits for a reader. What it did not take is counted. */
static void write_line(const char *line, size_t length) {
    static pthread_mutex_t one_at_a_time = PTHREAD_MUTEX_INITIALIZER;
    static unsigned long dropped;
    struct pollfd at = {STDERR_FILENO, POLLOUT, 0};
    pthread_mutex_lock(&one_at_a_time);
    if (poll(&at, 1, 0) != 1 || !(at.revents & POLLOUT) || write(STDERR_FILENO, line, length) < 0) {
        dropped++;
    } else if (dropped > 0 && poll(&at, 1, 0) == 1 && (at.revents & POLLOUT)) {
        char text[80];
        int count = snprintf(text, sizeof text, "avguard-onaccess: %lu lines were dropped\n", dropped);
        if (write(STDERR_FILENO, text, (size_t)count) == count) dropped = 0;
    }
    pthread_mutex_unlock(&one_at_a_time);
}

/* The first bytes of the name of a program that runs: how many. */
static size_t name_of(pid_t process, char *name, size_t most) {
    char path[64];
    snprintf(path, sizeof path, "/proc/%ld/comm", (long)process);
    int file = open(path, O_RDONLY | O_CLOEXEC);
    ssize_t length = file < 0 ? 0 : read(file, name, most);
    if (file >= 0) close(file);
    while (length > 0 && name[length - 1] == '\n') length--;
    return length > 0 ? (size_t)length : 0;
}

/* One line about an open that is denied: why, whose it is, and the path. */
static void report(const struct fanotify_event_metadata *event, int said, const struct av_answer *answer) {
    char line[LINE + 1], path[PATH_MAX], link[64], name[NAME];
    const char *why = said == UNREAD ? "cannot read" : said == CHANGES ? "it changes" : said == AV_LOST ? "no guard answers" : av_why(answer->cause);
    int count = snprintf(line, sizeof line, "avguard-onaccess: answer=denied ");
    size_t at = (size_t)count;
    if (said == AV_DENIED || said == AV_UNSCANNED) at += (size_t)snprintf(line + at, sizeof line - at, "cause=%d ", answer->cause);
    at += (size_t)snprintf(line + at, sizeof line - at, "why=\"%s\" process=%ld program=", why, (long)event->pid);
    at = quote(line, at, sizeof line, name, name_of(event->pid, name, sizeof name));
    at += (size_t)snprintf(line + at, sizeof line - at, " path=");
    snprintf(link, sizeof link, "/proc/self/fd/%d", event->fd);
    ssize_t length = readlink(link, path, sizeof path);
    at = quote(line, at, sizeof line, path, length > 0 ? (size_t)length : 0);
    line[at++] = '\n';
    write_line(line, at);
}

static int passes(pid_t process) {
    for (int i = 0; i < settings.known; i++)
        if (process == settings.passing[i]) return 1;
    return 0;
}

/* What is said of the file of an open. */
static int judge(struct worker *worker, const struct fanotify_event_metadata *event) {
    struct stat kind;
    memset(&worker->answer, 0, sizeof worker->answer);
    if (passes(event->pid)) return UNASKED;
    if (fstat(event->fd, &kind) < 0) return UNREAD;
    if (!S_ISREG(kind.st_mode)) return UNASKED;
    lease(worker, event->fd);
    int said = ask(worker, event->fd, &worker->answer);
    if (said == AV_GRANTED) {
        pthread_mutex_lock(&kept.lock);
        learn(worker->answer.version);
        pthread_mutex_unlock(&kept.lock);
    }
    return said;
}

/* Whether an open may go on. Anything else than a grant denies it, or what the guard lets through by itself with -o. */
static int may_open(int said) {
    return said == AV_GRANTED || said == UNASKED || (said == AV_UNSCANNED && settings.is_open);
}

/* Answers one open after the other. All workers read the same descriptor, an event at a time, so a long file holds one of them. */
static void *work(void *of) {
    struct worker *worker = of;
    struct fanotify_event_metadata event;
    for (;;) {
        ssize_t some = read(settings.events, &event, sizeof event);
        if (some == 0 || (some < 0 && (errno == EINVAL || errno == EBADF || errno == EFAULT))) exit(failed("fanotify"));
        if (some < 0) continue; /* interrupted; or a file that could not be opened for this program, and was denied by the kernel */
        if (some != (ssize_t)sizeof event || event.vers != FANOTIFY_METADATA_VERSION) errno = EPROTO, exit(failed("fanotify"));
        if (event.fd < 0) continue;
        int said = judge(worker, &event);
        struct fanotify_response response = {.fd = event.fd, .response = may_open(said) ? FAN_ALLOW : FAN_DENY};
        if (!may_open(said)) report(&event, said, &worker->answer);
        /* ENOENT: the process that waited for the open was ended meanwhile. */
        while (write(settings.events, &response, sizeof response) < 0 && errno == EINTR) {}
        settle(worker, event.fd, said);
    }
    return NULL;
}

/* Reports to systemd that the folders are held, if a unit of Type=notify started this program (sd_notify(3)). */
static void report_ready(void) {
    const char *path = getenv("NOTIFY_SOCKET");
    struct sockaddr_un at = {.sun_family = AF_UNIX};
    if (path == NULL || (*path != '/' && *path != '@') || strlen(path) >= sizeof at.sun_path) return;
    memcpy(at.sun_path, path, strlen(path));
    if (*path == '@') at.sun_path[0] = 0;
    int notify = socket(AF_UNIX, SOCK_DGRAM | SOCK_CLOEXEC, 0);
    socklen_t length = (socklen_t)(offsetof(struct sockaddr_un, sun_path) + strlen(path));
    if (notify < 0 || sendto(notify, "READY=1", 7, MSG_NOSIGNAL, (struct sockaddr *)&at, length) < 0) (void)failed("NOTIFY_SOCKET");
    if (notify >= 0) close(notify);
}

/* A number of the command line within bounds, or 0. */
static long number(const char *word, long most) {
    char *end;
    long value = strtol(word, &end, 10);
    return *word >= '0' && *word <= '9' && *end == 0 && value > 0 && value <= most ? value : 0;
}

int main(int count, char **words) {
    int letter, is_mount = 0;
    long workers = WORKERS, process;
    settings.passing[settings.known++] = getpid();
    while ((letter = getopt(count, words, "hmoj:k:p:")) != -1) {
        switch (letter) {
        case 'h': return fputs(HELP, stdout) < 0 || fflush(stdout) != 0 ? DEVICE : 0;
        case 'm': is_mount = 1; break;
        case 'o': settings.is_open = 1; break;
        case 'j':
            if ((workers = number(optarg, MOST_WORKERS)) == 0) return fputs(HELP, stderr), USAGE;
            break;
        case 'k':
            if ((kept.most = number(optarg, MOST_KEPT)) == 0) return fputs(HELP, stderr), USAGE;
            break;
        case 'p':
            if ((process = number(optarg, 0x7fffffff)) == 0 || settings.known > PASSING) return fputs(HELP, stderr), USAGE;
            settings.passing[settings.known++] = (pid_t)process;
            break;
        default: return fputs(HELP, stderr), USAGE;
        }
    }
    if (count - optind < 2) return fputs(HELP, stderr), USAGE;
    settings.opens = words[optind++];
    struct worker *all = calloc((size_t)workers, sizeof *all);
    if (all == NULL) return failed("memory");
    /* A reader of standard error that goes away must not end this program, since every open would pass then. */
    signal(SIGPIPE, SIG_IGN);
    signal(SIGXFSZ, SIG_IGN);
    /* Without a limit of the queue: the kernel lets an open pass that finds no place in it. */
    settings.events = fanotify_init(FAN_CLASS_CONTENT | FAN_UNLIMITED_QUEUE | FAN_UNLIMITED_MARKS | FAN_CLOEXEC, O_RDONLY | O_LARGEFILE | O_CLOEXEC);
    if (settings.events < 0) return failed("fanotify");
    int status = kept.most > 0 ? start_to_keep(workers) : 0;
    if (status != 0) return status;
    /* The workers run before anything is marked, since an open waits from its mark on. */
    for (long i = 0; i < workers; i++) {
        all[i].connection = -1;
        if ((errno = pthread_create(&all[i].thread, NULL, work, &all[i])) != 0) return failed("thread");
    }
    unsigned whole = is_mount ? FAN_MARK_MOUNT : 0;
    uint64_t held = FAN_OPEN_PERM | (is_mount ? 0 : FAN_EVENT_ON_CHILD);
    for (int i = optind; i < count; i++)
        if (fanotify_mark(settings.events, FAN_MARK_ADD | whole, held, AT_FDCWD, words[i]) < 0) return failed(words[i]);
    report_ready();
    return pthread_join(all[0].thread, NULL) == 0 ? DEVICE : failed("thread"); /* no worker ends by itself */
}
