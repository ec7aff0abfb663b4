/* ask OPENS FILE..: what the guard at OPENS says of each file, in the lines of `avguard ask -k`. A file above 65,536 bytes goes in parts. */
#define _POSIX_C_SOURCE 200809L
#define _FILE_OFFSET_BITS 64
#include "avask.h"
#include <fcntl.h>
#include <inttypes.h>
#include <stdio.h>

enum { DONE = 0, DEVICE = 4, USAGE = 2 }; /* the status, which is the greatest of the faults */
enum { TURNS = 4 };                       /* how often a file is sent at most while newer signatures come */
enum { UNREAD = -3 };                     /* the file can't be read */

struct asking {
    int guard;
    int takes_parts; /* 0 once the guard answered that its service takes none */
    int is_lost;
};

/* Says on standard error what went wrong with a file or a socket. */
static int failed(int status, const char *name, const char *fault) {
    fprintf(stderr, "ask: %s: %s\n", name, fault);
    return status;
}

/* The next bytes of a file, fewer than `most` only at its end; or -1. */
static ssize_t read_some(int file, unsigned char *content, size_t most) {
    size_t length = 0;
    while (length < most) {
        ssize_t some = read(file, content + length, most - length);
        if (some < 0 && errno == EINTR) continue;
        if (some < 0) return -1;
        if (some == 0) break;
        length += (size_t)some;
    }
    return (ssize_t)length;
}

/* Sends a file in parts, whose first `some` bytes were read, and waits for what is said of it. */
static int in_parts(int guard, int file, unsigned char *content, ssize_t some, struct av_answer *answer) {
    struct av_content parts;
    int said = av_begin(&parts, guard);
    while (said == AV_OPEN && some > 0) {
        said = av_part(&parts, content, (size_t)some);
        if (said == AV_OPEN) some = read_some(file, content, AV_SMALL);
    }
    if (said == AV_LOST) return AV_LOST;
    if (some >= 0) return av_end(&parts, answer);
    return av_give_up(&parts, answer) == AV_LOST ? AV_LOST : UNREAD;
}

/* What is said of an open file. Where newer signatures come it is sent again from its beginning. If the service takes no parts, it goes
 * as one ask, which AV_MOST bounds. */
static int ask_file(struct asking *asking, int file, struct av_answer *answer) {
    static unsigned char content[AV_MOST + 1];
    int said = UNREAD;
    for (int turn = 0; turn < TURNS; turn++) {
        size_t small = asking->takes_parts ? AV_SMALL : AV_MOST;
        ssize_t some = read_some(file, content, small + 1);
        if (some < 0) return UNREAD;
        if ((size_t)some <= small) return av_ask(asking->guard, content, (size_t)some, answer);
        if (some > AV_MOST) { /* a part has at most AV_MOST bytes */
            some = AV_MOST;
            if (lseek(file, AV_MOST, SEEK_SET) < 0) return UNREAD;
        }
        said = in_parts(asking->guard, file, content, some, answer);
        if (said != AV_DENIED && said != AV_UNSCANNED) return said;
        int takes_none = answer->cause == AV_NO_PARTS && asking->takes_parts;
        if (!takes_none && answer->cause != AV_AGAIN) return said;
        if (lseek(file, 0, SEEK_SET) < 0) return said; /* a pipe can't be read twice */
        if (takes_none) asking->takes_parts = 0;
    }
    return said;
}

static int ask(struct asking *asking, const char *name) {
    struct av_answer answer;
    int file = open(name, O_RDONLY | O_CLOEXEC);
    int said = file < 0 ? UNREAD : ask_file(asking, file, &answer);
    if (file >= 0) close(file);
    switch (said) {
    case AV_GRANTED:
        printf("%s granted generation %" PRIu64 " version %" PRIu64 "\n", name, answer.generation, answer.version);
        return DONE;
    case AV_DENIED:
        printf("%s denied cause %d\n", name, answer.cause);
        return answer.cause == AV_INFECTED ? DONE : DEVICE; /* for any other cause nobody has judged the file */
    case AV_UNSCANNED:
        printf("%s unscanned generation %" PRIu64 " cause %d\n", name, answer.generation, answer.cause);
        return DEVICE;
    case UNREAD:
        return failed(DEVICE, name, "cannot read");
    default:
        asking->is_lost = 1;
        return DEVICE;
    }
}

int main(int count, char **words) {
    int status = DONE;
    if (count < 3) {
        fputs("usage: ask OPENS FILE..\n", stderr);
        return USAGE;
    }
    struct asking asking = {av_connect(words[1]), 1, 0};
    if (asking.guard < 0 && errno == ENAMETOOLONG) return failed(USAGE, words[1], "the path of a socket has 1 to 107 bytes");
    if (asking.guard < 0) return failed(DEVICE, words[1], errno == EACCES ? "may not be entered" : "no guard listens");
    for (int i = 2; i < count && !asking.is_lost; i++) {
        int of_file = ask(&asking, words[i]);
        if (of_file > status) status = of_file;
    }
    if (asking.is_lost) failed(DEVICE, words[1], "the guard was lost");
    if (fflush(stdout) != 0 || ferror(stdout)) return fputs("ask: device\n", stderr), DEVICE;
    return status;
}
