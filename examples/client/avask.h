/* A client of `avguard run` in one file: may this content be opened?
 *
 *     int guard = av_connect("/run/avscan-guard/opens.socket");
 *     struct av_answer answer;
 *     if (guard >= 0 && av_ask(guard, content, length, &answer) == AV_GRANTED) ...
 *
 * A content of any size goes in parts:
 *
 *     struct av_content parts;
 *     int said = av_begin(&parts, guard);
 *     while (said == AV_OPEN && (some = read(file, buffer, sizeof buffer)) > 0) said = av_part(&parts, buffer, (size_t)some);
 *     said = some < 0 ? av_give_up(&parts, &answer) : av_end(&parts, &answer);
 *     if (said == AV_DENIED && answer.cause == AV_AGAIN) ...          // from the beginning of the file once more
 *
 * A program that keeps grants hears of newer signatures over a connection of its own:
 *
 *     uint64_t version;
 *     int told = guard >= 0 ? av_watch(guard) : AV_LOST;
 *     while (told != AV_LOST && (told = av_version(guard, -1, &version)) == AV_VERSION) ...       // drops grants of older versions
 *
 * It is C11 and C++11. Nothing is allocated, and nothing is needed but the C library of a Unix. A connection carries one content at a
 * time, so threads take one each. A guard that sends or takes nothing for 60 s is lost; av_wait sets another bound. docs/FORMATS.md has
 * the frames, in "Asking a guard" and "Contents in parts". */
#ifndef AVASK_H
#define AVASK_H
#include <errno.h>
#include <poll.h>
#include <stdint.h>
#include <string.h>
#include <sys/socket.h>
#include <sys/time.h>
#include <sys/un.h>
#include <unistd.h>

enum { AV_MOST = 1048576 }; /* the most bytes of a content that av_ask takes */
enum { AV_SMALL = 65536 };  /* a longer content is judged sooner in parts than by av_ask */
enum { AV_SECONDS = 60 };   /* how long the guard may send or take nothing, unless av_wait says otherwise */

/* What is said of a content. The last three are no answers of the guard. AV_OPEN: none came yet. AV_LOST: the connection is of no use any
 * more and is to be closed. AV_TOO_LARGE: nothing was asked, and the connection is as it was. */
enum { AV_GRANTED = 2, AV_DENIED = 3, AV_UNSCANNED = 4, AV_OPEN = 0, AV_LOST = -1, AV_TOO_LARGE = -2 };
enum { AV_VERSION = 9 }; /* av_version: the guard named one */

/* Some causes of a content that was denied or not scanned. The last four are of contents in parts alone. */
enum {
    AV_INFECTED = 2,   /* a signature occurs; with any other cause nobody has judged the content */
    AV_NO_SERVICE = 3, /* no scanning service is connected */
    AV_TIMED_OUT = 5,  /* it took too long, or a part took too long to come */
    AV_AGAIN = 11,     /* newer signatures came: send it again, from its beginning */
    AV_LARGER = 12,    /* it has more bytes than the guard takes (--max-size) */
    AV_GIVEN_UP = 13,  /* av_give_up was called */
    AV_NO_PARTS = 14   /* the service takes no parts: av_ask takes up to AV_MOST bytes */
};

struct av_answer {
    uint64_t generation; /* granted, unscanned: of the content */
    uint64_t version;    /* granted: of the signatures under which it is clean */
    int cause;           /* denied, unscanned: see above */
};

/* A content that goes in parts. Its fields are for the calls below. */
struct av_content {
    int guard;               /* the connection */
    int said;                /* the answer that came before the end, or AV_OPEN */
    uint64_t count;          /* how many of its bytes were sent */
    struct av_answer answer; /* what came with an early answer */
};

/* A cause in words, as `avguard ask --json` has them. */
static inline const char *av_why(int cause) {
    static const char *const why[] = {"no stream",   "infected",   "not connected", "busy",      "timed out", "service lost", "scan failed",
                                      "unsettled",   "removed",    "filter restarted", "ask again", "too large", "given up",     "takes no parts"};
    return cause >= 1 && cause <= 14 ? why[cause - 1] : "unknown";
}

/* From now on a guard that sends or takes nothing for so many seconds, at least 1, makes the connection AV_LOST. 0, or -1 with errno. */
static inline int av_wait(int guard, unsigned seconds) {
    struct timeval most;
    if (seconds == 0) {
        errno = EINVAL;
        return -1;
    }
    memset(&most, 0, sizeof most);
    most.tv_sec = (time_t)seconds;
    if (setsockopt(guard, SOL_SOCKET, SO_SNDTIMEO, &most, sizeof most) < 0) return -1;
    return setsockopt(guard, SOL_SOCKET, SO_RCVTIMEO, &most, sizeof most);
}

/* A connection to the guard that listens at a path, or -1 with errno: ENAMETOOLONG where a socket can't have such a path. */
static inline int av_connect(const char *path) {
    struct sockaddr_un at;
    size_t length = strlen(path);
    memset(&at, 0, sizeof at);
    at.sun_family = AF_UNIX;
    if (length == 0 || length >= sizeof at.sun_path) {
        errno = ENAMETOOLONG;
        return -1;
    }
    memcpy(at.sun_path, path, length);
    int guard = socket(AF_UNIX, SOCK_STREAM | SOCK_CLOEXEC, 0);
    if (guard < 0) return -1;
    int made = av_wait(guard, AV_SECONDS);
    if (made == 0) {
        do made = connect(guard, (struct sockaddr *)&at, sizeof at);
        while (made < 0 && errno == EINTR);
    }
    if (made == 0) return guard;
    int fault = errno;
    close(guard);
    errno = fault;
    return -1;
}

static inline int av_send(int guard, const void *bytes, size_t count) {
    for (const char *at = (const char *)bytes; count > 0;) {
        ssize_t some = send(guard, at, count, MSG_NOSIGNAL);
        if (some < 0 && errno == EINTR) continue;
        if (some <= 0) return -1;
        at += some;
        count -= (size_t)some;
    }
    return 0;
}

static inline int av_receive(int guard, void *bytes, size_t count) {
    for (char *at = (char *)bytes; count > 0;) {
        ssize_t some = recv(guard, at, count, 0);
        if (some < 0 && errno == EINTR) continue;
        if (some <= 0) return -1;
        at += some;
        count -= (size_t)some;
    }
    return 0;
}

/* A number that was written with its highest byte first. */
static inline uint64_t av_number(const unsigned char *bytes, int count) {
    uint64_t number = 0;
    for (int i = 0; i < count; i++) number = number << 8 | bytes[i];
    return number;
}

/* Writes a number with its highest byte first. */
static inline void av_put(unsigned char *bytes, int count, uint64_t number) {
    for (int i = count; i-- > 0; number >>= 8) bytes[i] = (unsigned char)number;
}

/* Waits for the answer of tag 0. The tag has no other value here, since a connection carries one content at a time. */
static inline int av_answered(int guard, struct av_answer *answer) {
    unsigned char told[25];
    memset(answer, 0, sizeof *answer);
    if (av_receive(guard, told, 4) < 0) return AV_LOST;
    uint64_t count = av_number(told, 4);
    if (count < 10 || count > sizeof told || av_receive(guard, told, count) < 0 || av_number(told + 1, 8) != 0) return AV_LOST;
    switch (told[0]) {
    case AV_GRANTED:
        if (count != 25) return AV_LOST;
        answer->generation = av_number(told + 9, 8);
        answer->version = av_number(told + 17, 8);
        return AV_GRANTED;
    case AV_DENIED:
        if (count != 10) return AV_LOST;
        answer->cause = told[9];
        return AV_DENIED;
    case AV_UNSCANNED:
        if (count != 18) return AV_LOST;
        answer->generation = av_number(told + 9, 8);
        answer->cause = told[17];
        return AV_UNSCANNED;
    default:
        return AV_LOST;
    }
}

/* Asks about a content and waits for what is said of it. Only AV_GRANTED says that it is clean. */
static inline int av_ask(int guard, const void *content, size_t length, struct av_answer *answer) {
    unsigned char head[14] = {0};
    if (length > AV_MOST) return AV_TOO_LARGE;
    av_put(head, 4, 10 + (uint64_t)length); /* kind 1, tag 0 in 8 bytes, no label; then the content */
    head[4] = 1;
    if (av_send(guard, head, sizeof head) < 0 || av_send(guard, content, length) < 0) return AV_LOST;
    return av_answered(guard, answer);
}

/* Begins a content that comes in parts: AV_OPEN, or AV_LOST. Every content that was begun needs av_end or av_give_up, unless a call about
 * it returned AV_LOST. Until then the connection takes no other content. */
static inline int av_begin(struct av_content *content, int guard) {
    unsigned char head[14] = {0};
    memset(content, 0, sizeof *content);
    content->guard = guard;
    av_put(head, 4, 10); /* kind 5, tag 0 in 8 bytes, no label */
    head[4] = 5;
    if (av_send(guard, head, sizeof head) < 0) content->said = AV_LOST;
    return content->said;
}

/* Looks whether an answer came before the end, without waiting for one. The content was not sent whole, so a grant is no answer. */
static inline int av_early(struct av_content *content) {
    char byte;
    if (content->said != AV_OPEN) return content->said;
    ssize_t some = recv(content->guard, &byte, 1, MSG_PEEK | MSG_DONTWAIT);
    if (some > 0) {
        content->said = av_answered(content->guard, &content->answer);
        if (content->said == AV_GRANTED) content->said = AV_LOST;
    } else if (some == 0 || (errno != EAGAIN && errno != EWOULDBLOCK && errno != EINTR)) {
        content->said = AV_LOST;
    }
    return content->said;
}

/* Sends some bytes, 1 to AV_MOST, of a content: AV_OPEN while no answer came. AV_DENIED and AV_UNSCANNED are early answers, for example
 * that a signature was found. The rest need not be sent then: av_end gives that answer. AV_TOO_LARGE: these bytes were not sent. */
static inline int av_part(struct av_content *content, const void *bytes, size_t count) {
    unsigned char head[13] = {0};
    if (av_early(content) != AV_OPEN || count == 0) return content->said;
    if (count > AV_MOST) return AV_TOO_LARGE;
    av_put(head, 4, 9 + (uint64_t)count); /* kind 6, tag 0 in 8 bytes; then the bytes */
    head[4] = 6;
    if (av_send(content->guard, head, sizeof head) < 0 || av_send(content->guard, bytes, count) < 0) content->said = AV_LOST;
    else content->count += count;
    return content->said;
}

/* Sends the end, 0 for a whole content and 1 for one that is given up, and waits for the answer if none came yet. */
static inline int av_close(struct av_content *content, int how, struct av_answer *answer) {
    unsigned char last[22] = {0};
    memset(answer, 0, sizeof *answer);
    if (av_early(content) == AV_LOST) return AV_LOST;
    av_put(last, 4, 18); /* kind 7, tag 0 in 8 bytes, how, and the count of the bytes that were sent */
    last[4] = 7;
    last[13] = (unsigned char)(content->said != AV_OPEN || how);
    av_put(last + 14, 8, content->count);
    if (av_send(content->guard, last, sizeof last) < 0) return content->said = AV_LOST;
    if (content->said == AV_OPEN) content->said = av_answered(content->guard, &content->answer);
    *answer = content->answer;
    return content->said;
}

/* Ends a content whose bytes were all sent, or that has an early answer, and waits for what is said of it. Only AV_GRANTED says that it is
 * clean. If the cause is AV_AGAIN, begin it anew. */
static inline int av_end(struct av_content *content, struct av_answer *answer) {
    return av_close(content, 0, answer);
}

/* Ends a content that can't be sent whole, such as one of a file that can't be read any further. Waits for the answer, which is never a
 * grant. Then the connection takes the next content. */
static inline int av_give_up(struct av_content *content, struct av_answer *answer) {
    int said = av_close(content, 1, answer);
    return said == AV_GRANTED ? content->said = AV_LOST : said;
}

static inline int av_newer_than(int guard, uint64_t version) {
    unsigned char frame[21] = {0, 0, 0, 17, 8}; /* kind 8 under the tag 0 */
    for (int i = 0; i < 8; i++) frame[13 + i] = (unsigned char)(version >> (56 - 8 * i));
    return av_send(guard, frame, sizeof frame) < 0 ? AV_LOST : 0;
}

/* Asks the guard for its versions: 0, or AV_LOST. From then on the connection is for av_version alone. An older guard closes it. */
static inline int av_watch(int guard) {
    return av_newer_than(guard, 0);
}

/* Waits at most so many milliseconds, without end if below 0, for the version of the signatures by which the guard answers: the first comes
 * once a service has connected, and then each newer one. AV_VERSION, AV_OPEN if none came, or AV_LOST: then nobody reports newer versions,
 * and no grant should be kept. */
static inline int av_version(int guard, int milliseconds, uint64_t *version) {
    unsigned char told[21];
    struct pollfd at = {guard, POLLIN, 0};
    int some = poll(&at, 1, milliseconds);
    if (some == 0 || (some < 0 && errno == EINTR)) return AV_OPEN;
    if (some < 0 || av_receive(guard, told, sizeof told) < 0 || av_number(told, 4) != 17 || told[4] != AV_VERSION) return AV_LOST;
    *version = av_number(told + 13, 8);
    if (av_newer_than(guard, *version) == AV_LOST) return AV_LOST;
    return AV_VERSION;
}
#endif
