/* Asks about contents over a Unix socket, and times it.
 *
 *   guardtime WAY PATH known|new SIZE COUNT SEED     nanoseconds of each of COUNT asks, one a line
 *   guardtime WAY PATH rate-known|rate-new SIZE COUNT SEED CLIENTS     of all, COUNT in all by so many clients at once
 *   guardtime WAY PATH idle COUNT     holds so many clients that say nothing; a line once they are there, until standard input ends
 *
 * WAY says whom it asks: guard is avguard run over a connection, parts is the same with each content in parts of 65,536 bytes, session is
 * clamd by INSTREAM in one IDSESSION, once is clamd by INSTREAM over a connection each. A content is SIZE random bytes: the same each time (known), or another one each time (new). To make it is
 * not timed, but in a rate. Any other answer than that it is clean ends the program. */
#define _GNU_SOURCE
#include "../../examples/client/avask.h"
#include <pthread.h>
#include <stdio.h>
#include <stdlib.h>
#include <time.h>

enum { MOST_CLIENTS = 64 };

static const char *way, *path;

struct client {
    pthread_t thread;
    uint64_t seed;
    size_t size, count;
    int is_known;
    double *each; /* where the time of each ask goes, or NULL */
};

static void end(const char *what) {
    perror(what);
    exit(4);
}

static double now(void) {
    struct timespec t;
    clock_gettime(CLOCK_MONOTONIC, &t);
    return t.tv_sec * 1e9 + t.tv_nsec;
}

static void fill(unsigned char *content, size_t size, uint64_t *seed) {
    for (size_t i = 0; i < size; i += 8) {
        uint64_t z = *seed += 0x9e3779b97f4a7c15;
        z = (z ^ z >> 30) * 0xbf58476d1ce4e5b9;
        z = (z ^ z >> 27) * 0x94d049bb133111eb;
        z ^= z >> 31;
        memcpy(content + i, &z, size - i < 8 ? size - i : 8);
    }
}

static int join(void) {
    int s = av_connect(path);
    if (s < 0) end(path);
    if (way[0] == 's' && av_send(s, "zIDSESSION", 11) < 0) end("session");
    return s;
}

/* Sends a content to the guard in parts. */
static int in_parts(int s, const unsigned char *content, size_t size) {
    struct av_content parts;
    struct av_answer answer;
    int said = av_begin(&parts, s);
    for (size_t at = 0; said == AV_OPEN && at < size; at += AV_SMALL) said = av_part(&parts, content + at, size - at < AV_SMALL ? size - at : AV_SMALL);
    return said == AV_LOST ? AV_LOST : av_end(&parts, &answer);
}

/* Sends a content to clamd and reads the line that it says of it, up to its zero byte. */
static void instream(int s, const unsigned char *content, size_t size) {
    unsigned char length[4] = {size >> 24, size >> 16, size >> 8, size}, none[4] = {0};
    char line[256];
    size_t have = 0;
    if (av_send(s, "zINSTREAM", 10) < 0 || av_send(s, length, 4) < 0 || av_send(s, content, size) < 0 || av_send(s, none, 4) < 0) end("INSTREAM");
    do {
        ssize_t some = recv(s, line + have, sizeof line - 1 - have, 0);
        if (some <= 0) end("answer");
        have += (size_t)some;
    } while (line[have - 1] != 0 && have < sizeof line - 1);
    line[have] = 0;
    if (!strstr(line, ": OK")) errno = EPROTO, end(line);
}

static void ask(int *s, const unsigned char *content, size_t size) {
    struct av_answer answer;
    if (way[0] == 'g') {
        if (av_ask(*s, content, size, &answer) != AV_GRANTED) errno = EPROTO, end("answer");
    } else if (way[0] == 'p') {
        if (in_parts(*s, content, size) != AV_GRANTED) errno = EPROTO, end("answer");
    } else if (way[0] == 's') {
        instream(*s, content, size);
    } else {
        *s = join();
        instream(*s, content, size);
        close(*s);
    }
}

static void *run(void *of) {
    struct client *client = of;
    unsigned char *content = malloc(client->size + 8);
    int s = way[0] == 'o' ? -1 : join();
    if (!content) end("memory");
    fill(content, client->size, &client->seed);
    if (client->is_known) ask(&s, content, client->size);
    for (size_t i = 0; i < client->count; i++) {
        if (!client->is_known) fill(content, client->size, &client->seed);
        double begun = now();
        ask(&s, content, client->size);
        if (client->each) client->each[i] = now() - begun;
    }
    if (way[0] != 'o') close(s);
    free(content);
    return NULL;
}

static int idle(int count) {
    for (int i = 0; i < count; i++) join();
    puts("there");
    fflush(stdout);
    while (getchar() != EOF) {}
    return 0;
}

int main(int count, char **words) {
    static struct client clients[MOST_CLIENTS];
    if (count < 5) return 2;
    way = words[1];
    path = words[2];
    if (!strcmp(words[3], "idle")) return idle(atoi(words[4]));
    if (count < 7) return 2;
    int is_rate = !strncmp(words[3], "rate-", 5), many = is_rate && count > 7 ? atoi(words[7]) : 1;
    if (many < 1 || many > MOST_CLIENTS) return 2;
    size_t asks = strtoul(words[5], NULL, 10) / (size_t)many;
    double *each = is_rate ? NULL : malloc(asks * sizeof *each), begun = now();
    for (int i = 0; i < many; i++) {
        clients[i] = (struct client){.seed = strtoull(words[6], NULL, 10) * 1000003 + (uint64_t)i * 0x100000001b3, .size = strtoul(words[4], NULL, 10), .count = asks, .is_known = !!strstr(words[3], "known"), .each = each};
        if (pthread_create(&clients[i].thread, NULL, run, &clients[i]) != 0) end("thread");
    }
    for (int i = 0; i < many; i++) pthread_join(clients[i].thread, NULL);
    if (is_rate) printf("%.0f\n", now() - begun);
    else
        for (size_t i = 0; i < asks; i++) printf("%.0f\n", each[i]);
    return 0;
}
