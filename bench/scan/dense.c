/* A dense automaton in C, one load a byte: what scanning costs in plain code, in one lane and in six.
 *
 *   dense SET REPEATS FILE..
 *
 * Reads a signature file, makes a table of 256 columns of u32 by Aho and Corasick, and scans each file REPEATS times. Prints a line for
 * each: the least processor time of a scan in nanoseconds in one lane and in six, and `clean` or `infected` with the least index and
 * its end. */
#include <stdint.h>
#include <stdio.h>
#include <stdlib.h>
#include <string.h>
#include <time.h>

enum { MOST_STATES = 16385, MOST_FILE = 1 << 20 };
static uint32_t next_[MOST_STATES][256], fail[MOST_STATES], queue[MOST_STATES], number[MOST_STATES];
static int least[MOST_STATES], least_of[MOST_STATES];
static uint32_t states = 1, quiet, *table;

static void add(const char *digits, int index) {
    uint32_t s = 0;
    unsigned byte;
    for (; sscanf(digits, "%2x", &byte) == 1; digits += 2) {
        if (!next_[s][byte]) {
            least[states] = -1;
            next_[s][byte] = states++;
        }
        s = next_[s][byte];
    }
    if (least[s] < 0) least[s] = index;
}

static void read_set(const char *path) {
    FILE *file = fopen(path, "r");
    char line[256];
    int index = 0;
    if (!file || !fgets(line, sizeof line, file) || !fgets(line, sizeof line, file)) exit(2);
    least[0] = -1;
    while (fgets(line, sizeof line, file)) add(strchr(line, ' ') + 1, index++);
    fclose(file);
}

/* The rows are in breadth-first order with the accepting ones last, and a cell is the place of a row. */
static void build(void) {
    uint32_t head = 0, tail = 1;
    while (head < tail) {
        uint32_t s = queue[head++];
        int below = least[fail[s]];
        if (below >= 0 && (least[s] < 0 || below < least[s])) least[s] = below;
        for (int b = 0; b < 256; b++) {
            uint32_t t = next_[s][b];
            if (!t) next_[s][b] = s ? next_[fail[s]][b] : 0;
            else {
                fail[t] = s ? next_[fail[s]][b] : 0;
                queue[tail++] = t;
            }
        }
    }
    uint32_t count = 0;
    for (uint32_t k = 0; k < tail; k++) if (least[queue[k]] < 0) number[queue[k]] = count++;
    quiet = count;
    for (uint32_t k = 0; k < tail; k++) if (least[queue[k]] >= 0) number[queue[k]] = count++;
    table = aligned_alloc(64, (size_t)states * 1024);
    if (!table) exit(3);
    for (uint32_t s = 0; s < states; s++) {
        least_of[number[s]] = least[s];
        for (int b = 0; b < 256; b++) table[number[s] * 256 + b] = number[next_[s][b]] * 256;
    }
}

__attribute__((noinline)) static size_t scan(const uint8_t *text, size_t length, int *index) {
    const uint32_t *cells = table;
    size_t s = 0, accepts = (size_t)quiet * 256;
    for (size_t i = 0; i < length; i++) {
        s = cells[s + text[i]];
        if (s >= accepts) {
            *index = least_of[s / 256];
            return i + 1;
        }
    }
    return 0;
}

/* Six parts side by side, each begun as far before its part as the longest pattern less one may reach. Where a lane finds
 * something, one lane looks again from the start. */
__attribute__((noinline)) static size_t scan_lanes(const uint8_t *text, size_t length, int *index) {
    enum { LANES = 6, REACH = 63 };
    const uint32_t *cells = table;
    size_t accepts = (size_t)quiet * 256, part = length / LANES;
    if (part <= REACH) return scan(text, length, index);
    const uint8_t *t0 = text, *t1 = text + part - REACH, *t2 = t1 + part, *t3 = t2 + part, *t4 = t3 + part, *t5 = t4 + part;
    size_t a = 0, b = 0, c = 0, d = 0, e = 0, f = 0, i = 0;
    for (; i < part + REACH; i++) {
        a = cells[a + t0[i]];
        b = cells[b + t1[i]];
        c = cells[c + t2[i]];
        d = cells[d + t3[i]];
        e = cells[e + t4[i]];
        f = cells[f + t5[i]];
        if (a >= accepts || b >= accepts || c >= accepts || d >= accepts || e >= accepts || f >= accepts)
            return scan(text, length, index);
    }
    for (; t5 + i < text + length; i++) {
        f = cells[f + t5[i]];
        if (f >= accepts) return scan(text, length, index);
    }
    return 0;
}

static double now(void) {
    struct timespec t;
    clock_gettime(CLOCK_PROCESS_CPUTIME_ID, &t);
    return t.tv_sec * 1e9 + t.tv_nsec;
}

int main(int count, char **words) {
    static uint8_t text[MOST_FILE];
    if (count < 4) return 2;
    read_set(words[1]);
    build();
    for (int k = 3; k < count; k++) {
        FILE *file = fopen(words[k], "rb");
        if (!file) return 4;
        size_t length = fread(text, 1, MOST_FILE, file), end = 0;
        fclose(file);
        double by_one = 1e18, by_six = 1e18;
        int index = 0;
        for (int turn = 0; turn < atoi(words[2]); turn++) {
            double a = now();
            end = scan(text, length, &index);
            double b = now();
            if (scan_lanes(text, length, &index) != end) return 1;
            double c = now();
            if (b - a < by_one) by_one = b - a;
            if (c - b < by_six) by_six = c - b;
        }
        printf("%.0f %.0f ", by_one, by_six);
        if (end) printf("infected %d end %zu\n", index, end);
        else printf("clean\n");
    }
    return 0;
}
