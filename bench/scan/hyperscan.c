/* Hyperscan, in one block and in a stream of chunks of 4,096 bytes.
 *
 *   hyperscan SET REPEATS FILE..
 *
 * Reads a signature file and scans each file REPEATS times, until a first match. Prints a line for each: the least processor time of a
 * scan in nanoseconds as a block and as a stream, and `clean` or `infected`. */
#include <hs/hs.h>
#include <stdio.h>
#include <stdlib.h>
#include <string.h>
#include <time.h>

enum { MOST_FILE = 1 << 20, MOST_PATTERNS = 1024, CHUNK = 4096 };
static char *expressions[MOST_PATTERNS];
static unsigned flags[MOST_PATTERNS], ids[MOST_PATTERNS], count;
static char text[MOST_FILE];

static void read_set(const char *path) {
    FILE *file = fopen(path, "r");
    char line[256];
    if (!file || !fgets(line, sizeof line, file) || !fgets(line, sizeof line, file)) exit(2);
    for (; fgets(line, sizeof line, file); count++) {
        const char *digits = strchr(line, ' ') + 1;
        char *out = expressions[count] = malloc(2 * strlen(digits) + 1);
        for (unsigned byte; sscanf(digits, "%2x", &byte) == 1; digits += 2) out += sprintf(out, "\\x%02x", byte);
        flags[count] = HS_FLAG_DOTALL | HS_FLAG_SINGLEMATCH;
        ids[count] = count;
    }
    fclose(file);
}

static int stop(unsigned id, unsigned long long from, unsigned long long to, unsigned given, void *found) {
    (void)id, (void)from, (void)to, (void)given;
    return *(int *)found = 1;
}

static double now(void) {
    struct timespec t;
    clock_gettime(CLOCK_PROCESS_CPUTIME_ID, &t);
    return t.tv_sec * 1e9 + t.tv_nsec;
}

static hs_database_t *compiled(unsigned mode) {
    hs_database_t *database;
    hs_compile_error_t *error;
    if (hs_compile_multi((const char *const *)expressions, flags, ids, count, mode, NULL, &database, &error) != HS_SUCCESS) exit(3);
    return database;
}

int main(int words_count, char **words) {
    if (words_count < 4) return 2;
    read_set(words[1]);
    hs_database_t *block = compiled(HS_MODE_BLOCK), *stream = compiled(HS_MODE_STREAM);
    hs_scratch_t *scratch = NULL;
    if (hs_alloc_scratch(block, &scratch) != HS_SUCCESS || hs_alloc_scratch(stream, &scratch) != HS_SUCCESS) return 3;
    for (int k = 3; k < words_count; k++) {
        FILE *file = fopen(words[k], "rb");
        if (!file) return 4;
        size_t length = fread(text, 1, MOST_FILE, file);
        fclose(file);
        double by_block = 1e18, by_stream = 1e18;
        int found = 0, met = 0;
        for (int turn = 0; turn < atoi(words[2]); turn++) {
            double a = now();
            hs_scan(block, text, length, 0, scratch, stop, &found);
            double b = now();
            hs_stream_t *open;
            hs_open_stream(stream, 0, &open);
            for (size_t at = 0; at < length && !met; at += CHUNK)
                hs_scan_stream(open, text + at, length - at < CHUNK ? length - at : CHUNK, 0, scratch, stop, &met);
            hs_close_stream(open, scratch, NULL, NULL);
            double c = now();
            if (b - a < by_block) by_block = b - a;
            if (c - b < by_stream) by_stream = c - b;
        }
        if (found != met) return 1;
        printf("%.0f %.0f %s\n", by_block, by_stream, found ? "infected" : "clean");
    }
    return 0;
}
