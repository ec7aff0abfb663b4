/* Lets the Nth request for memory fail, counted from 1:
     FAIL_NTH=N LD_PRELOAD=./fail_nth.so PROGRAM ARGUMENTS..
   Requests count from the start of the process, or, where FAIL_MARKED=1, only those between a request of COUNT bytes
   and one of COUNT_NO_MORE bytes, which a test makes around each call that it looks at. A mark is never refused. At its
   end the process writes "requests R refused F" to the file that FAIL_REPORT names, also where it ends by _exit, as a
   program with threads does. */
#define _GNU_SOURCE
#include <stdatomic.h>
#include <stdio.h>
#include <stdlib.h>
#include <sys/syscall.h>
#include <unistd.h>

#define COUNT 7654321
#define COUNT_NO_MORE 7654322

extern void *__libc_malloc(size_t);
extern void *__libc_realloc(void *, size_t);

static long nth = -1, refused = 0;
static atomic_long made = 0;
static int counting = 1;
static const char *report = NULL;

__attribute__((constructor)) static void begin(void) {
    const char *number = getenv("FAIL_NTH");
    const char *marked = getenv("FAIL_MARKED");
    report = getenv("FAIL_REPORT");
    nth = number == NULL ? -1 : atol(number);
    counting = marked == NULL || marked[0] != '1';
    made = 0;
}

__attribute__((destructor)) static void end(void) {
    counting = 0;
    if (report == NULL) {
        return;
    }
    FILE *file = fopen(report, "w");
    if (file != NULL) {
        fprintf(file, "requests %ld refused %ld\n", atomic_load(&made), refused);
        fclose(file);
    }
}

void _exit(int status) {
    end();
    for (;;) {
        syscall(SYS_exit_group, status);
    }
}

/* Threads ask at once, and one of them alone is the Nth. */
static int is_refused(size_t size) {
    if (size == COUNT || size == COUNT_NO_MORE) {
        counting = size == COUNT;
        return 0;
    }
    if (!counting || atomic_fetch_add(&made, 1) + 1 != nth) {
        return 0;
    }
    refused++;
    return 1;
}

void *malloc(size_t size) { return is_refused(size) ? NULL : __libc_malloc(size); }

void *realloc(void *old, size_t size) { return is_refused(size) ? NULL : __libc_realloc(old, size); }
