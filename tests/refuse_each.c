/* Linked into the tests of a crate by run_tests.py. A test whose name begins with `refused_or_not_` then runs with each request
   for memory refused in turn that its marked calls make, and at last with memory. Marks are requests of COUNT and COUNT_NO_MORE
   bytes, and are never refused. How many requests were refused, and the processor's milliseconds, are added to the file REPORT.

   At each request the process divides: one half is refused it and goes on until the test has ended, has marked that it has
   compared what it has (by a request of COMPARED bytes), or has marked CALLS more calls; the other half waits for that and goes
   on with memory. A process with several threads can't be divided, so a request that is made then is refused in a run of its own
   from the start. The test fails if any of these runs fails, ends by a signal or takes longer than SECONDS.

   The tests are compiled with AddressSanitizer, which lets a program define the functions below: they stand between its
   malloc and its allocator. As a thread starts, AddressSanitizer calls pthread_getattr_np for the thread's stack, and
   aborts if that fails. The two requests of that call are neither refused nor counted. */
#define _GNU_SOURCE
#include <dlfcn.h>
#include <signal.h>
#include <stdio.h>
#include <stdlib.h>
#include <string.h>
#include <sys/mman.h>
#include <sys/prctl.h>
#include <sys/resource.h>
#include <sys/single_threaded.h>
#include <sys/wait.h>
#include <unistd.h>

#define COUNT 7654321
#define COUNT_NO_MORE 7654322
#define COMPARED 7654323
#define CALLS 40
#define SECONDS 60
#define SHOWN 65536
#define MOST 10000

extern void *___interceptor_malloc(size_t);
extern void *___interceptor_realloc(void *, size_t);

/* Shared by the processes of a test: how many requests were refused, and the numbers of those that need a run of their own. */
struct told {
    long refused, left_count, left[MOST];
};

enum role { WITH_MEMORY, DIVIDES, REFUSES_ONE, WAS_REFUSED };

static enum role role = WITH_MEMORY;
static struct told *told = NULL;
static const char *test = "";
static int is_counting = 0;
static int calls_left = CALLS;
static long made = 0, wanted = 0;

static void fail(const char *why, long number) {
    role = WITH_MEMORY;
    fprintf(stderr, "%s: FAILED with request %ld refused: %s\n", test, number, why);
    _exit(1);
}

/* Starts a process: 1 in that process, and 0 once it has ended well. */
static int starts(enum role as, unsigned seconds, long number) {
    enum role before = role;
    role = WITH_MEMORY;
    pid_t parent = getpid(), child = fork();
    if (child < 0) {
        fail("no process can be started", number);
    }
    if (child == 0) {
        prctl(PR_SET_PDEATHSIG, SIGKILL);
        if (getppid() != parent) {
            _exit(1);
        }
        alarm(seconds);
        role = as;
        return 1;
    }
    int status = 0;
    waitpid(child, &status, 0);
    if (WIFSIGNALED(status)) {
        fail(WTERMSIG(status) == SIGALRM ? "it takes too long" : strsignal(WTERMSIG(status)), number);
    }
    if (WEXITSTATUS(status) != 0 && number == 0) {
        _exit(1);
    }
    if (WEXITSTATUS(status) != 0) {
        fail("it does not pass", number);
    }
    role = before;
    return 0;
}

static int is_refused_as_number(long number) {
    if (role == REFUSES_ONE) {
        return number == wanted;
    }
    if (role != DIVIDES) {
        return 0;
    }
    if (!__libc_single_threaded) {
        long at = __atomic_fetch_add(&told->left_count, 1, __ATOMIC_SEQ_CST);
        if (at >= MOST) {
            fail("too many need a run of their own", number);
        }
        told->left[at] = number;
        return 0;
    }
    return starts(WAS_REFUSED, SECONDS, number);
}

static int is_mark(size_t size) { return size == COUNT || size == COUNT_NO_MORE || size == COMPARED; }

/* Whether a request is made by pthread_getattr_np, or by the function that it calls. (rt links no code that defines a function of
   the C library, so the call can't be marked.) */
static int is_for_stack(const void *caller) {
    Dl_info in;
    if (dladdr(caller, &in) == 0 || in.dli_sname == NULL) {
        return 0;
    }
    return strcmp(in.dli_sname, "pthread_getattr_np") == 0 || strcmp(in.dli_sname, "pthread_attr_setaffinity_np") == 0;
}

static int is_refused(size_t size, const void *caller) {
    if (role == WITH_MEMORY) {
        return 0;
    }
    if (is_mark(size)) {
        if (role == WAS_REFUSED && (size == COMPARED || (size == COUNT && calls_left-- == 0))) {
            _exit(0);
        }
        __atomic_store_n(&is_counting, size == COUNT, __ATOMIC_SEQ_CST);
        return 0;
    }
    if (!__atomic_load_n(&is_counting, __ATOMIC_SEQ_CST) || is_for_stack(caller)) {
        return 0;
    }
    if (!is_refused_as_number(__atomic_add_fetch(&made, 1, __ATOMIC_SEQ_CST))) {
        return 0;
    }
    __atomic_add_fetch(&told->refused, 1, __ATOMIC_SEQ_CST);
    return 1;
}

/* (a mark is given a byte, since nobody writes to it and megabytes cost their time here) */
void *__interceptor_malloc(size_t size) {
    return is_refused(size, __builtin_return_address(0)) ? NULL : ___interceptor_malloc(is_mark(size) ? 1 : size);
}

void *__interceptor_realloc(void *old, size_t size) {
    return is_refused(size, __builtin_return_address(0)) ? NULL : ___interceptor_realloc(old, size);
}

/* In the process that is to run the test with each request refused, which tells its end in words. */
static void refuse_all(void) {
    if (starts(DIVIDES, 0, 0)) {
        return;
    }
    for (long at = 0; at < told->left_count; at++) {
        wanted = told->left[at];
        if (starts(REFUSES_ONE, SECONDS, wanted)) {
            return;
        }
    }
    _exit(0);
}

__attribute__((constructor)) static void refuse_each(int count, char **words) {
    test = count > 1 ? words[1] : "";
    if (strncmp(test, "refused_or_not_", 15) != 0 && strstr(test, "::refused_or_not_") == NULL) {
        return;
    }
    told = mmap(NULL, sizeof *told, PROT_READ | PROT_WRITE, MAP_SHARED | MAP_ANONYMOUS, -1, 0);
    int written = memfd_create("written", 0);
    if (told == MAP_FAILED || written < 0) {
        fail("there is no memory to begin with", 0);
    }
    pid_t child = fork();
    if (child == 0) {
        prctl(PR_SET_PDEATHSIG, SIGKILL);
        dup2(written, STDOUT_FILENO);
        dup2(written, STDERR_FILENO);
        refuse_all();
        return;
    }
    int status = 1;
    waitpid(child, &status, 0);
    static char text[SHOWN];
    off_t size = lseek(written, 0, SEEK_END);
    ssize_t length = status == 0 ? 0 : pread(written, text, sizeof text, size > SHOWN ? size - SHOWN : 0);
    if (length > 0 && write(STDERR_FILENO, text, (size_t)length) < 0) {
        _exit(1);
    }
    if (status != 0) {
        _exit(1);
    }
    if (told->refused == 0) {
        fail("none was made by a marked call", 0);
    }
    close(written);
    FILE *file = fopen(REPORT, "a");
    if (file == NULL) {
        fail("their number can't be kept", told->refused);
    }
    struct rusage used;
    getrusage(RUSAGE_CHILDREN, &used);
    long seconds = used.ru_utime.tv_sec + used.ru_stime.tv_sec, micros = used.ru_utime.tv_usec + used.ru_stime.tv_usec;
    fprintf(file, "%s %ld %ld\n", test, told->refused, seconds * 1000 + micros / 1000);
    fclose(file);
}
