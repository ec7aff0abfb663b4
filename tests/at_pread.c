/* What happens at reads at a place, of which the first of all threads counts:
     LD_PRELOAD=./at_pread.so APPEND_TO=FILE APPEND=TEXT PROGRAM ARGUMENTS..     FILE grows by TEXT before the first one
     LD_PRELOAD=./at_pread.so CUT=FILE CUT_TO=BYTES PROGRAM ARGUMENTS..     FILE is cut to so many bytes before the first one
   With SLOW_MS each one takes so many milliseconds. */
#define _GNU_SOURCE
#include <fcntl.h>
#include <stdlib.h>
#include <string.h>
#include <sys/syscall.h>
#include <sys/types.h>
#include <unistd.h>

static int made = 0;

static void change(void) {
    const char *grown = getenv("APPEND_TO"), *text = getenv("APPEND"), *cut = getenv("CUT"), *size = getenv("CUT_TO");
    if (grown && text) {
        int file = open(grown, O_WRONLY | O_APPEND);
        if (file < 0 || write(file, text, strlen(text)) != (ssize_t)strlen(text))
            abort();
        close(file);
    }
    if (cut && size && truncate(cut, atol(size)) != 0)
        abort();
}

ssize_t pread(int fd, void *to, size_t size, off_t place) {
    const char *time = getenv("SLOW_MS");
    if (__atomic_fetch_add(&made, 1, __ATOMIC_SEQ_CST) == 0)
        change();
    if (time)
        usleep(1000 * atoi(time));
    return syscall(SYS_pread64, fd, to, size, place);
}
