/* Lets each opening of a file whose name ends with SLOW_NAME take SLOW_MS milliseconds:
     SLOW_NAME=slow SLOW_MS=500 LD_PRELOAD=./slow_open.so PROGRAM ARGUMENTS.. */
#define _GNU_SOURCE
#include <dlfcn.h>
#include <fcntl.h>
#include <stdarg.h>
#include <stdlib.h>
#include <string.h>
#include <sys/types.h>
#include <unistd.h>

int open(const char *path, int flags, ...) {
    static int (*real)(const char *, int, ...);
    const char *name = getenv("SLOW_NAME"), *time = getenv("SLOW_MS");
    size_t length = strlen(path), end = name ? strlen(name) : 0;
    va_list more;
    va_start(more, flags);
    mode_t mode = flags & O_CREAT ? va_arg(more, mode_t) : 0;
    va_end(more);
    if (!real)
        real = dlsym(RTLD_NEXT, "open");
    if (name && time && length >= end && strcmp(path + length - end, name) == 0)
        usleep(1000 * atoi(time));
    return real(path, flags, mode);
}
