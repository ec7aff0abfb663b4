/* Puts another file in the place of one whose name ends with SWAP_NAME, right before the first opening of it:
     SWAP_NAME=/file SWAP_WITH=OTHER LD_PRELOAD=./swap_open.so PROGRAM ARGUMENTS.. */
#define _GNU_SOURCE
#include <dlfcn.h>
#include <fcntl.h>
#include <stdarg.h>
#include <stdio.h>
#include <stdlib.h>
#include <string.h>
#include <sys/types.h>

int open(const char *path, int flags, ...) {
    static int (*real)(const char *, int, ...);
    const char *name = getenv("SWAP_NAME"), *with = getenv("SWAP_WITH");
    size_t length = strlen(path), end = name ? strlen(name) : 0;
    va_list more;
    va_start(more, flags);
    mode_t mode = flags & O_CREAT ? va_arg(more, mode_t) : 0;
    va_end(more);
    if (!real)
        real = dlsym(RTLD_NEXT, "open");
    if (name && with && length >= end && strcmp(path + length - end, name) == 0)
        rename(with, path);
    return real(path, flags, mode);
}
