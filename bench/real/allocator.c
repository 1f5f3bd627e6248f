#define _GNU_SOURCE
#include "allocator.h"
#include <dlfcn.h>
#include <fcntl.h>
#include <malloc.h>
#include <stdbool.h>
#include <stdio.h>
#include <stdlib.h>
#include <string.h>
#include <unistd.h>

typedef void collect(bool);
typedef int control(const char *, void *, size_t *, void *, size_t);

void allocator_give_back(void) {
    void *collect_all = dlsym(RTLD_DEFAULT, "mi_collect"), *ask = dlsym(RTLD_DEFAULT, "mallctl");
    if (collect_all) {
        ((collect *)collect_all)(true);
    } else if (ask) {
        /* Those of all arenas, which have this number. */
        ((control *)ask)("thread.tcache.flush", NULL, NULL, NULL, 0);
        ((control *)ask)("arena.4096.purge", NULL, NULL, NULL, 0);
    } else {
        malloc_trim(0);
    }
}

long resident_kilobytes(void) {
    char text[8192];
    int file = open("/proc/self/status", O_RDONLY);
    ssize_t len = file < 0 ? -1 : read(file, text, sizeof text - 1);
    close(file);
    text[len < 0 ? 0 : len] = 0;
    const char *line = strstr(text, "VmRSS:");
    if (!line) {
        fprintf(stderr, "the system does not tell what is resident\n");
        exit(1);
    }
    return strtol(line + strlen("VmRSS:"), NULL, 10);
}
