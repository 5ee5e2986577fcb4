// Loaded before the C library (LD_PRELOAD), this counts the copies of table size that a program makes, 8,000 bytes and up, and at the end
// writes to standard error how many there were and how many bytes they had. The table of slots has 8,192 bytes and the whole store 8,232;
// what stands of the table in the boxes of bench/rust, 932 lines at most, has less than 8,000. bench/run --copies uses it; nothing is timed with it.
#define _GNU_SOURCE
#include <dlfcn.h>
#include <stdio.h>
#include <string.h>

enum { LEAST = 8000 };

static unsigned long long copies, bytes;

static void *moved(void *to, const void *from, size_t n) {
    static void *(*move)(void *, const void *, size_t);
    if (!move) move = (void *(*)(void *, const void *, size_t))dlsym(RTLD_NEXT, "memmove");
    if (n >= LEAST) {
        copies++;
        bytes += n;
    }
    return move(to, from, n);
}

void *memcpy(void *to, const void *from, size_t n) { return moved(to, from, n); }

void *memmove(void *to, const void *from, size_t n) { return moved(to, from, n); }

__attribute__((destructor)) static void say(void) { fprintf(stderr, "copies %llu %llu\n", copies, bytes); }
