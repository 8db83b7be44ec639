// Loaded before the C library (LD_PRELOAD) into a program that measures. Between two writes of the program it notes the calls of memcpy and memmove with
// 8,192 bytes or more, by the place that they return to, and how deep the stack was used; each write ends a section, which goes to the file descriptor 9.
#define _GNU_SOURCE
#include <dlfcn.h>
#include <stddef.h>
#include <stdint.h>
#include <stdio.h>
#include <sys/syscall.h>
#include <unistd.h>

enum { LARGE = 8192, MANY = 4096, SKIP = 4096, DEEP = 1 << 20, PAINT = 0xA7 };

static struct { uintptr_t at; size_t size; long count; } seen[MANY];
static int used;
static unsigned char *painted;

static void note(uintptr_t at, size_t size) {
    if (size < LARGE) return;
    for (int i = 0; i < used; i++)
        if (seen[i].at == at && seen[i].size == size) { seen[i].count++; return; }
    if (used < MANY) { seen[used].at = at; seen[used].size = size; seen[used++].count = 1; }
}

static void *moved(void *to, const void *from, size_t n) {
    unsigned char *d = to;
    const unsigned char *s = from;
    if (d <= s || s + n <= d) __asm__ volatile("rep movsb" : "+D"(d), "+S"(s), "+c"(n) : : "memory");
    else while (n--) d[n] = s[n];
    return to;
}

void *memcpy(void *restrict to, const void *restrict from, size_t n) {
    note((uintptr_t)__builtin_return_address(0), n);
    return moved(to, from, n);
}

void *memmove(void *to, const void *from, size_t n) {
    note((uintptr_t)__builtin_return_address(0), n);
    return moved(to, from, n);
}

static size_t depth(unsigned char *here) {
    if (!painted) return 0;
    for (unsigned char *p = painted; p < painted + DEEP; p++)
        if (*p != PAINT) return here - p;
    return 0;
}

ssize_t write(int fd, const void *text, size_t n) {
    unsigned char *here = __builtin_frame_address(0);
    char line[96];
    size_t deep = depth(here);
    Dl_info in;
    for (int i = 0; i < used; i++) {
        dladdr((void *)seen[i].at, &in);
        int k = snprintf(line, sizeof line, "c %zx %zu %ld\n", (size_t)(seen[i].at - (uintptr_t)in.dli_fbase), seen[i].size, seen[i].count);
        syscall(SYS_write, 9, line, k);
    }
    int k = snprintf(line, sizeof line, "d %zu\nw ", deep);
    syscall(SYS_write, 9, line, k);
    syscall(SYS_write, 9, text, n);
    if (((const char *)text)[n - 1] != '\n') syscall(SYS_write, 9, "\n", 1);
    used = 0;
    ssize_t r = syscall(SYS_write, fd, text, n);
    painted = here - SKIP - DEEP;
    for (volatile unsigned char *p = painted; p < painted + DEEP; p++) *p = PAINT;
    return r;
}
