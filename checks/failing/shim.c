/* For `faults`, before the C library: where the variable SHORT is a number, reads and writes move at most as many bytes.
 * Where REFUSED is one, the allocation of that number is refused, and COUNTED names a file for how many there were. */
#define _GNU_SOURCE
#include <dlfcn.h>
#include <fcntl.h>
#include <stdio.h>
#include <stdlib.h>
#include <unistd.h>

extern void *__libc_malloc(size_t);
extern void *__libc_realloc(void *, size_t);

static unsigned long asked;

static size_t number(const char *name, size_t without) {
    const char *text = getenv(name);
    return text ? strtoul(text, 0, 10) : without;
}

static int refused(void) {
    asked += 1;
    return asked == number("REFUSED", 0);
}

void *malloc(size_t size) {
    return refused() ? 0 : __libc_malloc(size);
}

void *realloc(void *old, size_t size) {
    return refused() ? 0 : __libc_realloc(old, size);
}

static size_t most(size_t count) {
    size_t limit = number("SHORT", count);
    return count < limit ? count : limit;
}

ssize_t read(int fd, void *into, size_t count) {
    static ssize_t (*real)(int, void *, size_t);
    if (!real) real = (ssize_t (*)(int, void *, size_t))dlsym(RTLD_NEXT, "read");
    return real(fd, into, most(count));
}

ssize_t pread(int fd, void *into, size_t count, off_t place) {
    static ssize_t (*real)(int, void *, size_t, off_t);
    if (!real) real = (ssize_t (*)(int, void *, size_t, off_t))dlsym(RTLD_NEXT, "pread");
    return real(fd, into, most(count), place);
}

ssize_t write(int fd, const void *from, size_t count) {
    static ssize_t (*real)(int, const void *, size_t);
    if (!real) real = (ssize_t (*)(int, const void *, size_t))dlsym(RTLD_NEXT, "write");
    return real(fd, from, most(count));
}

__attribute__((destructor)) static void count(void) {
    unsigned long all = asked;
    const char *name = getenv("COUNTED");
    int file = name ? open(name, O_WRONLY | O_TRUNC) : -1;
    if (file >= 0) dprintf(file, "%lu", all);
}
