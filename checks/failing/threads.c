/* For `sessions`, before the C library: where REFUSED is a number, the allocation of that number is refused in each thread
 * but the first whose own number is THREAD, by the order in which threads first ask for memory. REPORT, where it names a
 * file, then holds `refused`. It is written at once, as the program may end without what stands behind `main`. */
#define _GNU_SOURCE
#include <fcntl.h>
#include <stdatomic.h>
#include <stddef.h>
#include <stdlib.h>
#include <unistd.h>

extern void *__libc_malloc(size_t);
extern void *__libc_realloc(void *, size_t);

static atomic_ulong threads;
static __thread unsigned long own, asked;

static unsigned long number(const char *name) {
    const char *text = getenv(name);
    return text ? strtoul(text, 0, 10) : 0;
}

static void report(void) {
    const char *name = getenv("REPORT");
    int file = name ? open(name, O_WRONLY | O_TRUNC) : -1;
    if (file >= 0 && write(file, "refused", 7) == 7) close(file);
}

static int refused(void) {
    if (!own) own = atomic_fetch_add(&threads, 1) + 1;
    if (own == 1 || own != number("THREAD") + 1) return 0;
    asked += 1;
    if (asked != number("REFUSED")) return 0;
    report();
    return 1;
}

void *malloc(size_t size) {
    return refused() ? 0 : __libc_malloc(size);
}

void *realloc(void *old, size_t size) {
    return refused() ? 0 : __libc_realloc(old, size);
}
