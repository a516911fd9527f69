// Refuses memory to a program that it is loaded into before the C library (LD_PRELOAD). Each request for memory of
// the whole program, on whatever thread, has a number, counted from 1 from the program's start on, what the C library
// itself asks for included. Settings, by environment variables:
//
//     REFUSE=N           refuse request number N (0 or not set: none)
//     REFUSE_LATER=1     and each later one too
//     REFUSE_COUNT=FILE  write how many requests there were, and how many of them were refused, to FILE at the end
#define _GNU_SOURCE
#include <errno.h>
#include <fcntl.h>
#include <stdatomic.h>
#include <stddef.h>
#include <stdio.h>
#include <stdlib.h>
#include <sys/syscall.h>
#include <unistd.h>

extern void *__libc_malloc(size_t size);
extern void *__libc_calloc(size_t count, size_t size);
extern void *__libc_realloc(void *old, size_t size);
extern void *__libc_memalign(size_t align, size_t size);

static atomic_ulong asked;
static atomic_ulong refusals;
static unsigned long refused;
static int later;

// The settings are read before the first request is counted.
static void settle(void) {
    static atomic_int settled;
    if (atomic_exchange(&settled, 1)) return;
    const char *number = getenv("REFUSE");
    const char *all = getenv("REFUSE_LATER");
    refused = number ? strtoul(number, NULL, 10) : 0;
    later = all && all[0] == '1';
}

// Counts a request, and says whether it is refused.
static int is_refused(void) {
    settle();
    unsigned long number = atomic_fetch_add(&asked, 1) + 1;
    if (refused == 0 || number < refused || (number > refused && !later)) return 0;
    atomic_fetch_add(&refusals, 1);
    errno = ENOMEM;
    return 1;
}

void *malloc(size_t size) { return is_refused() ? NULL : __libc_malloc(size); }

void *calloc(size_t count, size_t size) { return is_refused() ? NULL : __libc_calloc(count, size); }

// A request that gives memory back (size 0) is none.
void *realloc(void *old, size_t size) {
    if (old != NULL && size == 0) return __libc_realloc(old, size);
    return is_refused() ? NULL : __libc_realloc(old, size);
}

void *memalign(size_t align, size_t size) { return is_refused() ? NULL : __libc_memalign(align, size); }

void *aligned_alloc(size_t align, size_t size) { return is_refused() ? NULL : __libc_memalign(align, size); }

int posix_memalign(void **place, size_t align, size_t size) {
    if (align < sizeof(void *) || (align & (align - 1)) != 0) return EINVAL;
    int before = errno;
    void *found = is_refused() ? NULL : __libc_memalign(align, size);
    errno = before;
    if (found == NULL) return ENOMEM;
    *place = found;
    return 0;
}

// Says at the end how many there were: where the program returns or calls exit, and where it calls _exit, as
// programs of Rattle do.
__attribute__((destructor)) static void tell(void) {
    const char *name = getenv("REFUSE_COUNT");
    if (name == NULL) return;
    unsigned long count = atomic_load(&asked);
    char line[64];
    int length = snprintf(line, sizeof line, "%lu %lu\n", count, atomic_load(&refusals));
    int file = open(name, O_WRONLY | O_CREAT | O_TRUNC, 0644);
    if (file < 0) return;
    if (write(file, line, (size_t)length) != length) abort();
    close(file);
}

void _exit(int status) {
    tell();
    for (;;) syscall(SYS_exit_group, status);
}
