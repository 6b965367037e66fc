/* An allocator whose Nth allocation fails, for LD_PRELOAD: FAIL_ALLOC is N, from 1, and 0 fails none. At its end the
   program writes how many allocations it asked for to the file that FAIL_ALLOC_COUNT names: a program that may start
   threads ends by `_exit`, which runs no destructor. */
#include <errno.h>
#include <stdio.h>
#include <stdlib.h>
#include <sys/syscall.h>
#include <unistd.h>

void *__libc_malloc(size_t size);
void *__libc_calloc(size_t count, size_t size);
void *__libc_realloc(void *old, size_t size);
void *__libc_memalign(size_t alignment, size_t size);

static _Atomic unsigned long asked;
static unsigned long failing;

__attribute__((constructor)) static void begin(void) {
    const char *number = getenv("FAIL_ALLOC");
    asked = 0;
    failing = number ? strtoul(number, NULL, 10) : 0;
}

__attribute__((destructor)) static void end(void) {
    unsigned long count = asked;
    const char *path = getenv("FAIL_ALLOC_COUNT");
    FILE *file;
    failing = 0;
    if (path && (file = fopen(path, "w"))) {
        fprintf(file, "%lu\n", count);
        fclose(file);
    }
}

void _exit(int status) {
    end();
    for (;;) syscall(SYS_exit_group, status);
}

static int fails(void) {
    if (++asked != failing) return 0;
    errno = ENOMEM;
    return 1;
}

void *malloc(size_t size) { return fails() ? NULL : __libc_malloc(size); }

void *calloc(size_t count, size_t size) { return fails() ? NULL : __libc_calloc(count, size); }

void *realloc(void *old, size_t size) { return fails() ? NULL : __libc_realloc(old, size); }

void *memalign(size_t alignment, size_t size) { return fails() ? NULL : __libc_memalign(alignment, size); }

void *aligned_alloc(size_t alignment, size_t size) { return memalign(alignment, size); }

int posix_memalign(void **made, size_t alignment, size_t size) {
    void *block = memalign(alignment, size);
    if (block == NULL) return ENOMEM;
    *made = block;
    return 0;
}
