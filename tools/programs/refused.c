// Refuses the request for memory of the number REFUSED, counted from 1, and then makes the file TOLD.
#include <errno.h>
#include <fcntl.h>
#include <stdatomic.h>
#include <stddef.h>
#include <stdlib.h>
#include <unistd.h>

void *__libc_malloc(size_t size);
void *__libc_calloc(size_t count, size_t size);
void *__libc_realloc(void *at, size_t size);
void *__libc_memalign(size_t align, size_t size);

static atomic_long asked;
static long refused;
static const char *told;

static int refuses(void) {
    if (atomic_fetch_add(&asked, 1) + 1 != refused) {
        return 0;
    }
    int file = told == NULL ? -1 : creat(told, 0600);
    if (file >= 0) {
        close(file);
    }
    errno = ENOMEM;
    return 1;
}

void *malloc(size_t size) {
    return refuses() ? NULL : __libc_malloc(size);
}

void *calloc(size_t count, size_t size) {
    return refuses() ? NULL : __libc_calloc(count, size);
}

void *realloc(void *at, size_t size) {
    return refuses() ? NULL : __libc_realloc(at, size);
}

void *aligned_alloc(size_t align, size_t size) {
    return refuses() ? NULL : __libc_memalign(align, size);
}

int posix_memalign(void **at, size_t align, size_t size) {
    *at = refuses() ? NULL : __libc_memalign(align, size);
    return *at == NULL ? ENOMEM : 0;
}

__attribute__((constructor)) static void begin(void) {
    const char *number = getenv("REFUSED");
    told = getenv("TOLD");
    refused = number == NULL ? 0 : atol(number);
    atomic_store(&asked, 0);
}
