/* A library that comes before the C library's own requests for memory. REFUSE_FROM and REFUSE_TO number those that
   it refuses, from 1 on, once the program itself begins; each refusal leaves a mark in the file REFUSED. */
#include <errno.h>
#include <fcntl.h>
#include <stdatomic.h>
#include <stddef.h>
#include <stdlib.h>
#include <unistd.h>

void *__libc_malloc(size_t), *__libc_calloc(size_t, size_t), *__libc_realloc(void *, size_t), *__libc_memalign(size_t, size_t);

static atomic_ulong asked;
static unsigned long from, to;
static int told = -1;

static unsigned long number_in(const char *name) {
    const char *text = getenv(name);
    return text ? strtoul(text, NULL, 10) : 0;
}

__attribute__((constructor)) static void begin(void) {
    const char *path = getenv("REFUSED");
    told = path ? open(path, O_WRONLY | O_APPEND | O_CREAT, 0600) : -1;
    to = number_in("REFUSE_TO");
    from = number_in("REFUSE_FROM");
}

static int is_refused(void) {
    if (from == 0) return 0;
    unsigned long number = atomic_fetch_add(&asked, 1) + 1;
    if (number < from || number > to) return 0;
    if (write(told, ".", 1) != 1) abort();
    errno = ENOMEM;
    return 1;
}

void *malloc(size_t n) { return is_refused() ? NULL : __libc_malloc(n); }
void *calloc(size_t k, size_t n) { return is_refused() ? NULL : __libc_calloc(k, n); }
void *realloc(void *p, size_t n) { return is_refused() ? NULL : __libc_realloc(p, n); }
void *memalign(size_t a, size_t n) { return is_refused() ? NULL : __libc_memalign(a, n); }
void *aligned_alloc(size_t a, size_t n) { return memalign(a, n); }

int posix_memalign(void **p, size_t a, size_t n) {
    void *made = memalign(a, n);
    if (!made) return ENOMEM;
    *p = made;
    return 0;
}
