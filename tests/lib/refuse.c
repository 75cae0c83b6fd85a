/* Preloaded before a program, refuses the request for memory whose number REFUSE_AT gives, counted from 1, and leaves an
   empty file at the path REFUSE_MARK to tell that it did. */
#include <fcntl.h>
#include <stddef.h>
#include <stdlib.h>
#include <unistd.h>

extern void *__libc_malloc(size_t size);
extern void *__libc_calloc(size_t count, size_t size);
extern void *__libc_realloc(void *old, size_t size);
extern void *__libc_memalign(size_t alignment, size_t size);

static long requests;

static int is_refused(void)
{
    const char *at = getenv("REFUSE_AT");
    const char *mark = getenv("REFUSE_MARK");
    requests += 1;
    if (at == NULL || mark == NULL || atol(at) != requests)
        return 0;
    close(open(mark, O_WRONLY | O_CREAT, 0600));
    return 1;
}

void *malloc(size_t size) { return is_refused() ? NULL : __libc_malloc(size); }

void *calloc(size_t count, size_t size) { return is_refused() ? NULL : __libc_calloc(count, size); }

void *realloc(void *old, size_t size) { return is_refused() ? NULL : __libc_realloc(old, size); }

void *aligned_alloc(size_t alignment, size_t size) { return is_refused() ? NULL : __libc_memalign(alignment, size); }

int posix_memalign(void **place, size_t alignment, size_t size)
{
    void *memory = is_refused() ? NULL : __libc_memalign(alignment, size);
    if (memory == NULL)
        return 12; /* ENOMEM */
    *place = memory;
    return 0;
}
