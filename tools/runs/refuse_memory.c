/* Preloaded into a program, refuses requests for memory: the Nth alone, or the Nth and all after it.
 *
 * REFUSE_AT is N, counted from 1 from the program's own start; 0 or none refuses nothing. Where REFUSE_ON is 1 it goes
 * on refusing. REFUSE_MARK names a file that is made at the first refusal. Giving memory back always works. */
#include <errno.h>
#include <fcntl.h>
#include <stddef.h>
#include <stdlib.h>
#include <unistd.h>

extern void *__libc_malloc(size_t size);
extern void *__libc_calloc(size_t count, size_t size);
extern void *__libc_realloc(void *block, size_t size);
extern void *__libc_memalign(size_t alignment, size_t size);

static unsigned long refuse_at, requests;
static int goes_on, started;
static const char *mark;

/* Runs after the loader and before the program's own first request. */
__attribute__((constructor)) static void start(void) {
    const char *number = getenv("REFUSE_AT"), *on = getenv("REFUSE_ON");
    refuse_at = number ? strtoul(number, NULL, 10) : 0;
    goes_on = on && on[0] == '1';
    mark = getenv("REFUSE_MARK");
    started = 1;
}

static int is_refused(void) {
    if (!started || refuse_at == 0) return 0;
    requests++;
    if (requests == refuse_at && mark) {
        int file = open(mark, O_WRONLY | O_CREAT, 0600);
        if (file >= 0) close(file);
    }
    return requests == refuse_at || (goes_on && requests > refuse_at);
}

void *malloc(size_t size) {
    if (is_refused()) return errno = ENOMEM, NULL;
    return __libc_malloc(size);
}

void *calloc(size_t count, size_t size) {
    if (is_refused()) return errno = ENOMEM, NULL;
    return __libc_calloc(count, size);
}

void *realloc(void *block, size_t size) {
    if (is_refused()) return errno = ENOMEM, NULL;
    return __libc_realloc(block, size);
}

void *aligned_alloc(size_t alignment, size_t size) {
    if (is_refused()) return errno = ENOMEM, NULL;
    return __libc_memalign(alignment, size);
}

int posix_memalign(void **block, size_t alignment, size_t size) {
    void *found;
    if (is_refused()) return ENOMEM;
    found = __libc_memalign(alignment, size);
    if (found == NULL) return ENOMEM;
    *block = found;
    return 0;
}
