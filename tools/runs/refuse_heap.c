/* A heap for the library of crates/lv_c, in place of the toolchain's: it refuses the Nth request for memory alone, or the Nth and all
 * after it. Giving memory back always works. */
#include <stddef.h>
#include <stdlib.h>

/* What the library reads of an answer: whether there is a block, and where; never null. */
struct answer {
    _Bool is_there;
    void *at;
};

static unsigned long refuse_at, requests, refusals;
static int goes_on;

/* Counts requests from here on, and refuses number `at`, or none where that is 0. */
void heap_refuse(unsigned long at, int on) {
    refuse_at = at;
    goes_on = on;
    requests = refusals = 0;
}

unsigned long heap_requests(void) {
    return requests;
}

unsigned long heap_refusals(void) {
    return refusals;
}

static int is_refused(void) {
    requests++;
    int refuses = refuse_at != 0 && (requests == refuse_at || (goes_on && requests > refuse_at));
    refusals += refuses;
    return refuses;
}

static struct answer answer(void *block) {
    static char nowhere;
    return (struct answer){block != NULL, block ? block : &nowhere};
}

struct answer rattle_alloc(size_t size, size_t alignment) {
    return answer(is_refused() ? NULL : malloc(size ? size : alignment));
}

struct answer rattle_realloc(void *block, size_t kept, size_t size, size_t alignment) {
    (void)kept;
    return answer(is_refused() ? NULL : realloc(block, size ? size : alignment));
}

void rattle_dealloc(void *block) {
    free(block);
}
