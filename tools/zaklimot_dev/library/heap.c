/* How the crate takes its memory on a processor for which the toolchain has no such part: the three
 * functions that its allocator calls, over the C library's. No proof covers them.
 *
 * SPDX-License-Identifier: MIT
 */
#include <stdlib.h>

/* What the toolchain's allocator calls `Tried`: ok is 1 where p is a block, and else 0. */
struct tried {
    size_t ok;
    void *p;
};

/* What p points to where there is no block, since it is never null. */
static char nothing;

static struct tried tried(void *p)
{
    return (struct tried){p != NULL, p ? p : &nothing};
}

/* malloc may answer null for no bytes. The alignment is at most 16, which malloc's blocks have. */
struct tried rattle_alloc(size_t bytes, size_t alignment)
{
    return tried(malloc(bytes ? bytes : alignment));
}

/* realloc keeps what both blocks have room for, so at least the first `kept` bytes. */
struct tried rattle_realloc(void *p, size_t kept, size_t bytes, size_t alignment)
{
    (void)kept;
    return tried(realloc(p, bytes ? bytes : alignment));
}

void rattle_dealloc(void *p)
{
    free(p);
}
