// Blocks of memory. The toolchain's library `libc` states these functions in libc/src/heap.rt.
#include <stdbool.h>
#include <stddef.h>
#include <stdlib.h>

// libc/src/types.rt: whether there is memory, and the pointer to it. Where there is none, the pointer leads to a byte that
// nobody owns, since it is never null.
struct tried {
    bool ok;
    void *p;
};

static char nothing;

static struct tried answer(void *p)
{
    return (struct tried){.ok = p != NULL, .p = p ? p : &nothing};
}

// malloc and realloc may answer null if asked for no bytes, which is no want of memory. A block of no bytes is asked as one
// of as many as its alignment says, at least 1.
static size_t at_least(size_t size, size_t alignment)
{
    return size ? size : alignment;
}

// Stated: new memory for a value of that size and alignment, where `ok` is true. The alignment divides 16, and the size is
// below 2^63. glibc aligns each block to 16 bytes on x86-64 and on arm64, so the alignment is not passed on.
struct tried rattle_alloc(size_t size, size_t alignment)
{
    return answer(malloc(at_least(size, alignment)));
}

// Stated: makes the block at p, which has at least `kept` bytes, one of `size` bytes. Its first `kept` bytes are as they
// were, and it may move. Where `ok` is false the block is as it was. The size is never below `kept`, and realloc keeps all
// bytes up to the smaller of both sizes.
struct tried rattle_realloc(void *p, size_t kept, size_t size, size_t alignment)
{
    (void)kept;
    return answer(realloc(p, at_least(size, alignment)));
}

// Stated: frees the block that either has answered.
void rattle_dealloc(void *p)
{
    free(p);
}
