/* The allocator that the proved code calls, over the C library's. Who has another one defines these three in place of this
 * file.
 *
 * A block is aligned to each power of two up to 16 that divides its size, which is all that is asked. One of no octets is
 * asked for as one of its alignment, so that it has an address of its own; where there is none, ok is 0, and the address is
 * any but NULL. */
#include <stddef.h>
#include <stdint.h>
#include <stdlib.h>

struct tried {
    uint8_t ok;
    void *block;
};

struct tried rattle_alloc(size_t size, size_t align);
struct tried rattle_realloc(void *block, size_t kept, size_t size, size_t align);
void rattle_dealloc(void *block);

static struct tried answer(void *block)
{
    static char nothing;
    struct tried tried = {block != NULL, block ? block : &nothing};
    return tried;
}

struct tried rattle_alloc(size_t size, size_t align)
{
    return answer(malloc(size ? size : align));
}

struct tried rattle_realloc(void *block, size_t kept, size_t size, size_t align)
{
    (void)kept;
    return answer(realloc(block, size ? size : align));
}

void rattle_dealloc(void *block)
{
    free(block);
}
