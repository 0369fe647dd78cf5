/* The memory of the library from malloc. */
#include "flash_memory.h"

#include <stdlib.h>

/* Where there is no memory the pointer is to this. */
static uint8_t nothing;

static struct flash_memory given(void *at)
{
    return at != NULL ? (struct flash_memory){true, at} : (struct flash_memory){false, &nothing};
}

struct flash_memory flash_memory_alloc(size_t bytes, size_t align)
{
    (void)align; /* malloc's is 16 on the processors of the library */
    return given(malloc(bytes > 0 ? bytes : 1));
}

struct flash_memory flash_memory_realloc(uint8_t *at, size_t preserved, size_t bytes, size_t align)
{
    (void)preserved;
    (void)align;
    return given(realloc(at, bytes > 0 ? bytes : 1));
}

void flash_memory_dealloc(uint8_t *at)
{
    free(at);
}
