/* The memory of the library in a region of the program's: first fit, and free neighbours are joined.
 *
 * The region is a row of blocks without gaps. Each begins with a head of 16 bytes that holds its size and whether it is used.
 */
#include "flash_heap.h"
#include "flash_memory.h"

#include <string.h>

enum { UNIT = 16 }; /* sizes and places of blocks are multiples of it */

struct block {
    size_t size; /* with this head */
    size_t used;
};

_Static_assert(sizeof(struct block) == UNIT, "the head of a block is a unit");

static uint8_t *first, *end; /* the region; both null before it is given */
static size_t used_bytes, peak_bytes;

static const struct flash_memory refused = {false, (uint8_t *)&peak_bytes};

void flash_heap_give(void *region, size_t bytes)
{
    size_t skipped = (size_t)(-(uintptr_t)region % UNIT);
    first = end = NULL;
    used_bytes = peak_bytes = 0;
    if (bytes < skipped + 2 * UNIT)
        return;
    first = (uint8_t *)region + skipped;
    end = first + (bytes - skipped) / UNIT * UNIT;
    *(struct block *)(void *)first = (struct block){(size_t)(end - first), 0};
}

size_t flash_heap_used(void)
{
    return used_bytes;
}

size_t flash_heap_peak(void)
{
    return peak_bytes;
}

static struct block *after(const struct block *block)
{
    uint8_t *next = (uint8_t *)block + block->size;
    return next < end ? (struct block *)(void *)next : NULL;
}

/* Takes the free neighbours behind into a block. */
static void join(struct block *block)
{
    for (struct block *next = after(block); next != NULL && !next->used; next = after(block))
        block->size += next->size;
}

/* Cuts a block to a size; the rest becomes a free block. */
static void cut(struct block *block, size_t size)
{
    if (block->size - size < 2 * UNIT)
        return;
    struct block *rest = (struct block *)(void *)((uint8_t *)block + size);
    *rest = (struct block){block->size - size, 0};
    block->size = size;
}

static void count(size_t more, size_t fewer)
{
    used_bytes = used_bytes + more - fewer;
    if (used_bytes > peak_bytes)
        peak_bytes = used_bytes;
}

/* The size of a block for so many bytes; 0 if the region is smaller, or none was given. */
static size_t size_for(size_t bytes)
{
    if (first == NULL || bytes > (size_t)(end - first))
        return 0;
    return bytes == 0 ? 2 * UNIT : (bytes + 2 * UNIT - 1) / UNIT * UNIT;
}

struct flash_memory flash_memory_alloc(size_t bytes, size_t align)
{
    size_t size = size_for(bytes);
    if (size == 0 || align > UNIT)
        return refused;
    for (struct block *block = (struct block *)(void *)first; block != NULL; block = after(block)) {
        if (block->used)
            continue;
        join(block);
        if (block->size < size)
            continue;
        cut(block, size);
        block->used = 1;
        count(block->size, 0);
        return (struct flash_memory){true, (uint8_t *)(block + 1)};
    }
    return refused;
}

void flash_memory_dealloc(uint8_t *at)
{
    struct block *block = (struct block *)(void *)at - 1;
    block->used = 0;
    count(0, block->size);
    join(block);
}

struct flash_memory flash_memory_realloc(uint8_t *at, size_t preserved, size_t bytes, size_t align)
{
    struct block *block = (struct block *)(void *)at - 1;
    size_t before = block->size, size = size_for(bytes);
    if (size == 0)
        return refused;
    if (size > before)
        join(block);
    if (size <= block->size) {
        cut(block, size);
        count(block->size, before);
        return (struct flash_memory){true, at};
    }
    cut(block, before); /* the neighbours are free again */
    struct flash_memory moved = flash_memory_alloc(bytes, align);
    if (moved.given) {
        memcpy(moved.at, at, preserved < bytes ? preserved : bytes);
        flash_memory_dealloc(at);
    }
    return moved;
}
