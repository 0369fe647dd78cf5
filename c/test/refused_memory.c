#include "refused_memory.h"
#include "commands.h"
#include "flash_memory.h"

#include <stdlib.h>
#include <string.h>

struct memory_counts memory;

static uint8_t nothing;

static bool is_refused(void)
{
    memory.calls++;
    bool refuses = memory.refuse_at != 0 &&
                   (memory.calls == memory.refuse_at || (memory.refuse_on && memory.calls > memory.refuse_at));
    memory.refused += refuses;
    return refuses;
}

struct flash_memory flash_memory_alloc(size_t bytes, size_t align)
{
    check(align <= 16, "an alignment of %zu", align);
    if (is_refused())
        return (struct flash_memory){false, &nothing};
    memory.blocks++;
    return (struct flash_memory){true, malloc(bytes + 1)};
}

struct flash_memory flash_memory_realloc(uint8_t *at, size_t preserved, size_t bytes, size_t align)
{
    check(align <= 16, "an alignment of %zu", align);
    if (bytes > preserved && is_refused())
        return (struct flash_memory){false, &nothing};
    uint8_t *moved = malloc(bytes + 1); /* another place each time */
    memcpy(moved, at, preserved < bytes ? preserved : bytes);
    free(at);
    return (struct flash_memory){true, moved};
}

void flash_memory_dealloc(uint8_t *at)
{
    memory.blocks--;
    free(at);
}

void refuse(uint64_t at, bool on)
{
    memory.calls = memory.refused = 0;
    memory.refuse_at = at;
    memory.refuse_on = on;
}
