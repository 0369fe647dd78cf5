/* What the library and the flash in memory ask of a C library. The first three are single instructions of WebAssembly. */
#include <stdint.h>
#include <stdlib.h>
#include <string.h>

void *memcpy(void *to, const void *from, size_t bytes)
{
    return __builtin_memcpy(to, from, bytes);
}

void *memmove(void *to, const void *from, size_t bytes)
{
    return __builtin_memmove(to, from, bytes);
}

void *memset(void *at, int value, size_t bytes)
{
    return __builtin_memset(at, value, bytes);
}

int memcmp(const void *one, const void *other, size_t bytes)
{
    const uint8_t *a = one, *b = other;
    for (size_t i = 0; i < bytes; i++)
        if (a[i] != b[i])
            return a[i] < b[i] ? -1 : 1;
    return 0;
}

int bcmp(const void *one, const void *other, size_t bytes)
{
    return memcmp(one, other, bytes);
}

size_t strlen(const char *text)
{
    size_t length = 0;
    while (text[length] != 0)
        length++;
    return length;
}

/* Memory for the flashes, at the end of the module's. All flashes are made together and given back together, so that it is
 * taken from the beginning again once nothing is in use.
 */
enum { UNIT = 16, WASM_PAGE_BYTES = 1 << 16 };
static uint8_t *first;
static size_t room, taken, in_use;

static int has_room(size_t bytes)
{
    size_t missing = taken + bytes > room ? taken + bytes - room : 0;
    size_t pages = (missing + WASM_PAGE_BYTES - 1) / WASM_PAGE_BYTES;
    size_t before = __builtin_wasm_memory_grow(0, pages);
    if (before == SIZE_MAX)
        return 0;
    if (first == NULL)
        first = (uint8_t *)(before * WASM_PAGE_BYTES);
    room += pages * WASM_PAGE_BYTES;
    return 1;
}

void *calloc(size_t count, size_t bytes)
{
    size_t size = (count * bytes + UNIT - 1) / UNIT * UNIT;
    if (!has_room(size))
        return NULL;
    uint8_t *at = first + taken;
    taken += size;
    in_use++;
    return memset(at, 0, size);
}

void free(void *at)
{
    if (at == NULL)
        return;
    in_use--;
    if (in_use == 0)
        taken = 0;
}
