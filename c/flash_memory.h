/* The memory of the library: the three functions by which it takes and gives back all that it takes. flash_malloc.c defines
 * them over malloc, flash_heap.c over a region of the program's; a program that defines them itself is linked with neither.
 */
#ifndef FLASH_MEMORY_H
#define FLASH_MEMORY_H

#include <stdbool.h>
#include <stddef.h>
#include <stdint.h>

#ifdef __cplusplus
extern "C" {
#endif

/* Whether memory was given, and where. If it was refused, `at` is any pointer that is not null. */
struct flash_memory {
    bool given;
    uint8_t *at;
};

/* So many bytes at a multiple of `align`, a power of two of at most 16. The library may be refused memory at any time: the call
 * in which that happens returns FLASH_ENOMEM, or does without.
 */
struct flash_memory flash_memory_alloc(size_t bytes, size_t align);

/* Makes a block larger or smaller; its first `preserved` bytes, or `bytes` if that is fewer, stay. If this is refused, the block
 * stays as it is.
 */
struct flash_memory flash_memory_realloc(uint8_t *at, size_t preserved, size_t bytes, size_t align);

/* Gives a block back. */
void flash_memory_dealloc(uint8_t *at);

#ifdef __cplusplus
}
#endif
#endif
