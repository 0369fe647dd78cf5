/* Memory for the library in a region that the program gives, so that no malloc is needed: link libflashfs_heap.a before
 * libflashfs.a, or compile flash_heap.c in.
 *
 * The library takes memory by three functions alone, which flash_memory.h declares. Without flash_heap.c they are over malloc,
 * realloc and free; a program may also define them itself.
 */
#ifndef FLASH_HEAP_H
#define FLASH_HEAP_H

#include <stddef.h>

#ifdef __cplusplus
extern "C" {
#endif

/* Gives the region, before the first call of the library; while a volume is mounted it stays the library's. Bytes outside of
 * the multiples of 16 within are not used. Before this every allocation is refused.
 */
void flash_heap_give(void *region, size_t bytes);

/* Bytes in use now, with a head of 16 for each block. */
size_t flash_heap_used(void);

/* The most bytes in use since the region was given. */
size_t flash_heap_peak(void);

#ifdef __cplusplus
}
#endif
#endif
