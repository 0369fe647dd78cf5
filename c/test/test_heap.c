/* The allocator over a region: blocks keep their bytes, lie in the region, at multiples of 16, and do not meet; refused growths
 * leave them; when all are given back the region is one block again.
 */
#include "commands.h"
#include "flash_heap.h"
#include "flash_memory.h"

#include <stdio.h>
#include <string.h>

enum { REGION = 60000, BLOCKS = 64, BESIDE = 37 };

static uint8_t region[REGION + 2 * BESIDE];

static struct {
    uint8_t *at;
    size_t bytes;
    uint8_t filled;
} blocks[BLOCKS];

static void fill(int i, uint8_t *at, size_t bytes, uint8_t with)
{
    blocks[i].at = at;
    blocks[i].bytes = bytes;
    blocks[i].filled = with;
    memset(at, with, bytes);
}

static bool is_filled(const uint8_t *at, size_t bytes, uint8_t with)
{
    for (size_t i = 0; i < bytes; i++)
        if (at[i] != with)
            return false;
    return true;
}

int main(void)
{
    struct draw draw = {7};
    uint64_t refused = 0, given = 0;
    check(!flash_memory_alloc(1, 1).given, "memory before a region is given");
    memset(region, 0xa5, sizeof region);
    flash_heap_give(region + BESIDE, REGION);
    for (int turn = 0; turn < 200000; turn++) {
        int i = (int)random_below(&draw, BLOCKS);
        size_t bytes = random_below(&draw, 4) == 0 ? random_below(&draw, 9000) : random_below(&draw, 200);
        uint8_t with = (uint8_t)random_below(&draw, 256);
        check(blocks[i].at == NULL || is_filled(blocks[i].at, blocks[i].bytes, blocks[i].filled), "turn %d: a block changed", turn);
        if (blocks[i].at == NULL) {
            struct flash_memory made = flash_memory_alloc(bytes, 16);
            check(made.at != NULL, "a null pointer");
            refused += !made.given;
            given += made.given;
            if (!made.given)
                continue;
            check((uintptr_t)made.at % 16 == 0 && made.at >= region + BESIDE && made.at + bytes <= region + BESIDE + REGION,
                  "turn %d: a block outside", turn);
            fill(i, made.at, bytes, with);
        } else if (random_below(&draw, 3) == 0) {
            struct flash_memory made = flash_memory_realloc(blocks[i].at, blocks[i].bytes, bytes, 16);
            refused += !made.given;
            if (!made.given)
                continue;
            size_t preserved = bytes < blocks[i].bytes ? bytes : blocks[i].bytes;
            check(is_filled(made.at, preserved, blocks[i].filled), "turn %d: bytes were lost", turn);
            fill(i, made.at, bytes, with);
        } else {
            flash_memory_dealloc(blocks[i].at);
            blocks[i].at = NULL;
        }
        check(flash_heap_used() <= flash_heap_peak() && flash_heap_peak() <= REGION, "the counts");
    }
    for (int i = 0; i < BLOCKS; i++)
        if (blocks[i].at != NULL)
            flash_memory_dealloc(blocks[i].at);
    check(flash_heap_used() == 0, "memory is left");
    check(refused > 0 && given > 0, "the test is too small");
    check(flash_memory_alloc(REGION - 48, 16).given, "the region is in pieces");
    check(is_filled(region, BESIDE, 0xa5) && is_filled(region + BESIDE + REGION, BESIDE, 0xa5), "bytes beside the region changed");
    check(!flash_memory_alloc(SIZE_MAX, 1).given && !flash_memory_alloc(1, 64).given, "what cannot be given");
    printf("  200,000 turns, %llu blocks given, %llu refused\n", (unsigned long long)given, (unsigned long long)refused);
    return 0;
}
