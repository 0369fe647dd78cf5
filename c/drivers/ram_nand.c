#include "ram_nand.h"

#include <stdlib.h>
#include <string.h>

static size_t place_of(const struct ram_nand *nand, uint32_t block, uint32_t page)
{
    return (size_t)block * nand->driver.block_pages + page;
}

static size_t tag_bytes_of(const struct ram_nand *nand)
{
    return nand->driver.tag_bytes == 0 ? FLASH_TAG_BYTES : nand->driver.tag_bytes;
}

static int misused(struct ram_nand *nand, const char *what)
{
    if (nand->misuse == NULL)
        nand->misuse = what;
    return -1;
}

/* Counts a call; false if it does not begin: power went before. */
static bool begins(struct ram_nand *nand, uint64_t *count)
{
    if (nand->gone) {
        misused(nand, "a call after power was reported lost");
        return false;
    }
    nand->calls++;
    ++*count;
    return true;
}

static bool is_cut(struct ram_nand *nand)
{
    if (nand->calls == nand->cut_at)
        nand->gone = true;
    return nand->gone;
}

static bool fails(const struct ram_nand *nand)
{
    for (int i = 0; i < RAM_NAND_FAILURES; i++)
        if (nand->fail_at[i] != 0 && nand->fail_at[i] == nand->calls)
            return true;
    return false;
}

/* The fate of a page, where they are mixed a random one by the number of the call and that of the page. */
static enum ram_nand_fate fate_of(const struct ram_nand *nand, uint32_t page)
{
    if (nand->fate != RAM_NAND_MIXED)
        return nand->fate;
    uint64_t random_state = (nand->calls * 64 + page + 1) * UINT64_C(0x9e3779b97f4a7c15);
    return (enum ram_nand_fate)((random_state >> 40) % RAM_NAND_MIXED);
}

static int is_bad(void *context, uint32_t block)
{
    struct ram_nand *nand = context;
    if (!begins(nand, &nand->counts.mark_reads))
        return -1;
    if (block >= nand->driver.blocks)
        return misused(nand, "the mark of a block that is not there");
    return is_cut(nand) ? -1 : nand->marked[block];
}

static int read_kind(struct ram_nand *nand, uint32_t block, uint32_t page, uint8_t *tag)
{
    if (block >= nand->driver.blocks || page >= nand->driver.block_pages)
        return misused(nand, "a read of a page that is not there");
    if (is_cut(nand))
        return -1;
    size_t place = place_of(nand, block, page);
    if (nand->kinds[place] != FLASH_WRITTEN)
        return nand->kinds[place];
    nand->reads[block]++;
    if (nand->lost_after != 0 && nand->reads[block] >= nand->lost_after)
        return nand->kinds[place] = FLASH_UNCORRECTABLE;
    memcpy(tag, nand->tags + place * FLASH_TAG_BYTES, tag_bytes_of(nand));
    return nand->weak_after != 0 && nand->reads[block] >= nand->weak_after ? FLASH_WRITTEN_WEAK : FLASH_WRITTEN;
}

static int read_tag(void *context, uint32_t block, uint32_t page, uint8_t *tag)
{
    struct ram_nand *nand = context;
    return begins(nand, &nand->counts.tag_reads) ? read_kind(nand, block, page, tag) : -1;
}

static int read_page(void *context, uint32_t block, uint32_t page, uint8_t *data, uint8_t *tag)
{
    struct ram_nand *nand = context;
    if (!begins(nand, &nand->counts.page_reads))
        return -1;
    int kind = read_kind(nand, block, page, tag);
    size_t bytes = nand->driver.page_bytes;
    if (kind == FLASH_WRITTEN || kind == FLASH_WRITTEN_WEAK)
        memcpy(data, nand->data + place_of(nand, block, page) * bytes, bytes);
    return kind;
}

static int program(void *context, uint32_t block, uint32_t page, const uint8_t *data, const uint8_t *tag)
{
    struct ram_nand *nand = context;
    if (!begins(nand, &nand->counts.programs))
        return -1;
    if (block >= nand->driver.blocks || page >= nand->driver.block_pages)
        return misused(nand, "a program of a page that is not there");
    if (nand->marked[block])
        return misused(nand, "a program in a block that is marked bad");
    if (nand->next[block] != page)
        return misused(nand, "a program out of order, or in a block that was not erased since the power came");
    bool cut = is_cut(nand), ends = cut || fails(nand);
    enum ram_nand_fate fate = ends ? fate_of(nand, page) : RAM_NAND_AFTER;
    size_t place = place_of(nand, block, page), bytes = nand->driver.page_bytes;
    if (fate == RAM_NAND_AFTER) {
        memcpy(nand->data + place * bytes, data, bytes);
        memcpy(nand->tags + place * FLASH_TAG_BYTES, tag, tag_bytes_of(nand));
        nand->kinds[place] = FLASH_WRITTEN;
    } else if (fate == RAM_NAND_LOST) {
        nand->kinds[place] = FLASH_UNCORRECTABLE;
    }
    nand->next[block] = ends ? UINT32_MAX : page + 1;
    return cut ? -1 : ends ? FLASH_FAILED : FLASH_DONE;
}

static int erase(void *context, uint32_t block)
{
    struct ram_nand *nand = context;
    if (!begins(nand, &nand->counts.erases))
        return -1;
    if (block >= nand->driver.blocks)
        return misused(nand, "an erase of a block that is not there");
    bool cut = is_cut(nand), ends = cut || fails(nand);
    for (uint32_t page = 0; page < nand->driver.block_pages; page++) {
        enum ram_nand_fate fate = ends ? fate_of(nand, page) : RAM_NAND_AFTER;
        if (fate != RAM_NAND_BEFORE)
            nand->kinds[place_of(nand, block, page)] = fate == RAM_NAND_AFTER ? FLASH_ERASED : FLASH_UNCORRECTABLE;
    }
    nand->next[block] = ends ? UINT32_MAX : 0;
    nand->reads[block] = 0;
    return cut ? -1 : ends ? FLASH_FAILED : FLASH_DONE;
}

static int mark_bad(void *context, uint32_t block)
{
    struct ram_nand *nand = context;
    if (!begins(nand, &nand->counts.marks))
        return -1;
    if (block >= nand->driver.blocks)
        return misused(nand, "a mark of a block that is not there");
    bool cut = is_cut(nand);
    if (!cut || fate_of(nand, 0) == RAM_NAND_AFTER)
        nand->marked[block] = 1;
    return cut ? -1 : FLASH_DONE;
}

int ram_nand_make(struct ram_nand *nand, uint32_t page_bytes, uint32_t block_pages, uint32_t blocks)
{
    size_t pages = (size_t)block_pages * blocks;
    *nand = (struct ram_nand){
        .driver = {nand, page_bytes, block_pages, blocks, is_bad, read_tag, read_page, program, erase, mark_bad, FLASH_TAG_BYTES},
        .kinds = calloc(pages, 1),
        .tags = calloc(pages, FLASH_TAG_BYTES),
        .data = calloc(pages, page_bytes),
        .marked = calloc(blocks, 1),
        .next = calloc(blocks, sizeof *nand->next),
        .reads = calloc(blocks, sizeof *nand->reads),
    };
    if (nand->kinds == NULL || nand->tags == NULL || nand->data == NULL || nand->marked == NULL || nand->next == NULL ||
        nand->reads == NULL) {
        ram_nand_free(nand);
        return FLASH_ENOMEM;
    }
    ram_nand_power_up(nand);
    return 0;
}

void ram_nand_free(struct ram_nand *nand)
{
    free(nand->kinds);
    free(nand->tags);
    free(nand->data);
    free(nand->marked);
    free(nand->next);
    free(nand->reads);
    *nand = (struct ram_nand){0};
}

void ram_nand_power_up(struct ram_nand *nand)
{
    nand->gone = false;
    nand->calls = 0;
    nand->cut_at = 0;
    memset(nand->fail_at, 0, sizeof nand->fail_at);
    for (uint32_t block = 0; block < nand->driver.blocks; block++)
        nand->next[block] = UINT32_MAX;
}

void ram_nand_lose(struct ram_nand *nand, uint32_t block, uint32_t page)
{
    nand->kinds[place_of(nand, block, page)] = FLASH_UNCORRECTABLE;
}

void ram_nand_copy(struct ram_nand *to, const struct ram_nand *from)
{
    size_t pages = (size_t)from->driver.block_pages * from->driver.blocks;
    memcpy(to->kinds, from->kinds, pages);
    memcpy(to->tags, from->tags, pages * FLASH_TAG_BYTES);
    memcpy(to->data, from->data, pages * from->driver.page_bytes);
    memcpy(to->marked, from->marked, from->driver.blocks);
    memcpy(to->reads, from->reads, from->driver.blocks * sizeof *to->reads);
    ram_nand_power_up(to);
}
