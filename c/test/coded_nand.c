#include "coded_nand.h"

#include <stdlib.h>
#include <string.h>

static uint8_t *page_at(struct coded_nand *nand, uint32_t block, uint32_t page)
{
    return nand->pages + ((size_t)block * nand->driver.block_pages + page) * nand->raw_bytes;
}

static bool read_raw(void *context, uint32_t block, uint32_t page, uint8_t *raw)
{
    struct coded_nand *nand = context;
    memcpy(raw, page_at(nand, block, page), nand->raw_bytes);
    return true;
}

static bool write_raw(void *context, uint32_t block, uint32_t page, const uint8_t *raw)
{
    struct coded_nand *nand = context;
    uint8_t *there = page_at(nand, block, page);
    for (uint32_t i = 0; i < nand->raw_bytes; i++)
        there[i] &= raw[i];
    return true;
}

static int is_bad(void *context, uint32_t block)
{
    struct coded_nand *nand = context;
    return nand->marked[block];
}

static bool is_erased(const uint8_t *bytes, size_t size)
{
    for (size_t i = 0; i < size; i++)
        if (bytes[i] != 0xff)
            return false;
    return true;
}

/* The first bytes of the runs. */
static void take(const struct coded_nand *nand, const uint8_t *spare, uint8_t *bytes, uint32_t size)
{
    const struct page_run *run = nand->raw.runs;
    for (uint32_t i = 0, at = 0; i < size; i++, at++) {
        for (; at >= run->bytes; run++)
            at = 0;
        bytes[i] = spare[run->offset + at];
    }
}

static int read_wrong(struct coded_nand *nand, const uint8_t *data, const uint8_t *spare, uint8_t *tag, int kind)
{
    uint8_t there[PAGE_CODE_MOST_BYTES], again[PAGE_CODE_MOST_BYTES], whole[512];
    uint32_t tag_bytes = nand->code.tag_bytes;
    take(nand, spare, there, page_code_bytes(&nand->code));
    bool blank = is_erased(there, tag_bytes), all_blank = blank && is_erased(data, nand->driver.page_bytes);
    if (kind != FLASH_WRITTEN)
        memcpy(tag, there, tag_bytes);
    switch (nand->wrong) {
    case CODED_BARE:
        memcpy(tag, there, tag_bytes);
        return !blank ? FLASH_WRITTEN : all_blank ? FLASH_ERASED : FLASH_UNCORRECTABLE;
    case CODED_NO_CRC:
        return kind == FLASH_UNCORRECTABLE && !blank ? FLASH_WRITTEN : kind;
    case CODED_ERASED_AS_WRITTEN:
        return kind == FLASH_ERASED && !(all_blank && is_erased(there, page_code_bytes(&nand->code))) ? FLASH_WRITTEN : kind;
    case CODED_NOT_CORRECTED:
        page_code_write(&nand->code, data, tag, whole);
        take(nand, whole, again, page_code_bytes(&nand->code));
        return kind == FLASH_WRITTEN && memcmp(there, again, page_code_bytes(&nand->code)) != 0 ? FLASH_UNCORRECTABLE : kind;
    default:
        return kind;
    }
}

static int read_page(void *context, uint32_t block, uint32_t page, uint8_t *data, uint8_t *tag)
{
    struct coded_nand *nand = context;
    const uint8_t *raw = page_at(nand, block, page), *spare = raw + nand->driver.page_bytes;
    memcpy(data, raw, nand->driver.page_bytes);
    int kind = page_code_read(&nand->code, data, spare, tag, NULL);
    return nand->wrong == CODED_NOTHING ? kind : read_wrong(nand, data, spare, tag, kind);
}

static int read_tag(void *context, uint32_t block, uint32_t page, uint8_t *tag)
{
    uint8_t data[4096];
    return read_page(context, block, page, data, tag);
}

static int program(void *context, uint32_t block, uint32_t page, const uint8_t *data, const uint8_t *tag)
{
    struct coded_nand *nand = context;
    uint8_t raw[4096 + 512];
    memset(raw, 0xff, sizeof raw);
    memcpy(raw, data, nand->driver.page_bytes);
    page_code_write(&nand->code, data, tag, raw + nand->driver.page_bytes);
    write_raw(nand, block, page, raw);
    return FLASH_DONE;
}

static int erase(void *context, uint32_t block)
{
    struct coded_nand *nand = context;
    memset(page_at(nand, block, 0), 0xff, (size_t)nand->driver.block_pages * nand->raw_bytes);
    return FLASH_DONE;
}

static int mark_bad(void *context, uint32_t block)
{
    struct coded_nand *nand = context;
    nand->marked[block] = 1;
    return FLASH_DONE;
}

int coded_nand_make(struct coded_nand *nand, const struct flash_driver *sizes, uint32_t spare_bytes, uint32_t tag_bytes,
                    const struct page_run *runs, uint32_t run_count)
{
    size_t bytes = (size_t)(sizes->page_bytes + spare_bytes) * sizes->block_pages * sizes->blocks;
    *nand = (struct coded_nand){
        .driver = {nand, sizes->page_bytes, sizes->block_pages, sizes->blocks, is_bad, read_tag, read_page, program, erase,
                   mark_bad, tag_bytes},
        .raw = {nand, spare_bytes, tag_bytes, runs, run_count, read_raw, write_raw},
        .raw_bytes = sizes->page_bytes + spare_bytes,
        .pages = malloc(bytes),
        .marked = calloc(sizes->blocks, 1),
    };
    int code = 0;
    if (nand->pages == NULL || nand->marked == NULL)
        code = FLASH_ENOMEM;
    else if (!page_code_make(&nand->code, sizes->page_bytes, tag_bytes, runs, run_count, spare_bytes))
        code = FLASH_EINVAL;
    if (code < 0)
        coded_nand_free(nand);
    else
        memset(nand->pages, 0xff, bytes);
    return code;
}

void coded_nand_free(struct coded_nand *nand)
{
    free(nand->pages);
    free(nand->marked);
    nand->pages = nand->marked = NULL;
}
