#include "cut_nand.h"

#include <stdlib.h>
#include <string.h>

enum { MARK_BYTES = 2 }; /* of the spare area, which are never cut or flipped */

static const char *const ways[CUT_NAND_WAYS] = {
    "nothing was programmed",        "all was programmed",
    "the first half of the data",    "the data and nothing of the spare area",
    "each bit with probability 1/2", "99 % of all bits",
    "all but one bit of the data",   "all but 3 bits of 256 bytes of the data",
    "the spare area and no data",    "all but the second half of the tag",
    "all but one bit of the tag",    "nothing but the tag",
};

const char *cut_nand_way(unsigned way)
{
    return ways[way % CUT_NAND_WAYS];
}

static uint32_t random_below(struct cut_nand *cut, uint32_t below)
{
    cut->random_state = cut->random_state * UINT64_C(6364136223846793005) + UINT64_C(1442695040888963407);
    return (uint32_t)(cut->random_state >> 33) % below;
}

static size_t raw_bytes(const struct cut_nand *cut)
{
    return (size_t)cut->below->page_bytes + cut->raw->spare_bytes;
}

static bool fails(struct cut_nand *cut, const char *what)
{
    cut->trouble = what;
    return false;
}

static bool read_raw(struct cut_nand *cut, uint32_t block, uint32_t page, uint8_t *raw)
{
    return cut->raw->read(cut->raw->context, block, page, raw) || fails(cut, "a raw read");
}

static bool is_erased(const uint8_t *bytes, size_t size)
{
    for (size_t i = 0; i < size; i++)
        if (bytes[i] != 0xff)
            return false;
    return true;
}

static bool write_raw(struct cut_nand *cut, uint32_t block, uint32_t page, const uint8_t *raw)
{
    return is_erased(raw, raw_bytes(cut)) || cut->raw->write(cut->raw->context, block, page, raw) || fails(cut, "a raw write");
}

/* ---- A page in part. */

/* The raw page that a program makes, which is programmed to a scratch page. */
static bool make_raw(struct cut_nand *cut, const uint8_t *data, const uint8_t *tag, uint8_t *raw)
{
    const struct flash_driver *below = cut->below;
    if (cut->scratch_page == 0 && below->erase(below->context, cut->scratch) != FLASH_DONE)
        return fails(cut, "an erase of the scratch block");
    if (below->program(below->context, cut->scratch, cut->scratch_page, data, tag) != FLASH_DONE)
        return fails(cut, "a program of the scratch block");
    uint32_t page = cut->scratch_page;
    cut->scratch_page = (page + 1) % below->block_pages;
    return read_raw(cut, cut->scratch, page, raw);
}

/* The place of a byte of the tag in a raw page. */
static size_t tag_place(const struct cut_nand *cut, uint32_t at)
{
    const struct page_run *run = cut->raw->runs;
    for (; at >= run->bytes; run++)
        at -= run->bytes;
    return (size_t)cut->below->page_bytes + run->offset + at;
}

/* Leaves a bit out that a program clears, if there is one. */
static void leave_bit(struct cut_nand *cut, uint8_t *raw, size_t from, size_t size)
{
    for (int tries = 0; tries < 10000; tries++) {
        uint32_t bit = random_below(cut, (uint32_t)size * 8);
        uint8_t mask = (uint8_t)(1u << bit % 8);
        if ((raw[from + bit / 8] & mask) == 0) {
            raw[from + bit / 8] |= mask;
            return;
        }
    }
}

static void leave_bit_of_tag(struct cut_nand *cut, uint8_t *raw)
{
    for (int tries = 0; tries < 10000; tries++) {
        size_t place = tag_place(cut, random_below(cut, cut->raw->tag_bytes));
        if (raw[place] != 0xff) {
            leave_bit(cut, raw, place, 1);
            return;
        }
    }
}

static void leave_tag(struct cut_nand *cut, uint8_t *raw, uint32_t from)
{
    for (uint32_t at = from; at < cut->raw->tag_bytes; at++)
        raw[tag_place(cut, at)] = 0xff;
}

/* Leaves all but the tag out. */
static void keep_tag(struct cut_nand *cut, uint8_t *raw)
{
    uint8_t tag[FLASH_TAG_BYTES] = {0};
    for (uint32_t at = 0; at < cut->raw->tag_bytes; at++)
        tag[at] = raw[tag_place(cut, at)];
    memset(raw, 0xff, raw_bytes(cut));
    for (uint32_t at = 0; at < cut->raw->tag_bytes; at++)
        raw[tag_place(cut, at)] = tag[at];
}

/* Takes from the raw page what is left out in a way. */
static void cut_page(struct cut_nand *cut, uint8_t *raw)
{
    size_t bytes = cut->below->page_bytes, all = raw_bytes(cut);
    switch (cut->way % CUT_NAND_WAYS) {
    case 0:
        memset(raw, 0xff, all);
        break;
    case 2:
        memset(raw + bytes / 2, 0xff, all - bytes / 2);
        break;
    case 3:
        memset(raw + bytes, 0xff, all - bytes);
        break;
    case 4:
        for (size_t i = 0; i < all; i++)
            raw[i] |= (uint8_t)random_below(cut, 256);
        break;
    case 5:
        for (size_t i = 0; i < all * 8 / 100; i++)
            leave_bit(cut, raw, 0, all);
        break;
    case 6:
        leave_bit(cut, raw, 0, bytes);
        break;
    case 7:
        for (int i = 0; i < 3; i++)
            leave_bit(cut, raw, 256, 256);
        break;
    case 8:
        memset(raw, 0xff, bytes);
        break;
    case 9:
        leave_tag(cut, raw, cut->raw->tag_bytes / 2);
        break;
    case 10:
        leave_bit_of_tag(cut, raw);
        break;
    case 11:
        keep_tag(cut, raw);
        break;
    }
}

static void program_in_part(struct cut_nand *cut, uint32_t block, uint32_t page, const uint8_t *data, const uint8_t *tag)
{
    if (!make_raw(cut, data, tag, cut->page_raw))
        return;
    cut_page(cut, cut->page_raw);
    write_raw(cut, block, page, cut->page_raw);
}

/* ---- A block in part. */

static bool read_block(struct cut_nand *cut, uint32_t block)
{
    for (uint32_t page = 0; page < cut->below->block_pages; page++)
        if (!read_raw(cut, block, page, cut->block_raw + raw_bytes(cut) * page))
            return false;
    return true;
}

static bool write_block(struct cut_nand *cut, uint32_t block)
{
    if (cut->below->erase(cut->below->context, block) != FLASH_DONE)
        return fails(cut, "an erase");
    for (uint32_t page = 0; page < cut->below->block_pages; page++)
        if (!write_raw(cut, block, page, cut->block_raw + raw_bytes(cut) * page))
            return false;
    return true;
}

/* Of the bits of a block none are erased, all, those of the first half of its pages, random ones, or few. */
static void erase_in_part(struct cut_nand *cut, uint32_t block)
{
    uint32_t pages = cut->below->block_pages, way = cut->way % CUT_NAND_WAYS;
    size_t all = raw_bytes(cut), bytes = all * pages;
    if (way == 0 || !read_block(cut, block))
        return;
    if (way == 1)
        memset(cut->block_raw, 0xff, bytes);
    else if (way == 2)
        memset(cut->block_raw, 0xff, bytes / 2);
    else
        for (size_t i = 0; i < bytes; i++)
            if (way < 6 || random_below(cut, way < 9 ? 100 : 2000) == 0)
                cut->block_raw[i] |= (uint8_t)random_below(cut, 256);
    write_block(cut, block);
}

/* A page whose bits are flipped cannot be programmed in its place: its block is erased, and what its pages held is written. */
bool cut_nand_flip(void *context, uint32_t block, uint32_t page, unsigned bits, unsigned seed)
{
    struct cut_nand *cut = context;
    uint32_t data_bits = cut->below->page_bytes * 8, mark_bits = MARK_BYTES * 8;
    if (!read_block(cut, block))
        return false;
    cut->random_state = seed;
    uint8_t *raw = cut->block_raw + raw_bytes(cut) * page;
    memset(cut->page_raw, 0, raw_bytes(cut)); /* the bits that were flipped */
    for (unsigned flipped = 0; flipped < bits && flipped < data_bits;) {
        uint32_t bit = random_below(cut, (uint32_t)raw_bytes(cut) * 8);
        uint8_t mask = (uint8_t)(1u << bit % 8);
        if ((bit >= data_bits && bit < data_bits + mark_bits) || (cut->page_raw[bit / 8] & mask) != 0)
            continue;
        cut->page_raw[bit / 8] |= mask;
        raw[bit / 8] ^= mask;
        flipped++;
    }
    return write_block(cut, block);
}

/* ---- The driver. */

static bool ends(struct cut_nand *cut, bool in_erase)
{
    cut->calls++;
    if (cut->calls == cut->cut_at) {
        cut->gone = true;
        cut->in_erase = in_erase;
    }
    return cut->gone;
}

static int is_bad(void *context, uint32_t block)
{
    struct cut_nand *cut = context;
    return cut->gone ? -1 : cut->below->is_bad(cut->below->context, block);
}

static int read_tag(void *context, uint32_t block, uint32_t page, uint8_t *tag)
{
    struct cut_nand *cut = context;
    return cut->gone ? -1 : cut->below->read_tag(cut->below->context, block, page, tag);
}

static int read_page(void *context, uint32_t block, uint32_t page, uint8_t *data, uint8_t *tag)
{
    struct cut_nand *cut = context;
    return cut->gone ? -1 : cut->below->read_page(cut->below->context, block, page, data, tag);
}

static int program(void *context, uint32_t block, uint32_t page, const uint8_t *data, const uint8_t *tag)
{
    struct cut_nand *cut = context;
    if (cut->gone)
        return -1;
    if (ends(cut, false)) {
        program_in_part(cut, block, page, data, tag);
        return -1;
    }
    cut->programs++;
    int result = cut->below->program(cut->below->context, block, page, data, tag);
    cut->failures += result == FLASH_FAILED;
    return result;
}

static int erase(void *context, uint32_t block)
{
    struct cut_nand *cut = context;
    if (cut->gone)
        return -1;
    if (ends(cut, true)) {
        erase_in_part(cut, block);
        return -1;
    }
    cut->erases++;
    int result = cut->below->erase(cut->below->context, block);
    cut->failures += result == FLASH_FAILED;
    return result;
}

static int mark_bad(void *context, uint32_t block)
{
    struct cut_nand *cut = context;
    if (cut->gone)
        return -1;
    cut->marks++;
    return cut->below->mark_bad(cut->below->context, block);
}

int cut_nand_make(struct cut_nand *cut, const struct flash_driver *below, const struct raw_flash *raw)
{
    *cut = (struct cut_nand){.driver = *below, .below = below, .raw = raw, .scratch = below->blocks - 1, .random_state = 1};
    cut->driver.context = cut;
    cut->driver.blocks = below->blocks - 1;
    cut->driver.is_bad = is_bad;
    cut->driver.read_tag = read_tag;
    cut->driver.read_page = read_page;
    cut->driver.program = program;
    cut->driver.erase = erase;
    cut->driver.mark_bad = mark_bad;
    cut->page_raw = malloc(raw_bytes(cut));
    cut->block_raw = malloc(raw_bytes(cut) * below->block_pages);
    if (cut->page_raw != NULL && cut->block_raw != NULL)
        return 0;
    cut_nand_free(cut);
    return FLASH_ENOMEM;
}

void cut_nand_free(struct cut_nand *cut)
{
    free(cut->page_raw);
    free(cut->block_raw);
    cut->page_raw = cut->block_raw = NULL;
}

void cut_nand_next(void *context, unsigned way)
{
    struct cut_nand *cut = context;
    cut->cut_at = cut->calls + 1;
    cut->way = way;
}

void cut_nand_power_up(void *context)
{
    struct cut_nand *cut = context;
    cut->gone = false;
    cut->calls = 0;
    cut->cut_at = 0;
}
