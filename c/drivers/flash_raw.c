/* flash-raw: image files to the raw pages of a chip, each with its spare area, and back (README.md in this folder).
 *
 *   flash-raw to-pages --spare BYTES --free OFFSET+BYTES,.. [--tag 24] [--skip-erased] IMAGE PAGES
 *   flash-raw to-image --spare BYTES --free OFFSET+BYTES,.. [--tag 24] --page BYTES --block PAGES [--blocks COUNT] PAGES IMAGE
 *   flash-raw layout DEVICE     prints the words for both, but --blocks
 */
#define _POSIX_C_SOURCE 200809L
#define _FILE_OFFSET_BITS 64

#include "file_nand.h"
#include "packed_tag.h"
#include "page_code.h"
#ifdef FLASH_RAW_MTD
#include "mtd_raw.h"
#endif

#include <errno.h>
#include <stdio.h>
#include <stdlib.h>
#include <string.h>
#include <unistd.h>

enum { MOST_PAGE_BYTES = 4096, MOST_SPARE_BYTES = 1024, MOST_RUNS = 16, MOST_BLOCK_PAGES = 256 };

static struct {
    struct page_run runs[MOST_RUNS];
    uint32_t run_count, spare_bytes, tag_bytes, page_bytes, block_pages, blocks;
    bool skips_erased;
    const char *from, *to;
} words = {.tag_bytes = FLASH_TAG_BYTES};

static struct file_nand image;
static struct page_code code;
static uint8_t raw[MOST_BLOCK_PAGES][MOST_PAGE_BYTES + MOST_SPARE_BYTES];

static int usage(void)
{
    fputs("flash-raw to-pages --spare BYTES --free OFFSET+BYTES,.. [--tag 24] [--skip-erased] IMAGE PAGES\n"
          "flash-raw to-image --spare BYTES --free OFFSET+BYTES,.. [--tag 24] --page BYTES --block PAGES [--blocks COUNT] PAGES IMAGE\n"
          "flash-raw layout DEVICE\n",
          stderr);
    return 2;
}

static int failed(const char *name, const char *why)
{
    fprintf(stderr, "flash-raw: %s: %s\n", name, why);
    return 1;
}

/* ---- Pages. */

static bool is_packed(void)
{
    return words.tag_bytes == FLASH_PACKED_TAG_BYTES;
}

/* A page as it lies on the flash. One that the image holds as lost is of zeros, which no read takes for a page; so is one whose tag
 * cannot be packed.
 */
static int lay_page(uint32_t block, uint32_t page, uint8_t *to)
{
    uint8_t tag[FLASH_TAG_BYTES], packed[FLASH_PACKED_TAG_BYTES], *spare = to + code.page_bytes;
    memset(to, 0xff, code.page_bytes + words.spare_bytes);
    int kind = image.driver.read_page(&image, block, page, to, tag);
    if (kind == FLASH_WRITTEN && is_packed() && !packed_tag_pack(tag, packed))
        kind = FLASH_UNCORRECTABLE;
    if (kind == FLASH_WRITTEN)
        page_code_write(&code, to, is_packed() ? packed : tag, spare);
    else if (kind == FLASH_UNCORRECTABLE)
        for (uint32_t i = 0; i < words.run_count; i++)
            memset(spare + words.runs[i].offset, 0, words.runs[i].bytes);
    if (kind == FLASH_UNCORRECTABLE)
        memset(to, 0, code.page_bytes);
    return kind;
}

/* Whether a block holds a checkpoint: the list, by their places, of the pages that are in use, which a mount goes by if it is
 * there. Its first page is chunk 1 of object 2^64 - 1. Of the same object are the summaries of blocks, from chunk 2^31 on: a
 * mount passes over one whose block lies elsewhere.
 */
static bool has_checkpoint(uint32_t block)
{
    uint8_t tag[FLASH_TAG_BYTES], object = 0xff;
    if (image.driver.read_tag(&image, block, 0, tag) != FLASH_WRITTEN)
        return false;
    for (int i = 8; i < 16; i++)
        object &= tag[i];
    return object == 0xff && tag[16] == 1;
}

/* Lays a block out, and whether it is to be written: with --skip-erased only if a page of it is programmed. What follows then lies
 * in other blocks, so that a checkpoint would name other pages: it is left out too, and a mount looks at all tags. A block that is
 * marked bad is erased but for the mark, the first byte of the spare area.
 */
static int lay_block(uint32_t block, bool *is_written)
{
    int bad = image.driver.is_bad(&image, block);
    if (bad < 0)
        return -1;
    *is_written = !words.skips_erased;
    if (words.skips_erased && has_checkpoint(block))
        return 0;
    for (uint32_t page = 0; page < image.driver.block_pages; page++) {
        int kind = bad == 0 ? lay_page(block, page, raw[page]) : FLASH_ERASED;
        if (kind < 0)
            return -1;
        if (bad == 1)
            memset(raw[page], 0xff, code.page_bytes + words.spare_bytes);
        *is_written = *is_written || kind != FLASH_ERASED;
    }
    if (bad == 1)
        raw[0][code.page_bytes] = 0;
    return 0;
}

static int write_pages(FILE *file)
{
    uint32_t written = 0;
    bool is_written;
    for (uint32_t block = 0; block < image.driver.blocks; block++) {
        if (lay_block(block, &is_written) < 0)
            return failed(words.from, "it cannot be read");
        for (uint32_t page = 0; is_written && page < image.driver.block_pages; page++)
            if (fwrite(raw[page], code.page_bytes + words.spare_bytes, 1, file) != 1)
                return failed(words.to, strerror(errno));
        written += is_written;
    }
    fprintf(stderr, "flash-raw: %u of %u blocks, pages of %u + %u bytes\n", written, image.driver.blocks, code.page_bytes,
            words.spare_bytes);
    return 0;
}

static int make_code(uint32_t page_bytes)
{
    if (page_code_make(&code, page_bytes, words.tag_bytes, words.runs, words.run_count, words.spare_bytes))
        return 0;
    return failed("--free", "the bytes leave the spare area, are there twice, or are fewer than 54, or than 30 with --tag 24");
}

static int to_pages(void)
{
    int status = file_nand_open(&image, words.from) < 0 ? failed(words.from, "it is no image") : 0;
    if (status != 0)
        return status;
    FILE *file = NULL;
    status = make_code(image.driver.page_bytes);
    if ((words.page_bytes != 0 && words.page_bytes != image.driver.page_bytes) ||
        (words.block_pages != 0 && words.block_pages != image.driver.block_pages))
        status = failed(words.from, "the image has pages or blocks of other sizes");
    if (status == 0 && (file = fopen(words.to, "wb")) == NULL)
        status = failed(words.to, strerror(errno));
    if (status == 0)
        status = write_pages(file);
    if (file != NULL && fclose(file) != 0 && status == 0)
        status = failed(words.to, strerror(errno));
    file_nand_close(&image);
    return status;
}

/* ---- Back. */

/* What the image is to hold of a page: one that is uncorrectable is lost there too. */
static bool take_page(uint32_t block, uint32_t page, uint32_t *kinds)
{
    uint8_t tag[FLASH_TAG_BYTES], packed[FLASH_PACKED_TAG_BYTES];
    const uint8_t *data = raw[page];
    int kind = page_code_read(&code, data, data + code.page_bytes, is_packed() ? packed : tag, NULL);
    kinds[kind]++;
    if (kind == FLASH_WRITTEN && is_packed())
        packed_tag_unpack(packed, tag);
    if (kind == FLASH_WRITTEN)
        return image.driver.program(&image, block, page, data, tag) == FLASH_DONE;
    return kind == FLASH_ERASED || file_nand_lose(&image, block, page) == FLASH_DONE;
}

/* A block is marked where the first byte of the spare area of its first or its second page is not 0xff. */
static bool take_block(uint32_t block, uint32_t *kinds)
{
    if (raw[0][code.page_bytes] != 0xff || raw[1][code.page_bytes] != 0xff)
        return image.driver.mark_bad(&image, block) == FLASH_DONE;
    for (uint32_t page = 0; page < words.block_pages; page++)
        if (!take_page(block, page, kinds))
            return false;
    return true;
}

static int read_pages(FILE *file, uint32_t blocks)
{
    uint32_t kinds[3] = {0}, marked = 0;
    for (uint32_t block = 0; block < blocks; block++) {
        for (uint32_t page = 0; page < words.block_pages; page++)
            if (fread(raw[page], code.page_bytes + words.spare_bytes, 1, file) != 1)
                return failed(words.from, "it cannot be read");
        if (!take_block(block, kinds))
            return failed(words.to, "it cannot be written");
        marked += image.driver.is_bad(&image, block) == 1;
    }
    fprintf(stderr, "flash-raw: %u blocks, %u of them bad; %u pages written, %u erased, %u uncorrectable\n", image.driver.blocks,
            marked, kinds[FLASH_WRITTEN], kinds[FLASH_ERASED], kinds[FLASH_UNCORRECTABLE]);
    return 0;
}

/* How many blocks a file of pages has; 0 where its size is that of none. */
static uint32_t blocks_of(FILE *file)
{
    off_t block_bytes = (off_t)words.block_pages * (words.page_bytes + words.spare_bytes);
    if (fseeko(file, 0, SEEK_END) != 0)
        return 0;
    off_t bytes = ftello(file);
    rewind(file);
    return bytes > 0 && bytes % block_bytes == 0 && bytes / block_bytes <= UINT32_MAX ? (uint32_t)(bytes / block_bytes) : 0;
}

static int to_image(void)
{
    FILE *file = fopen(words.from, "rb");
    if (file == NULL)
        return failed(words.from, strerror(errno));
    uint32_t there = blocks_of(file), blocks = words.blocks != 0 ? words.blocks : there;
    int status = make_code(words.page_bytes);
    if (status == 0 && (there == 0 || there > blocks))
        status = failed(words.from, "its size is not that of so many blocks");
    if (status == 0) {
        int made = file_nand_make(&image, words.to, words.page_bytes, words.block_pages, blocks);
        if (made < 0)
            status = failed(words.to, made == FLASH_EINVAL ? "no image has these sizes" : strerror(errno));
        if (made == 0) {
            status = read_pages(file, there);
            file_nand_close(&image);
        }
    }
    fclose(file);
    return status;
}

/* ---- The layout of a device of Linux, as words for the other two. */

#ifdef FLASH_RAW_MTD
static int layout(const char *path)
{
    static struct mtd_nand nand;
    static struct mtd_raw mtd;
    int code_of_open = mtd_nand_open(&nand, path, 0, 0);
    if (code_of_open < 0)
        return failed(path, mtd_nand_reason(code_of_open));
    bool is_there = mtd_raw_over(&mtd, &nand);
    if (is_there)
        printf("--spare %u --free ", mtd.flash.spare_bytes);
    for (uint32_t i = 0; is_there && i < mtd.flash.run_count; i++)
        printf("%s%u+%u", i == 0 ? "" : ",", mtd.runs[i].offset, mtd.runs[i].bytes);
    if (is_there && nand.driver.tag_bytes == FLASH_PACKED_TAG_BYTES)
        printf(" --tag %u", FLASH_PACKED_TAG_BYTES);
    if (is_there)
        printf(" --page %u --block %u\n", nand.driver.page_bytes, nand.driver.block_pages);
    mtd_nand_close(&nand);
    return is_there ? 0 : failed(path, "the kernel does not report where its free spare bytes are");
}
#else
static int layout(const char *path)
{
    return failed(path, "this program was made without the devices of Linux");
}
#endif

/* ---- Words. */

static bool number_of(const char *word, uint32_t *number)
{
    char *end;
    unsigned long value = strtoul(word, &end, 10);
    *number = (uint32_t)value;
    return *word >= '0' && *word <= '9' && *end == 0 && value <= 1000000;
}

/* OFFSET+BYTES, and more after commas. The first byte of a spare area is the mark of a bad block. */
static bool runs_of(const char *word)
{
    while (words.run_count < MOST_RUNS) {
        char *end;
        struct page_run *run = &words.runs[words.run_count++];
        unsigned long offset = strtoul(word, &end, 10);
        if (end == word || *end != '+' || offset == 0 || offset >= MOST_SPARE_BYTES)
            return false;
        word = end + 1;
        unsigned long bytes = strtoul(word, &end, 10);
        if (end == word || bytes == 0 || bytes > MOST_SPARE_BYTES)
            return false;
        *run = (struct page_run){(uint32_t)offset, (uint32_t)bytes};
        if (*end == 0)
            return true;
        if (*end != ',')
            return false;
        word = end + 1;
    }
    return false;
}

static bool is_option(char **at, const char *name)
{
    return strcmp(at[0], name) == 0 && at[1] != NULL;
}

static bool take_words(char **at)
{
    for (; *at != NULL && strncmp(*at, "--", 2) == 0; at++) {
        if (strcmp(*at, "--skip-erased") == 0)
            words.skips_erased = true;
        else if ((is_option(at, "--spare") && number_of(at[1], &words.spare_bytes)) ||
                 (is_option(at, "--tag") && number_of(at[1], &words.tag_bytes)) ||
                 (is_option(at, "--page") && number_of(at[1], &words.page_bytes)) ||
                 (is_option(at, "--block") && number_of(at[1], &words.block_pages)) ||
                 (is_option(at, "--blocks") && number_of(at[1], &words.blocks)) || (is_option(at, "--free") && runs_of(at[1])))
            at++;
        else
            return false;
    }
    words.from = at[0];
    words.to = words.from != NULL ? at[1] : NULL;
    return words.to != NULL && at[2] == NULL && words.run_count > 0 && words.spare_bytes <= MOST_SPARE_BYTES;
}

int main(int count, char **all)
{
    if (count == 3 && strcmp(all[1], "layout") == 0)
        return layout(all[2]);
    if (count < 3 || !take_words(all + 2))
        return usage();
    bool has_sizes = words.page_bytes > 0 && words.page_bytes <= MOST_PAGE_BYTES && words.block_pages > 1 &&
                     words.block_pages <= MOST_BLOCK_PAGES;
    if (strcmp(all[1], "to-pages") == 0)
        return to_pages();
    if (strcmp(all[1], "to-image") == 0 && has_sizes)
        return to_image();
    return usage();
}
