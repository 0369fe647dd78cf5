/* The image begins with a head of 32 bytes: NANDIMG1, the bytes of a page, the pages of a block and the blocks, each in four
 * bytes, the lowest first, and zeros. A byte for each block follows, 0 where it is good, and then the pages: the kind (0 erased,
 * 1 written, else lost), the tag, the data.
 */
#define _POSIX_C_SOURCE 200809L
#define _FILE_OFFSET_BITS 64

#include "file_nand.h"

#include <errno.h>
#include <fcntl.h>
#include <string.h>
#include <sys/stat.h>
#include <unistd.h>

enum { HEAD_BYTES = 32, KIND_BYTES = 1, ERASED = 0, WRITTEN = 1, LOST = 2 };

static const char magic[8] = {'N', 'A', 'N', 'D', 'I', 'M', 'G', '1'};

static off_t page_place(const struct flash_driver *driver, uint32_t block, uint32_t page)
{
    off_t index = (off_t)block * driver->block_pages + page;
    return HEAD_BYTES + (off_t)driver->blocks + index * (KIND_BYTES + FLASH_TAG_BYTES + (off_t)driver->page_bytes);
}

static bool read_at(const struct file_nand *nand, off_t place, void *buffer, size_t size)
{
    for (uint8_t *bytes = buffer; size > 0;) {
        ssize_t count = pread(nand->file, bytes, size, place);
        if (count == 0 || (count < 0 && errno != EINTR))
            return false;
        if (count > 0)
            bytes += count, size -= (size_t)count, place += count;
    }
    return true;
}

static bool write_at(const struct file_nand *nand, off_t place, const void *buffer, size_t size)
{
    for (const uint8_t *bytes = buffer; size > 0;) {
        ssize_t count = pwrite(nand->file, bytes, size, place);
        if (count == 0 || (count < 0 && errno != EINTR))
            return false;
        if (count > 0)
            bytes += count, size -= (size_t)count, place += count;
    }
    return true;
}

static bool is_kept(const struct file_nand *nand)
{
    return !nand->synchronous || fdatasync(nand->file) == 0;
}

static int is_bad(void *context, uint32_t block)
{
    uint8_t mark;
    return read_at(context, HEAD_BYTES + (off_t)block, &mark, 1) ? mark != 0 : -1;
}

/* Reads the kind and the tag of a page. */
static int read_tag(void *context, uint32_t block, uint32_t page, uint8_t *tag)
{
    const struct file_nand *nand = context;
    uint8_t front[KIND_BYTES + FLASH_TAG_BYTES];
    if (!read_at(nand, page_place(&nand->driver, block, page), front, sizeof front))
        return -1;
    if (front[0] == ERASED)
        return FLASH_ERASED;
    if (front[0] != WRITTEN)
        return FLASH_UNCORRECTABLE;
    memcpy(tag, front + KIND_BYTES, FLASH_TAG_BYTES);
    return FLASH_WRITTEN;
}

static int read_page(void *context, uint32_t block, uint32_t page, uint8_t *data, uint8_t *tag)
{
    const struct file_nand *nand = context;
    int kind = read_tag(context, block, page, tag);
    off_t place = page_place(&nand->driver, block, page) + KIND_BYTES + FLASH_TAG_BYTES;
    if (kind == FLASH_WRITTEN && !read_at(nand, place, data, nand->driver.page_bytes))
        return -1;
    return kind;
}

/* The kind is written last: a program that is cut before leaves the page erased. */
static int program(void *context, uint32_t block, uint32_t page, const uint8_t *data, const uint8_t *tag)
{
    const struct file_nand *nand = context;
    const uint8_t kind = WRITTEN;
    off_t place = page_place(&nand->driver, block, page);
    bool done = write_at(nand, place + KIND_BYTES + FLASH_TAG_BYTES, data, nand->driver.page_bytes) &&
                write_at(nand, place + KIND_BYTES, tag, FLASH_TAG_BYTES) && is_kept(nand) &&
                write_at(nand, place, &kind, KIND_BYTES) && is_kept(nand);
    return done ? FLASH_DONE : -1;
}

static int erase(void *context, uint32_t block)
{
    const struct file_nand *nand = context;
    const uint8_t kind = ERASED;
    for (uint32_t page = 0; page < nand->driver.block_pages; page++)
        if (!write_at(nand, page_place(&nand->driver, block, page), &kind, KIND_BYTES))
            return -1;
    return is_kept(nand) ? FLASH_DONE : -1;
}

static int mark_bad(void *context, uint32_t block)
{
    const struct file_nand *nand = context;
    const uint8_t mark = 1;
    return write_at(nand, HEAD_BYTES + (off_t)block, &mark, 1) && is_kept(nand) ? FLASH_DONE : -1;
}

int file_nand_lose(struct file_nand *nand, uint32_t block, uint32_t page)
{
    const uint8_t kind = LOST;
    return write_at(nand, page_place(&nand->driver, block, page), &kind, KIND_BYTES) && is_kept(nand) ? FLASH_DONE : -1;
}

static struct flash_driver driver_of(struct file_nand *nand, uint32_t page_bytes, uint32_t block_pages, uint32_t blocks)
{
    return (struct flash_driver){nand, page_bytes, block_pages, blocks, is_bad, read_tag, read_page, program, erase, mark_bad,
                                 FLASH_TAG_BYTES};
}

static bool is_size(uint32_t size, uint32_t least, uint32_t greatest)
{
    return size >= least && size <= greatest && (size & (size - 1)) == 0;
}

static bool are_sizes(uint32_t page_bytes, uint32_t block_pages, uint32_t blocks)
{
    return is_size(page_bytes, 512, 4096) && is_size(block_pages, 32, 256) && blocks >= 5 && blocks <= 4096;
}

static void put_number(uint8_t *bytes, uint32_t number)
{
    for (int i = 0; i < 4; i++)
        bytes[i] = (uint8_t)(number >> (8 * i));
}

static uint32_t number_at(const uint8_t *bytes)
{
    return (uint32_t)bytes[0] | (uint32_t)bytes[1] << 8 | (uint32_t)bytes[2] << 16 | (uint32_t)bytes[3] << 24;
}

int file_nand_make(struct file_nand *nand, const char *path, uint32_t page_bytes, uint32_t block_pages, uint32_t blocks)
{
    if (!are_sizes(page_bytes, block_pages, blocks))
        return FLASH_EINVAL;
    uint8_t head[HEAD_BYTES] = {0};
    memcpy(head, magic, sizeof magic);
    put_number(head + 8, page_bytes);
    put_number(head + 12, block_pages);
    put_number(head + 16, blocks);
    *nand = (struct file_nand){.driver = driver_of(nand, page_bytes, block_pages, blocks)};
    nand->file = open(path, O_RDWR | O_CREAT | O_TRUNC, 0666);
    if (nand->file < 0)
        return FLASH_EIO;
    /* What a file is grown by reads as zeros: good blocks and erased pages. */
    if (write_at(nand, 0, head, sizeof head) && ftruncate(nand->file, page_place(&nand->driver, blocks, 0)) == 0)
        return 0;
    file_nand_close(nand);
    return FLASH_EIO;
}

int file_nand_open(struct file_nand *nand, const char *path)
{
    uint8_t head[HEAD_BYTES] = {0};
    struct stat status;
    *nand = (struct file_nand){.file = open(path, O_RDWR)};
    if (nand->file < 0)
        return FLASH_ENOENT;
    int code = FLASH_EIO;
    if (fstat(nand->file, &status) == 0) {
        code = FLASH_EINVAL;
        uint32_t page_bytes = 0, block_pages = 0, blocks = 0;
        if (read_at(nand, 0, head, sizeof head)) {
            page_bytes = number_at(head + 8);
            block_pages = number_at(head + 12);
            blocks = number_at(head + 16);
        }
        nand->driver = driver_of(nand, page_bytes, block_pages, blocks);
        if (memcmp(head, magic, sizeof magic) == 0 && are_sizes(page_bytes, block_pages, blocks) &&
            status.st_size == page_place(&nand->driver, blocks, 0))
            return 0;
    }
    file_nand_close(nand);
    return code;
}

void file_nand_close(struct file_nand *nand)
{
    close(nand->file);
    nand->file = -1;
}
