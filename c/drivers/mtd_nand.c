/* The envelope of page_code.h lies in the bytes of the spare area that the kernel's layout leaves free (MTD_OPS_AUTO_OOB), and
 * is read and written together with the data, so that the kernel corrects errors of the data by the code of the device; none of
 * its software codes covers the free bytes. It needs MEMREAD: Linux 6.1 or later.
 */
#define _DEFAULT_SOURCE
#define _FILE_OFFSET_BITS 64

#include "mtd_nand.h"

#include <errno.h>
#include <fcntl.h>
#include <inttypes.h>
#include <mtd/mtd-user.h>
#include <stdio.h>
#include <string.h>
#include <sys/ioctl.h>
#include <sys/stat.h>
#include <sys/sysmacros.h>
#include <sys/types.h>
#include <unistd.h>

enum { LEAST_BLOCKS = 5, MOST_BLOCKS = 4096 };

static uint64_t block_bytes(const struct mtd_nand *nand)
{
    return (uint64_t)nand->driver.block_pages * nand->driver.page_bytes;
}

static uint64_t block_place(const struct mtd_nand *nand, uint32_t block)
{
    return nand->first_byte + block * block_bytes(nand);
}

static uint64_t page_place(const struct mtd_nand *nand, uint32_t block, uint32_t page)
{
    return block_place(nand, block) + (uint64_t)page * nand->driver.page_bytes;
}

/* A call of the kernel failed in a way that says nothing of the flash: nothing is read of it after that. */
static int lost(struct mtd_nand *nand)
{
    nand->error = errno;
    return -1;
}

/* The kernel reports a program or an erase that the chip failed as EIO. */
static int changed(struct mtd_nand *nand, int result)
{
    if (result == 0)
        return FLASH_DONE;
    return errno == EIO ? FLASH_FAILED : lost(nand);
}

static int is_bad(void *context, uint32_t block)
{
    struct mtd_nand *nand = context;
    loff_t place = (loff_t)block_place(nand, block);
    int result = ioctl(nand->device, MEMGETBADBLOCK, &place);
    return result < 0 ? lost(nand) : result > 0;
}

static int read_page(void *context, uint32_t block, uint32_t page, uint8_t *data, uint8_t *tag)
{
    struct mtd_nand *nand = context;
    uint8_t spare[PAGE_CODE_MOST_BYTES];
    uint32_t corrected;
    struct mtd_read_req request = {
        .start = page_place(nand, block, page),
        .len = nand->driver.page_bytes,
        .ooblen = nand->free_bytes.bytes,
        .usr_data = (uintptr_t)data,
        .usr_oob = (uintptr_t)spare,
        .mode = MTD_OPS_AUTO_OOB,
    };
    int result = ioctl(nand->device, MEMREAD, &request);
    if (result < 0 && errno == EBADMSG)
        return FLASH_UNCORRECTABLE;
    bool weak = result < 0 && errno == EUCLEAN; /* so many errors were corrected that the page is better moved */
    if (result < 0 && !weak)
        return lost(nand);
    if (request.ecc_stats.uncorrectable_errors > 0)
        return FLASH_UNCORRECTABLE;
    int kind = page_code_read(&nand->code, data, spare, tag, &corrected);
    nand->corrected_reads += corrected > 0 || request.ecc_stats.corrected_bitflips > 0;
    return weak && kind == FLASH_WRITTEN ? FLASH_WRITTEN_WEAK : kind;
}

/* The whole page is read: the kernel corrects no errors where only the spare area is, and a page whose data is not readable
 * is not one that was written.
 */
static int read_tag(void *context, uint32_t block, uint32_t page, uint8_t *tag)
{
    struct mtd_nand *nand = context;
    return read_page(context, block, page, nand->page, tag);
}

static int program(void *context, uint32_t block, uint32_t page, const uint8_t *data, const uint8_t *tag)
{
    struct mtd_nand *nand = context;
    uint8_t spare[PAGE_CODE_MOST_BYTES];
    struct mtd_write_req request = {
        .start = page_place(nand, block, page),
        .len = nand->driver.page_bytes,
        .ooblen = nand->free_bytes.bytes,
        .usr_data = (uintptr_t)data,
        .usr_oob = (uintptr_t)spare,
        .mode = MTD_OPS_AUTO_OOB,
    };
    page_code_write(&nand->code, data, tag, spare);
    return changed(nand, ioctl(nand->device, MEMWRITE, &request));
}

static int erase(void *context, uint32_t block)
{
    struct mtd_nand *nand = context;
    struct erase_info_user64 request = {.start = block_place(nand, block), .length = block_bytes(nand)};
    return changed(nand, ioctl(nand->device, MEMERASE64, &request));
}

/* The kernel keeps a mark in its table also where the marker in the block's spare area cannot be written, and then reports EIO:
 * the page that is to hold it may be the one that failed. So the block is read.
 */
static int mark_bad(void *context, uint32_t block)
{
    struct mtd_nand *nand = context;
    loff_t place = (loff_t)block_place(nand, block);
    if (ioctl(nand->device, MEMSETBADBLOCK, &place) >= 0)
        return FLASH_DONE;
    if (errno != EIO)
        return lost(nand);
    if (is_bad(nand, block) == 1)
        return FLASH_DONE;
    nand->error = EIO;
    return -1;
}

/* A number that the kernel reports of the device in /sys; false where it does not. */
static bool number_of(int device, const char *name, uint64_t *number)
{
    struct stat status;
    char path[64];
    if (fstat(device, &status) < 0)
        return false;
    snprintf(path, sizeof path, "/sys/dev/char/%u:%u/%s", major(status.st_rdev), minor(status.st_rdev), name);
    FILE *file = fopen(path, "r");
    if (file == NULL)
        return false;
    bool is_there = fscanf(file, "%" SCNu64, number) == 1;
    fclose(file);
    return is_there;
}

static bool is_size(uint32_t size, uint32_t least, uint32_t greatest)
{
    return size >= least && size <= greatest && (size & (size - 1)) == 0;
}

static int look_at_chip(const struct mtd_info_user *info)
{
    if (info->type != MTD_NANDFLASH && info->type != MTD_MLCNANDFLASH)
        return MTD_NAND_NO_NAND;
    if (info->type == MTD_MLCNANDFLASH && (info->flags & MTD_SLC_ON_MLC_EMULATION) == 0)
        return MTD_NAND_SEVERAL_BITS;
    if (!is_size(info->writesize, 512, MTD_NAND_MOST_PAGE_BYTES) || info->erasesize % info->writesize != 0 ||
        !is_size(info->erasesize / info->writesize, 32, 256))
        return MTD_NAND_SIZES;
    return 0;
}

/* Lays the envelope out. The data of an erased page with flipped bits comes corrected from the kernel, as other data. */
static int lay_out(struct mtd_nand *nand, uint32_t tag_bytes)
{
    uint64_t available;
    if (!number_of(nand->device, "oobavail", &available))
        return MTD_NAND_NO_SYSFS;
    nand->free_bytes = (struct page_run){0, available < PAGE_CODE_MOST_BYTES ? (uint32_t)available : PAGE_CODE_MOST_BYTES};
    if (!page_code_make(&nand->code, nand->driver.page_bytes, tag_bytes, &nand->free_bytes, 1, PAGE_CODE_MOST_BYTES))
        return MTD_NAND_FEW_SPARE;
    nand->free_bytes.bytes = page_code_bytes(&nand->code);
    return 0;
}

/* Fills the sizes of an open device, and tries a read. The size in mtd_info_user has 32 bits. */
static int look_at_device(struct mtd_nand *nand, uint32_t first, uint32_t blocks, uint32_t tag_bytes)
{
    struct mtd_info_user info;
    uint64_t size;
    uint8_t tag[FLASH_TAG_BYTES];
    if (ioctl(nand->device, MEMGETINFO, &info) < 0)
        return MTD_NAND_NO_NAND;
    int code = look_at_chip(&info);
    if (code < 0)
        return code;
    if (!number_of(nand->device, "size", &size))
        return MTD_NAND_NO_SYSFS;
    uint64_t all = size / info.erasesize, used = blocks != 0 ? blocks : first < all ? all - first : 0;
    if (first > all || used > all - first || used < LEAST_BLOCKS || used > MOST_BLOCKS)
        return MTD_NAND_BLOCKS;
    nand->first_byte = (uint64_t)first * info.erasesize;
    nand->driver = (struct flash_driver){
        nand,  info.writesize, info.erasesize / info.writesize, (uint32_t)used, is_bad, read_tag, read_page, program,
        erase, mark_bad, tag_bytes};
    code = lay_out(nand, tag_bytes);
    if (code < 0)
        return code;
    return read_page(nand, 0, 0, nand->page, tag) < 0 ? MTD_NAND_NO_READ : 0;
}

int mtd_nand_open_for(struct mtd_nand *nand, const char *path, uint32_t first, uint32_t blocks, uint32_t tag_bytes)
{
    *nand = (struct mtd_nand){.device = open(path, O_RDWR)};
    if (nand->device < 0)
        return FLASH_ENOENT;
    int code = look_at_device(nand, first, blocks, tag_bytes);
    if (code < 0)
        mtd_nand_close(nand);
    return code;
}

int mtd_nand_open(struct mtd_nand *nand, const char *path, uint32_t first, uint32_t blocks)
{
    int code = mtd_nand_open_for(nand, path, first, blocks, FLASH_TAG_BYTES);
    return code == MTD_NAND_FEW_SPARE ? mtd_nand_open_for(nand, path, first, blocks, FLASH_PACKED_TAG_BYTES) : code;
}

const char *mtd_nand_reason(int code)
{
    switch (code) {
    case FLASH_ENOENT:
        return "it cannot be opened";
    case MTD_NAND_NO_NAND:
        return "no NAND flash";
    case MTD_NAND_SEVERAL_BITS:
        return "its cells hold several bits, and it is not used in SLC mode";
    case MTD_NAND_SIZES:
        return "its pages or blocks have sizes that a volume cannot have";
    case MTD_NAND_NO_SYSFS:
        return "the kernel does not report its size and its free spare bytes in /sys";
    case MTD_NAND_FEW_SPARE:
        return "its pages have too few free spare bytes: 54, or 30 for tags of 24 bytes";
    case MTD_NAND_BLOCKS:
        return "these blocks are not all there, or fewer than 5 or more than 4096";
    case MTD_NAND_NO_READ:
        return "a page cannot be read with its spare area: Linux 6.1 or later can";
    }
    return "no error";
}

void mtd_nand_close(struct mtd_nand *nand)
{
    close(nand->device);
    nand->device = -1;
}
