/* The driver of Linux's devices over a kernel that is played here: its devices of many kinds, its answers, its marks. The
 * driver's source is compiled into this file, with the calls of the system in the place of which these functions stand.
 */
#define _DEFAULT_SOURCE
#define _FILE_OFFSET_BITS 64

#include "commands.h"
#include "driver_check.h"
#include "mtd_nand.h"

#include <errno.h>
#include <fcntl.h>
#include <inttypes.h>
#include <mtd/mtd-user.h>
#include <stdarg.h>
#include <stdio.h>
#include <stdlib.h>
#include <string.h>
#include <sys/ioctl.h>
#include <sys/stat.h>
#include <sys/sysmacros.h>
#include <sys/types.h>
#include <unistd.h>

enum { DEVICE = 77, SPARE = 256, KEPT_BLOCKS = 16 };

/* A device. What is held are KEPT_BLOCKS blocks from `first` on, each page with the free bytes of its spare area behind its
 * data. */
static struct {
    int type;
    uint32_t flags, page_bytes, block_pages, first;
    uint64_t blocks;
    int oobavail; /* negative: not in /sys */
    bool no_size; /* `size` is not in /sys */
    bool no_read; /* the kernel has no MEMREAD */
    bool is_open;
    int next_read;           /* the errno of the next read; 0: none */
    int uncorrectable;       /* that the next read reports */
    int next_change;         /* the errno of the next program or erase */
    int next_mark;           /* that of the next mark */
    bool marks_all_the_same; /* that mark is there */
    uint8_t bad[KEPT_BLOCKS], *pages;
} kernel;

static uint32_t kept_bytes(void)
{
    return kernel.page_bytes + SPARE;
}

/* The page at a place of the device, which must be one of those that are held. */
static uint8_t *page_at(uint64_t place)
{
    uint64_t page = place / kernel.page_bytes - (uint64_t)kernel.first * kernel.block_pages;
    check(place % kernel.page_bytes == 0 && page < (uint64_t)KEPT_BLOCKS * kernel.block_pages, "a call for byte %" PRIu64, place);
    return kernel.pages + page * kept_bytes();
}

static int fails(int number)
{
    errno = number;
    return number == 0 ? 0 : -1;
}

static int fails_once(int *number)
{
    int now = *number;
    *number = 0;
    return fails(now);
}

static int info(struct mtd_info_user *to)
{
    *to = (struct mtd_info_user){.type = (uint8_t)kernel.type,
                                 .flags = kernel.flags,
                                 .size = (uint32_t)(kernel.blocks * kernel.block_pages * kernel.page_bytes),
                                 .erasesize = kernel.block_pages * kernel.page_bytes,
                                 .writesize = kernel.page_bytes,
                                 .oobsize = SPARE};
    return 0;
}

static int read_of(struct mtd_read_req *request)
{
    check(request->mode == MTD_OPS_AUTO_OOB && request->len == kernel.page_bytes, "a read of another kind");
    check(request->ooblen <= (uint64_t)kernel.oobavail, "more spare bytes are read than are free");
    if (kernel.no_read)
        return fails(ENOTTY);
    const uint8_t *page = page_at(request->start);
    memcpy((void *)(uintptr_t)request->usr_data, page, kernel.page_bytes);
    memcpy((void *)(uintptr_t)request->usr_oob, page + kernel.page_bytes, request->ooblen);
    request->ecc_stats.uncorrectable_errors = (uint32_t)kernel.uncorrectable;
    request->ecc_stats.corrected_bitflips = kernel.next_read == EUCLEAN ? 3 : 0;
    kernel.uncorrectable = 0;
    return fails_once(&kernel.next_read);
}

static int write_of(const struct mtd_write_req *request)
{
    check(request->mode == MTD_OPS_AUTO_OOB && request->len == kernel.page_bytes, "a write of another kind");
    check(request->ooblen <= (uint64_t)kernel.oobavail, "more spare bytes are written than are free");
    uint8_t *page = page_at(request->start);
    const uint8_t *data = (const uint8_t *)(uintptr_t)request->usr_data, *free_bytes = (const uint8_t *)(uintptr_t)request->usr_oob;
    for (uint32_t i = 0; i < kernel.page_bytes; i++)
        page[i] &= data[i];
    for (uint32_t i = 0; i < request->ooblen; i++)
        page[kernel.page_bytes + i] &= free_bytes[i];
    return fails_once(&kernel.next_change);
}

static int erase_of(const struct erase_info_user64 *request)
{
    uint32_t bytes = kernel.block_pages * kernel.page_bytes;
    check(request->length == bytes && request->start % bytes == 0, "an erase of no block");
    memset(page_at(request->start), 0xff, (size_t)kernel.block_pages * kept_bytes());
    return fails_once(&kernel.next_change);
}

static uint8_t *mark_at(const loff_t *place)
{
    (void)page_at((uint64_t)*place);
    return &kernel.bad[(uint64_t)*place / kernel.page_bytes / kernel.block_pages - kernel.first];
}

static int mark_of(const loff_t *place)
{
    int failed = kernel.next_mark;
    if (failed == 0 || kernel.marks_all_the_same)
        *mark_at(place) = 1;
    return fails_once(&kernel.next_mark);
}

static int played_ioctl(int device, unsigned long request, ...)
{
    va_list list;
    va_start(list, request);
    void *argument = va_arg(list, void *);
    va_end(list);
    check(device == DEVICE && kernel.is_open, "a call of a device that is not open");
    switch (request) {
    case MEMGETINFO:
        return info(argument);
    case MEMREAD:
        return read_of(argument);
    case MEMWRITE:
        return write_of(argument);
    case MEMERASE64:
        return erase_of(argument);
    case MEMGETBADBLOCK:
        return *mark_at(argument);
    case MEMSETBADBLOCK:
        return mark_of(argument);
    }
    return fails(ENOTTY);
}

static int played_open(const char *path)
{
    if (strcmp(path, "/dev/mtd0") != 0)
        return fails(ENOENT);
    kernel.is_open = true;
    return DEVICE;
}

static int played_close(int device)
{
    check(device == DEVICE && kernel.is_open, "a close of a device that is not open");
    kernel.is_open = false;
    return 0;
}

static int played_fstat(int device, struct stat *status)
{
    check(device == DEVICE, "a status of another device");
    status->st_rdev = makedev(90, 0);
    return 0;
}

static FILE *played_fopen(const char *path)
{
    char text[32] = "";
    if (strcmp(path, "/sys/dev/char/90:0/oobavail") == 0 && kernel.oobavail >= 0)
        snprintf(text, sizeof text, "%d\n", kernel.oobavail);
    if (strcmp(path, "/sys/dev/char/90:0/size") == 0 && !kernel.no_size)
        snprintf(text, sizeof text, "%" PRIu64 "\n", kernel.blocks * kernel.block_pages * kernel.page_bytes);
    FILE *file = text[0] == 0 ? NULL : tmpfile();
    if (file != NULL) {
        fputs(text, file);
        rewind(file);
    }
    return file;
}

#define ioctl played_ioctl
#define open(path, flags) played_open(path)
#define close played_close
#define fstat played_fstat
#define fopen(path, mode) played_fopen(path)
#undef _DEFAULT_SOURCE
#include "../drivers/mtd_nand.c"

static struct mtd_nand nand;
static uint8_t data[4096], data_there[4096], tag[FLASH_TAG_BYTES], tag_there[FLASH_TAG_BYTES];

/* A device of erased pages, of a type that is taken. */
static void plug_in(uint32_t page_bytes, int oobavail)
{
    free(kernel.pages);
    memset(&kernel, 0, sizeof kernel);
    kernel.type = MTD_NANDFLASH;
    kernel.page_bytes = page_bytes;
    kernel.block_pages = 32;
    kernel.blocks = KEPT_BLOCKS;
    kernel.oobavail = oobavail;
    size_t bytes = (size_t)KEPT_BLOCKS * kernel.block_pages * kept_bytes();
    kernel.pages = malloc(bytes);
    check(kernel.pages != NULL, "memory");
    memset(kernel.pages, 0xff, bytes);
}

static int opens(uint32_t first, uint32_t blocks, uint32_t tag_bytes)
{
    int code = mtd_nand_open_for(&nand, "/dev/mtd0", first, blocks, tag_bytes);
    if (code < 0)
        check(!kernel.is_open, "a device that is refused stays open");
    else
        mtd_nand_close(&nand);
    return code;
}

static void show(void *context, const char *line)
{
    (void)context;
    printf("    %s\n", line);
}

static void passes_the_check(uint32_t page_bytes, int oobavail, uint32_t tag_bytes)
{
    plug_in(page_bytes, oobavail);
    kernel.bad[4] = 1;
    check(mtd_nand_open_for(&nand, "/dev/mtd0", 0, 0, tag_bytes) == 0, "%u + %d is refused", page_bytes, oobavail);
    struct driver_check what = {.driver = &nand.driver, .may_mark = true, .report = show};
    check(driver_check(&what) == 0 && nand.error == 0, "the driver falls short, %u + %d", page_bytes, oobavail);
    mtd_nand_close(&nand);
}

/* Each reason of a refusal has its code. */
static void refusals(void)
{
    plug_in(2048, 54);
    check(opens(0, 0, 48) == 0 && opens(3, 5, 48) == 0, "a device that is to be taken");
    check(mtd_nand_open(&nand, "/dev/mtd1", 0, 0) == FLASH_ENOENT, "a device that is not there");
    check(opens(12, 0, 48) == MTD_NAND_BLOCKS && opens(0, 4, 48) == MTD_NAND_BLOCKS, "four blocks");
    check(opens(0, 17, 48) == MTD_NAND_BLOCKS && opens(17, 0, 48) == MTD_NAND_BLOCKS, "blocks that are not there");
    kernel.oobavail = 53;
    check(opens(0, 0, 48) == MTD_NAND_FEW_SPARE && opens(0, 0, 24) == 0, "53 free bytes");
    check(mtd_nand_open(&nand, "/dev/mtd0", 0, 0) == 0 && nand.driver.tag_bytes == 24, "53 free bytes, and no number given");
    mtd_nand_close(&nand);
    kernel.oobavail = 29;
    check(opens(0, 0, 24) == MTD_NAND_FEW_SPARE, "29 free bytes");
    kernel.oobavail = -1;
    check(opens(0, 0, 48) == MTD_NAND_NO_SYSFS, "no oobavail");
    plug_in(2048, 54);
    kernel.no_size = true;
    check(opens(0, 0, 48) == MTD_NAND_NO_SYSFS, "no size");
    kernel.no_size = false;
    kernel.no_read = true;
    check(opens(0, 0, 48) == MTD_NAND_NO_READ && nand.error == ENOTTY, "a kernel without MEMREAD");
    kernel.no_read = false;
    kernel.next_read = EINVAL;
    check(opens(0, 0, 48) == MTD_NAND_NO_READ && nand.error == EINVAL, "a device that does not read");
    kernel.type = MTD_NORFLASH;
    check(opens(0, 0, 48) == MTD_NAND_NO_NAND, "a NOR flash");
    kernel.type = MTD_MLCNANDFLASH;
    check(opens(0, 0, 48) == MTD_NAND_SEVERAL_BITS, "several bits in a cell");
    kernel.flags = MTD_SLC_ON_MLC_EMULATION;
    check(opens(0, 0, 48) == 0, "several bits in a cell, of which one is used");
    plug_in(256, 54);
    check(opens(0, 0, 48) == MTD_NAND_SIZES, "pages of 256 bytes");
    plug_in(8192, 54);
    check(opens(0, 0, 48) == MTD_NAND_SIZES, "pages of 8192 bytes");
    plug_in(2048, 54);
    kernel.block_pages = 16;
    check(opens(0, 0, 48) == MTD_NAND_SIZES, "blocks of 16 pages");
    for (int code = MTD_NAND_NO_READ; code <= MTD_NAND_NO_NAND; code++)
        check(strcmp(mtd_nand_reason(code), mtd_nand_reason(0)) != 0, "code %d has no words", code);
}

static void program_a_page(void)
{
    for (size_t i = 0; i < sizeof data; i++)
        data[i] = (uint8_t)(i * 31 + i / 509);
    memcpy(tag, data + 7, sizeof tag);
    check(nand.driver.erase(&nand, 1) == FLASH_DONE && nand.driver.program(&nand, 1, 0, data, tag) == FLASH_DONE, "a page");
}

/* What both reads return of page 0 of block 1, which must be the same. */
static int reads(void)
{
    int kind = nand.driver.read_page(&nand, 1, 0, data_there, tag_there);
    check(nand.driver.read_tag(&nand, 1, 0, tag_there) == kind, "read_tag differs");
    bool same = memcmp(data, data_there, kernel.page_bytes) == 0 && memcmp(tag, tag_there, nand.code.tag_bytes) == 0;
    check(kind != FLASH_WRITTEN || same, "other bytes are read as written");
    return kind;
}

/* From 4 GiB on the size in mtd_info_user is too small, and places have more than 32 bits. */
static void large_devices(void)
{
    plug_in(4096, 78);
    kernel.block_pages = 64;
    free(kernel.pages);
    kernel.pages = malloc((size_t)KEPT_BLOCKS * kernel.block_pages * kept_bytes());
    kernel.blocks = 32768; /* 8 GiB */
    kernel.first = 32752;
    check(opens(0, 0, 48) == MTD_NAND_BLOCKS, "more than 4,096 blocks");
    check(mtd_nand_open(&nand, "/dev/mtd0", 32752, 0) == 0 && nand.driver.blocks == 16, "the last 16 blocks of 8 GiB");
    program_a_page();
    check(reads() == FLASH_WRITTEN, "a page above 4 GiB");
    mtd_nand_close(&nand);
}

/* What the kernel reports of a read, and what lies on the flash. */
static void answers(void)
{
    plug_in(2048, 74);
    check(mtd_nand_open(&nand, "/dev/mtd0", 0, 0) == 0, "an open");
    program_a_page();
    check(reads() == FLASH_WRITTEN && nand.corrected_reads == 0, "a page");
    kernel.next_read = EUCLEAN;
    check(nand.driver.read_page(&nand, 1, 0, data_there, tag_there) == FLASH_WRITTEN_WEAK && nand.corrected_reads == 1,
          "corrected errors");
    kernel.next_read = EBADMSG;
    check(nand.driver.read_page(&nand, 1, 0, data_there, tag_there) == FLASH_UNCORRECTABLE, "errors that cannot be corrected");
    kernel.uncorrectable = 1;
    check(nand.driver.read_page(&nand, 1, 0, data_there, tag_there) == FLASH_UNCORRECTABLE, "the same, and no errno");
    kernel.next_read = EIO;
    check(nand.driver.read_page(&nand, 1, 0, data_there, tag_there) < 0 && nand.error == EIO, "a read that failed");
    nand.error = 0;
    uint8_t *page = page_at((uint64_t)kernel.block_pages * kernel.page_bytes);
    page[kernel.page_bytes + 5] ^= 0x10;
    check(reads() == FLASH_WRITTEN && nand.corrected_reads == 3, "a flipped bit of the tag");
    page[100] ^= 0x14;
    check(reads() == FLASH_UNCORRECTABLE, "data that was corrected to other data");
    memset(page, 0xff, kernel.page_bytes);
    check(reads() == FLASH_UNCORRECTABLE, "a tag without data");
    memset(page, 0xff, kept_bytes());
    page[kernel.page_bytes + 20] = 0xfe;
    check(reads() == FLASH_ERASED, "an erased page with a flipped bit");
    kernel.next_change = EIO;
    check(nand.driver.program(&nand, 1, 1, data, tag) == FLASH_FAILED, "a program that failed");
    kernel.next_change = EIO;
    check(nand.driver.erase(&nand, 1) == FLASH_FAILED && nand.error == 0, "an erase that failed");
    kernel.next_change = ENODEV;
    check(nand.driver.program(&nand, 1, 1, data, tag) < 0 && nand.error == ENODEV, "a device that went away");
    mtd_nand_close(&nand);
}

/* A mark that returned EIO is done if the block is marked, and only then. */
static void marks(void)
{
    plug_in(2048, 74);
    check(mtd_nand_open(&nand, "/dev/mtd0", 0, 0) == 0, "an open");
    check(nand.driver.mark_bad(&nand, 2) == FLASH_DONE && nand.driver.is_bad(&nand, 2) == 1, "a mark");
    kernel.next_mark = EIO;
    kernel.marks_all_the_same = true;
    check(nand.driver.mark_bad(&nand, 3) == FLASH_DONE && nand.error == 0 && nand.driver.is_bad(&nand, 3) == 1,
          "the kernel has the mark, and reports that it could not write it");
    kernel.next_mark = EIO;
    kernel.marks_all_the_same = false;
    check(nand.driver.mark_bad(&nand, 4) < 0 && nand.error == EIO && nand.driver.is_bad(&nand, 4) == 0, "a mark that failed");
    kernel.next_mark = EROFS;
    check(nand.driver.mark_bad(&nand, 4) < 0 && nand.error == EROFS, "a mark that is not allowed");
    mtd_nand_close(&nand);
}

int main(void)
{
    refusals();
    large_devices();
    answers();
    marks();
    passes_the_check(2048, 54, 48);
    passes_the_check(2048, 74, 48);
    passes_the_check(4096, 78, 48);
    passes_the_check(2048, 34, 24);
    passes_the_check(2048, 38, 24);
    printf("  refusals, large devices, answers, marks; driver_check with tags of 48 and of 24 bytes\n");
    return 0;
}
