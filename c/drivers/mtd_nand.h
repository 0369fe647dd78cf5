/* A NAND flash that is a memory technology device of Linux, /dev/mtdN. README.md in this folder says how to try it. */
#ifndef MTD_NAND_H
#define MTD_NAND_H

#include "page_code.h"

#ifdef __cplusplus
extern "C" {
#endif

enum { MTD_NAND_MOST_PAGE_BYTES = 4096 };

/* Why a device is refused. */
enum {
    MTD_NAND_NO_NAND = -201,      /* it is no NAND flash */
    MTD_NAND_SEVERAL_BITS = -202, /* a cell holds several bits: a program that is cut takes another page with it. A partition
                                   * that the kernel uses with one bit a cell ("slc-mode") is taken */
    MTD_NAND_SIZES = -203,        /* pages of other sizes than 512 to 4,096 bytes, or blocks of others than 32 to 256 pages */
    MTD_NAND_NO_SYSFS = -204,     /* the kernel reports no size or no free spare bytes in /sys */
    MTD_NAND_FEW_SPARE = -205,    /* of a page's spare area fewer than tag_bytes + 6 bytes are free */
    MTD_NAND_BLOCKS = -206,       /* the blocks are not all there, fewer than 5 or more than 4,096 */
    MTD_NAND_NO_READ = -207       /* a page cannot be read with its spare area; `error` is why: ENOTTY of a kernel before 6.1 */
};

struct mtd_nand {
    struct flash_driver driver; /* its address goes to the functions of flash_fs.h */
    int device;                 /* a descriptor of the system */
    int error;                  /* the errno of a call that was reported as a loss of power; 0: none */
    uint64_t corrected_reads;   /* reads in which the kernel or the page's envelope corrected errors */
    uint64_t first_byte;        /* where the blocks that are used begin */
    struct page_run free_bytes; /* those of a spare area, as the kernel gathers them */
    struct page_code code;
    uint8_t page[MTD_NAND_MOST_PAGE_BYTES];
};

/* Opens a device: for tags of 48 bytes where the spare area has room for them, else of 24. Of its blocks those from `first` on
 * are used, so many as `blocks` says, or all that follow where that is 0. Returns 0; FLASH_ENOENT if it cannot be opened; or why
 * it is refused.
 */
int mtd_nand_open(struct mtd_nand *nand, const char *path, uint32_t first, uint32_t blocks);

/* The same for tags of 48 or of 24 bytes alone. */
int mtd_nand_open_for(struct mtd_nand *nand, const char *path, uint32_t first, uint32_t blocks, uint32_t tag_bytes);

/* A code of an open in words. */
const char *mtd_nand_reason(int code);

/* Closes the device. */
void mtd_nand_close(struct mtd_nand *nand);

#ifdef __cplusplus
}
#endif
#endif
