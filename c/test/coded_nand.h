/* A flash in memory as it lies on a chip, for tests: pages of data and spare area, of which a program makes bits 0, and a driver
 * over it that keeps the envelope of page_code.h in runs of the spare area. No code corrects the data.
 */
#ifndef CODED_NAND_H
#define CODED_NAND_H

#include "cut_nand.h"

/* What a driver may do wrong. */
enum coded_wrong {
    CODED_NOTHING,
    CODED_BARE,              /* it keeps a tag without an envelope, as drivers did */
    CODED_NO_CRC,            /* a page whose CRC is wrong is reported as written */
    CODED_ERASED_AS_WRITTEN, /* so is an erased page with a flipped bit */
    CODED_NOT_CORRECTED,     /* the envelope is checked and not corrected */
    CODED_WRONGS
};

struct coded_nand {
    struct flash_driver driver; /* its address goes to the functions of flash_fs.h, or to driver_check */
    struct raw_flash raw;
    struct page_code code;
    enum coded_wrong wrong;
    uint32_t raw_bytes;
    uint8_t *pages, *marked;
};

/* A flash of erased pages and good blocks. The runs stay as they are while it is used. Returns 0, FLASH_EINVAL where the runs hold
 * no envelope, or FLASH_ENOMEM.
 */
int coded_nand_make(struct coded_nand *nand, const struct flash_driver *sizes, uint32_t spare_bytes, uint32_t tag_bytes,
                    const struct page_run *runs, uint32_t run_count);

/* Gives its memory back. */
void coded_nand_free(struct coded_nand *nand);

#endif
