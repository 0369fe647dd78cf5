/* The flash of an MTD device of Linux as it lies on the chip: raw reads and writes, for cut_nand.h, and where in the spare area the
 * free bytes lie that the kernel gathers for mtd_nand.c.
 */
#ifndef MTD_RAW_H
#define MTD_RAW_H

#include "cut_nand.h"
#include "mtd_nand.h"

#ifdef __cplusplus
extern "C" {
#endif

enum { MTD_RAW_MOST_RUNS = 8 };

struct mtd_raw {
    struct raw_flash flash; /* its address goes to cut_nand_make */
    const struct mtd_nand *nand;
    struct page_run runs[MTD_RAW_MOST_RUNS];
};

/* Fills it for an open device, which stays open. False where the kernel does not report the layout of the spare area. */
bool mtd_raw_over(struct mtd_raw *raw, const struct mtd_nand *nand);

#ifdef __cplusplus
}
#endif
#endif
