/* Power that goes in a program or an erase, for tests of a driver whose flash can be read and written raw: a driver over another.
 * The page or the block gets what a real one may hold after a cut, and the call returns -1. Bits can be flipped, too.
 */
#ifndef CUT_NAND_H
#define CUT_NAND_H

#include "page_code.h"

#ifdef __cplusplus
extern "C" {
#endif

/* How the pages of a driver lie on its flash. */
struct raw_flash {
    void *context;               /* handed to both functions */
    uint32_t spare_bytes;        /* of a page */
    uint32_t tag_bytes;          /* 48 or 24 */
    const struct page_run *runs; /* where in the spare area the tag and what belongs to it lie, the tag first */
    uint32_t run_count;
    /* Reads and programs a page as it lies there, its data and then its spare area: no code corrects, and none is added. A program
     * can only make bits 0. False: it was not done.
     */
    bool (*read)(void *context, uint32_t block, uint32_t page, uint8_t *raw);
    bool (*write)(void *context, uint32_t block, uint32_t page, const uint8_t *raw);
};

/* The ways of cuts, 0, 1, ..; cut_nand_way says what each leaves of a page. */
enum { CUT_NAND_WAYS = 12 };

struct cut_nand {
    struct flash_driver driver; /* its address goes to the functions of flash_fs.h, or to driver_check */

    /* What is to happen. */
    uint64_t cut_at; /* the program or erase, numbered from 1 since the power came, in which power goes; 0: none */
    unsigned way;    /* and how it is cut */

    /* What happened. */
    uint64_t calls;                             /* programs and erases since the power came */
    bool gone;                                  /* power went */
    bool in_erase;                              /* and in an erase */
    uint64_t programs, erases, marks, failures; /* since it was made */
    const char *trouble;                        /* what could not be done, as a raw write; null: none */

    const struct flash_driver *below;
    const struct raw_flash *raw;
    uint32_t scratch, scratch_page;
    uint64_t random_state;
    uint8_t *block_raw, *page_raw;
};

/* Makes one over a driver and its flash, whose last block is no longer of the driver: it is scratch. Returns 0, or FLASH_ENOMEM. */
int cut_nand_make(struct cut_nand *cut, const struct flash_driver *below, const struct raw_flash *raw);

/* Gives its memory back. */
void cut_nand_free(struct cut_nand *cut);

/* For driver_check: cut_next, power_up, way_name and flip. */
void cut_nand_next(void *cut, unsigned way);
void cut_nand_power_up(void *cut);
const char *cut_nand_way(unsigned way);
bool cut_nand_flip(void *cut, uint32_t block, uint32_t page, unsigned bits, unsigned seed);

#ifdef __cplusplus
}
#endif
#endif
