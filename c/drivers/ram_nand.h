/* A NAND flash in memory, for tests: with bad blocks, power that is lost at a chosen call, calls that fail, and a count of calls.
 *
 * It checks what the library promises a driver. The first promise that is broken is held in `misuse`, and the call returns -1.
 */
#ifndef RAM_NAND_H
#define RAM_NAND_H

#include "flash_fs.h"

#ifdef __cplusplus
extern "C" {
#endif

/* What a program or an erase that was cut or failed leaves of a page, and a mark that was cut of its block. */
enum ram_nand_fate {
    RAM_NAND_BEFORE, /* as it was */
    RAM_NAND_AFTER,  /* as it was to be */
    RAM_NAND_LOST,   /* uncorrectable; of a mark: as it was */
    RAM_NAND_MIXED,  /* each page one of these, at random by the number of the call */
    RAM_NAND_FATES
};

struct ram_nand_counts {
    uint64_t mark_reads, tag_reads, page_reads, programs, erases, marks;
};

enum { RAM_NAND_FAILURES = 8 };

struct ram_nand {
    struct flash_driver driver; /* its address goes to the functions of flash_fs.h */

    /* What is to happen. Calls are numbered from 1 since the power came. */
    uint64_t cut_at;                     /* the call in which power goes; 0: none */
    uint64_t fail_at[RAM_NAND_FAILURES]; /* calls that fail if they are a program or an erase; 0: none */
    enum ram_nand_fate fate;             /* of what is cut or fails */

    /* What happened. */
    uint64_t calls;                /* since the power came */
    struct ram_nand_counts counts; /* since the flash was made, or the program set them to zero */
    bool gone;                     /* power went */
    const char *misuse;            /* the first promise of the library's that was broken; null: none */

    /* The flash: of each page its kind (as a read returns it), its tag and its data; of each block its mark, and the page
     * that may be programmed next (block_pages and more: none). */
    uint8_t *kinds, *tags, *data, *marked;
    uint32_t *next;

    /* How it ages: how often written pages of each block were read since its erase; from how many reads on these are weak, and
     * from how many on the one that is read is lost (0: never).
     */
    uint32_t *reads, weak_after, lost_after;
};

/* Makes a flash whose pages are erased and whose blocks are good. Returns 0, or FLASH_ENOMEM. It keeps tags of FLASH_TAG_BYTES, or
 * of another number that its driver's tag_bytes is set to before the first program.
 */
int ram_nand_make(struct ram_nand *nand, uint32_t page_bytes, uint32_t block_pages, uint32_t blocks);

/* Gives its memory back. */
void ram_nand_free(struct ram_nand *nand);

/* Power comes: nothing is to happen any more, and no block may be programmed before it is erased. */
void ram_nand_power_up(struct ram_nand *nand);

/* Makes a page uncorrectable. */
void ram_nand_lose(struct ram_nand *nand, uint32_t block, uint32_t page);

/* Makes the flash of one that has the same sizes that of another, and powers it up. */
void ram_nand_copy(struct ram_nand *to, const struct ram_nand *from);

#ifdef __cplusplus
}
#endif
#endif
