/* Exercises a driver against what flash_fs.h says that a driver promises, and says what falls short.
 *
 * It erases the flash and marks two blocks bad at the end if it is allowed to. What it finds is no proof: a driver that passes
 * may still break a promise in a place, at a time or at a cut that was not tried.
 */
#ifndef DRIVER_CHECK_H
#define DRIVER_CHECK_H

#include "flash_fs.h"

#ifdef __cplusplus
extern "C" {
#endif

struct driver_check {
    const struct flash_driver *driver;

    /* At most so many good blocks are exercised, spread over the device; 0: all. */
    uint32_t most_blocks;

    /* Whether blocks may be marked bad: for ever, on a real chip. */
    bool may_mark;

    /* Makes power go in the next program or erase, or marks it to be cut in the way `way`, 0, 1, .. says; then that call is
     * made. Null: cuts are not tried. On a board: a switch of the supply that fires a random time after the call begins. Where
     * the flash can be written raw: cut_nand.h.
     */
    void (*cut_next)(void *context, unsigned way);
    unsigned ways;

    /* What a cut in a way leaves, for the lines; null: they have the way's number alone. */
    const char *(*way_name)(unsigned way);

    /* Brings power back: the driver is as after a start. It may be called without a cut before. Null: never called. */
    void (*power_up)(void *context);

    /* Flips so many bits of a page as it lies on the flash, at random by the seed, none of them of a bad-block mark. False:
     * it could not. Null: not tried. A page in which at most `corrected_bits` are flipped must read as before, and one in which
     * more are as before or as uncorrectable.
     */
    bool (*flip)(void *context, uint32_t block, uint32_t page, unsigned bits, unsigned seed);
    unsigned corrected_bits;

    /* For the functions above but way_name. */
    void *context;

    /* Called with a line for each promise that falls short; null: only their number is returned. */
    void (*report)(void *context, const char *line);
};

/* Returns how many promises fell short, 0 if none did; -1 if memory is short or there are fewer than three good blocks. At most
 * three lines are reported for one promise.
 */
int driver_check(const struct driver_check *check);

#ifdef __cplusplus
}
#endif
#endif
