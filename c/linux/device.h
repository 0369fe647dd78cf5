/* The flash that holds the volume: an image file, or an MTD device of Linux. */
#ifndef DEVICE_H
#define DEVICE_H

#include "file_nand.h"
#include "mtd_nand.h"

struct device {
    const struct flash_driver *driver;
    struct file_nand image;
    struct mtd_nand mtd;
};

/* Opens the device of the words, or makes the image, and locks it against a second one of these programs. Returns 0 or an error,
 * with why printed.
 */
int device_open(struct device *device);

void device_close(struct device *device);

#endif
