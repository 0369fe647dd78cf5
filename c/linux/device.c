#include "device.h"
#include "words.h"

#include <errno.h>
#include <stdio.h>
#include <string.h>
#include <sys/file.h>
#include <sys/stat.h>

enum { DATA = 2048, PAGES = 64, BLOCKS = 64 }; /* as of the images that `flashsh format` makes */

static int failed(int code, const char *why)
{
    fprintf(stderr, "flash-fuse: %s: %s\n", words.device, why);
    return code;
}

/* Takes the lock by which one program at a time uses a device. */
static bool take_lock(int file) { return flock(file, LOCK_EX | LOCK_NB) == 0; }

static int open_mtd(struct device *device)
{
    if (words.data != 0 || words.pages != 0 || words.blocks != 0)
        return failed(FLASH_EINVAL, "a device has its own sizes");
    int code = mtd_nand_open(&device->mtd, words.device, 0, 0);
    if (code < 0)
        return failed(code, code == FLASH_ENOENT ? strerror(errno) : mtd_nand_reason(code));
    device->driver = &device->mtd.driver;
    return take_lock(device->mtd.device) ? 0 : failed(FLASH_EBUSY, "it is in use");
}

static unsigned or_else(unsigned said, unsigned usual) { return said != 0 ? said : usual; }

/* What is replaced is an image that nobody uses, or an empty file. */
static int may_replace(struct device *device, const struct stat *status)
{
    int code = file_nand_open(&device->image, words.device);
    if (code == FLASH_EINVAL && status->st_size > 0)
        return failed(code, "it is no image, and stays as it is");
    if (code < 0)
        return 0;
    bool taken = take_lock(device->image.file);
    file_nand_close(&device->image);
    return taken ? 0 : failed(FLASH_EBUSY, "it is in use");
}

static int make_image(struct device *device)
{
    struct stat status;
    if (stat(words.device, &status) == 0 && may_replace(device, &status) < 0)
        return FLASH_EBUSY;
    int code = file_nand_make(&device->image, words.device, or_else(words.data, DATA), or_else(words.pages, PAGES),
                              or_else(words.blocks, BLOCKS));
    return code < 0 ? failed(code, code == FLASH_EINVAL ? "no flash has these sizes" : strerror(errno)) : 0;
}

static int open_image(struct device *device)
{
    int code = file_nand_open(&device->image, words.device);
    return code < 0 ? failed(code, code == FLASH_ENOENT ? strerror(errno) : "it is no image") : 0;
}

int device_open(struct device *device)
{
    struct stat status;
    if (stat(words.device, &status) == 0 && S_ISCHR(status.st_mode))
        return open_mtd(device);
    int code = words.formats ? make_image(device) : open_image(device);
    if (code < 0)
        return code;
    device->image.synchronous = words.synchronous;
    device->driver = &device->image.driver;
    return take_lock(device->image.file) ? 0 : failed(FLASH_EBUSY, "it is in use");
}

void device_close(struct device *device)
{
    if (device->driver == &device->mtd.driver)
        mtd_nand_close(&device->mtd);
    else
        file_nand_close(&device->image);
}
