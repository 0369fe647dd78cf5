/* A NAND flash in an image file, in the form of docs/FORMATS.md ("The image of a device"): the program `flashsh` and this
 * driver read each other's images. It is for hosts that have POSIX files.
 */
#ifndef FILE_NAND_H
#define FILE_NAND_H

#include "flash_fs.h"

#ifdef __cplusplus
extern "C" {
#endif

struct file_nand {
    struct flash_driver driver; /* its address goes to the functions of flash_fs.h */
    int file;                   /* a descriptor of the system */
    bool synchronous;           /* each change is on the host's disk, by fdatasync, before it returns */
};

/* Makes an image with erased pages and good blocks; a file that is there is replaced. Returns 0, FLASH_EINVAL for sizes out of
 * range, or FLASH_EIO. Afterwards the driver is ready, as after an open.
 */
int file_nand_make(struct file_nand *nand, const char *path, uint32_t page_bytes, uint32_t block_pages, uint32_t blocks);

/* Opens an image. Returns 0; FLASH_ENOENT if the file cannot be opened; FLASH_EINVAL if it is no image; or FLASH_EIO. */
int file_nand_open(struct file_nand *nand, const char *path);

/* Makes a page uncorrectable. Returns FLASH_DONE, or -1. */
int file_nand_lose(struct file_nand *nand, uint32_t block, uint32_t page);

/* Closes the file. */
void file_nand_close(struct file_nand *nand);

#ifdef __cplusplus
}
#endif
#endif
