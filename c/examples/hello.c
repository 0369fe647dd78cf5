/* Makes a volume on a NAND flash in memory, and counts how often it was started. */
#include "flash_fs.h"
#include "ram_nand.h"

#include <stdio.h>

int main(void)
{
    static struct ram_nand nand; /* a firmware has its own driver here */
    static struct flash_fs fs;
    if (ram_nand_make(&nand, 2048, 64, 64) != 0)
        return 1;
    for (uint32_t boot = 1; boot <= 3; boot++) {
        ram_nand_power_up(&nand);
        int code = flash_fs_mount(&fs, &nand.driver);
        if (code == FLASH_ENOVOLUME) {
            code = flash_fs_format(&fs, &nand.driver, 2);
            code = code < 0 ? code : flash_fs_mount(&fs, &nand.driver);
        }
        if (code < 0)
            return fprintf(stderr, "mount: %d\n", code), 1;
        uint32_t boots = 0;
        int fd = flash_fs_open(&fs, "/boots", FLASH_RDWR | FLASH_CREAT, boot);
        flash_fs_read(&fs, fd, &boots, sizeof boots);
        boots++;
        flash_fs_seek(&fs, fd, 0, FLASH_SEEK_SET);
        flash_fs_write(&fs, fd, &boots, sizeof boots, boot);
        code = flash_fs_fsync(&fs, fd); /* from here on it is durable, whenever power goes */
        printf("boot %u%s\n", boots, code < 0 ? ", not durable" : "");
        flash_fs_unmount(&fs);
    }
    ram_nand_free(&nand);
}
