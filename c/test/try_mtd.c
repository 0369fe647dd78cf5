/* Tries the driver of Linux's devices: try_mtd DEVICE [24]. What the device holds is lost. It is checked by driver_check, without
 * cuts and marks; then a volume is made, written, mounted again and read back. With 24 the driver alone is checked, with tags of 24
 * bytes.
 */
#include "commands.h"
#include "driver_check.h"
#include "mtd_nand.h"

#include <stdio.h>
#include <string.h>

static struct mtd_nand nand;
static struct flash_fs fs;
static uint8_t bytes[200000], back[200000];

static void show(void *context, const char *line)
{
    (void)context;
    printf("falls short: %s\n", line);
}

static uint32_t count_bad(void)
{
    uint32_t bad = 0;
    for (uint32_t block = 0; block < nand.driver.blocks; block++)
        bad += nand.driver.is_bad(&nand, block) == 1;
    return bad;
}

static void check_driver(uint32_t bad)
{
    struct driver_check what = {.driver = &nand.driver, .most_blocks = 8, .report = show};
    check(nand.driver.blocks >= bad + 3, "fewer than three good blocks");
    int code = driver_check(&what);
    check(code >= 0, "driver_check: memory is short");
    check(code == 0, "driver_check: %d fall short (errno %d: %s)", code, nand.error, strerror(nand.error));
    printf("driver_check: nothing falls short\n");
}

int main(int count, char **words)
{
    check(count == 2, "try_mtd DEVICE");
    int code = mtd_nand_open(&nand, words[1], 0, 0);
    check(code == 0, "%s: %d, %s (errno %d: %s)", words[1], code, mtd_nand_reason(code), nand.error, strerror(nand.error));
    uint32_t bad = count_bad(), spare = bad + nand.driver.blocks / 50 + 1;
    printf("%u blocks of %u pages of %u bytes, %u of them bad; tags of %u bytes; %u bytes of envelope correct %u\n", nand.driver.blocks,
           nand.driver.block_pages, nand.driver.page_bytes, bad, nand.driver.tag_bytes, page_code_bytes(&nand.code),
           nand.code.check_bytes / 2);
    check_driver(bad);
    for (size_t i = 0; i < sizeof bytes; i++)
        bytes[i] = (uint8_t)(i * 31 + i / 509);
    code = flash_fs_format(&fs, &nand.driver, spare);
    check(code == 0, "a format with %u blocks to spare: %d (errno %d)", spare, code, nand.error);
    code = flash_fs_mount(&fs, &nand.driver);
    check(code == 0, "a mount: %d (errno %d)", code, nand.error);
    int fd = flash_fs_open(&fs, "/file", FLASH_RDWR | FLASH_CREAT, 1);
    check(flash_fs_write(&fs, fd, bytes, sizeof bytes, 1) == sizeof bytes && flash_fs_unmount(&fs) == 0, "a file");
    code = flash_fs_mount(&fs, &nand.driver);
    check(code == 0, "the second mount: %d (errno %d)", code, nand.error);
    fd = flash_fs_open(&fs, "/file", FLASH_RDONLY, 0);
    check(flash_fs_read(&fs, fd, back, sizeof back) == sizeof back && memcmp(bytes, back, sizeof back) == 0, "what was written");
    check(flash_fs_unmount(&fs) == 0 && nand.error == 0, "the end");
    mtd_nand_close(&nand);
    printf("a volume was made, written, mounted again and read back\n");
    return 0;
}
