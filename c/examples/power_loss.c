/* Power goes at each call of the device in an append with fsync, and each time what was being done ends in each way. The file is
 * then as before, or has the append too.
 */
#include "flash_fs.h"
#include "ram_nand.h"

#include <stdio.h>
#include <stdlib.h>
#include <string.h>

static struct flash_fs fs;
static struct ram_nand nand, before;
static uint8_t text[3000], back[4000];

static void expect(bool holds, const char *what)
{
    if (holds && nand.misuse == NULL)
        return;
    fprintf(stderr, "not so: %s\n", nand.misuse != NULL ? nand.misuse : what);
    exit(1);
}

static int64_t append(void)
{
    int fd = flash_fs_open(&fs, "/log", FLASH_WRONLY | FLASH_APPEND, 2);
    int64_t code = fd < 0 ? fd : flash_fs_write(&fs, fd, text + 1500, 1500, 2);
    return code < 0 ? code : flash_fs_fsync(&fs, fd);
}

static int64_t size_of_log(void)
{
    int fd = flash_fs_open(&fs, "/log", FLASH_RDONLY, 0);
    expect(fd >= 0, "the file is there");
    int64_t size = flash_fs_read(&fs, fd, back, sizeof back);
    expect(size >= 0 && memcmp(back, text, (size_t)size) == 0, "its bytes are those that were written");
    return size;
}

int main(void)
{
    for (size_t i = 0; i < sizeof text; i++)
        text[i] = (uint8_t)(i * 7 + i / 251);
    expect(ram_nand_make(&nand, 512, 32, 16) == 0 && ram_nand_make(&before, 512, 32, 16) == 0, "memory");

    expect(flash_fs_format(&fs, &nand.driver, 2) == 0 && flash_fs_mount(&fs, &nand.driver) == 0, "a volume");
    int fd = flash_fs_open(&fs, "/log", FLASH_WRONLY | FLASH_CREAT, 1);
    expect(flash_fs_write(&fs, fd, text, 1500, 1) == 1500 && flash_fs_unmount(&fs) == 0, "a file of 1,500 bytes");
    ram_nand_copy(&before, &nand);

    unsigned cuts = 0, appended = 0;
    for (uint64_t at = 1, done = 0; !done; at++)
        for (int fate = 0; fate < RAM_NAND_FATES; fate++) {
            ram_nand_copy(&nand, &before);
            expect(flash_fs_mount(&fs, &nand.driver) == 0, "a mount");
            nand.fate = (enum ram_nand_fate)fate;
            nand.cut_at = nand.calls + at;
            int64_t code = append();
            flash_fs_abandon(&fs);
            done = !nand.gone; /* fewer calls than that */
            expect(code == (done ? 0 : FLASH_EIO), "what the append returns");
            ram_nand_power_up(&nand);
            expect(flash_fs_mount(&fs, &nand.driver) == 0, "a mount after power went");
            int64_t size = size_of_log();
            expect(size == 3000 || (size == 1500 && !done), "the file is as before, or has the append");
            expect(flash_fs_mkdir(&fs, "/later", 3) == 0 && flash_fs_unmount(&fs) == 0, "and the volume can be used");
            if (!done)
                cuts++, appended += size == 3000;
        }
    printf("%u times power went; %u times the append was there then\n", cuts, appended);
    ram_nand_free(&nand);
    ram_nand_free(&before);
}
