/* Makes an image with a small tree, and writes its space as `flashsh check` does: make_image IMAGE. With a word more it makes a volume
 * of files that are rewritten in the middle, on pages of 512 bytes: pages that are in use lie in many blocks.
 */
#include "commands.h"
#include "file_nand.h"

#include <stdio.h>

static struct flash_fs fs;
static uint8_t bytes[100000];
static struct file_nand nand;

static void make_rewritten(const char *path)
{
    check(file_nand_make(&nand, path, 512, 32, 32) == 0, "an image");
    check(flash_fs_format(&fs, &nand.driver, 2) == 0 && flash_fs_mount(&fs, &nand.driver) == 0, "a volume");
    for (int i = 0; i < 10; i++) {
        char name[] = {'/', 'f', (char)('0' + i % 6), 0};
        int fd = flash_fs_open(&fs, name, FLASH_RDWR | FLASH_CREAT, 1);
        if (i < 6)
            check(flash_fs_write(&fs, fd, bytes + i * 1000, 30000, 1) == 30000, "a file");
        for (int k = 0; i >= 6 && k < 3; k++)
            check(flash_fs_pwrite(&fs, fd, bytes + k * 777, 5000, 5120 * (k + i % 2), 2) == 5000, "a write");
        check(flash_fs_close(&fs, fd) == 0 && flash_fs_sync(&fs) == 0, "a sync");
    }
    check(flash_fs_unmount(&fs) == 0, "the end");
    file_nand_close(&nand);
}

int main(int count, char **words)
{
    struct flash_space space;
    check(count == 2 || count == 3, "make_image IMAGE [rewritten]");
    for (size_t i = 0; i < sizeof bytes; i++)
        bytes[i] = (uint8_t)(i * 31 + i / 509);
    if (count == 3) {
        make_rewritten(words[1]);
        return 0;
    }
    check(file_nand_make(&nand, words[1], 2048, 64, 64) == 0, "an image");
    check(flash_fs_format(&fs, &nand.driver, 2) == 0 && flash_fs_mount(&fs, &nand.driver) == 0, "a volume");
    check(flash_fs_mkdir(&fs, "/logs", 1) == 0 && flash_fs_mkdir(&fs, "/logs/old", 2) == 0, "directories");
    for (int i = 0; i < 30; i++) {
        char path[64];
        snprintf(path, sizeof path, "/logs/old/%02d", i);
        int fd = flash_fs_open(&fs, path, FLASH_WRONLY | FLASH_CREAT, 3);
        check(flash_fs_write(&fs, fd, bytes, (size_t)i * 3000, 3) == i * 3000 && flash_fs_close(&fs, fd) == 0, "a file");
    }
    check(flash_fs_unlink(&fs, "/logs/old/07", 4) == 0 && flash_fs_link(&fs, "/logs/old/08", "/same", 4) == 0, "names");
    check(flash_fs_space(&fs, &space) == 0 && flash_fs_unmount(&fs) == 0, "the end");
    printf("space %llu %llu %llu\n", (unsigned long long)space.unit, (unsigned long long)space.total, (unsigned long long)space.free);
    file_nand_close(&nand);
    return 0;
}
