/* Pages that are read with many errors: their blocks are noted, and what is committed in these is moved on.
 *
 *   test_weak [SEED]
 */
#include "commands.h"
#include "ram_nand.h"

#include <stdio.h>
#include <stdlib.h>
#include <string.h>

enum { PAGE = 512, PAGES = 32, BLOCKS = 40, FILES = 24, SIZE = 5 * PAGE + 17 };

static struct flash_fs fs;
static struct ram_nand nand;

static uint8_t byte_of(int file, int at)
{
    return (uint8_t)(file * 31 + at * 7 + at / 256);
}

static void write_file(int file)
{
    char path[16];
    uint8_t bytes[SIZE];
    snprintf(path, sizeof path, "/f%d", file);
    for (int i = 0; i < SIZE; i++)
        bytes[i] = byte_of(file, i);
    int fd = flash_fs_open(&fs, path, FLASH_WRONLY | FLASH_CREAT | FLASH_TRUNC, 0);
    check(fd >= 0 && flash_fs_write(&fs, fd, bytes, SIZE, 0) == SIZE && flash_fs_close(&fs, fd) == 0, "%s is written", path);
}

static void shows_file(int file)
{
    char path[16];
    uint8_t bytes[SIZE + 1];
    snprintf(path, sizeof path, "/f%d", file);
    int fd = flash_fs_open(&fs, path, FLASH_RDONLY, 0);
    check(fd >= 0 && flash_fs_read(&fs, fd, bytes, sizeof bytes) == SIZE && flash_fs_close(&fs, fd) == 0, "%s is read", path);
    for (int i = 0; i < SIZE; i++)
        check(bytes[i] == byte_of(file, i), "byte %d of %s", i, path);
}

static void shows_files(void)
{
    for (int file = 0; file < FILES; file++)
        shows_file(file);
}

/* A volume with files, mounted anew, so that what is read comes from the device. */
static void make_volume(void)
{
    check(ram_nand_make(&nand, PAGE, PAGES, BLOCKS) == 0, "memory");
    check(flash_fs_format(&fs, &nand.driver, 2) == 0 && flash_fs_mount(&fs, &nand.driver) == 0, "a volume");
    for (int file = 0; file < FILES; file++)
        write_file(file);
    check(flash_fs_unmount(&fs) == 0, "an unmount");
    ram_nand_power_up(&nand);
    check(flash_fs_mount(&fs, &nand.driver) == 0, "a mount");
}

/* Takes the blocks that are noted, one by one; returns how many there were, or what failed. */
static int refresh_all(void)
{
    for (int count = 1;; count++) {
        int left = flash_fs_refresh(&fs);
        if (left <= 0)
            return left < 0 ? left : count;
    }
}

/* Reads of pages that are weak are as those of any other page; their blocks are noted once each, and where they were refreshed the
 * pages that were read are not needed any more.
 */
static void moves_on(void)
{
    make_volume();
    check(flash_fs_refresh(&fs) == 0, "nothing is noted");
    memset(nand.reads, 0, BLOCKS * sizeof *nand.reads);
    nand.weak_after = 1;
    shows_files();
    shows_files();
    uint32_t weak[BLOCKS], count = 0;
    for (uint32_t block = 0; block < BLOCKS; block++)
        if (nand.reads[block] > 0)
            weak[count++] = block;
    check(count > 3, "pages of more than three blocks were read");
    nand.weak_after = 0;
    struct flash_space before, after;
    check(flash_fs_space(&fs, &before) == 0, "the space");
    check(refresh_all() == (int)count, "each block is noted once");
    check(flash_fs_refresh(&fs) == 0, "none is left");
    check(flash_fs_space(&fs, &after) == 0 && after.free == before.free, "the space is as before");
    for (uint32_t i = 0; i < count; i++)
        for (uint32_t page = 0; page < PAGES; page++)
            if (nand.reads[weak[i]] > 0) /* it was not erased since */
                ram_nand_lose(&nand, weak[i], page);
    shows_files();
    flash_fs_abandon(&fs);
    ram_nand_power_up(&nand);
    check(flash_fs_mount(&fs, &nand.driver) == 0, "a mount by what was moved");
    shows_files();
    check(flash_fs_unmount(&fs) == 0 && nand.misuse == NULL, "the end: %s", nand.misuse == NULL ? "" : nand.misuse);
    ram_nand_free(&nand);
}

/* A mount notes blocks as well, at most 32, and forgets those that were noted before it. */
static void notes_again(void)
{
    make_volume();
    nand.weak_after = 1;
    for (uint32_t block = 0; block < BLOCKS; block++)
        nand.reads[block] = 1;
    flash_fs_abandon(&fs);
    ram_nand_power_up(&nand);
    check(flash_fs_mount(&fs, &nand.driver) == 0, "a mount by weak pages");
    shows_files();
    nand.weak_after = 0;
    int count = refresh_all();
    check(count > 0 && count <= 32, "at most 32 blocks are noted");
    shows_files();
    check(flash_fs_unmount(&fs) == 0 && flash_fs_refresh(&fs) == FLASH_EINVAL, "not mounted");
    check(flash_fs_mount(&fs, &nand.driver) == 0 && flash_fs_refresh(&fs) == 0, "a mount forgets what was noted");
    flash_fs_abandon(&fs);
    ram_nand_free(&nand);
}

/* Power that goes in each call of refreshes, and a call that fails there, with each fate: the files are as before. */
static void is_cut(bool fails)
{
    for (int fate = 0; fate < RAM_NAND_FATES; fate++)
        for (uint64_t call = 1, ended = 0; !ended; call++) {
            make_volume();
            nand.weak_after = 1;
            shows_file(3);
            nand.weak_after = 0;
            nand.fate = (enum ram_nand_fate)fate;
            uint64_t at = nand.calls + call;
            if (fails)
                nand.fail_at[0] = at;
            else
                nand.cut_at = at;
            int code = refresh_all();
            ended = nand.calls < at;
            nand.cut_at = nand.fail_at[0] = 0;
            check(fails || ended ? code > 0 : code == FLASH_EIO, "a refresh returns %d", code);
            if (code == FLASH_EIO)
                check(flash_fs_stopped(&fs) == 1, "the volume is stopped");
            else
                shows_files();
            flash_fs_abandon(&fs);
            ram_nand_power_up(&nand);
            check(flash_fs_mount(&fs, &nand.driver) == 0, "a mount after call %llu", (unsigned long long)call);
            shows_files();
            write_file(3);
            check(flash_fs_sync(&fs) == 0, "a sync after it");
            shows_files();
            check(nand.misuse == NULL, "the driver was misused: %s", nand.misuse);
            flash_fs_abandon(&fs);
            ram_nand_free(&nand);
        }
}

/* Files are read and written on a flash whose pages are weak after 200 reads of their block and lost after 2,000: with refreshes in
 * between nothing is lost, and without them something is.
 */
static bool ages(bool refreshed, uint64_t seed)
{
    struct draw draw = {seed};
    make_volume();
    nand.weak_after = 200;
    nand.lost_after = 2000;
    bool lost = false;
    for (int turn = 0; turn < 20000 && !lost; turn++) {
        int file = (int)random_below(&draw, FILES);
        if (random_below(&draw, 100) == 0) {
            write_file(file);
            check(flash_fs_sync(&fs) == 0 || !refreshed, "a sync");
        }
        char path[16];
        uint8_t bytes[SIZE];
        snprintf(path, sizeof path, "/f%d", file);
        int fd = flash_fs_open(&fs, path, FLASH_RDONLY, 0);
        lost = fd < 0 || flash_fs_read(&fs, fd, bytes, SIZE) != SIZE || flash_fs_close(&fs, fd) != 0;
        if (refreshed && turn % 10 == 0)
            check(refresh_all() >= 0, "a refresh");
    }
    check(!refreshed || (!lost && nand.misuse == NULL), "nothing is lost");
    if (refreshed)
        shows_files();
    flash_fs_abandon(&fs);
    ram_nand_free(&nand);
    return lost;
}

int main(int count, char **words)
{
    uint64_t seed = count > 1 ? strtoull(words[1], NULL, 10) : 1;
    moves_on();
    notes_again();
    is_cut(false);
    is_cut(true);
    check(!ages(true, seed), "with refreshes all is there");
    check(ages(false, seed), "without them something is lost");
    return 0;
}
