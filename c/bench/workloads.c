/* Workloads on a flash in memory of 64 blocks (a mount: 1,024) of 64 pages of 2,048 bytes, one of them spare: what each asks of the
 * device, and under callgrind (count.sh) how many instructions of the processor the library takes, without those of the flash.
 *
 *   workloads NAME, or no name for all
 */
#include "flash_fs.h"
#include "ram_nand.h"

#include <stdio.h>
#include <stdlib.h>
#include <string.h>
#include <time.h>

#if defined(__has_include)
#if __has_include(<valgrind/callgrind.h>)
#include <valgrind/callgrind.h>
#endif
#endif
#ifndef CALLGRIND_TOGGLE_COLLECT
#define CALLGRIND_TOGGLE_COLLECT ((void)0)
#endif

/* Begins or ends the counting of instructions, in a workload. */
#define TOGGLE()                                                                                                                 \
    do {                                                                                                                         \
        if (counting)                                                                                                            \
            CALLGRIND_TOGGLE_COLLECT;                                                                                            \
    } while (0)

static bool counting;
static struct flash_fs fs;
static struct ram_nand nand;
static struct flash_driver driver;
static uint8_t bytes[1 << 20];

static void expect(bool holds, const char *what)
{
    if (holds)
        return;
    fprintf(stderr, "not so: %s\n", what);
    exit(1);
}

/* ---- The driver in memory, whose instructions are left out. */

static int is_bad(void *context, uint32_t block)
{
    TOGGLE();
    int returned = nand.driver.is_bad(context, block);
    TOGGLE();
    return returned;
}

static int read_tag(void *context, uint32_t block, uint32_t page, uint8_t *tag)
{
    TOGGLE();
    int returned = nand.driver.read_tag(context, block, page, tag);
    TOGGLE();
    return returned;
}

static int read_page(void *context, uint32_t block, uint32_t page, uint8_t *data, uint8_t *tag)
{
    TOGGLE();
    int returned = nand.driver.read_page(context, block, page, data, tag);
    TOGGLE();
    return returned;
}

static int program(void *context, uint32_t block, uint32_t page, const uint8_t *data, const uint8_t *tag)
{
    TOGGLE();
    int returned = nand.driver.program(context, block, page, data, tag);
    TOGGLE();
    return returned;
}

static int erase(void *context, uint32_t block)
{
    TOGGLE();
    int returned = nand.driver.erase(context, block);
    TOGGLE();
    return returned;
}

static int mark_bad(void *context, uint32_t block)
{
    TOGGLE();
    int returned = nand.driver.mark_bad(context, block);
    TOGGLE();
    return returned;
}

/* ---- The workloads. A moment is 0: these have no clock. */

static void small_files(void)
{
    char path[32];
    for (int i = 0; i < 200; i++) {
        snprintf(path, sizeof path, "/f%03d", i);
        int fd = flash_fs_open(&fs, path, FLASH_WRONLY | FLASH_CREAT, 0);
        expect(flash_fs_write(&fs, fd, bytes, 1000, 0) == 1000 && flash_fs_fsync(&fs, fd) == 0 && flash_fs_close(&fs, fd) == 0, path);
    }
}

static void in_order(void)
{
    int fd = flash_fs_open(&fs, "/f", FLASH_WRONLY | FLASH_CREAT, 0);
    for (int i = 0; i < 1024; i++)
        expect(flash_fs_write(&fs, fd, bytes, 4096, 0) == 4096, "a write of 4 KiB");
    expect(flash_fs_fsync(&fs, fd) == 0 && flash_fs_close(&fs, fd) == 0, "fsync");
}

static int overwritten = -1;

static void before_overwrites(void)
{
    overwritten = flash_fs_open(&fs, "/f", FLASH_RDWR | FLASH_CREAT, 0);
    expect(flash_fs_write(&fs, overwritten, bytes, sizeof bytes, 0) == sizeof bytes && flash_fs_fsync(&fs, overwritten) == 0, "a file of 1 MiB");
}

static void overwrites(void)
{
    uint64_t random_state = 1;
    for (int i = 0; i < 2000; i++) {
        random_state = random_state * UINT64_C(6364136223846793005) + UINT64_C(1442695040888963407);
        int64_t place = (int64_t)((random_state >> 33) % 2048) * 512;
        expect(flash_fs_seek(&fs, overwritten, place, FLASH_SEEK_SET) == place, "seek");
        expect(flash_fs_write(&fs, overwritten, bytes, 512, 0) == 512 && flash_fs_fsync(&fs, overwritten) == 0, "an overwrite");
    }
    expect(flash_fs_close(&fs, overwritten) == 0, "close");
}

static void appends(void)
{
    int fd = flash_fs_open(&fs, "/log", FLASH_WRONLY | FLASH_CREAT | FLASH_APPEND, 0);
    for (int i = 0; i < 2000; i++)
        expect(flash_fs_write(&fs, fd, bytes, 100, 0) == 100 && flash_fs_fsync(&fs, fd) == 0, "an append");
    expect(flash_fs_close(&fs, fd) == 0, "close");
}

static int read_from = -1;

static void before_reads(void)
{
    read_from = flash_fs_open(&fs, "/f", FLASH_RDWR | FLASH_CREAT, 0);
    for (int i = 0; i < 4; i++)
        expect(flash_fs_write(&fs, read_from, bytes, sizeof bytes, 0) == sizeof bytes, "a file of 4 MiB");
    expect(flash_fs_fsync(&fs, read_from) == 0 && flash_fs_seek(&fs, read_from, 0, FLASH_SEEK_SET) == 0, "fsync");
}

static void reads(void)
{
    static uint8_t piece[4096];
    for (int i = 0; i < 1024; i++)
        expect(flash_fs_read(&fs, read_from, piece, sizeof piece) == sizeof piece, "a read of 4 KiB");
    expect(flash_fs_close(&fs, read_from) == 0, "close");
}

static void random_reads(void)
{
    static uint8_t piece[512];
    uint64_t random_state = 1;
    for (int i = 0; i < 4096; i++) {
        random_state = random_state * UINT64_C(6364136223846793005) + UINT64_C(1442695040888963407);
        int64_t place = (int64_t)((random_state >> 33) % 8192) * 512;
        expect(flash_fs_seek(&fs, read_from, place, FLASH_SEEK_SET) == place, "seek");
        expect(flash_fs_read(&fs, read_from, piece, sizeof piece) == sizeof piece, "a read of 512 bytes");
    }
    expect(flash_fs_close(&fs, read_from) == 0, "close");
}

static void seeks(void)
{
    for (int i = 0; i < 1000; i++)
        expect(flash_fs_seek(&fs, read_from, i, FLASH_SEEK_SET) == i, "seek");
    expect(flash_fs_close(&fs, read_from) == 0, "close");
}

static void renames(void)
{
    for (int i = 0; i < 500; i++) {
        int fd = flash_fs_open(&fs, "/temp", FLASH_WRONLY | FLASH_CREAT | FLASH_TRUNC, 0);
        expect(flash_fs_write(&fs, fd, bytes, 1000, 0) == 1000 && flash_fs_close(&fs, fd) == 0, "a new file");
        expect(flash_fs_rename(&fs, "/temp", "/config", 0) == 0 && flash_fs_sync(&fs) == 0, "a rename");
    }
}

static void write_file(int number)
{
    char path[32];
    snprintf(path, sizeof path, "/f%02d", number);
    int fd = flash_fs_open(&fs, path, FLASH_WRONLY | FLASH_CREAT | FLASH_EXCL, 0);
    expect(flash_fs_write(&fs, fd, bytes, 65536, 0) == 65536 && flash_fs_close(&fs, fd) == 0, path);
}

static void before_churn(void)
{
    for (int i = 0; i < 64; i++)
        write_file(i);
    expect(flash_fs_sync(&fs) == 0, "64 files of 64 KiB");
}

static void churn(void)
{
    char path[32];
    uint64_t random_state = 1;
    for (int i = 0; i < 1000; i++) {
        random_state = random_state * UINT64_C(6364136223846793005) + UINT64_C(1442695040888963407);
        int number = (int)((random_state >> 33) % 64);
        snprintf(path, sizeof path, "/f%02d", number);
        expect(flash_fs_unlink(&fs, path, 0) == 0, path);
        write_file(number);
    }
    expect(flash_fs_sync(&fs) == 0, "sync");
}

static void before_unmount(void)
{
    small_files();
    in_order();
}

static void unmount(void)
{
    expect(flash_fs_unmount(&fs) == 0, "an unmount");
    TOGGLE();
    struct ram_nand_counts counts = nand.counts;
    expect(flash_fs_mount(&fs, &nand.driver) == 0, "a mount after it");
    nand.counts = counts;
    TOGGLE();
}

static void before_mount(void)
{
    char path[32];
    for (int i = 0; i < 1400; i++) {
        snprintf(path, sizeof path, "/f%04d", i);
        int fd = flash_fs_open(&fs, path, FLASH_WRONLY | FLASH_CREAT | FLASH_EXCL, 0);
        expect(flash_fs_write(&fs, fd, bytes, 65536, 0) == 65536 && flash_fs_close(&fs, fd) == 0, path);
    }
    expect(flash_fs_sync(&fs) == 0, "1,400 files of 64 KiB");
    flash_fs_abandon(&fs);
}

static void mount(void)
{
    expect(flash_fs_mount(&fs, &driver) == 0, "a mount");
}

static void mount_scanned(void)
{
    expect(flash_fs_mount_scanned(&fs, &driver, 0) == 0, "a mount by all tags");
}

struct workload {
    const char *name, *text;
    uint32_t blocks;
    void (*before)(void), (*work)(void);
};

static const struct workload workloads[] = {
    {"small_files", "200 files of 1,000 bytes, each with fsync", 64, NULL, small_files},
    {"in_order", "4 MiB in order, by 4 KiB, then fsync", 64, NULL, in_order},
    {"overwrites", "2,000 overwrites of 512 bytes in 1 MiB, each with fsync", 64, before_overwrites, overwrites},
    {"appends", "2,000 appends of 100 bytes, each with fsync", 64, NULL, appends},
    {"renames", "500 updates by rename, each with sync", 64, NULL, renames},
    {"churn", "1,000 files of 64 KiB removed and written, 64 at a time", 64, before_churn, churn},
    {"reads", "4 MiB read in order, by 4 KiB", 64, before_reads, reads},
    {"random_reads", "4,096 reads of 512 bytes in 4 MiB", 64, before_reads, random_reads},
    {"seeks", "1,000 seeks", 64, before_reads, seeks},
    {"unmount", "the unmount of 200 files and one of 4 MiB, with its checkpoint", 64, before_unmount, unmount},
    {"mount", "a mount of 1,024 blocks with 1,400 files of 64 KiB, without a checkpoint", 1024, before_mount, mount},
    {"mount_scanned", "the same by all tags", 1024, before_mount, mount_scanned},
};

static void run(const struct workload *workload)
{
    expect(ram_nand_make(&nand, 2048, 64, workload->blocks) == 0, "memory");
    driver = (struct flash_driver){&nand, 2048, 64, workload->blocks, is_bad, read_tag, read_page, program, erase, mark_bad,
                                   FLASH_TAG_BYTES};
    expect(flash_fs_format(&fs, &nand.driver, 1) == 0 && flash_fs_mount(&fs, &nand.driver) == 0 && flash_fs_unmount(&fs) == 0, "a volume");
    ram_nand_power_up(&nand);
    expect(flash_fs_mount(&fs, &driver) == 0, "a mount");
    if (workload->before != NULL)
        workload->before();
    nand.counts = (struct ram_nand_counts){0};
    struct timespec begun, ended;
    timespec_get(&begun, TIME_UTC);
    counting = true;
    TOGGLE();
    workload->work();
    TOGGLE();
    counting = false;
    timespec_get(&ended, TIME_UTC);
    double milliseconds = (double)(ended.tv_sec - begun.tv_sec) * 1e3 + (double)(ended.tv_nsec - begun.tv_nsec) / 1e6;
    printf("| %s | %llu | %llu | %llu | %.1f |\n", workload->text, (unsigned long long)(nand.counts.page_reads + nand.counts.tag_reads),
           (unsigned long long)nand.counts.programs, (unsigned long long)nand.counts.erases, milliseconds);
    expect(nand.counts.marks == 0 && nand.misuse == NULL && flash_fs_unmount(&fs) == 0, "the end");
    ram_nand_free(&nand);
}

int main(int count, char **words)
{
    for (size_t i = 0; i < sizeof bytes; i++)
        bytes[i] = (uint8_t)(i * 31 + i / 509);
    for (size_t i = 0; i < sizeof workloads / sizeof *workloads; i++)
        if (count < 2 || strcmp(words[1], workloads[i].name) == 0)
            run(&workloads[i]);
    return 0;
}
