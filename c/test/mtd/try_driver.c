/* The driver of Linux's devices on a device of the kernel's simulator, without the library. What the device holds is lost.
 *
 *   try_driver layout DEVICE                           what the kernel reports of it, and which tags fit
 *   try_driver check DEVICE TAG_BYTES BLOCKS CORRECTED driver_check, with marks, cuts in all ways and flipped bits, of which so
 * many in a page are corrected try_driver refused DEVICE CODE                     an open for tags of 48 bytes returns this
 *   try_driver last DEVICE FIRST                       a page in the last block, which may lie above 4 GiB, is written and read
 * back try_driver mark DEVICE BLOCK                       a block whose first page cannot be programmed is marked try_driver reread
 * DEVICE READS                     pages are read again and again: none reads otherwise
 */
#include "commands.h"
#include "driver_check.h"
#include "mtd_raw.h"

#include <fcntl.h>
#include <mtd/mtd-user.h>
#include <stdio.h>
#include <stdlib.h>
#include <string.h>
#include <sys/ioctl.h>
#include <unistd.h>

static struct mtd_nand nand;
static struct mtd_raw raw;
static struct cut_nand cut;
static uint8_t data[MTD_NAND_MOST_PAGE_BYTES], there[MTD_NAND_MOST_PAGE_BYTES], tag[FLASH_TAG_BYTES], tag_there[FLASH_TAG_BYTES];

static void show(void *context, const char *line)
{
    (void)context;
    printf("  falls short: %s\n", line);
}

static void open_device(const char *path, uint32_t first, uint32_t blocks, uint32_t tag_bytes)
{
    int code = mtd_nand_open_for(&nand, path, first, blocks, tag_bytes);
    check(code == 0, "%s: %d, %s (errno %d)", path, code, mtd_nand_reason(code), nand.error);
}

static void layout(const char *path)
{
    struct mtd_info_user info;
    struct nand_ecclayout_user ecc;
    int device = open(path, O_RDWR);
    check(device >= 0 && ioctl(device, MEMGETINFO, &info) == 0 && ioctl(device, ECCGETLAYOUT, &ecc) == 0, "%s", path);
    close(device);
    printf("  %u + %u, %u free:", info.writesize, info.oobsize, ecc.oobavail);
    for (int i = 0; i < MTD_MAX_OOBFREE_ENTRIES && ecc.oobfree[i].length > 0; i++)
        printf(" %u+%u", ecc.oobfree[i].offset, ecc.oobfree[i].length);
    for (uint32_t tag_bytes = 24; tag_bytes <= 48; tag_bytes += 24) {
        int code = mtd_nand_open_for(&nand, path, 0, 16, tag_bytes);
        if (code == 0)
            printf("; tags of %u: %u corrected", tag_bytes, nand.code.check_bytes / 2);
        else
            printf("; tags of %u: %d", tag_bytes, code);
        if (code == 0)
            mtd_nand_close(&nand);
    }
    printf("\n");
}

static void check_driver(uint32_t tag_bytes, uint32_t blocks, unsigned corrected)
{
    check(mtd_raw_over(&raw, &nand), "no layout");
    check(cut_nand_make(&cut, &nand.driver, &raw.flash) == 0, "memory");
    struct driver_check what = {.driver = &cut.driver,
                                .most_blocks = blocks,
                                .may_mark = true,
                                .cut_next = cut_nand_next,
                                .ways = CUT_NAND_WAYS,
                                .way_name = cut_nand_way,
                                .flip = cut_nand_flip,
                                .corrected_bits = corrected,
                                .power_up = cut_nand_power_up,
                                .context = &cut,
                                .report = show};
    int code = driver_check(&what);
    check(code == 0 && cut.trouble == NULL && nand.error == 0, "driver_check: %d fall short (%s, errno %d)", code,
          cut.trouble != NULL ? cut.trouble : "no trouble", nand.error);
    printf("  nothing falls short, with tags of %u bytes; %llu reads with corrected errors\n", tag_bytes,
           (unsigned long long)nand.corrected_reads);
}

static void fill(void)
{
    for (size_t i = 0; i < sizeof data; i++)
        data[i] = (uint8_t)(i * 31 + i / 509);
    memcpy(tag, data + 7, sizeof tag);
}

static bool reads_back(uint32_t block, uint32_t page)
{
    return nand.driver.read_page(&nand, block, page, there, tag_there) == FLASH_WRITTEN &&
           memcmp(data, there, nand.driver.page_bytes) == 0 && memcmp(tag, tag_there, sizeof tag) == 0;
}

static void last(void)
{
    uint32_t block = nand.driver.blocks - 1;
    check(nand.driver.erase(&nand, block) == FLASH_DONE && nand.driver.program(&nand, block, 1, data, tag) == FLASH_DONE, "a page");
    check(reads_back(block, 1) && nand.driver.read_tag(&nand, 0, 1, tag) == FLASH_ERASED, "what is read");
    printf("  byte %llu is written and read back\n",
           (unsigned long long)(nand.first_byte + block * 64ull * nand.driver.page_bytes));
}

static void mark(uint32_t block)
{
    check(nand.driver.erase(&nand, block) == FLASH_DONE, "an erase");
    check(nand.driver.program(&nand, block, 0, data, tag) == FLASH_FAILED, "the program does not fail");
    int code = nand.driver.mark_bad(&nand, block);
    check(code == FLASH_DONE && nand.error == 0, "mark_bad: %d (errno %d)", code, nand.error);
    check(nand.driver.is_bad(&nand, block) == 1 && nand.driver.is_bad(&nand, block + 1) == 0, "the mark");
    printf("  block %u is marked\n", block);
}

static void reread(uint32_t reads)
{
    uint32_t pages = nand.driver.block_pages;
    check(nand.driver.erase(&nand, 1) == FLASH_DONE, "an erase");
    for (uint32_t page = 0; page < pages; page++)
        check(nand.driver.program(&nand, 1, page, data, tag) == FLASH_DONE, "a program");
    for (uint32_t i = 0; i < reads; i++)
        check(reads_back(1, i % pages), "read %u of page %u", i, i % pages);
    printf("  %u reads, %llu with corrected errors\n", reads, (unsigned long long)nand.corrected_reads);
}

int main(int count, char **words)
{
    setvbuf(stdout, NULL, _IOLBF, 0);
    check(count >= 3, "try_driver layout|check|refused|last|mark|reread DEVICE ..");
    const char *what = words[1], *path = words[2];
    uint32_t number = count > 3 ? (uint32_t)strtoul(words[3], NULL, 10) : 0;
    fill();
    if (strcmp(what, "layout") == 0) {
        layout(path);
    } else if (strcmp(what, "check") == 0 && count == 6) {
        open_device(path, 0, 0, number);
        check_driver(number, (uint32_t)atoi(words[4]), (unsigned)atoi(words[5]));
    } else if (strcmp(what, "refused") == 0 && count == 4) {
        int code = mtd_nand_open(&nand, path, 0, 0);
        check(code == atoi(words[3]), "an open returns %d", code);
        printf("  %d: %s\n", code, mtd_nand_reason(code));
    } else if (strcmp(what, "last") == 0 && count == 4) {
        open_device(path, number, 0, FLASH_TAG_BYTES);
        last();
    } else if (strcmp(what, "mark") == 0 && count == 4) {
        open_device(path, 0, 0, FLASH_TAG_BYTES);
        mark(number);
    } else if (strcmp(what, "reread") == 0 && count == 4) {
        open_device(path, 0, 0, FLASH_TAG_BYTES);
        reread(number);
    } else {
        return 2;
    }
    return 0;
}
