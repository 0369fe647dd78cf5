/* The library over the driver of Linux's devices, on a device of the kernel's simulator, beside the model:
 *
 *   try_volume DEVICE SPARE SESSIONS CALLS MOST SEED [WAYS]
 *   try_volume tree DEVICE     a number of the tree of the volume on a device, or in an image file
 *
 * Sessions of random calls, each ended by an unmount, or, with WAYS as "0,2,4" or "all" (cut_nand.h), by power that goes at a random
 * program or erase. The last block is scratch.
 */
#include "file_nand.h"
#include "mtd_raw.h"
#include "sessions.h"

#include <stdio.h>
#include <stdlib.h>
#include <string.h>

static struct mtd_nand nand;
static struct mtd_raw raw;
static struct cut_nand cut;

static unsigned ways_of(char *words, unsigned *ways)
{
    unsigned count = 0;
    if (strcmp(words, "all") == 0)
        for (; count < CUT_NAND_WAYS; count++)
            ways[count] = count;
    else
        for (char *word = strtok(words, ","); word != NULL && count < CUT_NAND_WAYS; word = strtok(NULL, ","))
            ways[count++] = (unsigned)atoi(word);
    return count;
}

static uint32_t bad_blocks(void)
{
    uint32_t bad = 0;
    for (uint32_t block = 0; block < nand.driver.blocks; block++)
        bad += nand.driver.is_bad(&nand, block) == 1;
    return bad;
}

static void tree(const char *path)
{
    static struct flash_fs fs;
    static struct file_nand image;
    bool is_device = strncmp(path, "/dev/", 5) == 0;
    int64_t code = is_device ? mtd_nand_open(&nand, path, 0, 0) : file_nand_open(&image, path);
    check(code == 0, "%s: %d", path, (int)code);
    code = flash_fs_mount(&fs, is_device ? &nand.driver : &image.driver);
    check(code == 0, "%s: a mount returned %d", path, (int)code);
    uint64_t number = volume_tree(&fs, &code);
    check(code == 0, "%s: the tree cannot be read: %d", path, (int)code);
    printf("  tree %llx\n", (unsigned long long)number);
    flash_fs_abandon(&fs);
}

int main(int count, char **words)
{
    unsigned ways[CUT_NAND_WAYS];
    setvbuf(stdout, NULL, _IOLBF, 0);
    if (count == 3 && strcmp(words[1], "tree") == 0) {
        tree(words[2]);
        return 0;
    }
    check(count == 7 || count == 8, "try_volume DEVICE SPARE SESSIONS CALLS MOST SEED [WAYS]");
    int code = mtd_nand_open(&nand, words[1], 0, 0);
    check(code == 0, "%s: %d, %s (errno %d)", words[1], code, mtd_nand_reason(code), nand.error);
    check(mtd_raw_over(&raw, &nand), "no layout");
    check(cut_nand_make(&cut, &nand.driver, &raw.flash) == 0, "memory");
    struct sessions sessions = {.cut = &cut,
                                .spare = (uint32_t)atoi(words[2]),
                                .count = atoi(words[3]),
                                .calls = atoi(words[4]),
                                .most = strtoull(words[5], NULL, 10),
                                .seed = strtoull(words[6], NULL, 10),
                                .ways = ways,
                                .way_count = count == 8 ? ways_of(words[7], ways) : 0};
    uint32_t bad = bad_blocks();
    struct session_counts counts = do_sessions(&sessions);
    printf("  %d sessions, %llu calls as the model, %llu cuts; %llu programs, %llu erases, %llu failed, bad blocks %u -> %u, %llu "
           "reads with "
           "corrected errors\n",
           sessions.count, (unsigned long long)counts.calls, (unsigned long long)counts.cuts, (unsigned long long)cut.programs,
           (unsigned long long)cut.erases, (unsigned long long)cut.failures, bad, bad_blocks(),
           (unsigned long long)nand.corrected_reads);
    check(counts.stops == 0, "the volume stopped by itself %llu times (errno %d)", (unsigned long long)counts.stops, nand.error);
    return 0;
}
