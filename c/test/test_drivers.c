/* The drivers in memory and in a file pass driver_check, and so do drivers that keep the envelope of a page, with cuts in twelve ways and
 * flipped bits; each of a row of drivers that break a promise is found.
 *
 *   test_drivers FOLDER
 */
#include "coded_nand.h"
#include "commands.h"
#include "driver_check.h"
#include "file_nand.h"
#include "ram_nand.h"

#include <stdio.h>
#include <stdlib.h>
#include <string.h>

static struct ram_nand nand;
static int lines;

static void show(void *context, const char *line)
{
    (void)context;
    printf("    %s\n", line);
}

static void count_line(void *context, const char *line)
{
    (void)context, (void)line;
    lines++;
}

static void cut_next(void *context, unsigned way)
{
    (void)context;
    nand.fate = (enum ram_nand_fate)way;
    nand.cut_at = nand.calls + 1;
}

static void power_up(void *context)
{
    (void)context;
    ram_nand_power_up(&nand);
}

/* ---- Drivers that break a promise, each in one way. They change what the driver in memory does. */

enum broken {
    NOTHING,
    ERASE_LEAVES_A_PAGE,
    ERASE_TAKES_A_NEIGHBOUR,
    PROGRAM_FLIPS_A_BIT,
    TAG_IS_CUT_SHORT,
    PROGRAM_CHANGES_A_NEIGHBOUR,
    TORN_PAGE_IS_WRITTEN,
    TORN_PAGE_CHANGES,
    CUT_ERASE_SHUFFLES,
    TAG_READ_KNOWS_NO_DATA,
    MARK_IS_FORGOTTEN,
    MARK_OF_ANOTHER_BLOCK,
    ERASED_READS_AS_WRITTEN,
    BROKEN
};

static const char *const names[BROKEN] = {
    [ERASE_LEAVES_A_PAGE] = "an erase leaves the last page",
    [ERASE_TAKES_A_NEIGHBOUR] = "an erase takes a page of the next block too",
    [PROGRAM_FLIPS_A_BIT] = "a bit of the data is lost",
    [TAG_IS_CUT_SHORT] = "the last bytes of the tag are lost",
    [PROGRAM_CHANGES_A_NEIGHBOUR] = "a program changes the page before",
    [TORN_PAGE_IS_WRITTEN] = "a page that was cut reads as written, with half of its data",
    [TORN_PAGE_CHANGES] = "a page that was cut reads now so, now so",
    [CUT_ERASE_SHUFFLES] = "an erase that was cut leaves other bytes",
    [TAG_READ_KNOWS_NO_DATA] = "the tag of an uncorrectable page reads as written",
    [MARK_IS_FORGOTTEN] = "a mark is forgotten at power-up",
    [MARK_OF_ANOTHER_BLOCK] = "a mark goes to the next block",
    [ERASED_READS_AS_WRITTEN] = "an erased page reads as written",
};

static enum broken broken;
static struct flash_driver good;
static unsigned reads;

static size_t place_of(uint32_t block, uint32_t page)
{
    return (size_t)block * nand.driver.block_pages + page;
}

static int broken_program(void *context, uint32_t block, uint32_t page, const uint8_t *data, const uint8_t *tag)
{
    int returned = good.program(context, block, page, data, tag);
    size_t place = place_of(block, page), bytes = nand.driver.page_bytes;
    if (broken == PROGRAM_FLIPS_A_BIT && page == 7)
        nand.data[place * bytes + bytes - 1] ^= 1;
    if (broken == TAG_IS_CUT_SHORT)
        memset(nand.tags + place * FLASH_TAG_BYTES + 40, 0xff, 8);
    if (broken == PROGRAM_CHANGES_A_NEIGHBOUR && page == 9)
        nand.data[(place - 1) * bytes] ^= 0x80;
    if (broken == TORN_PAGE_IS_WRITTEN && returned < 0) {
        nand.kinds[place] = FLASH_WRITTEN;
        memcpy(nand.tags + place * FLASH_TAG_BYTES, tag, FLASH_TAG_BYTES);
        memcpy(nand.data + place * bytes, data, bytes / 2);
    }
    return returned;
}

static int broken_erase(void *context, uint32_t block)
{
    size_t last = place_of(block, nand.driver.block_pages - 1);
    uint8_t kind = nand.kinds[last];
    int returned = good.erase(context, block);
    if (broken == ERASE_LEAVES_A_PAGE)
        nand.kinds[last] = kind;
    if (broken == ERASE_TAKES_A_NEIGHBOUR && block + 1 < nand.driver.blocks)
        nand.kinds[place_of(block + 1, 3)] = FLASH_ERASED;
    if (broken == CUT_ERASE_SHUFFLES && returned < 0)
        nand.data[place_of(block, 1) * nand.driver.page_bytes] ^= 4;
    return returned;
}

static int broken_read_page(void *context, uint32_t block, uint32_t page, uint8_t *data, uint8_t *tag)
{
    int kind = good.read_page(context, block, page, data, tag);
    if (broken == TORN_PAGE_CHANGES && kind == FLASH_UNCORRECTABLE && ++reads % 2 == 0)
        return FLASH_ERASED;
    if (broken == ERASED_READS_AS_WRITTEN && kind == FLASH_ERASED) {
        memset(data, 0xff, nand.driver.page_bytes);
        memset(tag, 0xff, FLASH_TAG_BYTES);
        return FLASH_WRITTEN;
    }
    return kind;
}

static int broken_read_tag(void *context, uint32_t block, uint32_t page, uint8_t *tag)
{
    int kind = good.read_tag(context, block, page, tag);
    return broken == TAG_READ_KNOWS_NO_DATA && kind == FLASH_UNCORRECTABLE ? FLASH_WRITTEN : kind;
}

static int broken_mark_bad(void *context, uint32_t block)
{
    int returned = good.mark_bad(context, block);
    if (broken == MARK_OF_ANOTHER_BLOCK) {
        nand.marked[block] = 0;
        nand.marked[(block + 1) % nand.driver.blocks] = 1;
    }
    return returned;
}

static void broken_power_up(void *context)
{
    power_up(context);
    if (broken == MARK_IS_FORGOTTEN)
        memset(nand.marked, 0, nand.driver.blocks);
}

static int check_broken(enum broken which)
{
    broken = which;
    check(ram_nand_make(&nand, 512, 32, 8) == 0, "memory");
    nand.marked[3] = which == MARK_IS_FORGOTTEN ? 0 : 1;
    good = nand.driver;
    struct flash_driver driver = good;
    driver.program = broken_program;
    driver.erase = broken_erase;
    driver.read_page = broken_read_page;
    driver.read_tag = broken_read_tag;
    driver.mark_bad = broken_mark_bad;
    struct driver_check what = {.driver = &driver, .may_mark = true, .cut_next = cut_next, .ways = RAM_NAND_FATES,
                                .power_up = broken_power_up, .report = count_line};
    int found = driver_check(&what);
    ram_nand_free(&nand);
    return found;
}

/* ---- Drivers that keep the envelope of a page. */

static struct coded_nand coded;
static struct cut_nand cut;

/* So few bits as the envelope corrects are flipped in it, and more in the whole page: no code corrects the data. */
static bool flip(void *context, uint32_t block, uint32_t page, unsigned bits, unsigned seed)
{
    static uint8_t raw[4096 + 512], before[4096 + 512];
    struct draw draw = {seed};
    if (bits > coded.code.check_bytes / 2)
        return cut_nand_flip(context, block, page, bits, seed);
    coded.raw.read(&coded, block, page, raw);
    memcpy(before, raw, sizeof raw);
    for (unsigned flipped = 0; flipped < bits;) {
        const struct page_run *run = &coded.raw.runs[random_below(&draw, coded.raw.run_count)];
        uint32_t at = coded.driver.page_bytes + run->offset + random_below(&draw, run->bytes);
        uint8_t mask = (uint8_t)(1u << random_below(&draw, 8));
        flipped += (raw[at] ^ before[at]) == 0;
        raw[at] = (uint8_t)((raw[at] ^ before[at]) == 0 ? raw[at] ^ mask : raw[at]);
    }
    memcpy(coded.pages + ((size_t)block * coded.driver.block_pages + page) * coded.raw_bytes, raw, coded.raw_bytes);
    return true;
}

struct layout {
    struct flash_driver sizes;
    uint32_t spare_bytes, tag_bytes, run_count;
    struct page_run runs[4];
};

static int check_coded(const struct layout *layout, enum coded_wrong wrong, bool says)
{
    check(coded_nand_make(&coded, &layout->sizes, layout->spare_bytes, layout->tag_bytes, layout->runs, layout->run_count) == 0, "runs");
    check(cut_nand_make(&cut, &coded.driver, &coded.raw) == 0, "memory");
    coded.wrong = wrong;
    struct driver_check what = {.driver = &cut.driver, .most_blocks = 4, .may_mark = true, .cut_next = cut_nand_next,
                                .ways = CUT_NAND_WAYS, .way_name = cut_nand_way, .flip = flip,
                                .corrected_bits = coded.code.check_bytes / 2, .power_up = cut_nand_power_up, .context = &cut,
                                .report = says ? show : NULL};
    int found = driver_check(&what);
    check(cut.trouble == NULL, "%s", cut.trouble);
    cut_nand_free(&cut);
    coded_nand_free(&coded);
    return found;
}

static void check_envelopes(void)
{
    static const struct layout layouts[] = {
        {{.page_bytes = 2048, .block_pages = 32, .blocks = 6}, 64, 24, 1, {{2, 34}}},
        {{.page_bytes = 2048, .block_pages = 32, .blocks = 6}, 64, 48, 1, {{2, 54}}},
        {{.page_bytes = 2048, .block_pages = 32, .blocks = 6}, 128, 48, 1, {{2, 74}}},
        {{.page_bytes = 4096, .block_pages = 32, .blocks = 5}, 128, 48, 1, {{2, 70}}},
        {{.page_bytes = 512, .block_pages = 32, .blocks = 8}, 64, 24, 4, {{4, 8}, {20, 8}, {36, 8}, {52, 8}}},
    };
    static const char *const wrongs[CODED_WRONGS] = {
        [CODED_BARE] = "a tag without an envelope",
        [CODED_NO_CRC] = "a page whose CRC is wrong is reported as written",
        [CODED_ERASED_AS_WRITTEN] = "an erased page with a flipped bit is reported as written",
        [CODED_NOT_CORRECTED] = "the envelope is not corrected",
    };
    enum { LAYOUTS = sizeof layouts / sizeof *layouts };
    for (int i = 0; i < LAYOUTS; i++)
        check(check_coded(&layouts[i], CODED_NOTHING, true) == 0, "a driver with the envelope falls short, %d", i);
    for (int wrong = CODED_NOTHING + 1; wrong < CODED_WRONGS; wrong++)
        check(check_coded(&layouts[LAYOUTS - 1], (enum coded_wrong)wrong, false) > 0, "not found: %s", wrongs[wrong]);
    printf("  drivers with the envelope pass, with tags of 24 and 48 bytes, cuts and flipped bits; %d wrong ones are found\n",
           CODED_WRONGS - 1);
}

int main(int count, char **words)
{
    check(count == 2, "test_drivers FOLDER");

    static const uint32_t sizes[][3] = {{512, 32, 8}, {2048, 64, 6}, {4096, 128, 5}};
    for (size_t i = 0; i < 3; i++) {
        check(ram_nand_make(&nand, sizes[i][0], sizes[i][1], sizes[i][2]) == 0, "memory");
        struct driver_check what = {.driver = &nand.driver, .may_mark = true, .cut_next = cut_next, .ways = RAM_NAND_FATES,
                                    .power_up = power_up, .report = show};
        check(driver_check(&what) == 0 && nand.misuse == NULL, "the driver in memory falls short");
        ram_nand_free(&nand);
    }
    printf("  the driver in memory passes, with three sizes\n");

    char path[1024];
    struct file_nand file;
    snprintf(path, sizeof path, "%s/check.img", words[1]);
    for (size_t i = 0; i < 3; i++) {
        check(file_nand_make(&file, path, sizes[i][0], sizes[i][1], sizes[i][2]) == 0, "an image");
        file_nand_close(&file);
        check(file_nand_open(&file, path) == 0, "an image is opened");
        struct driver_check what = {.driver = &file.driver, .may_mark = true, .report = show};
        check(driver_check(&what) == 0, "the driver in a file falls short");
        file_nand_close(&file);
        check(file_nand_open(&file, path) == 0 && file.driver.is_bad(file.driver.context, 0) == 1, "a mark is in the file");
        file_nand_close(&file);
    }
    FILE *stream = fopen(path, "ab");
    check(stream != NULL && fputc(0, stream) == 0 && fclose(stream) == 0, "a byte more");
    check(file_nand_open(&file, path) == FLASH_EINVAL, "an image with a byte more is opened");
    check(file_nand_make(&file, path, 512, 33, 8) == FLASH_EINVAL, "sizes that are out of range");
    remove(path);
    check(file_nand_open(&file, path) == FLASH_ENOENT, "an image that is not there");
    printf("  the driver in a file passes, with three sizes\n");

    check(check_broken(NOTHING) == 0, "a driver that breaks nothing falls short");
    for (int which = NOTHING + 1; which < BROKEN; which++)
        check(check_broken((enum broken)which) > 0, "not found: %s", names[which]);
    check(lines > 0, "nothing was reported");
    check_envelopes();
    printf("  %d drivers that break a promise are found\n", BROKEN - 1);
    return 0;
}
