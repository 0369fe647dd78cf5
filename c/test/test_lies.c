/* Drivers that lie: they return kinds and numbers at random, fill tags and data with garbage, change what was written, or return
 * what no call may return. Each function comes to its end after few calls of the driver, touches no memory that is not its own
 * (under a sanitizer, or valgrind), and keeps what flash_fs.h says of the calls of a driver.
 *
 *   test_lies [VOLUMES] [SEED]
 */
#include "commands.h"

#include <stdio.h>
#include <stdlib.h>
#include <string.h>

enum { PAGE = 512, PAGES = 32, BLOCKS = 8, MOST_CALLS = 200000 };

static struct flash_fs fs;

static struct flash_driver driver;

/* A flash in memory, with how often it lies: one call in `lies` (0: none, 1: each). */
static struct {
    struct draw draw;
    uint32_t lies, kind_of_lie;
    uint8_t kinds[BLOCKS][PAGES], tags[BLOCKS][PAGES][FLASH_TAG_BYTES], data[BLOCKS][PAGES][PAGE], bad[BLOCKS];
    uint32_t next[BLOCKS]; /* by what was returned */
    uint8_t told_bad[BLOCKS];
    uint64_t calls, all_calls, told_lies;
    bool gone, only_read;
} nand;

static void begins(uint32_t block, uint32_t page)
{
    check(block < BLOCKS && page < PAGES, "a place that is not there");
    check(!nand.gone, "a call after power was reported lost");
    check(++nand.calls < MOST_CALLS, "a call does not come to its end");
    nand.all_calls++;
}

static bool is_lie(void)
{
    bool lie = nand.lies != 0 && random_below(&nand.draw, nand.lies) == 0;
    nand.told_lies += lie;
    return lie;
}

static int returns(int number, int most)
{
    if (number < 0 || number > most)
        nand.gone = true;
    return number;
}

/* A number that a driver may return, or one that none may. */
static int wild(void)
{
    static const int numbers[] = {0, 0, 1, 1, 1, 1, 2, 2, 3, 4, 257, -1, INT32_MAX, INT32_MIN};
    return numbers[random_below(&nand.draw, random_below(&nand.draw, 4) == 0 ? 14 : 8)];
}

static void spoil(uint8_t *bytes, size_t size)
{
    uint32_t words = size < FLASH_TAG_BYTES ? 3 : 6;
    switch (random_below(&nand.draw, 5)) {
    case 0:
        for (size_t i = 0; i < size; i++)
            bytes[i] = (uint8_t)random_below(&nand.draw, 256);
        break;
    case 1: /* a field of a tag or a header: a great number, or another small one */
        memset(bytes + 8 * random_below(&nand.draw, words), random_below(&nand.draw, 2) == 0 ? 0xff : 0, 8);
        bytes[8 * random_below(&nand.draw, words)] = (uint8_t)random_below(&nand.draw, 5);
        break;
    case 2: /* of another page */
        memcpy(bytes, size <= FLASH_TAG_BYTES ? nand.tags[random_below(&nand.draw, BLOCKS)][random_below(&nand.draw, PAGES)]
                                              : nand.data[random_below(&nand.draw, BLOCKS)][random_below(&nand.draw, PAGES)],
               size);
        break;
    default:
        bytes[random_below(&nand.draw, (uint32_t)size)] ^= (uint8_t)(1 << random_below(&nand.draw, 8));
        break;
    }
}

static int is_bad(void *context, uint32_t block)
{
    (void)context;
    begins(block, 0);
    int returned = returns(is_lie() ? wild() : nand.bad[block], 1);
    nand.told_bad[block] = returned == 1;
    return returned;
}

static int read_page(void *context, uint32_t block, uint32_t page, uint8_t *data, uint8_t *tag)
{
    (void)context;
    begins(block, page);
    bool lie = is_lie();
    memcpy(tag, nand.tags[block][page], driver.tag_bytes);
    if (data != NULL)
        memcpy(data, nand.data[block][page], PAGE);
    if (!lie || nand.kind_of_lie == 2)
        return nand.kinds[block][page];
    if (nand.kind_of_lie == 0 || random_below(&nand.draw, 2) == 0)
        spoil(tag, driver.tag_bytes);
    if (data != NULL)
        spoil(data, PAGE);
    return nand.kind_of_lie == 1 ? nand.kinds[block][page] : returns(wild(), FLASH_WRITTEN_WEAK);
}

static int read_tag(void *context, uint32_t block, uint32_t page, uint8_t *tag)
{
    return read_page(context, block, page, NULL, tag);
}

static void changes(uint32_t block, uint32_t page)
{
    begins(block, page);
    check(!nand.only_read, "a salvage that changes the flash");
}

static int program(void *context, uint32_t block, uint32_t page, const uint8_t *data, const uint8_t *tag)
{
    (void)context;
    changes(block, page);
    check(!nand.told_bad[block] && nand.next[block] == page, "a program out of order, or in a bad block");
    memcpy(nand.data[block][page], data, PAGE);
    memcpy(nand.tags[block][page], tag, driver.tag_bytes);
    nand.kinds[block][page] = FLASH_WRITTEN;
    int returned = FLASH_DONE;
    if (is_lie()) {
        if (nand.kind_of_lie != 1)
            returned = returns(wild(), FLASH_FAILED);
        if (random_below(&nand.draw, 2) == 0)
            nand.kinds[block][page] = (uint8_t)random_below(&nand.draw, 3);
        else
            spoil(random_below(&nand.draw, 2) == 0 ? nand.tags[block][page] : nand.data[block][page], driver.tag_bytes);
    }
    nand.next[block] = returned == FLASH_DONE ? page + 1 : UINT32_MAX;
    return returned;
}

static int erase(void *context, uint32_t block)
{
    (void)context;
    changes(block, 0);
    bool lie = is_lie();
    for (uint32_t page = 0; page < PAGES; page++)
        if (!lie || random_below(&nand.draw, 2) == 0)
            nand.kinds[block][page] = FLASH_ERASED;
    int returned = lie && nand.kind_of_lie != 1 ? returns(wild(), FLASH_FAILED) : FLASH_DONE;
    nand.next[block] = returned == FLASH_DONE ? 0 : UINT32_MAX;
    return returned;
}

static int mark_bad(void *context, uint32_t block)
{
    (void)context;
    changes(block, 0);
    int returned = is_lie() && nand.kind_of_lie != 1 ? returns(wild(), 0) : 0;
    nand.bad[block] = random_below(&nand.draw, 2) == 0 || returned == 0;
    if (returned == 0)
        nand.told_bad[block] = 1;
    return returned;
}

static struct flash_driver driver = {NULL,      PAGE,    PAGES, BLOCKS,   is_bad,         read_tag,
                                     read_page, program, erase, mark_bad, FLASH_TAG_BYTES};

static void power_up(void)
{
    nand.gone = false;
    nand.calls = 0;
    memset(nand.told_bad, 0, sizeof nand.told_bad);
    for (uint32_t block = 0; block < BLOCKS; block++)
        nand.next[block] = UINT32_MAX;
}

/* What is left by such a driver: headers and bytes, whatever they are. No list is wanted: a header may say billions of slots.
 * Returns whether there was a salvage.
 */
static bool salvage(void)
{
    static struct flash_salvage left;
    struct flash_salvaged info;
    struct flash_place places[4];
    uint8_t bytes[PAGE];
    power_up();
    nand.only_read = true;
    bool opened = flash_fs_salvage_open(&left, &driver) == 0;
    for (uint64_t object = 0; object < 20; object++)
        for (int64_t at = 0, count = 1; count > 0 && at < 4 * PAGE; at += count) {
            nand.calls = 0;
            (void)flash_fs_salvage_stat(&left, object, &info);
            count = flash_fs_salvage_read(&left, object, (uint64_t)at, bytes, sizeof bytes);
            check(count <= PAGE && (opened || count == FLASH_EINVAL), "a read of a salvage");
        }
    check(opened == (flash_fs_salvage_lost(&left, places, 4) >= 0), "the lost pages of a salvage");
    flash_fs_salvage_close(&left);
    nand.only_read = false;
    return opened;
}

int main(int count, char **words)
{
    static const uint32_t often[] = {1, 2, 5, 20, 100, 400, 2000};
    uint64_t volumes = count > 1 ? strtoull(words[1], NULL, 10) : 2000, seed = count > 2 ? strtoull(words[2], NULL, 10) : 1;
    uint64_t mounts = 0, refused = 0, done = 0, calls = 0, salvages = 0;
    for (uint64_t i = 0; i < volumes; i++) {
        memset(nand.kinds, FLASH_ERASED, sizeof nand.kinds);
        memset(nand.bad, 0, sizeof nand.bad);
        nand.draw.state = seed * 1000003 + i;
        power_up();
        driver.tag_bytes = i % 2 == 0 ? FLASH_TAG_BYTES : FLASH_PACKED_TAG_BYTES;
        nand.lies = i % 3 == 0 ? often[i / 3 % 7] : 0;
        (void)flash_fs_format(&fs, &driver, (uint32_t)(i % 4));
        for (int mount = 0; mount < 6; mount++) {
            power_up();
            nand.lies = mount == 0 && i % 3 != 0 ? 0 : often[random_below(&nand.draw, 7)];
            nand.kind_of_lie = random_below(&nand.draw, 3);
            if (flash_fs_mount_with(&fs, &driver, random_below(&nand.draw, 4)) < 0) {
                refused++;
                check(flash_fs_unmount(&fs) == FLASH_EINVAL, "an unmount after a mount that failed");
                continue;
            }
            mounts++;
            for (int call = 0; call < 50; call++) {
                struct command command = draw_command(&nand.draw, 3000);
                nand.calls = 0;
                done += do_on_volume(&fs, &command).code >= 0;
                calls++;
            }
            nand.calls = 0;
            if (random_below(&nand.draw, 3) == 0)
                flash_fs_abandon(&fs);
            else
                (void)flash_fs_unmount(&fs);
            check(flash_fs_unmount(&fs) == FLASH_EINVAL, "a second unmount");
            check(flash_fs_stopped(&fs) == FLASH_EINVAL && flash_fs_read_only(&fs) == FLASH_EINVAL, "questions after it");
        }
        salvages += salvage();
    }
    printf("  %llu volumes, %llu lies in %llu calls of the driver: %llu mounts and %llu refused, %llu of %llu calls done, %llu salvages\n",
           (unsigned long long)volumes, (unsigned long long)nand.told_lies, (unsigned long long)nand.all_calls,
           (unsigned long long)mounts, (unsigned long long)refused, (unsigned long long)done, (unsigned long long)calls,
           (unsigned long long)salvages);
    return 0;
}
