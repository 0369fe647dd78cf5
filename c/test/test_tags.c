/* Tags of 24 bytes: packed_tag.c by worked rows, and the library with either form, which leaves the same pages: test_tags [CALLS] [SEED]
 */
#include "commands.h"
#include "packed_tag.h"
#include "ram_nand.h"

#include <stdio.h>
#include <stdlib.h>
#include <string.h>

enum { PAGE = 512, PAGES = 32, BLOCKS = 24, SPARE = 3 };

/* A tag of these numbers, with the lowest byte first. */
static void make_tag(uint8_t *tag, const uint64_t *numbers)
{
    static const int places[] = {0, 4, 8, 16, 24, 32, 40, FLASH_TAG_BYTES};
    for (int i = 0; i < 7; i++)
        for (int at = places[i]; at < places[i + 1]; at++)
            tag[at] = (uint8_t)(numbers[i] >> 8 * (at - places[i]));
}

/* Index, count, object, chunk, version, group and seq, and whether they have room. */
static const struct row {
    uint64_t numbers[7];
    bool fits;
} rows[] = {
    {{0, 4, 2, 1, 7, 7, 3}, true},
    {{255, 256, 0xfffffffd, 0xffffffff, 0xffffffffff, 0xffffffffff, 0xffffffff}, true},
    {{0, 1, UINT64_MAX, 0, 1, 1, 1}, true},
    {{0, 1, UINT64_MAX - 1, 0, 1, 1, 1}, true},
    {{256, 4, 2, 1, 7, 7, 3}, false},
    {{0, 0, 2, 1, 7, 7, 3}, false},
    {{0, 257, 2, 1, 7, 7, 3}, false},
    {{0, 4, 0xfffffffe, 1, 7, 7, 3}, false},
    {{0, 4, 0xffffffff, 1, 7, 7, 3}, false},
    {{0, 4, UINT64_MAX - 2, 1, 7, 7, 3}, false},
    {{0, 4, 2, UINT64_C(1) << 32, 7, 7, 3}, false},
    {{0, 4, 2, 1, UINT64_C(1) << 40, 7, 3}, false},
    {{0, 4, 2, 1, 7, UINT64_C(1) << 40, 3}, false},
    {{0, 4, 2, 1, 7, 7, UINT64_C(1) << 32}, false},
};

static void worked_rows(struct draw *draw)
{
    static const uint8_t first[FLASH_PACKED_TAG_BYTES] = {0, 3, 2, 0, 0, 0, 1, 0, 0, 0, 7, 0, 0, 0, 0, 7, 0, 0, 0, 0, 3};
    uint8_t tag[FLASH_TAG_BYTES], there[FLASH_TAG_BYTES], packed[FLASH_PACKED_TAG_BYTES], again[FLASH_PACKED_TAG_BYTES];
    for (size_t i = 0; i < sizeof rows / sizeof *rows; i++) {
        make_tag(tag, rows[i].numbers);
        check(packed_tag_pack(tag, packed) == rows[i].fits, "row %zu", i);
        packed_tag_unpack(packed, there);
        check((memcmp(tag, there, sizeof tag) == 0) == rows[i].fits, "row %zu unpacked", i);
        check(i != 0 || memcmp(packed, first, sizeof packed) == 0, "the first row");
    }
    for (int i = 0; i < 100000; i++) {
        for (size_t at = 0; at < sizeof packed; at++)
            packed[at] = random_below(draw, 3) == 0 ? 0xff : (uint8_t)random_below(draw, 256);
        packed_tag_unpack(packed, tag);
        check(packed_tag_pack(tag, again) && memcmp(packed, again, sizeof packed) == 0, "24 bytes, unpacked and packed");
    }
}

/* Each page of one flash is that of the other, but for the form of its tag. */
static void compare(const struct ram_nand *whole, const struct ram_nand *packed)
{
    uint8_t tag[FLASH_TAG_BYTES];
    for (size_t place = 0; place < PAGES * BLOCKS; place++) {
        check(whole->kinds[place] == packed->kinds[place], "page %zu is of another kind", place);
        if (whole->kinds[place] != FLASH_WRITTEN)
            continue;
        packed_tag_unpack(packed->tags + place * FLASH_TAG_BYTES, tag);
        check(memcmp(tag, whole->tags + place * FLASH_TAG_BYTES, sizeof tag) == 0, "page %zu has another tag", place);
        check(memcmp(whole->data + place * PAGE, packed->data + place * PAGE, PAGE) == 0, "page %zu has other data", place);
    }
}

/* The same calls on volumes of both forms, with the same failures, cuts and mounts. */
static void same_calls(struct draw *draw, int calls)
{
    static struct flash_fs fs[2];
    static struct ram_nand nands[2];
    uint64_t cuts = 0;
    for (int i = 0; i < 2; i++) {
        check(ram_nand_make(&nands[i], PAGE, PAGES, BLOCKS) == 0, "memory");
        nands[i].driver.tag_bytes = i == 0 ? 0 : FLASH_PACKED_TAG_BYTES;
        check(flash_fs_format(&fs[i], &nands[i].driver, SPARE) == 0 && flash_fs_mount(&fs[i], &nands[i].driver) == 0, "a volume");
    }
    for (int call = 0; call < calls; call++) {
        struct command command = draw_command(draw, 3000);
        uint64_t cut = random_below(draw, 40) == 0 ? 1 + random_below(draw, 30) : 0;
        enum ram_nand_fate fate = (enum ram_nand_fate)random_below(draw, RAM_NAND_FATES);
        struct outcome there[2];
        for (int i = 0; i < 2; i++) {
            nands[i].fate = fate;
            if (cut != 0)
                nands[i].cut_at = nands[i].calls + cut;
            there[i] = do_on_volume(&fs[i], &command);
            check(nands[i].misuse == NULL, "%s", nands[i].misuse);
        }
        check(there[0].code == there[1].code && there[0].filled == there[1].filled, "call %d: %lld, and %lld with packed tags", call,
              (long long)there[0].code, (long long)there[1].code);
        check(nands[0].calls == nands[1].calls, "call %d: another number of calls", call);
        bool gone = nands[0].gone;
        cuts += gone;
        for (int i = 0; i < 2 && gone; i++) {
            flash_fs_abandon(&fs[i]);
            ram_nand_power_up(&nands[i]);
            check(flash_fs_mount(&fs[i], &nands[i].driver) == 0, "a mount after a loss of power");
        }
    }
    for (int i = 0; i < 2; i++) {
        nands[i].cut_at = 0;
        check(flash_fs_unmount(&fs[i]) == 0, "unmount");
    }
    compare(&nands[0], &nands[1]);
    printf("  %d calls and %llu losses of power leave the same pages with tags of 24 and of 48 bytes\n", calls,
           (unsigned long long)cuts);
    for (int i = 0; i < 2; i++) {
        nands[i].driver.tag_bytes = i == 0 ? FLASH_PACKED_TAG_BYTES : FLASH_TAG_BYTES;
        ram_nand_power_up(&nands[i]);
        int code = flash_fs_mount(&fs[i], &nands[i].driver);
        check(code == FLASH_ENOVOLUME, "a mount by the other form returned %d", code);
        nands[i].driver.tag_bytes = 23;
        check(flash_fs_mount(&fs[i], &nands[i].driver) == FLASH_EINVAL, "a mount with tags of 23 bytes");
        check(flash_fs_format(&fs[i], &nands[i].driver, SPARE) == FLASH_EINVAL, "a format with tags of 23 bytes");
        ram_nand_free(&nands[i]);
    }
}

int main(int count, char **words)
{
    int calls = count > 1 ? atoi(words[1]) : 3000;
    struct draw draw = {count > 2 ? strtoull(words[2], NULL, 10) : 1};
    worked_rows(&draw);
    same_calls(&draw, calls);
    return 0;
}
