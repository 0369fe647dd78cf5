/* The envelope of a page: what is programmed is what is read, or it is not read as written.
 *
 *   test_page_code [RANDOM] [SEED] [all]
 *
 * RANDOM: so many pages with random errors, and a quarter as many of random bytes. all: each error of two bytes in the envelopes
 * of tags of 24 bytes, some minutes.
 */
#include "commands.h"
#include "page_code.h"

#include <stdio.h>
#include <stdlib.h>
#include <string.h>

enum { SPARE_BYTES = 256, MOST_DATA = 4096 };

/* Layouts of spare areas as Linux's codes leave them, and pieces of some. */
static const struct layout {
    const char *name;
    uint32_t page_bytes, tag_bytes, count;
    struct page_run runs[8];
    uint32_t checks;
} layouts[] = {
    {"2,048 + 64, Hamming, tags of 24", 2048, 24, 1, {{2, 38}}, 10},
    {"2,048 + 64, BCH-4, tags of 24", 2048, 24, 1, {{2, 34}}, 6},
    {"2,048 + 64, BCH-1", 2048, 48, 1, {{2, 54}}, 2},
    {"2,048 + 128, BCH-8", 2048, 48, 1, {{2, 74}}, 22},
    {"2,048 + 128, Hamming", 2048, 48, 1, {{2, 102}}, 32},
    {"4,096 + 128, BCH-4", 4096, 48, 1, {{2, 70}}, 18},
    {"four runs of 8", 512, 24, 4, {{4, 8}, {20, 8}, {36, 8}, {52, 8}}, 4},
    {"runs of 1 and of 57, the last first", 512, 48, 2, {{100, 57}, {3, 1}}, 6},
    {"an odd byte", 512, 24, 3, {{2, 6}, {18, 14}, {34, 13}}, 5},
};
enum { LAYOUTS = sizeof layouts / sizeof *layouts };

static struct page_code code;
static uint8_t data[MOST_DATA], tag[FLASH_TAG_BYTES], spare[SPARE_BYTES], there[FLASH_TAG_BYTES];
static struct draw draw;

static void use(const struct layout *layout)
{
    memset(data, 0xff, sizeof data);
    check(page_code_make(&code, layout->page_bytes, layout->tag_bytes, layout->runs, layout->count, SPARE_BYTES), "%s is refused",
          layout->name);
    check(code.check_bytes == layout->checks, "%s has %u check bytes", layout->name, code.check_bytes);
}

static void draw_bytes(uint8_t *bytes, size_t size)
{
    for (size_t i = 0; i < size; i++)
        bytes[i] = (uint8_t)random_below(&draw, 256);
}

/* Programs a random page. */
static void program(void)
{
    draw_bytes(data, code.page_bytes);
    draw_bytes(tag, code.tag_bytes);
    memset(spare, 0xff, sizeof spare);
    page_code_write(&code, data, tag, spare);
}

/* The byte of the spare area that the envelope's byte `at` is. */
static uint8_t *place_of(uint32_t at)
{
    const struct page_run *run = code.runs;
    for (; at >= run->bytes; run++)
        at -= run->bytes;
    return &spare[run->offset + at];
}

static bool reads_as_programmed(void)
{
    memset(there, 0, sizeof there);
    return page_code_read(&code, data, spare, there, NULL) == FLASH_WRITTEN && memcmp(there, tag, code.tag_bytes) == 0;
}

/* ---- Rows whose bytes were computed by another program (Python, zlib.crc32, a division without tables). */

static void worked_rows(void)
{
    static const uint8_t checks_of_24[] = {0x66, 0x0e, 0x56, 0xa3, 0xf2, 0x2e, 0x79, 0xb4, 0x6c, 0xf7};
    static const uint8_t checks_of_48[] = {0x9e, 0xf4, 0x67, 0xca, 0xca, 0x11, 0xbd, 0x8a, 0x7e, 0xb7,
                                           0x34, 0x4a, 0xfa, 0x98, 0x09, 0xf2, 0xf1, 0xb5, 0x3f, 0xc5,
                                           0xf1, 0xb3, 0x60, 0x4a, 0x06, 0x39, 0xe6, 0x88, 0x14, 0x5e};
    const struct page_run run = {0, 78}, short_run = {0, 34};
    check(page_code_crc(0, (const uint8_t *)"123456789", 9) == 0xcbf43926, "the CRC of 123456789");
    check(page_code_crc(page_code_crc(0, (const uint8_t *)"1234", 4), (const uint8_t *)"56789", 5) == 0xcbf43926, "in two pieces");
    for (size_t i = 0; i < 512; i++)
        data[i] = (uint8_t)(i * 7 + i / 256);
    for (size_t i = 0; i < sizeof tag; i++)
        tag[i] = (uint8_t)(i + 1);
    check(page_code_make(&code, 512, 24, &short_run, 1, 64), "34 bytes");
    page_code_write(&code, data, tag, spare);
    check(memcmp(spare, tag, 24) == 0 && memcmp(spare + 24, checks_of_24, sizeof checks_of_24) == 0, "the envelope of 34 bytes");
    check(page_code_make(&code, 512, 48, &run, 1, 128), "78 bytes");
    page_code_write(&code, data, tag, spare);
    check(memcmp(spare, tag, 48) == 0 && memcmp(spare + 48, checks_of_48, sizeof checks_of_48) == 0, "the envelope of 78 bytes");
}

/* ---- Layouts. */

static void layouts_that_are_refused(void)
{
    const struct page_run twice[] = {{2, 40}, {41, 20}}, outside[] = {{2, 63}}, far[] = {{UINT32_MAX, 60}}, few[] = {{2, 53}},
                          few_of_24[] = {{0, 15}, {15, 14}}, same[] = {{2, 54}, {2, 54}};
    check(!page_code_make(&code, 2048, 48, twice, 2, 64), "a byte of the spare area is in two runs");
    check(!page_code_make(&code, 2048, 24, same, 2, 64), "a run is there twice");
    check(!page_code_make(&code, 2048, 48, outside, 1, 64), "a run leaves the spare area");
    check(!page_code_make(&code, 2048, 48, far, 1, 64), "a run begins outside of the spare area");
    check(!page_code_make(&code, 2048, 48, few, 1, 64), "53 bytes hold a tag of 48");
    check(!page_code_make(&code, 2048, 24, few_of_24, 2, 64), "29 bytes hold a tag of 24");
    check(!page_code_make(&code, 2048, 32, outside, 1, 256), "tags of 32 bytes");
}

/* Each byte of the envelope is one byte of the runs, each of another, and no other byte changes. */
static void runs_that_split(void)
{
    static uint8_t before[2][SPARE_BYTES];
    bool ours[SPARE_BYTES] = {false};
    program();
    for (uint32_t at = 0; at < page_code_bytes(&code); at++) {
        uint32_t place = (uint32_t)(place_of(at) - spare);
        check(!ours[place], "byte %u of the spare area is written twice", place);
        ours[place] = true;
        check(at >= code.tag_bytes || spare[place] == tag[at], "byte %u of the tag lies elsewhere", at);
    }
    for (int i = 0; i < 2; i++) {
        memset(before[i], i == 0 ? 0x00 : 0xff, SPARE_BYTES);
        page_code_write(&code, data, tag, before[i]);
    }
    for (uint32_t place = 0; place < SPARE_BYTES; place++)
        check(ours[place] ? before[0][place] == before[1][place] : before[0][place] == 0x00 && before[1][place] == 0xff,
              "byte %u of the spare area", place);
    check(reads_as_programmed(), "what was programmed is read");
}

/* ---- Errors. */

static uint32_t errors_of_one_byte(void)
{
    uint32_t tried = 0, corrected;
    program();
    for (uint32_t at = 0; at < page_code_bytes(&code); at++)
        for (unsigned change = 1; change < 256; change++, tried++) {
            *place_of(at) ^= (uint8_t)change;
            int kind = page_code_read(&code, data, spare, there, &corrected);
            check(kind == FLASH_WRITTEN && memcmp(there, tag, code.tag_bytes) == 0, "byte %u, changed by %u", at, change);
            check(corrected == (uint32_t)__builtin_popcount(change), "byte %u, changed by %u: %u bits", at, change, corrected);
            *place_of(at) ^= (uint8_t)change;
        }
    return tried;
}

/* Each pair of places. A word of the code times an element is a word too, so of the changes all are tried up to a factor, where
 * the envelope is short and many pages are wanted, or `all` says so; else each seventeenth.
 */
static uint32_t errors_of_two_bytes(uint64_t pages, bool all)
{
    uint32_t tried = 0, bytes = page_code_bytes(&code);
    unsigned factors = all && bytes <= 40 ? 255 : 1, step = all || (bytes <= 40 && pages >= 100000) ? 1 : 17;
    program();
    for (uint32_t one = 0; one < bytes; one++)
        for (uint32_t other = one + 1; other < bytes; other++)
            for (unsigned first = 1; first <= factors; first++)
                for (unsigned second = 1; second < 256; second += step, tried++) {
                    *place_of(one) ^= (uint8_t)first;
                    *place_of(other) ^= (uint8_t)second;
                    check(reads_as_programmed(), "bytes %u and %u, changed by %u and %u", one, other, first, second);
                    *place_of(one) ^= (uint8_t)first;
                    *place_of(other) ^= (uint8_t)second;
                }
    return tried;
}

/* Random bytes of the envelope are wrong, and in half of the pages some bits of the data. So many bytes as the code corrects are
 * corrected; with more, and where the data is wrong, the page is not read as written, or with what was programmed.
 */
static void drawn_errors(uint64_t pages)
{
    uint64_t written = 0, refused = 0;
    const struct layout *layout = &layouts[0];
    for (uint64_t i = 0; i < pages; i++) {
        if (i % 1000 == 0) {
            layout = &layouts[random_below(&draw, LAYOUTS)];
            use(layout);
            code.page_bytes = 512;
            program();
        }
        uint8_t kept_spare[SPARE_BYTES], flipped[4] = {0};
        uint32_t bytes = page_code_bytes(&code),
                 wrong = random_below(&draw, 4) == 0 ? random_below(&draw, bytes + 1) : random_below(&draw, code.check_bytes);
        uint32_t places[4], data_flips = random_below(&draw, 2) == 0 ? 1 + random_below(&draw, 4) : 0, changed = 0;
        uint32_t first = random_below(&draw, code.page_bytes);
        memcpy(kept_spare, spare, sizeof spare);
        for (uint32_t j = 0; j < wrong; j++) /* the same random place twice may be right again */
            *place_of(random_below(&draw, bytes)) ^= (uint8_t)(1 + random_below(&draw, 255));
        for (uint32_t j = 0; j < SPARE_BYTES; j++)
            changed += spare[j] != kept_spare[j];
        for (uint32_t j = 0; j < data_flips; j++) {
            places[j] = (first + 97 * j) % code.page_bytes;
            flipped[j] = (uint8_t)(1u << random_below(&draw, 8));
            data[places[j]] ^= flipped[j];
        }
        int kind = page_code_read(&code, data, spare, there, NULL);
        if (kind == FLASH_WRITTEN) {
            written++;
            check(memcmp(there, tag, code.tag_bytes) == 0, "another tag is read as written, page %llu", (unsigned long long)i);
            check(data_flips == 0, "other data is read as written, page %llu", (unsigned long long)i);
        } else {
            refused++;
            check(kind == FLASH_UNCORRECTABLE, "a programmed page reads as erased");
        }
        check(data_flips > 0 || changed > code.check_bytes / 2 || kind == FLASH_WRITTEN, "%u bytes are not corrected", changed);
        for (uint32_t j = 0; j < data_flips; j++)
            data[places[j]] ^= flipped[j];
        memcpy(spare, kept_spare, sizeof spare);
    }
    printf("  %llu pages with random errors: %llu read as programmed, %llu uncorrectable, none otherwise\n",
           (unsigned long long)pages, (unsigned long long)written, (unsigned long long)refused);
}

/* Spare areas of random bytes, also with a tag and its CRC, and of few bits that are 0: none is read as written. */
static void drawn_spare_areas(uint64_t pages)
{
    uint64_t erased = 0;
    for (uint64_t i = 0; i < pages; i++) {
        if (i % 1000 == 0) {
            use(&layouts[random_below(&draw, LAYOUTS)]);
            code.page_bytes = 512;
            program();
        }
        uint32_t form = random_below(&draw, 3);
        memset(spare, 0xff, sizeof spare);
        if (form == 0) {
            draw_bytes(spare, sizeof spare);
        } else if (form == 1) { /* the right tag and CRC, and random bytes in the place of the check bytes */
            page_code_write(&code, data, tag, spare);
            for (uint32_t at = code.tag_bytes + PAGE_CODE_CRC_BYTES; at < page_code_bytes(&code); at++)
                *place_of(at) = (uint8_t)random_below(&draw, 256);
            *place_of(random_below(&draw, code.tag_bytes)) ^= (uint8_t)(1 + random_below(&draw, 255));
        } else {
            for (uint32_t bits = random_below(&draw, 12); bits > 0; bits--)
                spare[random_below(&draw, SPARE_BYTES)] &= (uint8_t) ~(1u << random_below(&draw, 8));
        }
        int kind = page_code_read(&code, data, spare, there, NULL);
        erased += kind == FLASH_ERASED;
        check(kind == FLASH_UNCORRECTABLE || (kind == FLASH_WRITTEN && memcmp(there, tag, code.tag_bytes) == 0),
              "random bytes read as a page, page %llu", (unsigned long long)i);
    }
    printf("  %llu spare areas of random bytes: none is read as a page that was not programmed\n", (unsigned long long)pages);
    check(erased == 0, "a page with data reads as erased");
}

/* ---- Erased pages, and pages that were programmed in part. */

static int kind_of(void)
{
    return page_code_read(&code, data, spare, there, NULL);
}

static void flip_one(uint8_t *byte, uint32_t bit)
{
    uint32_t zeros;
    *byte ^= (uint8_t)(1u << bit % 8);
    int kind = page_code_read(&code, data, spare, there, &zeros);
    check(kind == FLASH_ERASED && zeros == 1, "bit %u of an erased page flipped", bit);
    *byte = 0xff;
}

/* Each bit of the envelope flips, and of the data each of 512 bytes, and some of more. */
static void erased_pages(void)
{
    uint32_t step = code.page_bytes > 512 ? 7 : 1;
    memset(data, 0xff, sizeof data);
    memset(spare, 0xff, sizeof spare);
    check(kind_of() == FLASH_ERASED, "an erased page");
    for (uint32_t bit = 0; bit < 8 * code.page_bytes; bit += step)
        flip_one(&data[bit / 8], bit);
    for (uint32_t bit = 0; bit < 8 * page_code_bytes(&code); bit++)
        flip_one(place_of(bit / 8), bit);
    for (int tries = 0; tries < 200; tries++) {
        uint32_t bits = 0;
        while (bits <= code.erased_bits) {
            uint32_t bit = random_below(&draw, 8 * (code.page_bytes + page_code_bytes(&code)));
            uint8_t *byte = bit / 8 < code.page_bytes ? &data[bit / 8] : place_of(bit / 8 - code.page_bytes);
            bits += *byte >> bit % 8 & 1;
            *byte &= (uint8_t) ~(1u << bit % 8);
            check(kind_of() == (bits <= code.erased_bits ? FLASH_ERASED : FLASH_UNCORRECTABLE), "an erased page with %u bits of 0",
                  bits);
        }
        memset(data, 0xff, sizeof data);
        memset(spare, 0xff, sizeof spare);
    }
}

static void pages_in_part(void)
{
    static uint8_t whole[MOST_DATA], whole_spare[SPARE_BYTES];
    size_t bytes = code.page_bytes;
    program();
    memcpy(whole, data, bytes);
    memcpy(whole_spare, spare, sizeof spare);
    memset(data, 0xff, bytes);
    check(kind_of() == FLASH_UNCORRECTABLE, "the tag was programmed and no data");
    memcpy(data, whole, bytes / 2);
    check(kind_of() == FLASH_UNCORRECTABLE, "the tag was programmed and half of the data");
    memcpy(data, whole, bytes);
    memset(spare, 0xff, sizeof spare);
    check(kind_of() == FLASH_UNCORRECTABLE, "the data was programmed and no tag");
    for (uint32_t at = 0; at < page_code_bytes(&code) / 2; at++)
        *place_of(at) = whole_spare[place_of(at) - spare];
    check(kind_of() == FLASH_UNCORRECTABLE, "the data was programmed and half of the tag");
    memset(data, 0, bytes);
    memset(spare, 0, sizeof spare);
    check(kind_of() == FLASH_UNCORRECTABLE, "all bits are 0");
    memcpy(data, whole, bytes);
    memcpy(spare, whole_spare, sizeof spare);
    for (uint32_t byte = 0; byte < bytes; byte++) { /* each single bit that was not programmed */
        uint8_t bit = (uint8_t)(~data[byte] & (data[byte] + 1));
        data[byte] |= bit;
        check(bit == 0 || kind_of() == FLASH_UNCORRECTABLE, "a bit of byte %u of the data was not programmed", byte);
        data[byte] &= (uint8_t)~bit;
    }
    check(reads_as_programmed(), "the whole page");
}

/* A tag and data of 0xff bytes but for one bit: a program of them is not taken for an erased page. */
static void pages_of_few_zeros(void)
{
    memset(data, 0xff, sizeof data);
    memset(tag, 0xff, sizeof tag);
    memset(spare, 0xff, sizeof spare);
    for (uint32_t bit = 0; bit < 8 * code.tag_bytes; bit++) {
        tag[bit / 8] ^= (uint8_t)(1u << bit % 8);
        page_code_write(&code, data, tag, spare);
        check(reads_as_programmed(), "a tag whose bit %u alone is 0", bit);
        tag[bit / 8] = 0xff;
    }
    page_code_write(&code, data, tag, spare);
    check(reads_as_programmed(), "a tag of 0xff bytes");
}

int main(int count, char **words)
{
    uint64_t pages = count > 1 ? strtoull(words[1], NULL, 10) : 1000000, one = 0, two = 0;
    bool all = count > 3 && strcmp(words[3], "all") == 0;
    draw.state = count > 2 ? strtoull(words[2], NULL, 10) : 1;
    worked_rows();
    layouts_that_are_refused();
    for (size_t i = 0; i < LAYOUTS; i++) {
        use(&layouts[i]);
        runs_that_split();
        erased_pages();
        pages_in_part();
        pages_of_few_zeros();
        code.page_bytes = 512; /* what lies in the envelope does not depend on it */
        one += errors_of_one_byte();
        if (code.check_bytes >= 4)
            two += errors_of_two_bytes(pages, all);
    }
    printf("  %d layouts; %llu errors of one byte and %llu of two are corrected\n", LAYOUTS, (unsigned long long)one,
           (unsigned long long)two);
    drawn_errors(pages);
    drawn_spare_areas(pages / 4 + 1);
    return 0;
}
