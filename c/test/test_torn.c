/* The library over drivers that keep the envelope of a page, on a flash in memory whose pages and blocks are left torn by cuts, in
 * twelve ways: test_torn [SESSIONS] [SEED]
 */
#include "coded_nand.h"
#include "sessions.h"

#include <stdio.h>
#include <stdlib.h>

static struct coded_nand coded;
static struct cut_nand cut;

static const struct layout {
    const char *name;
    struct flash_driver sizes;
    uint32_t spare_bytes, tag_bytes, run_count;
    struct page_run runs[4];
} layouts[] = {
    {"2,048 + 64, 54 free", {.page_bytes = 2048, .block_pages = 64, .blocks = 9}, 64, 48, 1, {{2, 54}}},
    {"2,048 + 64, 34 free, tags of 24 bytes", {.page_bytes = 2048, .block_pages = 64, .blocks = 9}, 64, 24, 1, {{2, 34}}},
    {"2,048 + 128, 74 free", {.page_bytes = 2048, .block_pages = 64, .blocks = 9}, 128, 48, 1, {{2, 74}}},
    {"4,096 + 128, 70 free", {.page_bytes = 4096, .block_pages = 32, .blocks = 9}, 128, 48, 1, {{2, 70}}},
    {"512 + 128, four runs of 20",
     {.page_bytes = 512, .block_pages = 32, .blocks = 17},
     128,
     48,
     4,
     {{4, 20}, {36, 20}, {68, 20}, {100, 20}}},
};

static void torn(const struct layout *layout, int count, uint64_t seed)
{
    static const unsigned ways[CUT_NAND_WAYS] = {0, 1, 2, 3, 4, 5, 6, 7, 8, 9, 10, 11};
    check(coded_nand_make(&coded, &layout->sizes, layout->spare_bytes, layout->tag_bytes, layout->runs, layout->run_count) == 0,
          "runs");
    check(cut_nand_make(&cut, &coded.driver, &coded.raw) == 0, "memory");
    struct sessions sessions = {&cut, 1, count, 45, layout->sizes.page_bytes * 7, seed, ways, CUT_NAND_WAYS};
    struct session_counts counts = do_sessions(&sessions);
    check(counts.stops == 0, "the volume stopped by itself");
    printf("  %s: %d sessions, %llu calls as the model, %llu cuts\n", layout->name, count, (unsigned long long)counts.calls,
           (unsigned long long)counts.cuts);
    cut_nand_free(&cut);
    coded_nand_free(&coded);
}

int main(int count, char **words)
{
    int sessions = count > 1 ? atoi(words[1]) : 200;
    uint64_t seed = count > 2 ? strtoull(words[2], NULL, 10) : 1;
    for (size_t i = 0; i < sizeof layouts / sizeof *layouts; i++)
        torn(&layouts[i], sessions, seed * 1000 + i);
    return 0;
}
