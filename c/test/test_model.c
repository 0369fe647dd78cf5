/* Random calls on volumes of several sizes: each returns and fills what the model does. Now and then the volume is unmounted and
 * mounted again in both ways, and shows the model's tree. Some of the programs and erases fail.
 *
 *   test_model [CALLS] [SEED]
 *
 * Compiled with REGION, and flash_heap.c, the memory of the library is a region of one megabyte.
 */
#include "commands.h"
#include "ram_nand.h"

#ifdef REGION
#include "flash_heap.h"
#endif

#include <stdio.h>
#include <stdlib.h>

static struct flash_fs fs;

struct sizes {
    uint32_t page_bytes, block_pages, blocks, spare, tag_bytes, cache_pages;
    size_t most;    /* about the most bytes of a write */
    bool failures;  /* whether calls of the device fail */
};

static void mount_again(struct ram_nand *nand, struct model *model, const struct sizes *sizes, uint64_t call)
{
    int64_t code;
    check(flash_fs_unmount(&fs) == 0, "call %llu: unmount", (unsigned long long)call);
    model_settle(model);
    ram_nand_power_up(nand);
    for (uint64_t way = call; way < call + 2; way++) { /* the calls after it go on from the one or the other */
        flash_fs_abandon(&fs);
        int mounted = way % 2 == 0 ? flash_fs_mount_scanned(&fs, &nand->driver, sizes->cache_pages)
                                   : flash_fs_mount_with(&fs, &nand->driver, sizes->cache_pages);
        check(mounted == 0, "call %llu: mount", (unsigned long long)call);
        uint64_t there = volume_tree(&fs, &code);
        check(code == 0 && there == model_tree(model), "call %llu: the tree after a mount", (unsigned long long)call);
    }
}

static void run(const struct sizes *sizes, uint64_t calls, uint64_t seed)
{
    struct ram_nand nand;
    struct draw draw = {seed};
    struct model *model = model_make(sizes->page_bytes, sizes->block_pages, sizes->blocks, sizes->spare);
    uint64_t counts[WHATS] = {0}, done[WHATS] = {0}, mounts = 1, failures = 0;
    check(ram_nand_make(&nand, sizes->page_bytes, sizes->block_pages, sizes->blocks) == 0, "memory");
    nand.driver.tag_bytes = sizes->tag_bytes;
    check(flash_fs_format(&fs, &nand.driver, sizes->spare) == 0, "format");
    check(flash_fs_mount_with(&fs, &nand.driver, sizes->cache_pages) == 0, "mount");
    for (uint64_t i = 0; i < calls; i++) {
        struct command command = draw_command(&draw, sizes->most);
        if (sizes->failures && failures < sizes->spare && random_below(&draw, 700) == 0) {
            nand.fail_at[0] = nand.calls + 1 + random_below(&draw, 30);
            nand.fate = (enum ram_nand_fate)random_below(&draw, RAM_NAND_FATES);
        }
        struct outcome wanted = do_on_model(model, &command, NULL, NULL), there = do_on_volume(&fs, &command);
        if (there.code != wanted.code || there.filled != wanted.filled || nand.misuse != NULL) {
            show_command(&command);
            check(nand.misuse == NULL, "call %llu of seed %llu: the driver was misused: %s", (unsigned long long)i,
                  (unsigned long long)seed, nand.misuse);
            check(false, "call %llu of seed %llu returned %lld, and the model %lld%s", (unsigned long long)i,
                  (unsigned long long)seed, (long long)there.code, (long long)wanted.code,
                  there.code == wanted.code ? ", or filled other bytes" : "");
        }
        failures = nand.counts.marks;
        counts[command.what]++;
        done[command.what] += there.code >= 0;
        if (random_below(&draw, 200) == 0) {
            mount_again(&nand, model, sizes, i);
            mounts++;
        }
    }
    mount_again(&nand, model, sizes, calls);
    check(flash_fs_unmount(&fs) == 0 && nand.misuse == NULL, "the end");
    printf("  %u x %u x %u: %llu calls as the model, %llu mounts, %llu blocks went bad; done of each:", sizes->blocks,
           sizes->block_pages, sizes->page_bytes, (unsigned long long)calls, (unsigned long long)mounts,
           (unsigned long long)failures);
    for (int what = 0; what < WHATS; what++)
        printf(" %s %llu/%llu", name_of((enum what)what), (unsigned long long)done[what], (unsigned long long)counts[what]);
    printf("\n");
    ram_nand_free(&nand);
    model_free(model);
}

int main(int count, char **words)
{
    static const struct sizes all[] = {
        {512, 32, 16, 2, 48, 16, 3000, false}, {512, 32, 8, 1, 24, 0, 9000, false}, {512, 64, 24, 4, 24, 2, 5000, true},
        {2048, 64, 16, 2, 48, 16, 40000, true}, {1024, 32, 12, 3, 48, 1, 3000, true}, {4096, 32, 9, 1, 24, 16, 90000, false},
    };
    uint64_t calls = count > 1 ? strtoull(words[1], NULL, 10) : 10000, seed = count > 2 ? strtoull(words[2], NULL, 10) : 1;
#ifdef REGION
    static uint8_t region[1 << 20];
    flash_heap_give(region, sizeof region);
#endif
    for (size_t i = 0; i < sizeof all / sizeof *all; i++)
        run(&all[i], calls, seed * 1000 + i);
#ifdef REGION
    check(flash_heap_used() == 0, "memory is left");
    printf("  at most %zu bytes of the region were in use\n", flash_heap_peak());
#endif
    return 0;
}
