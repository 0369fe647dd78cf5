/* Shows what is left of a damaged volume in an image file, each object with its number, and what is lost: salvage IMAGE. */
#include "file_nand.h"
#include "flash_fs.h"

#include <stdio.h>
#include <stdlib.h>
#include <string.h>

enum { DEPTH = 20, MOST = 1000 };

static struct flash_salvage left;
static struct file_nand nand;

static void expect(int64_t code, const char *what)
{
    if (code >= 0)
        return;
    fprintf(stderr, "%s: error %lld\n", what, (long long)code);
    exit(1);
}

/* How many bytes of a file are lost. A program that keeps the others has them here, page by page. */
static long long lost_of(uint64_t file, int64_t size)
{
    static uint8_t bytes[4096];
    int64_t lost = 0, page = nand.driver.page_bytes;
    for (int64_t at = 0, count = 1; count > 0 && at < size; at += count) {
        count = flash_fs_salvage_read(&left, file, (uint64_t)at, bytes, sizeof bytes);
        if (count == FLASH_ELOST) {
            count = page - at % page < size - at ? page - at % page : size - at;
            lost += count;
        }
        expect(count, "a read");
    }
    return lost;
}

static void show(const char *path, unsigned long long object, int depth)
{
    static uint8_t names[DEPTH][65536];
    struct flash_salvaged info;
    uint64_t lost = 0;
    int code = flash_fs_salvage_stat(&left, object, &info);
    if (code == FLASH_ENOENT)
        printf("%5llu: its header is lost           %s\n", object, path);
    else
        expect(code, path);
    if (code == 0 && info.kind == FLASH_FILE)
        printf("%5llu: %10lld bytes, %5lld lost %s\n", object, (long long)info.size, lost_of(object, (int64_t)info.size), path);
    if (code != 0 || info.kind == FLASH_FILE || depth == DEPTH)
        return;
    int64_t size = flash_fs_salvage_list(&left, object, names[depth], sizeof names[depth], &lost);
    expect(size, path);
    printf("%5llu: %10llu names, %5llu lost %s/\n", object, (unsigned long long)info.size, (unsigned long long)lost, path);
    for (const uint8_t *at = names[depth]; at < names[depth] + size; at += 8 + strlen((const char *)at + 8) + 1) {
        char below[4096];
        uint64_t named = 0;
        for (int i = 7; i >= 0; i--)
            named = named << 8 | at[i];
        snprintf(below, sizeof below, "%s/%s", path, (const char *)at + 8);
        show(below, named, depth + 1);
    }
}

int main(int count, char **words)
{
    static uint64_t orphans[MOST];
    static struct flash_place places[MOST];
    expect(count == 2 ? file_nand_open(&nand, words[1]) : FLASH_EINVAL, "salvage IMAGE");
    expect(flash_fs_salvage_open(&left, &nand.driver), words[1]);
    show("", 1, 0);
    int64_t unnamed = flash_fs_salvage_orphans(&left, orphans, MOST), lost = flash_fs_salvage_lost(&left, places, MOST);
    expect(unnamed, "the objects that nothing names");
    for (int64_t i = 0; i < unnamed && i < MOST; i++)
        show("no name", orphans[i], 0);
    for (int64_t i = 0; i < lost && i < MOST; i++)
        printf("lost page: block %u, page %u\n", places[i].block, places[i].page);
    flash_fs_salvage_close(&left);
    file_nand_close(&nand);
}
