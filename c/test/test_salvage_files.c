/* What is left of a volume of 200 files in ten directories: each page lost in turn, and random pairs. All that the lost page is not of
 * is there, whole and by its name; of what it is of exactly that is missing, or an older page of it is shown.
 *
 *   test_salvage_files [EVERY] [PAIRS] [SEED]     each page whose number EVERY divides
 */
#include "commands.h"
#include "ram_nand.h"

#include <stdio.h>
#include <stdlib.h>
#include <string.h>

enum { PAGE = 512, PAGES = 32, BLOCKS = 64, DIRECTORIES = 10, FILES = 200, OBJECTS = DIRECTORIES + FILES + 2 };

static struct flash_fs fs;
static struct flash_salvage left;
static struct ram_nand nand, whole;

/* The objects by their numbers: a directory's and a file's, or -1. */
static int directory_of[OBJECTS], file_of[OBJECTS];

static size_t size_of(int file)
{
    return (size_t)file * 37 % (4 * PAGE);
}

static uint8_t byte_of(int file, size_t at)
{
    return (uint8_t)(1 + ((size_t)file * 7 + at * 31 + at / 251) % 255);
}

static void make_volume(void)
{
    char path[32];
    static uint8_t bytes[4 * PAGE];
    check(ram_nand_make(&whole, PAGE, PAGES, BLOCKS) == 0, "memory");
    check(flash_fs_format(&fs, &whole.driver, 2) == 0 && flash_fs_mount(&fs, &whole.driver) == 0, "a volume");
    memset(directory_of, 0xff, sizeof directory_of);
    memset(file_of, 0xff, sizeof file_of);
    for (int i = 0; i < DIRECTORIES + FILES; i++) {
        struct flash_info info;
        int file = i - DIRECTORIES;
        snprintf(path, sizeof path, file < 0 ? "/d%d" : "/d%d/f%d", (file < 0 ? i : file) % DIRECTORIES, file);
        if (file < 0) {
            check(flash_fs_mkdir(&fs, path, 5) == 0, "a directory");
        } else {
            for (size_t at = 0; at < size_of(file); at++)
                bytes[at] = byte_of(file, at);
            int fd = flash_fs_open(&fs, path, FLASH_WRONLY | FLASH_CREAT, 6);
            check(flash_fs_write(&fs, fd, bytes, size_of(file), 6) == (int64_t)size_of(file), "a write");
            check(flash_fs_close(&fs, fd) == 0, "a close");
        }
        check(flash_fs_stat(&fs, path, &info) == 0 && info.object < OBJECTS, "an object");
        if (file < 0)
            directory_of[info.object] = i;
        else
            file_of[info.object] = file;
    }
    check(flash_fs_sync(&fs) == 0, "a sync");
    flash_fs_abandon(&fs);
}

static uint64_t number_at(const uint8_t *bytes)
{
    uint64_t number = 0;
    for (int i = 7; i >= 0; i--)
        number = number << 8 | bytes[i];
    return number;
}

/* What one salvage shows: how much of each file and directory is there. */
enum there { UNREACHED, HEADER_LOST, PART_LOST, ALL };
struct shown {
    enum there files[FILES], directories[DIRECTORIES];
    int lost_pages[FILES];
    bool root;
};

static void read_file(struct shown *shown, int file, uint64_t object)
{
    struct flash_salvaged info;
    uint8_t bytes[PAGE];
    int code = flash_fs_salvage_stat(&left, object, &info);
    if (code == FLASH_ENOENT) {
        shown->files[file] = HEADER_LOST;
        return;
    }
    check(code == 0 && info.kind == FLASH_FILE, "a stat");
    bool all = info.size == size_of(file); /* an older header may say less */
    check(info.size <= size_of(file), "a size");
    for (size_t at = 0; at < info.size; at += PAGE) {
        int64_t count = flash_fs_salvage_read(&left, object, at, bytes, sizeof bytes);
        size_t size = info.size - at < PAGE ? (size_t)info.size - at : PAGE;
        check(count == FLASH_ELOST || count == (int64_t)size, "a read");
        shown->lost_pages[file] += count == FLASH_ELOST;
        for (int64_t i = 0; i < count; i++)
            check(bytes[i] == byte_of(file, at + (size_t)i), "byte %zu of file %d", at + (size_t)i, file);
    }
    shown->files[file] = all && shown->lost_pages[file] == 0 ? ALL : PART_LOST;
}

static void read_directory(struct shown *shown, int directory, uint64_t object)
{
    static uint8_t names[8192];
    uint64_t lost;
    int64_t size = flash_fs_salvage_list(&left, object, names, sizeof names, &lost);
    if (size == FLASH_ENOENT) {
        shown->directories[directory] = HEADER_LOST;
        return;
    }
    check(size >= 0, "a list");
    shown->directories[directory] = lost == 0 ? ALL : PART_LOST;
    for (int64_t at = 0; at < size; at += 8 + (int64_t)strlen((const char *)names + at + 8) + 1) {
        int file = atoi((const char *)names + at + 9);
        uint64_t found = number_at(names + at);
        check(found < OBJECTS && file_of[found] == file && file % DIRECTORIES == directory, "a name leads to its file");
        read_file(shown, file, found);
    }
}

static struct shown look(void)
{
    static uint8_t names[4096];
    struct shown shown = {0};
    uint64_t lost, orphans[OBJECTS];
    check(flash_fs_salvage_open(&left, &nand.driver) == 0, "an open");
    int64_t size = flash_fs_salvage_list(&left, 1, names, sizeof names, &lost);
    shown.root = size >= 0 && lost == 0;
    for (int64_t at = 0; at < size; at += 8 + (int64_t)strlen((const char *)names + at + 8) + 1) {
        uint64_t found = number_at(names + at);
        check(found < OBJECTS && directory_of[found] == atoi((const char *)names + at + 9), "a name leads to its directory");
        read_directory(&shown, directory_of[found], found);
    }
    /* What no directory names is found all the same. */
    int64_t count = flash_fs_salvage_orphans(&left, orphans, OBJECTS);
    check(count >= 0 && count <= OBJECTS, "orphans");
    for (int64_t i = 0; i < count; i++) {
        uint64_t object = orphans[i];
        if (object < OBJECTS && file_of[object] >= 0) {
            check(shown.files[file_of[object]] == UNREACHED, "an orphan that is named");
            read_file(&shown, file_of[object], object);
        } else if (object < OBJECTS && directory_of[object] >= 0) {
            check(shown.directories[directory_of[object]] == UNREACHED, "a directory that is named");
            read_directory(&shown, directory_of[object], object);
        }
    }
    flash_fs_salvage_close(&left);
    return shown;
}

struct tag {
    uint64_t object, chunk;
};

static struct tag tag_of(uint32_t page)
{
    const uint8_t *bytes = whole.tags + (size_t)page * FLASH_TAG_BYTES;
    return (struct tag){number_at(bytes + 8), number_at(bytes + 16)};
}

static int count_of(struct tag tag)
{
    int count = 0;
    for (uint32_t page = 0; page < PAGES * BLOCKS; page++)
        if (whole.kinds[page] == FLASH_WRITTEN) {
            struct tag there = tag_of(page);
            count += there.object == tag.object && there.chunk == tag.chunk;
        }
    return count;
}

/* Whether a page behind this one in its block is written: else nobody knows that its group was completed. */
static bool has_behind(uint32_t page)
{
    for (uint32_t next = page + 1; next % PAGES != 0; next++)
        if (whole.kinds[next] == FLASH_WRITTEN)
            return true;
    return false;
}

/* Where the page is the only one of its key, exactly what it had is missing; each file that the loss is not of is there, all of it. */
static bool is_loss(uint32_t page, const struct shown *shown)
{
    struct tag tag = tag_of(page);
    int file = tag.object < OBJECTS ? file_of[tag.object] : -1;
    for (int i = 0; i < FILES; i++)
        if (i != file)
            check(shown->files[i] == ALL, "file %d, where page %u is lost", i, page);
    if (file < 0 || count_of(tag) > 1)
        return false;
    check(tag.chunk == 0 ? shown->files[file] == HEADER_LOST || shown->files[file] == UNREACHED
                         : shown->files[file] == PART_LOST && shown->lost_pages[file] == 1,
          "what is lost of file %d with page %u", file, page);
    return true;
}

static void lose(uint32_t page)
{
    ram_nand_lose(&nand, page / PAGES, page % PAGES);
}

int main(int count, char **words)
{
    uint32_t every = count > 1 ? (uint32_t)atoi(words[1]) : 1, written[PAGES * BLOCKS], pages = 0;
    int pairs = count > 2 ? atoi(words[2]) : 300, lost = 0, exact = 0;
    struct draw draw = {count > 3 ? strtoull(words[3], NULL, 10) : 1};
    make_volume();
    check(ram_nand_make(&nand, PAGE, PAGES, BLOCKS) == 0, "memory");
    for (uint32_t page = 0; page < PAGES * BLOCKS; page++)
        if (whole.kinds[page] == FLASH_WRITTEN && has_behind(page))
            written[pages++] = page;
    for (uint32_t i = 0; i < pages; i += every) {
        ram_nand_copy(&nand, &whole);
        lose(written[i]);
        int code = flash_fs_mount(&fs, &nand.driver);
        flash_fs_abandon(&fs);
        ram_nand_power_up(&nand);
        if (code == 0)
            continue; /* an older tree is whole without the page's group, or the page is stale: that tree is shown */
        struct shown shown = look();
        exact += is_loss(written[i], &shown);
        lost++;
    }
    for (int i = 0; i < pairs; i++) {
        uint32_t one = written[random_below(&draw, pages)], other = written[random_below(&draw, pages)];
        struct tag first = tag_of(one), second = tag_of(other);
        ram_nand_copy(&nand, &whole);
        lose(one);
        lose(other);
        int code = flash_fs_mount(&fs, &nand.driver);
        flash_fs_abandon(&fs);
        ram_nand_power_up(&nand);
        if (code == 0)
            continue;
        struct shown shown = look();
        for (int file = 0; file < FILES; file++) {
            bool is_of = (first.object < OBJECTS && file_of[first.object] == file) || (second.object < OBJECTS && file_of[second.object] == file);
            check(is_of || shown.files[file] == ALL, "file %d, where pages %u and %u are lost", file, one, other);
        }
    }
    printf("  %u pages, of which %d make a mount damaged, and %d are the only one of a file's part; %d pairs\n", pages, lost, exact, pairs);
    check(nand.counts.programs + nand.counts.erases + nand.counts.marks == 0 && nand.misuse == NULL, "it is only read");
    check(exact > 0, "pages that are the only one");
    ram_nand_free(&nand);
    ram_nand_free(&whole);
    return 0;
}
