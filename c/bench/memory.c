/* The memory and the stack that volumes take, as a table: bytes that the library holds (as it asks for them, without what an
 * allocator adds), and the greatest depth of the stack in any call, with that of the flash in memory.
 */
#define _DEFAULT_SOURCE

#include "flash_fs.h"
#include "flash_memory.h"
#include "ram_nand.h"

#include <stdio.h>
#include <stdlib.h>
#include <string.h>
#include <ucontext.h>

/* ---- The memory of the library, measured. */

static struct {
    size_t now, peak, blocks;
} memory;

static uint8_t nothing;

static void count(size_t more, size_t fewer)
{
    memory.now = memory.now + more - fewer;
    if (memory.now > memory.peak)
        memory.peak = memory.now;
}

/* A block has its size in 16 bytes before it. */
struct flash_memory flash_memory_alloc(size_t bytes, size_t align)
{
    (void)align;
    uint8_t *at = malloc(bytes + 16);
    if (at == NULL)
        return (struct flash_memory){false, &nothing};
    memcpy(at, &bytes, sizeof bytes);
    count(bytes, 0);
    memory.blocks++;
    return (struct flash_memory){true, at + 16};
}

static size_t size_of(const uint8_t *at)
{
    size_t bytes;
    memcpy(&bytes, at - 16, sizeof bytes);
    return bytes;
}

void flash_memory_dealloc(uint8_t *at)
{
    count(0, size_of(at));
    memory.blocks--;
    free(at - 16);
}

/* As one that moves: for a moment both blocks are there. */
struct flash_memory flash_memory_realloc(uint8_t *at, size_t preserved, size_t bytes, size_t align)
{
    struct flash_memory moved = flash_memory_alloc(bytes, align);
    if (moved.given) {
        memcpy(moved.at, at, preserved < bytes ? preserved : bytes);
        flash_memory_dealloc(at);
    }
    return moved;
}

/* ---- The stack: calls run on one that was painted. */

enum { STACK = 1 << 20, PAINT = 0xa5 };
static uint8_t stack[STACK];
static ucontext_t here, there;
static void (*to_run)(void);

static void start(void)
{
    to_run();
}

/* Returns how many bytes of the stack were used. */
static size_t on_painted_stack(void (*function)(void))
{
    memset(stack, PAINT, sizeof stack);
    to_run = function;
    getcontext(&there);
    there.uc_stack.ss_sp = stack;
    there.uc_stack.ss_size = sizeof stack;
    there.uc_link = &here;
    makecontext(&there, start, 0);
    swapcontext(&here, &there);
    size_t untouched = 0;
    while (untouched < STACK && stack[untouched] == PAINT)
        untouched++;
    return STACK - untouched;
}

/* ---- The work. */

static struct flash_fs fs;
static struct ram_nand nand;
static uint32_t spare;
static int code;
static uint8_t bytes[65536];

static void expect(bool holds, const char *what)
{
    if (!holds) {
        fprintf(stderr, "not so: %s (%d)\n", what, code);
        exit(1);
    }
}

static void format(void) { code = flash_fs_format(&fs, &nand.driver, spare); }
static void mount(void) { code = flash_fs_mount(&fs, &nand.driver); }
static void unmount(void) { code = flash_fs_unmount(&fs); }

/* Files of at most so many bytes, in directories of a hundred, until so many of a hundred units are in use. */
static unsigned percent = 80;
static size_t file_bytes;

static void fill(void)
{
    char path[64];
    struct flash_space space;
    for (int i = 0;; i++) {
        expect(flash_fs_space(&fs, &space) == 0, "space");
        if ((space.total - space.free) * 100 >= space.total * percent)
            break;
        if (i % 100 == 0) {
            snprintf(path, sizeof path, "/d%d", i / 100);
            expect(flash_fs_mkdir(&fs, path, 1) == 0, "mkdir");
        }
        snprintf(path, sizeof path, "/d%d/f%d", i / 100, i);
        int fd = flash_fs_open(&fs, path, FLASH_WRONLY | FLASH_CREAT, 1);
        for (size_t done = 0; done < file_bytes; done += sizeof bytes) {
            size_t part = file_bytes - done < sizeof bytes ? file_bytes - done : sizeof bytes;
            expect(flash_fs_write(&fs, fd, bytes, part, 1) == (int64_t)part, "write");
        }
        expect(flash_fs_close(&fs, fd) == 0, "close");
    }
    code = flash_fs_sync(&fs);
}

/* All kinds of calls, with many changes, so that blocks are collected. */
static void work(void)
{
    struct flash_info info;
    char names[4096];
    expect((code = flash_fs_mkdir(&fs, "/work", 2)) == 0, "mkdir");
    for (int i = 0; i < 3000; i++) {
        int fd = flash_fs_open(&fs, "/work/new", FLASH_RDWR | FLASH_CREAT | FLASH_TRUNC, 2);
        expect(flash_fs_write(&fs, fd, bytes, 3000, 2) == 3000 && flash_fs_seek(&fs, fd, 1000, FLASH_SEEK_SET) == 1000, "write");
        expect(flash_fs_pwrite(&fs, fd, bytes, 500, 100, 2) == 500 && flash_fs_pread(&fs, fd, bytes, 500, 100) == 500 &&
                   flash_fs_fstat(&fs, fd, &info) == 0,
               "pwrite");
        expect(flash_fs_truncate(&fs, fd, 2000, 2) == 0 && flash_fs_fsync(&fs, fd) == 0 && flash_fs_close(&fs, fd) == 0, "truncate");
        expect(flash_fs_rename(&fs, "/work/new", "/work/old", 2) == 0 && flash_fs_stat(&fs, "/work/old", &info) == 0, "rename");
        expect(flash_fs_list(&fs, "/work", names, sizeof names) == 4, "list");
        fd = flash_fs_open(&fs, "/work/old", FLASH_RDONLY, 0);
        expect(flash_fs_read(&fs, fd, bytes, 4000) == 2000 && flash_fs_close(&fs, fd) == 0, "read");
        if (i % 7 == 0)
            expect(flash_fs_link(&fs, "/work/old", "/work/link", 2) == 0 && flash_fs_unlink(&fs, "/work/link", 2) == 0 &&
                       flash_fs_sync(&fs) == 0,
                   "link");
    }
    expect((code = flash_fs_unlink(&fs, "/work/old", 2)) == 0 && (code = flash_fs_rmdir(&fs, "/work", 2)) == 0, "rmdir");
}

/* The greatest depth of the stack in a mount, a format or an unmount, and in other calls. */
static size_t deepest, deepest_call;

static size_t peak_of(void (*function)(void))
{
    memory.peak = memory.now;
    size_t depth = on_painted_stack(function), *greatest = function == work || function == fill ? &deepest_call : &deepest;
    if (depth > *greatest)
        *greatest = depth;
    expect(code == 0, "a call");
    return memory.peak;
}

static void measure(uint32_t page_bytes, uint32_t block_pages, uint32_t blocks, uint32_t kept_for_bad)
{
    struct flash_space space;
    spare = kept_for_bad;
    percent = 80;
    file_bytes = blocks < 64 ? 5000 : sizeof bytes;
    deepest = deepest_call = 0;
    expect(ram_nand_make(&nand, page_bytes, block_pages, blocks) == 0, "memory");
    size_t formatting = peak_of(format), empty_mount = peak_of(mount), empty = memory.now;
    size_t empty_work = peak_of(work), after_work = memory.now;
    peak_of(fill);
    peak_of(unmount);
    expect(memory.now == 0 && memory.blocks == 0, "memory is left");
    ram_nand_power_up(&nand);
    size_t full_mount = peak_of(mount), full = memory.now;
    expect(flash_fs_space(&fs, &space) == 0, "space");
    size_t full_work = peak_of(work), after_full_work = memory.now;
    peak_of(unmount);
    printf("| %u x %u x %u | %zu | %zu | %zu | %zu | %zu | %llu | %zu | %zu | %zu | %zu | %zu | %zu |\n", blocks, block_pages, page_bytes,
           formatting, empty_mount, empty, empty_work, after_work, (unsigned long long)(space.total - space.free), full_mount, full,
           full_work, after_full_work, deepest, deepest_call);
    ram_nand_free(&nand);
}

/* What a page in use takes, besides what the volume takes without files. */
static void measure_pages(uint32_t blocks, unsigned full, size_t size)
{
    struct flash_space space;
    spare = blocks / 50;
    percent = full;
    file_bytes = size;
    expect(ram_nand_make(&nand, 2048, 64, blocks) == 0, "memory");
    peak_of(format);
    peak_of(mount);
    size_t empty = memory.now;
    peak_of(fill);
    flash_fs_abandon(&fs);
    ram_nand_power_up(&nand);
    size_t scan = peak_of(mount), rest = memory.now;
    expect(flash_fs_space(&fs, &space) == 0, "space");
    size_t pages = space.total - space.free;
    printf("| %u x 64 x 2048 | %u | %zu | %zu | %zu | %zu | %.1f | %.1f |\n", blocks, full, size, pages, rest, scan,
           (double)(rest - empty) / pages, (double)(scan - empty) / pages);
    flash_fs_abandon(&fs);
    ram_nand_free(&nand);
}

/* Empty files in one directory. */
static int files_to_make;

static void make_files(void)
{
    char path[64];
    expect((code = flash_fs_mkdir(&fs, "/names", 1)) == 0, "mkdir");
    for (int i = 0; i < files_to_make; i++) {
        snprintf(path, sizeof path, "/names/f%06d", i);
        int fd = flash_fs_open(&fs, path, FLASH_WRONLY | FLASH_CREAT, 1);
        expect(fd >= 0 && flash_fs_close(&fs, fd) == 0, "open");
    }
    code = flash_fs_sync(&fs);
}

/* What a file takes, besides what the volume takes without files. */
static void measure_files(uint32_t blocks, int files)
{
    files_to_make = files;
    spare = 20;
    expect(ram_nand_make(&nand, 2048, 64, blocks) == 0, "memory");
    peak_of(format);
    peak_of(mount);
    size_t empty = memory.now;
    peak_of(make_files);
    size_t made = memory.now;
    flash_fs_abandon(&fs);
    ram_nand_power_up(&nand);
    size_t scan = peak_of(mount), scanned = memory.now;
    printf("| %u x 64 x 2048 | %d | %zu | %zu | %zu | %zu | %zu |\n", blocks, files, made, scan, scanned, (made - empty) / files,
           (scanned - empty) / files);
    peak_of(unmount);
    ram_nand_free(&nand);
}

/* All questions to what is left of a volume. */
static struct flash_salvage left;

static void open_left(void) { code = flash_fs_salvage_open(&left, &nand.driver); }

static void ask_left(void)
{
    struct flash_salvaged info;
    uint64_t lost;
    expect(flash_fs_salvage_list(&left, 1, bytes, sizeof bytes, &lost) > 0, "list");
    expect(flash_fs_salvage_orphans(&left, NULL, 0) >= 0, "orphans");
    for (uint64_t object = 1; object < 20; object++) {
        expect((code = flash_fs_salvage_stat(&left, object, &info)) == 0, "stat");
        int64_t got = flash_fs_salvage_read(&left, object, 0, bytes, sizeof bytes);
        expect(got > 0 || got == FLASH_EISDIR || got == FLASH_ELOST, "read");
    }
}

/* What a salvage of a volume takes of which a page is lost. */
static void measure_salvage(uint32_t page_bytes, uint32_t block_pages, uint32_t blocks, uint32_t kept_for_bad)
{
    struct flash_space space;
    spare = kept_for_bad;
    percent = 80;
    file_bytes = blocks < 64 ? 5000 : sizeof bytes;
    deepest = 0;
    expect(ram_nand_make(&nand, page_bytes, block_pages, blocks) == 0, "memory");
    expect(flash_fs_format(&fs, &nand.driver, spare) == 0 && flash_fs_mount(&fs, &nand.driver) == 0, "a volume");
    fill();
    expect(flash_fs_space(&fs, &space) == 0, "space");
    flash_fs_abandon(&fs);
    ram_nand_lose(&nand, blocks / 4, 2);
    ram_nand_power_up(&nand);
    int mounts = flash_fs_mount(&fs, &nand.driver);
    flash_fs_abandon(&fs);
    size_t opening = peak_of(open_left), rest = memory.now, asking = peak_of(ask_left);
    printf("| %u x %u x %u | %d | %llu | %zu | %zu | %zu | %zu |\n", blocks, block_pages, page_bytes, mounts,
           (unsigned long long)(space.total - space.free), opening, rest, asking, deepest);
    flash_fs_salvage_close(&left);
    expect(memory.now == 0 && memory.blocks == 0, "memory is left");
    ram_nand_free(&nand);
}

int main(void)
{
    printf("| Volume | format, peak | mount of an empty one, peak | at rest | calls, peak | after them | units in use | mount 80 %% full, "
           "peak | at rest | calls, peak | after them | stack of a mount | of calls |\n|---|---|---|---|---|---|---|---|---|---|---|---|---|\n");
    measure(512, 32, 16, 2);
    measure(2048, 64, 64, 2);
    measure(2048, 64, 1024, 20);
    printf("\n| Volume | percent full | bytes of a file | pages in use | at rest | mount without a checkpoint, peak | a page, at rest | at the peak "
           "|\n|---|---|---|---|---|---|---|---|\n");
    static const uint32_t volumes[] = {64, 1024, 4096};
    static const unsigned fullness[] = {10, 50, 80};
    for (size_t v = 0; v < 3; v++)
        for (size_t f = 0; f < 3; f++)
            measure_pages(volumes[v], fullness[f], 65536);
    measure_pages(64, 80, 5 << 20);
    measure_pages(1024, 80, 30 << 20);
    printf("\n| Volume | empty files in a directory | made, at rest | mount without a checkpoint, peak | at rest | a file when made | a file after the "
           "mount |\n|---|---|---|---|---|---|---|\n");
    measure_files(64, 1000);
    measure_files(1024, 10000);
    printf("\n| Volume of which a page is lost | a mount returns | units in use | open of a salvage, peak | at rest | questions, peak | stack "
           "|\n|---|---|---|---|---|---|---|\n");
    measure_salvage(512, 32, 16, 2);
    measure_salvage(2048, 64, 64, 2);
    measure_salvage(2048, 64, 1024, 20);
    return 0;
}
