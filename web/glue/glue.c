#include "glue.h"
#include "flash_heap.h"
#include "ram_nand.h"

#include <string.h>

enum { HEAP_BYTES = 8 << 20 };

struct flash {
    struct flash_fs fs;
    struct flash_driver driver; /* keeps the list, and passes on to the flash's own */
    struct ram_nand nand;
    bool fails; /* the next program */
};

static struct flash flashes[GLUE_FLASHES];
static _Alignas(16) uint8_t heap[HEAP_BYTES];
static _Alignas(16) uint8_t buffer[GLUE_BUFFER_BYTES];
static uint32_t list[GLUE_MOST_CALLS], listed;

/* ---- The driver */

static void keep(enum glue_kind kind, uint32_t block, uint32_t page)
{
    if (listed < GLUE_MOST_CALLS)
        list[listed] = (uint32_t)kind << 28 | block << 16 | page;
    listed++;
}

static struct ram_nand *nand_of(void *context)
{
    return &((struct flash *)context)->nand;
}

static int is_bad(void *context, uint32_t block)
{
    keep(GLUE_MARK_READ, block, 0);
    return nand_of(context)->driver.is_bad(nand_of(context), block);
}

static int read_tag(void *context, uint32_t block, uint32_t page, uint8_t *tag)
{
    keep(GLUE_TAG_READ, block, page);
    return nand_of(context)->driver.read_tag(nand_of(context), block, page, tag);
}

static int read_page(void *context, uint32_t block, uint32_t page, uint8_t *data, uint8_t *tag)
{
    keep(GLUE_PAGE_READ, block, page);
    return nand_of(context)->driver.read_page(nand_of(context), block, page, data, tag);
}

static int program(void *context, uint32_t block, uint32_t page, const uint8_t *data, const uint8_t *tag)
{
    struct flash *flash = context;
    keep(GLUE_PROGRAM, block, page);
    if (flash->fails)
        flash->nand.fail_at[0] = flash->nand.calls + 1;
    flash->fails = false;
    return flash->nand.driver.program(&flash->nand, block, page, data, tag);
}

static int erase(void *context, uint32_t block)
{
    keep(GLUE_ERASE, block, 0);
    return nand_of(context)->driver.erase(nand_of(context), block);
}

static int mark_bad(void *context, uint32_t block)
{
    keep(GLUE_MARK, block, 0);
    return nand_of(context)->driver.mark_bad(nand_of(context), block);
}

/* ---- The flashes */

static void end(struct flash *flash)
{
    flash_fs_abandon(&flash->fs);
    ram_nand_free(&flash->nand);
}

int glue_make(uint32_t page_bytes, uint32_t block_pages, uint32_t blocks)
{
    if (block_pages > 256 || blocks > 4096)
        return FLASH_EINVAL;
    for (int i = 0; i < GLUE_FLASHES; i++)
        end(&flashes[i]);
    flash_heap_give(heap, sizeof heap);
    for (int i = 0; i < GLUE_FLASHES; i++) {
        struct flash *flash = &flashes[i];
        flash->fails = false;
        flash->driver = (struct flash_driver){flash,     page_bytes, block_pages, blocks,   is_bad,         read_tag,
                                              read_page, program,    erase,       mark_bad, FLASH_TAG_BYTES};
        if (ram_nand_make(&flash->nand, page_bytes, block_pages, blocks) != 0)
            return FLASH_ENOMEM;
    }
    return 0;
}

void glue_copy(uint32_t to, uint32_t from)
{
    flash_fs_abandon(&flashes[to].fs);
    ram_nand_copy(&flashes[to].nand, &flashes[from].nand);
    flashes[to].fails = false;
}

void glue_power_up(uint32_t flash)
{
    ram_nand_power_up(&flashes[flash].nand);
    flashes[flash].fails = false;
}

int glue_cut(uint32_t flash, uint32_t calls, uint32_t fate)
{
    if (fate >= RAM_NAND_FATES)
        return FLASH_EINVAL;
    flashes[flash].nand.cut_at = flashes[flash].nand.calls + calls;
    flashes[flash].nand.fate = (enum ram_nand_fate)fate;
    return 0;
}

uint32_t glue_fates(void)
{
    return RAM_NAND_FATES;
}

void glue_fail_next_program(uint32_t flash)
{
    flashes[flash].fails = true;
}

int glue_is_gone(uint32_t flash)
{
    return flashes[flash].nand.gone;
}

int glue_is_misused(uint32_t flash)
{
    return flashes[flash].nand.misuse != NULL;
}

uint8_t *glue_kinds(uint32_t flash)
{
    return flashes[flash].nand.kinds;
}

uint8_t *glue_tags(uint32_t flash)
{
    return flashes[flash].nand.tags;
}

uint8_t *glue_data(uint32_t flash)
{
    return flashes[flash].nand.data;
}

uint8_t *glue_marks(uint32_t flash)
{
    return flashes[flash].nand.marked;
}

const uint32_t *glue_calls(void)
{
    return list;
}

uint32_t glue_call_count(void)
{
    return listed;
}

uint32_t glue_most_calls(void)
{
    return GLUE_MOST_CALLS;
}

void glue_begin_calls(void)
{
    listed = 0;
}

/* ---- The volumes */

static struct flash_fs *volume(uint32_t flash)
{
    return &flashes[flash].fs;
}

static const char *first_path(void)
{
    return (const char *)buffer;
}

static const char *second_path(void)
{
    return first_path() + strlen(first_path()) + 1;
}

static uint32_t fitting(uint32_t size)
{
    return size < GLUE_BUFFER_BYTES ? size : GLUE_BUFFER_BYTES;
}

uint8_t *glue_bytes(void)
{
    return buffer;
}

int glue_format(uint32_t flash, uint32_t spare)
{
    return flash_fs_format(volume(flash), &flashes[flash].driver, spare);
}

int glue_mount(uint32_t flash)
{
    return flash_fs_mount(volume(flash), &flashes[flash].driver);
}

int glue_unmount(uint32_t flash)
{
    return flash_fs_unmount(volume(flash));
}

void glue_abandon(uint32_t flash)
{
    flash_fs_abandon(volume(flash));
}

int glue_mkdir(uint32_t flash, uint32_t moment)
{
    return flash_fs_mkdir(volume(flash), first_path(), moment);
}

int glue_rmdir(uint32_t flash, uint32_t moment)
{
    return flash_fs_rmdir(volume(flash), first_path(), moment);
}

int glue_unlink(uint32_t flash, uint32_t moment)
{
    return flash_fs_unlink(volume(flash), first_path(), moment);
}

int glue_link(uint32_t flash, uint32_t moment)
{
    return flash_fs_link(volume(flash), first_path(), second_path(), moment);
}

int glue_rename(uint32_t flash, uint32_t moment)
{
    return flash_fs_rename(volume(flash), first_path(), second_path(), moment);
}

int glue_open(uint32_t flash, uint32_t flags, uint32_t moment)
{
    return flash_fs_open(volume(flash), first_path(), flags, moment);
}

int glue_close(uint32_t flash, uint32_t fd)
{
    return flash_fs_close(volume(flash), (int)fd);
}

int glue_read(uint32_t flash, uint32_t fd, uint32_t size)
{
    return (int)flash_fs_read(volume(flash), (int)fd, buffer, fitting(size));
}

int glue_write(uint32_t flash, uint32_t fd, uint32_t size, uint32_t moment)
{
    return (int)flash_fs_write(volume(flash), (int)fd, buffer, fitting(size), moment);
}

int glue_truncate(uint32_t flash, uint32_t fd, uint32_t length, uint32_t moment)
{
    return flash_fs_truncate(volume(flash), (int)fd, length, moment);
}

int glue_sync(uint32_t flash)
{
    return flash_fs_sync(volume(flash));
}

/* The path lies where the names go. */
int glue_list(uint32_t flash)
{
    static char names[GLUE_BUFFER_BYTES];
    int size = (int)flash_fs_list(volume(flash), first_path(), names, sizeof names);
    if (size > 0)
        memcpy(buffer, names, (size_t)size);
    return size;
}

int glue_stat(uint32_t flash)
{
    struct flash_info info;
    int code = flash_fs_stat(volume(flash), first_path(), &info);
    if (code == 0)
        memcpy(buffer, &info, sizeof info);
    return code;
}

int glue_space(uint32_t flash)
{
    struct flash_space space;
    int code = flash_fs_space(volume(flash), &space);
    if (code == 0)
        memcpy(buffer, &space, sizeof space);
    return code;
}
