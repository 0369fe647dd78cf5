/* What lies between flash_fs.h and the proved library, libflash_c.a: its declarations, and the port by which it reaches a
 * driver.
 *
 * The library asks for a device by pread, pwrite and close of a file, and for nothing else of a system. The Makefile renames
 * these three by objcopy to flash_port_read, flash_port_write and flash_port_close, so that they come here, and the driver is
 * called. Each is one request: the offset is the operation times 2^56, the block times 2^24 and the page; what is returned is
 * the answer.
 *
 *   operation    bytes                                  what is returned
 *   SIZES        read: bytes of a page, pages of a      0
 *                block, blocks, bytes of a tag, each
 *                in four bytes, the lowest first
 *   IS_MARKED    read: one, of no meaning               0 or 1
 *   READ_TAG     read: the tag                          FLASH_ERASED, FLASH_WRITTEN or FLASH_UNCORRECTABLE
 *   READ_PAGE    read: the data                         as for the tag
 *   LAST_TAG     read: the tag of the page read last    0
 *   NEXT_TAG     written: the tag of the next program   0
 *   PROGRAM      written: the data                      FLASH_DONE or FLASH_FAILED
 *   ERASE        written: one, of no meaning            FLASH_DONE or FLASH_FAILED
 *   MARK_BAD     written: one, of no meaning            FLASH_DONE
 *
 * -1 is a loss of power, as is any other number; the library asks nothing after it.
 */
#include "flash_fs.h"

#include <assert.h>
#include <string.h>

/* ---- What libflash_c.a exports. A slice is a pointer and a length; no pointer is null. */

struct flash_port {
    int *at; /* the number of an open stream */
};

struct flash_slot {
    void *at; /* flash_slot_bytes() bytes at a multiple of 16 */
    bool full;
};

size_t flash_slot_bytes(void);
size_t flash_port_bytes(void);
int flash_format(struct flash_port port, uint32_t spare);
int flash_mount(struct flash_slot *slot, struct flash_port port);
int flash_mount_with(struct flash_slot *slot, struct flash_port port, uint32_t cache_pages);
int flash_mount_scanned(struct flash_slot *slot, struct flash_port port, uint32_t cache_pages);
int flash_unmount(struct flash_slot *slot);
void flash_abandon(struct flash_slot *slot);
int flash_read_only(struct flash_slot *slot);
int flash_stopped(struct flash_slot *slot);
int64_t flash_open(struct flash_slot *slot, const uint8_t *path, size_t length, uint32_t flags, uint64_t moment);
int flash_close(struct flash_slot *slot, uint32_t fd);
int64_t flash_read(struct flash_slot *slot, uint32_t fd, uint8_t *buffer, size_t size);
int64_t flash_write(struct flash_slot *slot, uint32_t fd, const uint8_t *bytes, size_t size, uint64_t moment);
int64_t flash_pread(struct flash_slot *slot, uint32_t fd, uint8_t *buffer, size_t size, int64_t offset);
int64_t flash_pwrite(struct flash_slot *slot, uint32_t fd, const uint8_t *bytes, size_t size, int64_t offset, uint64_t moment);
int64_t flash_seek(struct flash_slot *slot, uint32_t fd, int64_t offset, uint32_t whence);
int flash_truncate(struct flash_slot *slot, uint32_t fd, int64_t length, uint64_t moment);
int flash_fsync(struct flash_slot *slot, uint32_t fd);
int flash_sync(struct flash_slot *slot);
int flash_mkdir(struct flash_slot *slot, const uint8_t *path, size_t length, uint64_t moment);
int flash_rmdir(struct flash_slot *slot, const uint8_t *path, size_t length, uint64_t moment);
int flash_unlink(struct flash_slot *slot, const uint8_t *path, size_t length, uint64_t moment);
int flash_link(struct flash_slot *slot, const uint8_t *old_path, size_t old_length, const uint8_t *new_path,
               size_t new_length, uint64_t moment);
int flash_rename(struct flash_slot *slot, const uint8_t *old_path, size_t old_length, const uint8_t *new_path,
                 size_t new_length, uint64_t moment);
int flash_stat(struct flash_slot *slot, const uint8_t *path, size_t length, struct flash_info *info);
int flash_fstat(struct flash_slot *slot, uint32_t fd, struct flash_info *info);
int64_t flash_list(struct flash_slot *slot, const uint8_t *path, size_t length, uint8_t *buffer, size_t size);
int flash_space(struct flash_slot *slot, struct flash_space *space);
int flash_refresh(struct flash_slot *slot, uint32_t block);
size_t flash_salvage_slot_bytes(void);
int flash_salvage_open(struct flash_slot *slot, struct flash_port port);
void flash_salvage_close(struct flash_slot *slot);
int flash_salvage_stat(struct flash_slot *slot, uint64_t object, struct flash_salvaged *info);
int64_t flash_salvage_list(struct flash_slot *slot, uint64_t directory, uint8_t *buffer, size_t size, uint64_t *lost);
int64_t flash_salvage_read(struct flash_slot *slot, uint64_t file, uint64_t offset, uint8_t *buffer, size_t size);
int64_t flash_salvage_orphans(struct flash_slot *slot, uint64_t *objects, size_t count);
int64_t flash_salvage_lost(struct flash_slot *slot, struct flash_place *places, size_t count);

/* ---- What the library is given by this file. */

int64_t flash_port_write(int stream, const void *bytes, size_t size, int64_t offset);
int64_t flash_port_read(int stream, void *bytes, size_t size, int64_t offset);
int flash_port_close(int stream);
int32_t rattle_errno(void);

enum operation { SIZES, IS_MARKED, READ_TAG, READ_PAGE, LAST_TAG, NEXT_TAG, PROGRAM, ERASE, MARK_BAD };

enum { SIZES_BYTES = 16 };

enum { WEAK_BLOCKS = 32 };

/* A device that the library asks for by a stream. */
struct device {
    const struct flash_driver *driver;
    int stream;
    uint8_t tag[FLASH_TAG_BYTES]; /* that of the page that was read last, or that is programmed next */
    uint32_t weak_count;
    uint16_t weak[WEAK_BLOCKS]; /* blocks of which a page was weak, each once, in the order in which they were found */
};

/* What is inside of a struct flash_fs. */
struct volume {
    struct flash_slot slot;
    struct device device;
    _Alignas(16) uint8_t session[FLASH_FS_BYTES - 144];
};

/* What is inside of a struct flash_salvage. */
struct salvage {
    struct flash_slot slot;
    struct device device;
    _Alignas(16) uint8_t session[FLASH_SALVAGE_BYTES - 144];
};

static_assert(sizeof(struct volume) <= sizeof(struct flash_fs), "a volume is larger than FLASH_FS_BYTES");
static_assert(_Alignof(struct volume) <= _Alignof(struct flash_fs), "a volume asks for more alignment");
static_assert(sizeof(struct salvage) <= sizeof(struct flash_salvage), "a salvage is larger than FLASH_SALVAGE_BYTES");
static_assert(_Alignof(struct salvage) <= _Alignof(struct flash_salvage), "a salvage asks for more alignment");
static_assert(sizeof(void *) == 8, "the library is made for processors of 64 bits");

static struct volume *volume_of(struct flash_fs *fs)
{
    return (struct volume *)(void *)fs->opaque;
}

/* The slot of a volume. Its memory is where it is, also of one that is zero: the library may look at it. */
static struct flash_slot *slot_of(struct flash_fs *fs)
{
    struct volume *volume = volume_of(fs);
    volume->slot.at = volume->session;
    return &volume->slot;
}

/* ---- Streams. Their numbers begin at a number that no file of a system is likely to have. */

enum { FIRST_STREAM = 1000 };

static struct device *streams[FLASH_VOLUMES];

static struct device *device_at(int stream)
{
    return stream >= FIRST_STREAM && stream < FIRST_STREAM + FLASH_VOLUMES ? streams[stream - FIRST_STREAM] : NULL;
}

/* Whether two drivers are of one flash. */
static bool is_same(const struct flash_driver *one, const struct flash_driver *other)
{
    return one == other || (one->context == other->context && one->program == other->program);
}

/* Whether a device of the driver is open. */
static bool is_open(const struct flash_driver *driver)
{
    for (int i = 0; i < FLASH_VOLUMES; i++)
        if (streams[i] != NULL && is_same(streams[i]->driver, driver))
            return true;
    return false;
}

static int open_stream(struct device *device, const struct flash_driver *driver)
{
    if (is_open(driver))
        return FLASH_EBUSY;
    if (flash_port_bytes() != sizeof device->stream)
        return FLASH_EINVAL; /* this file is not of this library */
    for (int i = 0; i < FLASH_VOLUMES; i++)
        if (streams[i] == NULL) {
            streams[i] = device;
            device->driver = driver;
            device->stream = FIRST_STREAM + i;
            memset(device->tag, 0, sizeof device->tag);
            device->weak_count = 0;
            return 0;
        }
    return FLASH_EMFILE;
}

int flash_port_close(int stream)
{
    if (device_at(stream) != NULL)
        streams[stream - FIRST_STREAM] = NULL;
    return 0;
}

/* The error of a stream is always EIO, of which the library makes a loss of power. */
int32_t rattle_errno(void)
{
    return -FLASH_EIO;
}

/* ---- Requests */

static uint32_t tag_bytes_of(const struct flash_driver *driver)
{
    return driver->tag_bytes == 0 ? FLASH_TAG_BYTES : driver->tag_bytes;
}

static enum operation operation_at(int64_t offset)
{
    return (enum operation)(offset >> 56);
}

static uint32_t block_at(int64_t offset)
{
    return (uint32_t)(offset >> 24);
}

static uint32_t page_at(int64_t offset)
{
    return (uint32_t)offset & 0xffffff;
}

static void put_number(uint8_t *bytes, uint32_t number)
{
    for (int i = 0; i < 4; i++)
        bytes[i] = (uint8_t)(number >> (8 * i));
}

/* A number that no call may return is a loss of power. No read or write returns more than it has bytes. */
static int64_t checked(int returned, size_t size)
{
    return returned >= 0 && returned <= FLASH_UNCORRECTABLE && (size_t)returned <= size ? returned : -1;
}

static void note_weak(struct device *device, uint32_t block)
{
    for (uint32_t i = 0; i < device->weak_count; i++)
        if (device->weak[i] == block)
            return;
    if (device->weak_count < WEAK_BLOCKS)
        device->weak[device->weak_count++] = (uint16_t)block;
}

/* To the library a weak page is a written one. */
static int noted(struct device *device, int returned, uint32_t block)
{
    if (returned != FLASH_WRITTEN_WEAK)
        return returned;
    note_weak(device, block);
    return FLASH_WRITTEN;
}

/* A page and a tag are read by the driver to where the library wants them. */
int64_t flash_port_read(int stream, void *bytes, size_t size, int64_t offset)
{
    struct device *device = device_at(stream);
    if (device == NULL)
        return -1;
    const struct flash_driver *driver = device->driver;
    uint8_t *answer = bytes;
    switch (operation_at(offset)) {
    case SIZES:
        if (size != SIZES_BYTES)
            return -1;
        put_number(answer, driver->page_bytes);
        put_number(answer + 4, driver->block_pages);
        put_number(answer + 8, driver->blocks);
        put_number(answer + 12, tag_bytes_of(driver));
        return 0;
    case IS_MARKED:
        return checked(driver->is_bad(driver->context, block_at(offset)), size);
    case READ_TAG:
        if (size != tag_bytes_of(driver))
            return -1;
        return checked(
            noted(device, driver->read_tag(driver->context, block_at(offset), page_at(offset), answer), block_at(offset)), size);
    case READ_PAGE:
        if (size != driver->page_bytes)
            return -1;
        return checked(
            noted(device, driver->read_page(driver->context, block_at(offset), page_at(offset), answer, device->tag), block_at(offset)),
            size);
    case LAST_TAG:
        if (size != tag_bytes_of(driver))
            return -1;
        memcpy(answer, device->tag, size);
        return 0;
    default:
        return -1;
    }
}

int64_t flash_port_write(int stream, const void *bytes, size_t size, int64_t offset)
{
    struct device *device = device_at(stream);
    if (device == NULL)
        return -1;
    const struct flash_driver *driver = device->driver;
    switch (operation_at(offset)) {
    case NEXT_TAG:
        if (size != tag_bytes_of(driver))
            return -1;
        memcpy(device->tag, bytes, size);
        return 0;
    case PROGRAM:
        if (size != driver->page_bytes)
            return -1;
        return checked(driver->program(driver->context, block_at(offset), page_at(offset), bytes, device->tag), size);
    case ERASE:
        return checked(driver->erase(driver->context, block_at(offset)), size);
    case MARK_BAD:
        return checked(driver->mark_bad(driver->context, block_at(offset)), size);
    default:
        return -1;
    }
}

/* ---- Volumes */

/* Opens the device of a volume that is not mounted. */
static int open_device(struct flash_fs *fs, const struct flash_driver *driver)
{
    if ((uintptr_t)fs % _Alignof(struct flash_fs) != 0 || flash_slot_bytes() > sizeof volume_of(fs)->session)
        return FLASH_EINVAL;
    return slot_of(fs)->full ? FLASH_EBUSY : open_stream(&volume_of(fs)->device, driver);
}

int flash_fs_format(struct flash_fs *fs, const struct flash_driver *driver, uint32_t spare)
{
    int code = open_device(fs, driver);
    return code < 0 ? code : flash_format((struct flash_port){&volume_of(fs)->device.stream}, spare);
}

int flash_fs_mount_with(struct flash_fs *fs, const struct flash_driver *driver, uint32_t cache_pages)
{
    int code = open_device(fs, driver);
    return code < 0 ? code : flash_mount_with(slot_of(fs), (struct flash_port){&volume_of(fs)->device.stream}, cache_pages);
}

int flash_fs_mount_scanned(struct flash_fs *fs, const struct flash_driver *driver, uint32_t cache_pages)
{
    int code = open_device(fs, driver);
    return code < 0 ? code : flash_mount_scanned(slot_of(fs), (struct flash_port){&volume_of(fs)->device.stream}, cache_pages);
}

int flash_fs_mount(struct flash_fs *fs, const struct flash_driver *driver)
{
    return flash_fs_mount_with(fs, driver, 16);
}

int flash_fs_unmount(struct flash_fs *fs)
{
    return flash_unmount(slot_of(fs));
}

void flash_fs_abandon(struct flash_fs *fs)
{
    flash_abandon(slot_of(fs));
}

int flash_fs_read_only(struct flash_fs *fs)
{
    return flash_read_only(slot_of(fs));
}

int flash_fs_stopped(struct flash_fs *fs)
{
    return flash_stopped(slot_of(fs));
}

/* ---- Commands */

#define PATH(path) (const uint8_t *)(path), strlen(path)

int flash_fs_mkdir(struct flash_fs *fs, const char *path, uint64_t moment)
{
    return flash_mkdir(slot_of(fs), PATH(path), moment);
}

int flash_fs_rmdir(struct flash_fs *fs, const char *path, uint64_t moment)
{
    return flash_rmdir(slot_of(fs), PATH(path), moment);
}

int flash_fs_unlink(struct flash_fs *fs, const char *path, uint64_t moment)
{
    return flash_unlink(slot_of(fs), PATH(path), moment);
}

int flash_fs_link(struct flash_fs *fs, const char *old_path, const char *new_path, uint64_t moment)
{
    return flash_link(slot_of(fs), PATH(old_path), PATH(new_path), moment);
}

int flash_fs_rename(struct flash_fs *fs, const char *old_path, const char *new_path, uint64_t moment)
{
    return flash_rename(slot_of(fs), PATH(old_path), PATH(new_path), moment);
}

int flash_fs_stat(struct flash_fs *fs, const char *path, struct flash_info *info)
{
    return flash_stat(slot_of(fs), PATH(path), info);
}

int flash_fs_fstat(struct flash_fs *fs, int fd, struct flash_info *info)
{
    return flash_fstat(slot_of(fs), (uint32_t)fd, info);
}

int64_t flash_fs_list(struct flash_fs *fs, const char *path, char *buffer, size_t size)
{
    uint8_t none;
    return flash_list(slot_of(fs), PATH(path), size == 0 ? &none : (uint8_t *)buffer, size);
}

int flash_fs_space(struct flash_fs *fs, struct flash_space *space)
{
    return flash_space(slot_of(fs), space);
}

int flash_fs_open(struct flash_fs *fs, const char *path, uint32_t flags, uint64_t moment)
{
    const uint32_t all = FLASH_RDWR | FLASH_CREAT | FLASH_EXCL | FLASH_TRUNC | FLASH_APPEND;
    if ((flags & FLASH_RDWR) == 0 || (flags & ~all) != 0)
        return FLASH_EINVAL;
    return (int)flash_open(slot_of(fs), PATH(path), flags, moment);
}

int flash_fs_close(struct flash_fs *fs, int fd)
{
    return flash_close(slot_of(fs), (uint32_t)fd);
}

int64_t flash_fs_read(struct flash_fs *fs, int fd, void *buffer, size_t size)
{
    uint8_t none;
    return flash_read(slot_of(fs), (uint32_t)fd, size == 0 ? &none : buffer, size);
}

int64_t flash_fs_write(struct flash_fs *fs, int fd, const void *bytes, size_t size, uint64_t moment)
{
    static const uint8_t none;
    return flash_write(slot_of(fs), (uint32_t)fd, size == 0 ? &none : bytes, size, moment);
}

int64_t flash_fs_pread(struct flash_fs *fs, int fd, void *buffer, size_t size, int64_t offset)
{
    uint8_t none;
    return flash_pread(slot_of(fs), (uint32_t)fd, size == 0 ? &none : buffer, size, offset);
}

int64_t flash_fs_pwrite(struct flash_fs *fs, int fd, const void *bytes, size_t size, int64_t offset, uint64_t moment)
{
    static const uint8_t none;
    return flash_pwrite(slot_of(fs), (uint32_t)fd, size == 0 ? &none : bytes, size, offset, moment);
}

int64_t flash_fs_seek(struct flash_fs *fs, int fd, int64_t offset, int whence)
{
    if (whence < FLASH_SEEK_SET || whence > FLASH_SEEK_END)
        return FLASH_EINVAL;
    return flash_seek(slot_of(fs), (uint32_t)fd, offset, (uint32_t)whence);
}

int flash_fs_truncate(struct flash_fs *fs, int fd, int64_t length, uint64_t moment)
{
    return flash_truncate(slot_of(fs), (uint32_t)fd, length, moment);
}

int flash_fs_fsync(struct flash_fs *fs, int fd)
{
    return flash_fsync(slot_of(fs), (uint32_t)fd);
}

int flash_fs_sync(struct flash_fs *fs)
{
    return flash_sync(slot_of(fs));
}

/* The block is taken off the list once it was moved: the move reads its weak pages. */
int flash_fs_refresh(struct flash_fs *fs)
{
    struct flash_slot *slot = slot_of(fs);
    struct device *device = &volume_of(fs)->device;
    if (!slot->full)
        return FLASH_EINVAL;
    if (device->weak_count == 0)
        return 0;
    int code = flash_refresh(slot, device->weak[0]);
    if (code < 0)
        return code;
    device->weak_count--;
    memmove(device->weak, device->weak + 1, device->weak_count * sizeof *device->weak);
    return (int)device->weak_count;
}

/* ---- Salvages */

static struct salvage *salvage_of(struct flash_salvage *left)
{
    return (struct salvage *)(void *)left->opaque;
}

static struct flash_slot *salvage_slot_of(struct flash_salvage *left)
{
    struct salvage *salvage = salvage_of(left);
    salvage->slot.at = salvage->session;
    return &salvage->slot;
}

int flash_fs_salvage_open(struct flash_salvage *left, const struct flash_driver *driver)
{
    if ((uintptr_t)left % _Alignof(struct flash_salvage) != 0 || flash_salvage_slot_bytes() > sizeof salvage_of(left)->session)
        return FLASH_EINVAL;
    struct flash_slot *slot = salvage_slot_of(left);
    int code = slot->full ? FLASH_EBUSY : open_stream(&salvage_of(left)->device, driver);
    return code < 0 ? code : flash_salvage_open(slot, (struct flash_port){&salvage_of(left)->device.stream});
}

void flash_fs_salvage_close(struct flash_salvage *left)
{
    flash_salvage_close(salvage_slot_of(left));
}

int flash_fs_salvage_stat(struct flash_salvage *left, uint64_t object, struct flash_salvaged *info)
{
    return flash_salvage_stat(salvage_slot_of(left), object, info);
}

int64_t flash_fs_salvage_list(struct flash_salvage *left, uint64_t directory, void *buffer, size_t size, uint64_t *lost)
{
    uint8_t none;
    return flash_salvage_list(salvage_slot_of(left), directory, size == 0 ? &none : buffer, size, lost);
}

int64_t flash_fs_salvage_read(struct flash_salvage *left, uint64_t file, uint64_t offset, void *buffer, size_t size)
{
    uint8_t none;
    return flash_salvage_read(salvage_slot_of(left), file, offset, size == 0 ? &none : buffer, size);
}

int64_t flash_fs_salvage_orphans(struct flash_salvage *left, uint64_t *objects, size_t count)
{
    uint64_t none;
    return flash_salvage_orphans(salvage_slot_of(left), count == 0 ? &none : objects, count);
}

int64_t flash_fs_salvage_lost(struct flash_salvage *left, struct flash_place *places, size_t count)
{
    struct flash_place none;
    return flash_salvage_lost(salvage_slot_of(left), count == 0 ? &none : places, count);
}
