/* A file system for raw NAND flash.
 *
 * Functions return 0, or a number that is not negative (a descriptor, a count of bytes, an offset), or one of the FLASH_E*
 * numbers, which are negative. A call on a mounted volume that returns an error has changed nothing, but for FLASH_EIO; what a
 * format, a mount and an unmount leave after an error is said with them.
 *
 * Any function on a volume may return, besides what is said with it:
 *   FLASH_EINVAL  the volume is not mounted;
 *   FLASH_EIO     the device lost power or failed beyond repair. The volume is stopped: it returns FLASH_EIO to each call
 *                 until it is ended by flash_fs_unmount or flash_fs_abandon and mounted again;
 *   FLASH_ENOMEM  memory was refused to the library in this call (never by close, seek, fsync, sync, space and fstat).
 * Functions that change the volume may return FLASH_EROFS, of a volume that can only be read, and FLASH_ENOSPC: never unlink,
 * rmdir, and a truncate that does not lengthen, which are the way out of a full volume, nor close, fsync and sync.
 *
 * Of a volume that is stopped or not mounted, FLASH_EINVAL of flags or a whence that are none comes first, then these errors.
 *
 * A path is bytes up to a zero, as "/logs/today": at most 4,095, in each component at most 255. Every path starts at the root.
 * A moment is any number of 64 bits, as the seconds since 1970: the library has no clock. It is stored with what a call changes,
 * as the time of its last change: with a new object, with a file that is written, cut or lengthened, and with each directory
 * in which a name is added, removed or replaced.
 *
 * What was written lies in memory until a sync, an fsync or an unmount, or until it is more than the buffer holds. After a loss
 * of power a mount shows the tree after some number of the calls, in their order, and at least after all that a completed
 * sync or fsync covers: either of them makes durable everything that was done before it, in all files.
 *
 * One thread at a time may be in a function of this header, whatever volume it is called for. No pointer is null, but for
 * the buffer of a read, a write or a list of 0 bytes, and an array of 0 elements.
 */
#ifndef FLASH_FS_H
#define FLASH_FS_H

#include <stdbool.h>
#include <stddef.h>
#include <stdint.h>

#ifdef __cplusplus
#define FLASH_ALIGNED alignas(16)
extern "C" {
#else
#define FLASH_ALIGNED _Alignas(16)
#endif

/* Errors: the numbers of Linux, negative. */
enum {
    FLASH_EPERM = -1,         /* a directory is given to link or unlink */
    FLASH_ENOENT = -2,        /* nothing has this name */
    FLASH_EIO = -5,           /* the device lost power or failed: the volume is stopped */
    FLASH_EBADF = -9,         /* no such descriptor, or not opened for this */
    FLASH_ENOMEM = -12,       /* memory was refused */
    FLASH_EBUSY = -16,        /* the volume, or one of its driver, is mounted or salvaged; no rmdir or rename of the root */
    FLASH_EEXIST = -17,       /* the name exists already */
    FLASH_ENOVOLUME = -19,    /* the device holds no volume */
    FLASH_ENOTDIR = -20,      /* a file where a directory is needed */
    FLASH_EISDIR = -21,       /* a directory where a file is needed */
    FLASH_EINVAL = -22,       /* an argument that no call takes, or a volume that is not mounted */
    FLASH_EMFILE = -24,       /* all 64 descriptors of the volume are open, or FLASH_VOLUMES volumes are mounted or salvaged */
    FLASH_EFBIG = -27,        /* past the greatest length of a file, which is given at flash_fs_write */
    FLASH_ENOSPC = -28,       /* the volume is full; in a format: too few good blocks */
    FLASH_EROFS = -30,        /* the volume can only be read */
    FLASH_ERANGE = -34,       /* the buffer is too small for the names */
    FLASH_ENAMETOOLONG = -36, /* a path of more than 4,095 bytes, or a component of more than 255 */
    FLASH_ENOTEMPTY = -39,    /* a directory that has entries */
    FLASH_ELOST = -61,        /* the page of a file is lost (flash_fs_salvage_read) */
    FLASH_EOVERFLOW = -75,    /* an offset above 2^63 - 1 */
    FLASH_EDAMAGED = -84,     /* what the device holds is no tree that a volume can have: see flash_fs_salvage_open */
    FLASH_ENEWER = -95        /* a volume of a newer format */
};

/* ---- The driver ---- */

/* The bytes of a page's spare area that the library keeps with the page: so many, or FLASH_PACKED_TAG_BYTES where a driver has
 * room for no more. Everything holds with either; what fits no packed tag is said at `tag_bytes`.
 */
#define FLASH_TAG_BYTES 48
#define FLASH_PACKED_TAG_BYTES 24

/* What a read returns. FLASH_WRITTEN_WEAK is FLASH_WRITTEN in all that is said of it, of a page with so many corrected errors
 * that it is better moved before it is lost: flash_fs_refresh moves it. A driver need not know of it.
 */
enum { FLASH_ERASED = 0, FLASH_WRITTEN = 1, FLASH_UNCORRECTABLE = 2, FLASH_WRITTEN_WEAK = 3 };
/* What a program, an erase and a mark return; a mark only the first. */
enum { FLASH_DONE = 0, FLASH_FAILED = 1 };

/* A driver of a NAND flash. The struct and its context stay as they are while a volume over it is mounted or salvaged, and only
 * one is: two drivers are of the same flash if they are one struct, or have the same context and the same program function.
 *
 * A function that returns a number other than those it may return, as -1, reports a loss of power: no function is called of the
 * driver after that until the next format, mount or salvage.
 *
 * The library keeps to this, whatever the driver returns. It is proved of each request that the library makes, which names the
 * call and all that is handed over; that a request reaches the driver as it was made, by a read or write of a file and
 * flash_port.c, is tested:
 *   - a block is below `blocks`, a page below `block_pages`;
 *   - a page is programmed only if its block is not marked bad and was erased since the format or mount began, with
 *     FLASH_DONE, and only the first page after that or the one after the last that was programmed, with FLASH_DONE;
 *   - `data` points to page_bytes bytes, `tag` to tag_bytes, at any address: of no alignment;
 *   - after a loss of power no function is called.
 *
 * The driver promises this, and no proof reaches it:
 *   - a page whose program returned FLASH_DONE reads as FLASH_WRITTEN with that data and that tag until its block is erased:
 *     errors of data and tag are corrected below;
 *   - a page whose program failed or was cut reads as FLASH_ERASED, as what was to be written, or as FLASH_UNCORRECTABLE, and
 *     the same each time;
 *   - after an erase that returned FLASH_DONE each page of the block reads FLASH_ERASED; after one that failed or was cut
 *     each page reads as before, as FLASH_ERASED or as FLASH_UNCORRECTABLE, and the same each time;
 *   - read_tag and read_page of a page return the same number, weak or not, and the same tag: a tag is not enough for
 *     FLASH_WRITTEN;
 *   - no call changes another page or block than its own;
 *   - a mark stays for ever; one that was cut is there or not, and the same each time;
 *   - a call is done when it returns; it does not leave by longjmp and calls no function of this header.
 */
struct flash_driver {
    void *context;        /* handed to each function */
    uint32_t page_bytes;  /* 512, 1024, 2048 or 4096 */
    uint32_t block_pages; /* 32, 64, 128 or 256 */
    uint32_t blocks;      /* 5 to 4096 */

    /* Whether the block is marked bad: 0 or 1. */
    int (*is_bad)(void *context, uint32_t block);
    /* Reads the tag of a page: FLASH_ERASED, FLASH_WRITTEN (then the tag is filled) or FLASH_UNCORRECTABLE. */
    int (*read_tag)(void *context, uint32_t block, uint32_t page, uint8_t *tag);
    /* Reads a page and its tag: as read_tag. Where the page is not FLASH_WRITTEN, `data` may hold anything. */
    int (*read_page)(void *context, uint32_t block, uint32_t page, uint8_t *data, uint8_t *tag);
    /* Programs an erased page, data and tag together: FLASH_DONE or FLASH_FAILED. */
    int (*program)(void *context, uint32_t block, uint32_t page, const uint8_t *data, const uint8_t *tag);
    /* Erases the pages of a block: FLASH_DONE or FLASH_FAILED. */
    int (*erase)(void *context, uint32_t block);
    /* Marks a block bad: FLASH_DONE. */
    int (*mark_bad)(void *context, uint32_t block);

    /* The bytes of a tag: FLASH_TAG_BYTES, also where it is 0, or FLASH_PACKED_TAG_BYTES. A volume is mounted with the number
     * that it was formatted with. A packed tag has room for 2^32 - 2 objects, pages of a file and erases, and for 2^40 commits:
     * a program past these is taken as one that failed, and none of a part that wears out comes near.
     */
    uint32_t tag_bytes;
};

/* ---- The volume ---- */

/* How many volumes can be mounted or salvaged at once; another number may be given when flash_port.c is compiled. */
#ifndef FLASH_VOLUMES
#define FLASH_VOLUMES 8
#endif

#define FLASH_FS_BYTES 1024

/* A volume. It is zero before its first use: `struct flash_fs fs = {0}`, or a static one. It lies at a multiple of 16, as the
 * compiler places it; in memory of an allocator that gives less, a format and a mount return FLASH_EINVAL. What is inside is
 * the library's; a mounted volume is not copied or moved.
 */
struct flash_fs {
    FLASH_ALIGNED unsigned char opaque[FLASH_FS_BYTES];
};

/* Makes the device an empty volume with so many blocks to spare for those that go bad, spare + 4 at most `blocks`. The volume
 * is not mounted by this; what the device held before is gone. If power goes during a format, format again. Errors: EBUSY the
 * volume, or another of the driver, is mounted; EINVAL sizes out of range, too many spare blocks, or an address of `fs`;
 * ENOMEM; EMFILE: nothing was erased. ENOSPC too few good blocks; EIO: what the device held may be gone.
 */
int flash_fs_format(struct flash_fs *fs, const struct flash_driver *driver, uint32_t spare);

/* Mounts the volume of a device. It only reads: after an unmount mostly the tag of the first page of each block, and some pages
 * of a list of the pages in use; else that tag, the pages of summaries of blocks, and of each block without one the tags of the
 * pages that were programmed, of the newest and of one that is erased all. Besides these it reads about a page for each file,
 * and those of directories. It takes memory by the number of pages that are in use, which an unmount or an abandon gives back.
 * Errors: EBUSY the volume, or another of the driver, is mounted; EINVAL sizes out of range, or an address of `fs`; ENOVOLUME,
 * ENEWER, EDAMAGED what the device holds; EIO; ENOMEM; EMFILE. After an error the volume is not mounted, unless it was before.
 */
int flash_fs_mount(struct flash_fs *fs, const struct flash_driver *driver);

/* The same, with a cache of at most so many pages that were read, one at least; flash_fs_mount takes 16. A cached page takes
 * page_bytes and some forty bytes.
 */
int flash_fs_mount_with(struct flash_fs *fs, const struct flash_driver *driver, uint32_t cache_pages);

/* The same as flash_fs_mount_with, but it goes by the tags of all pages, and by no list of them that the device holds. It is for
 * a device that another program than this file system wrote or changed, as one that a programmer filled from an image of
 * unknown origin.
 */
int flash_fs_mount_scanned(struct flash_fs *fs, const struct flash_driver *driver, uint32_t cache_pages);

/* Makes everything durable and ends the mount: the memory is given back, and open descriptors are closed. After FLASH_EIO the
 * mount has ended too, and what was not synced may be lost. Errors: EINVAL not mounted (nothing is done); EIO.
 */
int flash_fs_unmount(struct flash_fs *fs);

/* Ends the mount and writes nothing, as if power were lost. Nothing is done to a volume that is not mounted. */
void flash_fs_abandon(struct flash_fs *fs);

/* Whether the volume can only be read: 1, or 0; FLASH_EINVAL where it is not mounted. It is so from the mount on where the
 * device is worn out.
 */
int flash_fs_read_only(struct flash_fs *fs);

/* Whether the volume has stopped, and returns FLASH_EIO to each call: 1, or 0; FLASH_EINVAL where it is not mounted. */
int flash_fs_stopped(struct flash_fs *fs);

/* ---- Directories and names ---- */

enum { FLASH_FILE = 1, FLASH_DIRECTORY = 2 };

struct flash_info {
    uint64_t kind;   /* FLASH_FILE or FLASH_DIRECTORY */
    uint64_t object; /* a number that no other object of the volume has now; the root has 1 */
    uint64_t links;  /* names of a file; 2 and one for each subdirectory of a directory */
    uint64_t size;   /* bytes of a file; 0 of a directory */
    uint64_t moment; /* that of the last change */
};

struct flash_space {
    uint64_t unit;  /* bytes of a unit, as of a page */
    uint64_t total; /* units in all */
    uint64_t free;  /* units that are free */
};

/* Makes a directory. Errors: EEXIST; ENOENT, ENOTDIR of what is before the last component; ENAMETOOLONG. */
int flash_fs_mkdir(struct flash_fs *fs, const char *path, uint64_t moment);

/* Removes a directory that has no entries. Errors: ENOTEMPTY (and of "..") ; ENOTDIR; ENOENT; EBUSY the root; EINVAL of ".". */
int flash_fs_rmdir(struct flash_fs *fs, const char *path, uint64_t moment);

/* Removes a name of a file. A file that is still open lives until its last descriptor is closed. Errors: ENOENT; EPERM a
 * directory.
 */
int flash_fs_unlink(struct flash_fs *fs, const char *path, uint64_t moment);

/* Gives a file a second name. Errors: ENOENT; EPERM the old path is a directory; EEXIST the new name exists. */
int flash_fs_link(struct flash_fs *fs, const char *old_path, const char *new_path, uint64_t moment);

/* Gives a file or a directory another name, in one step; what had the new name before is replaced. Errors: ENOENT; EISDIR a
 * file onto a directory; ENOTDIR a directory onto a file; ENOTEMPTY onto a directory with entries; EINVAL a directory into
 * itself, or a path that ends in "." or ".."; EBUSY the root.
 */
int flash_fs_rename(struct flash_fs *fs, const char *old_path, const char *new_path, uint64_t moment);

/* Reports what a path leads to. Errors: ENOENT; ENOTDIR; ENAMETOOLONG. */
int flash_fs_stat(struct flash_fs *fs, const char *path, struct flash_info *info);

/* Fills the buffer with the names in a directory, in the order of their bytes, each with a zero after it; returns how many
 * bytes they take. Errors: ERANGE the names take more than `size` bytes (the buffer stays as it was); ENOTDIR; ENOENT. With a
 * size of 0 it asks whether there are any.
 */
int64_t flash_fs_list(struct flash_fs *fs, const char *path, char *buffer, size_t size);

/* Reports the space of the volume. A file takes a unit and one for each unit of its length, a directory a unit and one for each
 * unit_bytes / 272 of its entries.
 */
int flash_fs_space(struct flash_fs *fs, struct flash_space *space);

/* ---- Files ---- */

/* Flags of an open: at least one of the first two; FLASH_EXCL is looked at only with FLASH_CREAT. */
enum {
    FLASH_RDONLY = 1,
    FLASH_WRONLY = 2,
    FLASH_RDWR = 3,
    FLASH_CREAT = 4,
    FLASH_EXCL = 8,
    FLASH_TRUNC = 16,
    FLASH_APPEND = 32
};

/* Where a seek counts from. */
enum { FLASH_SEEK_SET = 0, FLASH_SEEK_CUR = 1, FLASH_SEEK_END = 2 };

/* Opens a file, or a directory for reading, and returns the least descriptor of this volume that is free, 0 to 63, at offset
 * 0. With FLASH_CREAT a file that is not there is made; with FLASH_TRUNC its bytes are cut. Errors: ENOENT; EEXIST with
 * FLASH_CREAT and FLASH_EXCL; EISDIR; EMFILE 64 are open; EINVAL FLASH_TRUNC without FLASH_WRONLY, or flags that are none.
 */
int flash_fs_open(struct flash_fs *fs, const char *path, uint32_t flags, uint64_t moment);

/* Closes a descriptor. It makes nothing durable. Errors: EBADF. */
int flash_fs_close(struct flash_fs *fs, int fd);

/* Reads from the offset on, and moves it. Returns how many bytes were read: fewer than `size` only at the end of the file (and
 * at most 2^32 - 1). It takes memory for the cache of pages alone, however large the buffer is. What lies past the bytes in the
 * buffer stays as it was; after EIO and ENOMEM the buffer may hold anything, and the offset stays. Errors: EBADF; EISDIR.
 */
int64_t flash_fs_read(struct flash_fs *fs, int fd, void *buffer, size_t size);

/* Writes at the offset, or with FLASH_APPEND at the end of the file, and moves the offset behind. A gap before it reads as
 * zeros. Returns how many bytes were written: fewer than `size` where the volume has room for no more (then another write
 * returns ENOSPC), where the file cannot grow further (EFBIG), where the volume stopped (EIO), or where memory was refused,
 * which another call may be given. A file has at most 8 * (D - 32) * D bytes for pages of D: 1.9 MiB of 512, 7.75 of 1024,
 * 31.5 of 2048, 127 of 4096. A write of at most (P / 4 - 3) * D bytes, in blocks of P pages, that is written whole is one
 * step. A longer one is not: power that goes may leave a part of it, from its beginning. Errors: EBADF; EFBIG; ENOSPC.
 */
int64_t flash_fs_write(struct flash_fs *fs, int fd, const void *bytes, size_t size, uint64_t moment);

/* A read and a write at an offset of their own: the descriptor's offset stays. With FLASH_APPEND a write goes to the end of
 * the file all the same, as on Linux. Else they are as flash_fs_read and flash_fs_write. Errors: those of a read and a write
 * of no bytes, and then EINVAL the offset is negative; EFBIG and ENOSPC of a write.
 */
int64_t flash_fs_pread(struct flash_fs *fs, int fd, void *buffer, size_t size, int64_t offset);
int64_t flash_fs_pwrite(struct flash_fs *fs, int fd, const void *bytes, size_t size, int64_t offset, uint64_t moment);

/* Reports what a descriptor stands for, as flash_fs_stat does of a path, also where its last name is gone. It asks the driver
 * nothing. Errors: EBADF.
 */
int flash_fs_fstat(struct flash_fs *fs, int fd, struct flash_info *info);

/* Moves the offset and returns it; the file does not grow. Errors: EBADF; EINVAL before 0, of a directory, or a whence that is
 * none; EOVERFLOW.
 */
int64_t flash_fs_seek(struct flash_fs *fs, int fd, int64_t offset, int whence);

/* Cuts a file to a length, or lets it grow with zeros; the offset stays. Errors: EBADF; EINVAL negative, or not open for
 * writing; EFBIG.
 */
int flash_fs_truncate(struct flash_fs *fs, int fd, int64_t length, uint64_t moment);

/* Makes everything that was done before durable, in all files. Errors: EBADF. */
int flash_fs_fsync(struct flash_fs *fs, int fd);

/* The same, without a descriptor. */
int flash_fs_sync(struct flash_fs *fs);

/* ---- Weak pages ---- */

/* Moves on what is committed in one block of which a read returned FLASH_WRITTEN_WEAK since the mount, as a garbage collection
 * does: its old pages are not needed any more. All else is as before, wherever power goes: the tree, what was not synced, the
 * descriptors, the space. Returns how many such blocks are noted still, so that it is called when there is nothing else to do,
 * until it returns 0. It costs an erase and at most block_pages reads and programs, for each failure as many again and two
 * more, and nothing where the block has nothing committed or none is noted. At most 32 blocks are noted; of others a later read
 * reports it again.
 */
int flash_fs_refresh(struct flash_fs *fs);

/* ---- What is left of a damaged volume ---- */

#define FLASH_SALVAGE_BYTES 512

/* What is left of a volume that no longer mounts because pages of it are lost. It is zero before its first use, at a multiple
 * of 16, and not copied or moved while it is open, as a struct flash_fs. The device is only read.
 *
 * A lost page ends nothing: what it had is missing, and all else is there. An object goes by its number: the root's is 1, and
 * a list returns those of what a directory names. A number may lead to an object that is lost, and stand in several places.
 *
 * Any of these functions may return FLASH_EINVAL where the salvage is not open, and FLASH_EIO where the device has lost its
 * power, also in an earlier call. Open, list and orphans take memory, and may return FLASH_ENOMEM.
 */
struct flash_salvage {
    FLASH_ALIGNED unsigned char opaque[FLASH_SALVAGE_BYTES];
};

/* What the header of an object says. */
struct flash_salvaged {
    uint64_t kind;   /* FLASH_FILE or FLASH_DIRECTORY */
    uint64_t size;   /* bytes of a file; slots of a directory, each with a name */
    uint64_t moment; /* that of the last change */
};

/* The place of a page: its block, and the page in the block. */
struct flash_place {
    uint32_t block, page;
};

/* Opens what is left on a device. It goes by each page that reads and whose group was completed: of each part of an object by
 * the newest. Where the groups of which no page is lost show a tree it goes by that one, as a mount that reads all tags does.
 * It reads the tag of each page of a good block once or twice, and what a look through the tree takes; it takes memory by the
 * number of pages that are cached, which a close gives back. Errors: EBUSY it is open, or a volume of the driver is mounted, or
 * salvaged by another; EINVAL sizes out of range, or an address of `left`; EIO; ENOMEM; EMFILE. After an error it is not open,
 * unless it was before.
 */
int flash_fs_salvage_open(struct flash_salvage *left, const struct flash_driver *driver);

/* Gives the memory back. Nothing is done to one that is not open. */
void flash_fs_salvage_close(struct flash_salvage *left);

/* Reports what the header of an object says. Errors: ENOENT no header of it reads. */
int flash_fs_salvage_stat(struct flash_salvage *left, uint64_t object, struct flash_salvaged *info);

/* Fills the buffer with what a directory names, in the order of its slots, as far as they read: of each the number of the
 * object in eight bytes, the lowest first, the name, and a zero. Returns how many bytes these take, and sets `lost` to how many
 * slots do not read. Errors: ERANGE they take more than `size` bytes (the buffer stays as it was, and `lost` is set); ENOENT no
 * header of it reads; ENOTDIR it is a file.
 */
int64_t flash_fs_salvage_list(struct flash_salvage *left, uint64_t directory, void *buffer, size_t size, uint64_t *lost);

/* Reads bytes of a file from an offset on, at most up to the end of the page that has the first one; what lies past them in the
 * buffer stays. Returns how many bytes were read: 0 at the end of the file. No byte of a lost page is returned. Errors: ELOST
 * the page is lost, and the bytes up to its end are missing; ENOENT no header of the file reads; EISDIR it is a directory. So a
 * file is read to its end, where `info` is of its stat and `page` is the driver's page_bytes:
 *
 *     for (int64_t at = 0, count = 1; count > 0 && at < (int64_t)info.size; at += count) {
 *         count = flash_fs_salvage_read(&left, file, (uint64_t)at, bytes, sizeof bytes);
 *         if (count == FLASH_ELOST) count = page - at % page; // the bytes that are missing, at most up to info.size
 *     }
 */
int64_t flash_fs_salvage_read(struct flash_salvage *left, uint64_t file, uint64_t offset, void *buffer, size_t size);

/* Fills `objects` with the objects whose header reads and that no directory names, but the root: as many as there is room for.
 * Returns how many there are.
 */
int64_t flash_fs_salvage_orphans(struct flash_salvage *left, uint64_t *objects, size_t count);

/* Fills `places` with the places of the pages that were found lost in the open, by block and then by page: as many as there is
 * room for. Returns how many there are. Of a lost page nothing but its place is known; where an older page of the same part of
 * an object was left, that is shown.
 */
int64_t flash_fs_salvage_lost(struct flash_salvage *left, struct flash_place *places, size_t count);

#ifdef __cplusplus
}
#endif
#endif
