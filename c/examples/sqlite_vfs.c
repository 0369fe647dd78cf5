#include "sqlite_vfs.h"

#include <sqlite3.h>
#include <stdio.h>
#include <string.h>

struct file {
    sqlite3_file base;
    int fd;
};

static struct flash_fs *volume;
static uint64_t moment; /* a program with a clock has its time here */

static int fd_of(sqlite3_file *file) { return ((struct file *)file)->fd; }
static int result(int64_t code, int error) { return code >= 0 ? SQLITE_OK : code == FLASH_ENOSPC ? SQLITE_FULL : error; }

static int close_file(sqlite3_file *file) { return result(flash_fs_close(volume, fd_of(file)), SQLITE_IOERR_CLOSE); }

static int read_file(sqlite3_file *file, void *buffer, int size, sqlite3_int64 offset)
{
    int64_t count = flash_fs_seek(volume, fd_of(file), offset, FLASH_SEEK_SET);
    count = count < 0 ? count : flash_fs_read(volume, fd_of(file), buffer, (size_t)size);
    if (count < 0)
        return SQLITE_IOERR_READ;
    memset((char *)buffer + count, 0, (size_t)(size - count));
    return count < size ? SQLITE_IOERR_SHORT_READ : SQLITE_OK;
}

static int write_file(sqlite3_file *file, const void *bytes, int size, sqlite3_int64 offset)
{
    int64_t count = flash_fs_seek(volume, fd_of(file), offset, FLASH_SEEK_SET);
    count = count < 0 ? count : flash_fs_write(volume, fd_of(file), bytes, (size_t)size, ++moment);
    return count >= 0 && count < size ? SQLITE_FULL : result(count, SQLITE_IOERR_WRITE);
}

static int truncate_file(sqlite3_file *file, sqlite3_int64 size)
{
    return result(flash_fs_truncate(volume, fd_of(file), size, ++moment), SQLITE_IOERR_TRUNCATE);
}

static int sync_file(sqlite3_file *file, int flags)
{
    (void)flags;
    return result(flash_fs_fsync(volume, fd_of(file)), SQLITE_IOERR_FSYNC);
}

static int size_file(sqlite3_file *file, sqlite3_int64 *size)
{
    *size = flash_fs_seek(volume, fd_of(file), 0, FLASH_SEEK_END);
    return result(*size, SQLITE_IOERR_FSTAT);
}

static int lock_file(sqlite3_file *file, int lock) { return (void)file, (void)lock, SQLITE_OK; }
static int is_locked(sqlite3_file *file, int *locked) { return (void)file, *locked = 0, SQLITE_OK; }
static int control_file(sqlite3_file *file, int what, void *with) { return (void)file, (void)what, (void)with, SQLITE_NOTFOUND; }

static int sector_size(sqlite3_file *file)
{
    struct flash_space space;
    (void)file;
    return flash_fs_space(volume, &space) < 0 ? 4096 : (int)space.unit;
}

/* After a loss of power the volume is as after some of the calls, in their order. */
static int characteristics(sqlite3_file *file)
{
    (void)file;
    return SQLITE_IOCAP_SEQUENTIAL | SQLITE_IOCAP_SAFE_APPEND | SQLITE_IOCAP_POWERSAFE_OVERWRITE;
}

static const sqlite3_io_methods methods = {
    .iVersion = 1, .xClose = close_file, .xRead = read_file, .xWrite = write_file, .xTruncate = truncate_file,
    .xSync = sync_file, .xFileSize = size_file, .xLock = lock_file, .xUnlock = lock_file, .xCheckReservedLock = is_locked,
    .xFileControl = control_file, .xSectorSize = sector_size, .xDeviceCharacteristics = characteristics};

static int open_file(sqlite3_vfs *vfs, const char *name, sqlite3_file *base, int flags, int *flags_out)
{
    struct file *file = (struct file *)base;
    char temporary[32];
    (void)vfs;
    file->base.pMethods = NULL;
    if (name == NULL) { /* a file without a name: it goes when it is closed. A cut may have left one of this name before */
        name = (snprintf(temporary, sizeof temporary, "/temporary-%llu", (unsigned long long)++moment), temporary);
        int code = flash_fs_unlink(volume, name, ++moment);
        if (code < 0 && code != FLASH_ENOENT)
            return result(code, SQLITE_CANTOPEN);
    }
    uint32_t access = flags & SQLITE_OPEN_READONLY ? FLASH_RDONLY : FLASH_RDWR;
    uint32_t makes = flags & SQLITE_OPEN_CREATE ? FLASH_CREAT : 0, alone = flags & SQLITE_OPEN_EXCLUSIVE ? FLASH_EXCL : 0;
    file->fd = flash_fs_open(volume, name, access | makes | alone, ++moment);
    if (file->fd < 0)
        return result(file->fd, SQLITE_CANTOPEN);
    file->base.pMethods = &methods;
    if (flags_out != NULL)
        *flags_out = flags;
    return flags & SQLITE_OPEN_DELETEONCLOSE ? result(flash_fs_unlink(volume, name, ++moment), SQLITE_IOERR_DELETE) : SQLITE_OK;
}

static int delete_file(sqlite3_vfs *vfs, const char *name, int sync)
{
    (void)vfs;
    int code = flash_fs_unlink(volume, name, ++moment);
    if (code == FLASH_ENOENT)
        return SQLITE_IOERR_DELETE_NOENT;
    return result(code == 0 && sync ? flash_fs_sync(volume) : code, SQLITE_IOERR_DELETE);
}

static int access_file(sqlite3_vfs *vfs, const char *name, int flags, int *there)
{
    struct flash_info info;
    (void)vfs, (void)flags;
    int code = flash_fs_stat(volume, name, &info);
    *there = code == 0;
    return code == FLASH_ENOENT ? SQLITE_OK : result(code, SQLITE_IOERR_ACCESS);
}

static int full_name(sqlite3_vfs *vfs, const char *name, int size, char *full)
{
    (void)vfs;
    return snprintf(full, (size_t)size, "%s%s", *name == '/' ? "" : "/", name) < size ? SQLITE_OK : SQLITE_CANTOPEN;
}

int flash_sqlite_register(struct flash_fs *fs)
{
    static sqlite3_vfs vfs;
    const sqlite3_vfs *host = sqlite3_vfs_find("unix-none"); /* for the clock and for random bytes */
    volume = fs;
    if (vfs.zName == NULL && host != NULL) {
        vfs = *host;
        vfs.iVersion = 1, vfs.szOsFile = sizeof(struct file), vfs.mxPathname = 1024, vfs.zName = "flash", vfs.pNext = NULL;
        vfs.xOpen = open_file, vfs.xDelete = delete_file, vfs.xAccess = access_file, vfs.xFullPathname = full_name;
    }
    return vfs.zName == NULL ? SQLITE_ERROR : sqlite3_vfs_register(&vfs, 1);
}
