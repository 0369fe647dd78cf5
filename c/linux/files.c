/* Files that are open. Their descriptors are found when they are used, by descriptors.c. */
#include "operations.h"
#include "descriptors.h"
#include "volume.h"

#include <fcntl.h>
#include <stdlib.h>

static int cut(struct node *node)
{
    int fd = descriptor_of(node);
    return fd < 0 ? fd : flash_fs_truncate(&volume, fd, 0, volume_now());
}

void open_file(fuse_req_t request, fuse_ino_t number, struct fuse_file_info *file)
{
    struct node *node = node_of(number);
    file->keep_cache = 1;
    volume_enter();
    descriptor_gain_handle(node);
    int code = file->flags & O_TRUNC ? cut(node) : 0;
    if (code < 0)
        reply_code(request, code);
    if (code < 0 || fuse_reply_open(request, file) != 0)
        descriptor_lose_handle(node);
    volume_leave();
}

void release_file(fuse_req_t request, fuse_ino_t number, struct fuse_file_info *file)
{
    (void)file;
    volume_enter();
    reply_code(request, descriptor_lose_handle(node_of(number)));
    volume_leave();
}

void read_file(fuse_req_t request, fuse_ino_t number, size_t size, off_t offset, struct fuse_file_info *file)
{
    (void)file;
    char *buffer = malloc(size);
    if (buffer == NULL) {
        reply_code(request, FLASH_ENOMEM);
        return;
    }
    volume_enter();
    int fd = descriptor_of(node_of(number));
    int64_t count = fd < 0 ? fd : flash_fs_pread(&volume, fd, buffer, size, offset);
    volume_leave();
    if (count < 0)
        reply_code(request, (int)count);
    else
        fuse_reply_buf(request, buffer, (size_t)count);
    free(buffer);
}

void write_file(fuse_req_t request, fuse_ino_t number, const char *bytes, size_t size, off_t offset, struct fuse_file_info *file)
{
    (void)file;
    volume_enter();
    int fd = descriptor_of(node_of(number));
    int64_t count = fd < 0 ? fd : flash_fs_pwrite(&volume, fd, bytes, size, offset, volume_now());
    volume_leave();
    if (count < 0)
        reply_code(request, (int)count);
    else
        fuse_reply_write(request, (size_t)count);
}

/* A sync makes durable what was done before in all files and directories, whichever it is called for. */
void sync_volume(fuse_req_t request, fuse_ino_t number, int data, struct fuse_file_info *file)
{
    (void)number, (void)data, (void)file;
    volume_enter();
    reply_code(request, flash_fs_sync(&volume));
    volume_leave();
}
