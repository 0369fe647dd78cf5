/* Names that are looked up, and made. */
#include "operations.h"
#include "attributes.h"
#include "descriptors.h"
#include "volume.h"

#include <sys/stat.h>

/* The kernel keeps too that a name is not there. */
void look_up(fuse_req_t request, fuse_ino_t parent, const char *name)
{
    char path[PATH_ROOM];
    struct flash_info facts;
    volume_enter();
    int code = node_path_in(node_of(parent), name, path);
    code = code < 0 ? code : flash_fs_stat(&volume, path, &facts);
    if (code == FLASH_ENOENT)
        fuse_reply_entry(request, &(struct fuse_entry_param){.entry_timeout = KEPT_SECONDS});
    else
        reply_object(request, code, node_of(parent), name, NULL);
    volume_leave();
}

void make_directory(fuse_req_t request, fuse_ino_t parent, const char *name, mode_t mode)
{
    (void)mode;
    char path[PATH_ROOM];
    volume_enter();
    int code = node_path_in(node_of(parent), name, path);
    code = code < 0 ? code : flash_fs_mkdir(&volume, path, volume_now());
    reply_object(request, code, node_of(parent), name, NULL);
    volume_leave();
}

static int make_file(struct node *parent, const char *name)
{
    char path[PATH_ROOM];
    int code = node_path_in(parent, name, path);
    return code < 0 ? code : descriptor_make(path, volume_now());
}

void make_node(fuse_req_t request, fuse_ino_t parent, const char *name, mode_t mode, dev_t device)
{
    (void)device;
    volume_enter();
    int code = S_ISREG(mode) ? make_file(node_of(parent), name) : FLASH_EPERM;
    reply_object(request, code, node_of(parent), name, NULL);
    volume_leave();
}

void make_symbolic_link(fuse_req_t request, const char *target, fuse_ino_t parent, const char *name)
{
    (void)target, (void)parent, (void)name;
    reply_code(request, FLASH_EPERM);
}

/* The kernel asks for it only where it knows no such name. */
void create_file(fuse_req_t request, fuse_ino_t parent, const char *name, mode_t mode, struct fuse_file_info *file)
{
    (void)mode;
    file->keep_cache = 1;
    volume_enter();
    int code = make_file(node_of(parent), name);
    reply_object(request, code, node_of(parent), name, file);
    volume_leave();
}

void link_file(fuse_req_t request, fuse_ino_t number, fuse_ino_t parent, const char *name)
{
    char old[PATH_ROOM], new[PATH_ROOM];
    volume_enter();
    int code = node_path(node_of(number), old);
    code = code < 0 ? code : node_path_in(node_of(parent), name, new);
    code = code < 0 ? code : flash_fs_link(&volume, old, new, volume_now());
    reply_object(request, code, node_of(parent), name, NULL);
    volume_leave();
}
