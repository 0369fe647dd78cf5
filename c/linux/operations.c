#include "operations.h"
#include "attributes.h"
#include "descriptors.h"
#include "volume.h"

#include <stdatomic.h>
#include <syslog.h>

struct node *node_of(fuse_ino_t number) { return number == FUSE_ROOT_ID ? node_root() : (struct node *)(uintptr_t)number; }

/* That the volume stopped is said once: from then on each call is answered so. */
void reply_code(fuse_req_t request, int code)
{
    static atomic_flag said = ATOMIC_FLAG_INIT;
    if (code == FLASH_EIO && !atomic_flag_test_and_set(&said))
        syslog(LOG_ERR, "%s: the device failed, and the volume has stopped: unmount it, and mount it again", words.device);
    fuse_reply_err(request, -code);
}

void reply_object(fuse_req_t request, int code, struct node *parent, const char *name, struct fuse_file_info *file)
{
    char path[PATH_ROOM];
    struct flash_info facts;
    code = code < 0 ? code : node_path_in(parent, name, path);
    code = code < 0 ? code : flash_fs_stat(&volume, path, &facts);
    struct node *node = code < 0 ? NULL : node_refer(&facts, parent, name);
    if (node == NULL) {
        reply_code(request, code < 0 ? code : FLASH_ENOMEM);
        return;
    }
    struct fuse_entry_param entry = {.ino = (uintptr_t)node,
                                     .attr = attributes_of(&facts),
                                     .attr_timeout = KEPT_SECONDS,
                                     .entry_timeout = KEPT_SECONDS};
    if (file != NULL)
        descriptor_gain_handle(node);
    int sent = file != NULL ? fuse_reply_create(request, &entry, file) : fuse_reply_entry(request, &entry);
    if (sent == 0)
        return;
    if (file != NULL)
        descriptor_lose_handle(node);
    node_forget(node, 1);
}

/* Each object takes at least a unit: so many as are free can be made. */
static void get_space(fuse_req_t request, fuse_ino_t number)
{
    (void)number;
    struct flash_space space;
    volume_enter();
    int code = flash_fs_space(&volume, &space);
    volume_leave();
    if (code < 0) {
        reply_code(request, code);
        return;
    }
    struct statvfs status = {.f_bsize = space.unit, .f_frsize = space.unit, .f_blocks = space.total, .f_bfree = space.free,
                             .f_bavail = space.free, .f_files = space.total, .f_ffree = space.free, .f_favail = space.free,
                             .f_namemax = 255};
    fuse_reply_statfs(request, &status);
}

static void forget(fuse_req_t request, fuse_ino_t number, uint64_t lookups)
{
    volume_enter();
    node_forget(node_of(number), lookups);
    volume_leave();
    fuse_reply_none(request);
}

static void forget_many(fuse_req_t request, size_t count, struct fuse_forget_data *which)
{
    volume_enter();
    for (size_t i = 0; i < count; i++)
        node_forget(node_of(which[i].ino), which[i].nlookup);
    volume_leave();
    fuse_reply_none(request);
}

/* The volume changes by the kernel's calls alone, so a moment that moved does not make what the kernel holds of a file stale. */
static void begin(void *data, struct fuse_conn_info *connection)
{
    (void)data;
    connection->want &= ~(unsigned)FUSE_CAP_AUTO_INVAL_DATA;
}

const struct fuse_lowlevel_ops operations = {
    .init = begin,
    .lookup = look_up,
    .forget = forget,
    .forget_multi = forget_many,
    .getattr = get_attributes,
    .setattr = set_attributes,
    .mknod = make_node,
    .mkdir = make_directory,
    .unlink = remove_file,
    .rmdir = remove_directory,
    .symlink = make_symbolic_link,
    .rename = rename_object,
    .link = link_file,
    .open = open_file,
    .create = create_file,
    .read = read_file,
    .write = write_file,
    .release = release_file,
    .fsync = sync_volume,
    .opendir = open_directory,
    .readdir = read_directory,
    .releasedir = release_directory,
    .fsyncdir = sync_volume,
    .statfs = get_space,
};
