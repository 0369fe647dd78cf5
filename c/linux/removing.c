/* Names that go, by a removal or by a rename onto them. What the kernel has open under such a name stays open. */
#include "operations.h"
#include "descriptors.h"
#include "volume.h"

enum { NO_REPLACE = 1 }; /* Linux's RENAME_NOREPLACE; the other ways of a rename are not there */

/* What a name leads to that is to go; `node` is null where the kernel knows it not. */
struct loss {
    struct flash_info facts;
    struct node *node;
};

static int before_loss(const char *path, struct loss *loss)
{
    *loss = (struct loss){.node = NULL};
    int code = flash_fs_stat(&volume, path, &loss->facts);
    if (code < 0)
        return code;
    loss->node = node_find(loss->facts.object);
    return loss->node != NULL ? descriptor_keep(loss->node) : 0;
}

static void after_loss(const struct loss *loss, const struct node *parent, const char *name)
{
    struct node *node = loss->node;
    if (node == NULL)
        return;
    node_lose(node, parent, name);
    node->facts = loss->facts;
    node->facts.links = loss->facts.kind == FLASH_DIRECTORY ? 0 : loss->facts.links - 1;
    if (node->facts.links == 0 && node->fd < 0)
        node_end(node);
}

static void remove_by(int (*call)(struct flash_fs *, const char *, uint64_t), fuse_req_t request, fuse_ino_t parent,
                      const char *name)
{
    char path[PATH_ROOM];
    struct loss loss;
    volume_enter();
    int code = node_path_in(node_of(parent), name, path);
    code = code < 0 ? code : before_loss(path, &loss);
    code = code < 0 ? code : call(&volume, path, volume_now());
    if (code == 0)
        after_loss(&loss, node_of(parent), name);
    reply_code(request, code);
    volume_leave();
}

void remove_file(fuse_req_t request, fuse_ino_t parent, const char *name)
{
    remove_by(flash_fs_unlink, request, parent, name);
}

void remove_directory(fuse_req_t request, fuse_ino_t parent, const char *name)
{
    remove_by(flash_fs_rmdir, request, parent, name);
}

/* What moves, and what it replaces, if that is there. */
static int before_rename(const char *old, const char *new, unsigned flags, struct loss *moved, struct loss *replaced)
{
    *moved = (struct loss){.node = NULL};
    int code = flash_fs_stat(&volume, old, &moved->facts);
    if (code < 0)
        return code;
    moved->node = node_find(moved->facts.object);
    code = before_loss(new, replaced);
    if (code == 0 && flags == NO_REPLACE)
        return FLASH_EEXIST;
    return code == FLASH_ENOENT ? 0 : code;
}

static int rename_paths(const char *old, const char *new, struct node *parent, const char *name, struct node *new_parent,
                        const char *new_name, unsigned flags)
{
    struct loss moved, replaced;
    int code = before_rename(old, new, flags, &moved, &replaced);
    if (code < 0)
        return code;
    struct name *fresh = name_make(new_parent, new_name);
    if (fresh == NULL)
        return FLASH_ENOMEM;
    code = flash_fs_rename(&volume, old, new, volume_now());
    if (code == 0 && moved.facts.object != replaced.facts.object) {
        after_loss(&replaced, new_parent, new_name);
        if (moved.node != NULL) {
            node_lose(moved.node, parent, name);
            node_gain(moved.node, fresh);
            return 0;
        }
    }
    name_drop(fresh);
    return code;
}

void rename_object(fuse_req_t request, fuse_ino_t parent, const char *name, fuse_ino_t new_parent, const char *new_name,
                   unsigned flags)
{
    char old[PATH_ROOM], new[PATH_ROOM];
    volume_enter();
    int code = (flags & ~(unsigned)NO_REPLACE) != 0 ? FLASH_EINVAL : node_path_in(node_of(parent), name, old);
    code = code < 0 ? code : node_path_in(node_of(new_parent), new_name, new);
    code = code < 0 ? code : rename_paths(old, new, node_of(parent), name, node_of(new_parent), new_name, flags);
    reply_code(request, code);
    volume_leave();
}
