#include "attributes.h"
#include "volume.h"
#include "words.h"

enum { SECTOR = 512, NANOSECONDS = 1000000000 };

/* A file takes a unit and one for each unit of its length, a directory at least one. */
static blkcnt_t sectors(const struct flash_info *facts)
{
    struct flash_space space = {0};
    if (flash_fs_space(&volume, &space) < 0)
        return 0;
    return (blkcnt_t)((1 + (facts->size + space.unit - 1) / space.unit) * (space.unit / SECTOR));
}

struct stat attributes_of(const struct flash_info *facts)
{
    struct stat status = {
        .st_ino = facts->object,
        .st_mode = (facts->kind == FLASH_DIRECTORY ? S_IFDIR : S_IFREG) | (0777 & ~words.umask),
        .st_nlink = facts->links,
        .st_uid = words.uid,
        .st_gid = words.gid,
        .st_size = (off_t)facts->size,
        .st_blksize = 4096,
        .st_blocks = sectors(facts),
    };
    status.st_mtim = (struct timespec){(time_t)(facts->moment / NANOSECONDS), (long)(facts->moment % NANOSECONDS)};
    status.st_atim = status.st_ctim = status.st_mtim;
    return status;
}

int attributes_facts(struct node *node, struct flash_info *facts)
{
    char path[PATH_ROOM];
    int code = node_path(node, path);
    if (code >= 0)
        return flash_fs_stat(&volume, path, facts);
    *facts = node->facts;
    return node->fd >= 0 ? flash_fs_fstat(&volume, node->fd, facts) : 0;
}
