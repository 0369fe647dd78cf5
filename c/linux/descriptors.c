#include "descriptors.h"
#include "volume.h"

static struct node *holders[DESCRIPTORS]; /* by the descriptor's number */
static uint64_t uses;

static int open_path(const char *path, uint32_t flags, uint64_t moment)
{
    int fd;
    do
        fd = flash_fs_open(&volume, path, flags, moment);
    while (fd == FLASH_EMFILE && descriptor_spare());
    return fd;
}

static int close_descriptor(struct node *node)
{
    int code = flash_fs_close(&volume, node->fd);
    holders[node->fd] = NULL;
    node->fd = -1;
    return code;
}

int descriptor_make(const char *path, uint64_t moment)
{
    int fd = open_path(path, FLASH_WRONLY | FLASH_CREAT | FLASH_EXCL, moment);
    return fd < 0 ? fd : flash_fs_close(&volume, fd);
}

int descriptor_of(struct node *node)
{
    char path[PATH_ROOM];
    node->used = ++uses;
    if (node->fd >= 0)
        return node->fd;
    int code = node_path(node, path);
    if (code < 0)
        return code;
    int fd = open_path(path, flash_fs_read_only(&volume) ? FLASH_RDONLY : FLASH_RDWR, 0);
    if (fd >= 0) {
        node->fd = fd;
        holders[fd] = node;
    }
    return fd;
}

void descriptor_gain_handle(struct node *node) { node->handles++; }

int descriptor_lose_handle(struct node *node)
{
    node->handles--;
    bool last = node->handles == 0 && node->fd >= 0;
    int code = last ? close_descriptor(node) : 0;
    if (last && node->facts.links == 0)
        node_end(node);
    return code;
}

void descriptor_rest(struct node *node)
{
    if (node->handles == 0 && node->fd >= 0)
        close_descriptor(node);
}

unsigned descriptors_without_name(void)
{
    unsigned count = 0;
    for (int fd = 0; fd < DESCRIPTORS; fd++)
        count += holders[fd] != NULL && holders[fd]->names == NULL;
    return count;
}

int descriptor_keep(struct node *node)
{
    if (node->handles == 0 || node->names == NULL || node->names->next != NULL)
        return 0;
    if (descriptors_without_name() >= MOST_WITHOUT_NAME)
        return FLASH_EMFILE;
    int fd = descriptor_of(node);
    return fd < 0 ? fd : 0;
}

bool descriptor_spare(void)
{
    struct node *least = NULL;
    char path[PATH_ROOM];
    for (int fd = 0; fd < DESCRIPTORS; fd++) {
        struct node *node = holders[fd];
        if (node != NULL && (least == NULL || node->used < least->used) && node_path(node, path) >= 0)
            least = node;
    }
    if (least != NULL)
        close_descriptor(least);
    return least != NULL;
}
