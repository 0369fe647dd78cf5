/* Directories that are read. What is listed at the beginning is read to its end, whatever is made and removed meanwhile. An
 * offset is 0 before ".", 1 before "..", and from 2 on that of a name in the list.
 */
#include "operations.h"
#include "attributes.h"
#include "volume.h"

#include <stdlib.h>
#include <string.h>

enum { FIRST_ROOM = 16384, NAMES = 2 };

/* A directory that the kernel has open. */
struct listing {
    char *names; /* each with a zero after it */
    int64_t size;
};

void open_directory(fuse_req_t request, fuse_ino_t number, struct fuse_file_info *file)
{
    (void)number;
    struct listing *listing = calloc(1, sizeof *listing);
    if (listing == NULL) {
        reply_code(request, FLASH_ENOMEM);
        return;
    }
    file->fh = (uintptr_t)listing;
    if (fuse_reply_open(request, file) != 0)
        free(listing);
}

void release_directory(fuse_req_t request, fuse_ino_t number, struct fuse_file_info *file)
{
    (void)number;
    struct listing *listing = (struct listing *)(uintptr_t)file->fh;
    free(listing->names);
    free(listing);
    reply_code(request, 0);
}

static int list_names(const struct node *node, struct listing *listing)
{
    char path[PATH_ROOM];
    int code = node_path(node, path);
    if (code < 0)
        return code;
    for (size_t room = FIRST_ROOM;; room *= 2) {
        char *names = realloc(listing->names, room);
        if (names == NULL)
            return FLASH_ENOMEM;
        listing->names = names;
        listing->size = flash_fs_list(&volume, path, names, room);
        if (listing->size != FLASH_ERANGE)
            return listing->size < 0 ? (int)listing->size : 0;
    }
}

/* The name at an offset, and what is known of it; false: it went since. */
static bool entry_at(const struct node *node, const struct listing *listing, off_t offset, const char **name, struct stat *status)
{
    char path[PATH_ROOM];
    struct flash_info facts = node->facts;
    if (offset < NAMES) {
        *name = offset == 0 ? "." : "..";
        if (offset == 1 && node->names != NULL)
            facts = node->names->parent->facts;
    } else {
        *name = listing->names + (offset - NAMES);
        if (node_path_in(node, *name, path) < 0 || flash_fs_stat(&volume, path, &facts) < 0)
            return false;
    }
    *status = attributes_of(&facts);
    return true;
}

static off_t after(off_t offset, const char *name) { return offset < NAMES ? offset + 1 : offset + (off_t)strlen(name) + 1; }

/* Fills the buffer with entries from an offset on, and returns how many bytes they take. */
static size_t fill(fuse_req_t request, const struct node *node, const struct listing *listing, off_t offset, char *buffer, size_t size)
{
    size_t used = 0;
    while (offset < NAMES + listing->size) {
        const char *name;
        struct stat status;
        bool there = entry_at(node, listing, offset, &name, &status);
        offset = after(offset, name);
        size_t taken = there ? fuse_add_direntry(request, buffer + used, size - used, name, &status, offset) : 0;
        if (taken > size - used)
            break;
        used += taken;
    }
    return used;
}

void read_directory(fuse_req_t request, fuse_ino_t number, size_t size, off_t offset, struct fuse_file_info *file)
{
    struct listing *listing = (struct listing *)(uintptr_t)file->fh;
    const struct node *node = node_of(number);
    char *buffer = malloc(size);
    volume_enter();
    int code = buffer == NULL ? FLASH_ENOMEM : offset == 0 ? list_names(node, listing) : 0;
    size_t used = code < 0 ? 0 : fill(request, node, listing, offset, buffer, size);
    volume_leave();
    if (code < 0)
        reply_code(request, code);
    else
        fuse_reply_buf(request, buffer, used);
    free(buffer);
}
