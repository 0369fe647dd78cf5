/* What an object is, and what a program sets of it: a length, and the time of a file's last change. */
#include "operations.h"
#include "attributes.h"
#include "descriptors.h"
#include "volume.h"

#include <errno.h>

enum { NOT_KEPT = -EOPNOTSUPP, NANOSECONDS = 1000000000 };

static void reply_facts(fuse_req_t request, int code, struct node *node)
{
    struct flash_info facts;
    code = code < 0 ? code : attributes_facts(node, &facts);
    if (code < 0) {
        reply_code(request, code);
        return;
    }
    struct stat status = attributes_of(&facts);
    fuse_reply_attr(request, &status, KEPT_SECONDS);
}

void get_attributes(fuse_req_t request, fuse_ino_t number, struct fuse_file_info *file)
{
    (void)file;
    volume_enter();
    reply_facts(request, 0, node_of(number));
    volume_leave();
}

/* The moment that is given: that of now unless another is. A moment is a number from 0 on, of 64 bits. */
static bool moment_of(const struct timespec *time, int which, uint64_t *moment)
{
    if (which & FUSE_SET_ATTR_MTIME_NOW || !(which & FUSE_SET_ATTR_MTIME)) {
        *moment = volume_now();
        return true;
    }
    *moment = (uint64_t)time->tv_sec * NANOSECONDS + (uint64_t)time->tv_nsec;
    return time->tv_sec >= 0 && (uint64_t)time->tv_sec < UINT64_MAX / NANOSECONDS;
}

static int set_length(struct node *node, int64_t length, uint64_t moment)
{
    int fd = descriptor_of(node);
    int code = fd < 0 ? fd : flash_fs_truncate(&volume, fd, length, moment);
    descriptor_rest(node);
    return code;
}

/* A file's time is set by a truncate to the length that it has; a directory's cannot be, nor the time of a read. */
static int set_time(struct node *node, const struct timespec *time, int which)
{
    struct flash_info facts;
    uint64_t moment;
    bool reads_alone = (which & (FUSE_SET_ATTR_MTIME | FUSE_SET_ATTR_MTIME_NOW)) == 0;
    if (reads_alone || node->facts.kind == FLASH_DIRECTORY || !moment_of(time, which, &moment))
        return words.ignores_times ? 0 : NOT_KEPT;
    int code = attributes_facts(node, &facts);
    return code < 0 ? code : set_length(node, (int64_t)facts.size, moment);
}

/* Modes and owners are taken as they come, and not stored. */
static int set(struct node *node, const struct stat *wanted, int which)
{
    const int times = FUSE_SET_ATTR_ATIME | FUSE_SET_ATTR_ATIME_NOW | FUSE_SET_ATTR_MTIME | FUSE_SET_ATTR_MTIME_NOW;
    uint64_t moment;
    if ((which & FUSE_SET_ATTR_SIZE) == 0)
        return which & times ? set_time(node, &wanted->st_mtim, which) : 0;
    if (!moment_of(&wanted->st_mtim, which, &moment) && !words.ignores_times)
        return NOT_KEPT;
    return set_length(node, wanted->st_size, moment);
}

void set_attributes(fuse_req_t request, fuse_ino_t number, struct stat *wanted, int which, struct fuse_file_info *file)
{
    (void)file;
    struct node *node = node_of(number);
    volume_enter();
    reply_facts(request, set(node, wanted, which), node);
    volume_leave();
}
