/* A small model of a volume, after docs/PROFILE.md: what each function of flash_fs.h returns, and the tree after it. It knows
 * no flash, no memory that is refused, and nothing but plain arrays.
 */
#ifndef MODEL_H
#define MODEL_H

#include "flash_fs.h"

enum { MODEL_OBJECTS = 1024, MODEL_DESCRIPTORS = 64, MODEL_ROOT = 1 };

struct model_entry {
    char name[256];
    uint32_t object;
};

struct model_object {
    int kind; /* 0: no object has this number; else FLASH_FILE or FLASH_DIRECTORY */
    uint64_t moment;
    uint8_t *bytes;
    uint64_t size;
    struct model_entry *entries; /* in the order of their names */
    uint32_t count;
};

struct model_handle {
    uint32_t object; /* 0: not open */
    uint32_t flags;
    uint64_t offset;
};

struct model {
    uint64_t page_bytes, capacity, most_written, greatest_length;
    struct model_object objects[MODEL_OBJECTS];
    struct model_handle handles[MODEL_DESCRIPTORS];
};

/* A volume that was just formatted. */
struct model *model_make(uint32_t page_bytes, uint32_t block_pages, uint32_t blocks, uint32_t spare);
struct model *model_clone(const struct model *model);
void model_free(struct model *model);

/* What a mount shows: no descriptor is open, and what only they held is gone. */
void model_settle(struct model *model);

/* A number of the tree that a mount would show: of names, kinds, numbers, links, moments and bytes. */
uint64_t model_tree(const struct model *model);

/* The same of a mounted volume, by its functions; moments and links included. 0 and `code` where one returned an error. */
uint64_t volume_tree(struct flash_fs *fs, int64_t *code);

/* The functions of flash_fs.h. A write is done in the pieces in which the library does it: `each` is called after each. */
int64_t model_open(struct model *model, const char *path, uint32_t flags, uint64_t moment);
int64_t model_close(struct model *model, int fd);
int64_t model_read(struct model *model, int fd, uint8_t *buffer, size_t size);
int64_t model_write(struct model *model, int fd, const uint8_t *bytes, size_t size, uint64_t moment,
                    void (*each)(void *context, const struct model *model), void *context);
int64_t model_pread(struct model *model, int fd, uint8_t *buffer, size_t size, int64_t offset);
int64_t model_pwrite(struct model *model, int fd, const uint8_t *bytes, size_t size, int64_t offset, uint64_t moment,
                     void (*each)(void *context, const struct model *model), void *context);
int64_t model_fstat(struct model *model, int fd, struct flash_info *info);
int64_t model_seek(struct model *model, int fd, int64_t offset, int whence);
int64_t model_truncate(struct model *model, int fd, int64_t length, uint64_t moment);
int64_t model_fsync(struct model *model, int fd);
int64_t model_mkdir(struct model *model, const char *path, uint64_t moment);
int64_t model_rmdir(struct model *model, const char *path, uint64_t moment);
int64_t model_unlink(struct model *model, const char *path, uint64_t moment);
int64_t model_link(struct model *model, const char *old_path, const char *new_path, uint64_t moment);
int64_t model_rename(struct model *model, const char *old_path, const char *new_path, uint64_t moment);
int64_t model_stat(struct model *model, const char *path, struct flash_info *info);
int64_t model_list(struct model *model, const char *path, char *buffer, size_t size);
int64_t model_space(struct model *model, struct flash_space *space);

#endif
