/* The operations of the file system, as FUSE's low-level interface asks for them. Each is done between volume_enter and
 * volume_leave; errors are those of flash_fs.h, which are Linux's numbers.
 */
#ifndef OPERATIONS_H
#define OPERATIONS_H

#include "nodes.h"
#include "words.h"

/* All of them, for fuse_session_new. */
extern const struct fuse_lowlevel_ops operations;

/* The node of a number that the kernel was given. */
struct node *node_of(fuse_ino_t number);

/* Ends a call with an error, which is negative, or with 0. */
void reply_code(fuse_req_t request, int code);

/* Ends a call with an object that a name leads to, or with an error. For a new open file `file` is given. */
void reply_object(fuse_req_t request, int code, struct node *parent, const char *name, struct fuse_file_info *file);

/* Names: names.c. */
void look_up(fuse_req_t request, fuse_ino_t parent, const char *name);
void make_directory(fuse_req_t request, fuse_ino_t parent, const char *name, mode_t mode);
void make_node(fuse_req_t request, fuse_ino_t parent, const char *name, mode_t mode, dev_t device);
void make_symbolic_link(fuse_req_t request, const char *target, fuse_ino_t parent, const char *name);
void create_file(fuse_req_t request, fuse_ino_t parent, const char *name, mode_t mode, struct fuse_file_info *file);
void link_file(fuse_req_t request, fuse_ino_t number, fuse_ino_t parent, const char *name);

/* Names that go: removing.c. */
void remove_file(fuse_req_t request, fuse_ino_t parent, const char *name);
void remove_directory(fuse_req_t request, fuse_ino_t parent, const char *name);
void rename_object(fuse_req_t request, fuse_ino_t parent, const char *name, fuse_ino_t new_parent, const char *new_name,
                   unsigned flags);

/* Files: files.c. */
void open_file(fuse_req_t request, fuse_ino_t number, struct fuse_file_info *file);
void release_file(fuse_req_t request, fuse_ino_t number, struct fuse_file_info *file);
void read_file(fuse_req_t request, fuse_ino_t number, size_t size, off_t offset, struct fuse_file_info *file);
void write_file(fuse_req_t request, fuse_ino_t number, const char *bytes, size_t size, off_t offset, struct fuse_file_info *file);
void sync_volume(fuse_req_t request, fuse_ino_t number, int data, struct fuse_file_info *file);

/* What an object is, and setting it: setting.c. */
void get_attributes(fuse_req_t request, fuse_ino_t number, struct fuse_file_info *file);
void set_attributes(fuse_req_t request, fuse_ino_t number, struct stat *wanted, int which, struct fuse_file_info *file);

/* Directories: listing.c. */
void open_directory(fuse_req_t request, fuse_ino_t number, struct fuse_file_info *file);
void read_directory(fuse_req_t request, fuse_ino_t number, size_t size, off_t offset, struct fuse_file_info *file);
void release_directory(fuse_req_t request, fuse_ino_t number, struct fuse_file_info *file);

#endif
