/* The words of the program: what to mount, where, and how. */
#ifndef WORDS_H
#define WORDS_H

#define FUSE_USE_VERSION 31
#include <fuse_lowlevel.h>
#include <stdbool.h>

struct words {
    char *device; /* an image file, or a device of Linux */
    int formats;
    unsigned data, pages, blocks; /* the sizes of an image that is made; 0: not said */
    unsigned spare;               /* the spare blocks of a format; UINT_MAX: not said */
    unsigned commit;              /* seconds from sync to sync; 0: none */
    int ignores_times;            /* a time that cannot be stored is no error */
    int synchronous;              /* each change of an image is on the host's disk before it returns */
    int read_only;
    unsigned uid, gid, umask; /* of all files and directories */
    struct fuse_cmdline_opts fuse;
};

/* The words that were read: set once, before anything is mounted. */
extern struct words words;

/* Reads the words that were given; `left` has those for FUSE's own session. Returns whether there is something to mount; where
 * not, `status` is that of the program's end, and why was printed.
 */
bool words_read(const struct fuse_args *given, struct fuse_args *left, int *status);

#endif
