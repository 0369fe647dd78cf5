/* Random calls of flash_fs.h, and doing them on a volume and on the model. */
#ifndef COMMANDS_H
#define COMMANDS_H

#include "model.h"

enum what {
    OPEN, CLOSE, READ, WRITE, SEEK, TRUNCATE, FSYNC, SYNC, STAT, MKDIR, RMDIR, LINK, UNLINK, RENAME, LIST, SPACE, PREAD, PWRITE,
    FSTAT, WHATS
};

struct command {
    enum what what;
    char path[1100], other[1100];
    int fd, whence;
    uint32_t flags;
    int64_t offset; /* of a seek, a pread, a pwrite; the length of a truncate */
    size_t size;    /* of a read, a write, a list, a pread, a pwrite */
    unsigned seed;  /* of the bytes that are written */
    uint64_t moment;
};

/* What a call returned, and a number of all that it filled. */
struct outcome {
    int64_t code;
    uint64_t filled;
};

/* A source of random numbers. */
struct draw {
    uint64_t state;
};
uint32_t random_below(struct draw *draw, uint32_t below);

/* A random call, among few names and descriptors, so that calls meet. `most` is about the most bytes of a write. */
struct command draw_command(struct draw *draw, size_t most);

struct outcome do_on_volume(struct flash_fs *fs, const struct command *command);
/* `each` is called after each step of the call that changes the model. */
struct outcome do_on_model(struct model *model, const struct command *command,
                           void (*each)(void *context, const struct model *model), void *context);

const char *name_of(enum what what);
void show_command(const struct command *command);

/* Ends the test with a line if it does not hold. */
void check(bool holds, const char *form, ...) __attribute__((format(printf, 2, 3)));

#endif
