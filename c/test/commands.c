#include "commands.h"

#include <stdarg.h>
#include <stdio.h>
#include <stdlib.h>
#include <string.h>

enum { MOST_BYTES = 1 << 20 };
static uint8_t bytes_there[MOST_BYTES];

uint32_t random_below(struct draw *draw, uint32_t below)
{
    draw->state += UINT64_C(0x9e3779b97f4a7c15);
    uint64_t z = draw->state;
    z = (z ^ (z >> 30)) * UINT64_C(0xbf58476d1ce4e5b9);
    z = (z ^ (z >> 27)) * UINT64_C(0x94d049bb133111eb);
    return (uint32_t)((z ^ (z >> 31)) >> 16) % below;
}

/* Most paths lead through directories that are likely to be there, and end in a name that is likely of the kind that is wanted. */
static void draw_path(struct draw *draw, char *path, bool of_directory)
{
    static const char *const names[] = {"a", "b", "c", "e.txt", "\xc3\xa9", "with space", "dir", "old"};
    uint32_t kind = random_below(draw, 20), depth = kind < 11 ? 1 : kind < 18 ? 2 : 3;
    if (random_below(draw, 60) == 0) { /* a name of 254 to 257 bytes */
        size_t length = 254 + random_below(draw, 4);
        memset(path, 'n', length);
        path[length] = 0;
        return;
    }
    path[0] = 0;
    if (random_below(draw, 80) == 0)
        return;
    if (random_below(draw, 20) != 0)
        strcat(path, "/");
    for (uint32_t i = 0; i < depth; i++) {
        uint32_t which = random_below(draw, 60);
        bool directory = (i + 1 < depth || of_directory) != (random_below(draw, 12) == 0);
        strcat(path, which == 0 ? "." : which == 1 ? ".." : directory ? names[6 + which % 2] : names[which % 6]);
        if (i + 1 < depth || random_below(draw, 30) == 0)
            strcat(path, random_below(draw, 25) == 0 ? "//" : "/");
    }
    if (random_below(draw, 150) == 0)
        strcpy(path, "/");
}

static uint32_t draw_flags(struct draw *draw)
{
    uint32_t flags = random_below(draw, 2) == 0 ? FLASH_RDWR : 1 + random_below(draw, 3);
    flags |= random_below(draw, 4) != 0 ? FLASH_CREAT : 0;
    flags |= random_below(draw, 12) == 0 ? FLASH_EXCL : 0;
    flags |= random_below(draw, 8) == 0 ? FLASH_TRUNC : 0;
    flags |= random_below(draw, 4) == 0 ? FLASH_APPEND : 0;
    if (random_below(draw, 100) == 0)
        flags = random_below(draw, 80);
    return flags;
}

static size_t draw_size(struct draw *draw, size_t most)
{
    switch (random_below(draw, 5)) {
    case 0:
        return random_below(draw, 8);
    case 1:
        return 512 * (size_t)random_below(draw, 4);
    case 2:
        return 500 + random_below(draw, 30);
    default:
        return random_below(draw, (uint32_t)most);
    }
}

struct command draw_command(struct draw *draw, size_t most)
{
    static const enum what often[] = {OPEN,     OPEN,  OPEN,  OPEN,  CLOSE, READ, READ,  WRITE,  WRITE,  WRITE,  WRITE, WRITE,
                                      WRITE,    SEEK,  SEEK,  FSYNC, SYNC,  STAT, MKDIR, MKDIR,  UNLINK, UNLINK, LINK,  RENAME,
                                      TRUNCATE, RMDIR, RENAME, LIST, SPACE, CLOSE, PREAD, PWRITE, PWRITE, FSTAT};
    struct command command = {.what = often[random_below(draw, sizeof often / sizeof *often)]};
    bool of_directory = command.what == MKDIR || command.what == RMDIR || command.what == LIST ||
                        (command.what == RENAME && random_below(draw, 4) == 0);
    draw_path(draw, command.path, of_directory);
    draw_path(draw, command.other, of_directory);
    command.fd = random_below(draw, 50) == 0 ? (int)random_below(draw, 70) - 3 : (int)random_below(draw, 5);
    command.flags = draw_flags(draw);
    command.whence = random_below(draw, 40) == 0 ? (int)random_below(draw, 6) - 2 : (int)random_below(draw, 3);
    command.offset = (int64_t)random_below(draw, (uint32_t)most * 2) - (int64_t)random_below(draw, (uint32_t)most);
    if (random_below(draw, 30) == 0)
        command.offset = random_below(draw, 2) == 0 ? INT64_MAX - (int64_t)random_below(draw, 1000) : -(int64_t)random_below(draw, 2000);
    command.size = draw_size(draw, most);
    command.seed = random_below(draw, 1000000);
    command.moment = random_below(draw, 10) == 0 ? UINT64_MAX - random_below(draw, 9) : random_below(draw, 100000);
    return command;
}

static const uint8_t *bytes_of(const struct command *command)
{
    static uint8_t bytes[MOST_BYTES];
    struct draw draw = {command->seed};
    for (size_t i = 0; i < command->size; i += 4) {
        uint32_t word = random_below(&draw, UINT32_MAX);
        memcpy(bytes + i, &word, command->size - i < 4 ? command->size - i : 4);
    }
    return bytes;
}

static uint64_t number_of(const void *bytes, int64_t size)
{
    uint64_t number = 1;
    for (int64_t i = 0; i < size; i++)
        number = (number ^ ((const uint8_t *)bytes)[i]) * UINT64_C(0x100000001b3);
    return number;
}

struct outcome do_on_volume(struct flash_fs *fs, const struct command *command)
{
    struct outcome outcome = {0, 0};
    struct flash_info info = {0};
    struct flash_space space = {0};
    switch (command->what) {
    case OPEN:
        outcome.code = flash_fs_open(fs, command->path, command->flags, command->moment);
        break;
    case CLOSE:
        outcome.code = flash_fs_close(fs, command->fd);
        break;
    case READ:
        outcome.code = flash_fs_read(fs, command->fd, bytes_there, command->size);
        outcome.filled = number_of(bytes_there, outcome.code);
        break;
    case WRITE:
        outcome.code = flash_fs_write(fs, command->fd, bytes_of(command), command->size, command->moment);
        break;
    case SEEK:
        outcome.code = flash_fs_seek(fs, command->fd, command->offset, command->whence);
        break;
    case TRUNCATE:
        outcome.code = flash_fs_truncate(fs, command->fd, command->offset, command->moment);
        break;
    case FSYNC:
        outcome.code = flash_fs_fsync(fs, command->fd);
        break;
    case SYNC:
        outcome.code = flash_fs_sync(fs);
        break;
    case STAT:
        outcome.code = flash_fs_stat(fs, command->path, &info);
        outcome.filled = number_of(&info, sizeof info);
        break;
    case MKDIR:
        outcome.code = flash_fs_mkdir(fs, command->path, command->moment);
        break;
    case RMDIR:
        outcome.code = flash_fs_rmdir(fs, command->path, command->moment);
        break;
    case LINK:
        outcome.code = flash_fs_link(fs, command->path, command->other, command->moment);
        break;
    case UNLINK:
        outcome.code = flash_fs_unlink(fs, command->path, command->moment);
        break;
    case RENAME:
        outcome.code = flash_fs_rename(fs, command->path, command->other, command->moment);
        break;
    case LIST:
        outcome.code = flash_fs_list(fs, command->path, (char *)bytes_there, command->size);
        outcome.filled = number_of(bytes_there, outcome.code);
        break;
    case SPACE:
        outcome.code = flash_fs_space(fs, &space);
        outcome.filled = number_of(&space, sizeof space);
        break;
    case PREAD:
        outcome.code = flash_fs_pread(fs, command->fd, bytes_there, command->size, command->offset);
        outcome.filled = number_of(bytes_there, outcome.code);
        break;
    case PWRITE:
        outcome.code = flash_fs_pwrite(fs, command->fd, bytes_of(command), command->size, command->offset, command->moment);
        break;
    case FSTAT:
        outcome.code = flash_fs_fstat(fs, command->fd, &info);
        outcome.filled = number_of(&info, sizeof info);
        break;
    case WHATS:
        break;
    }
    return outcome;
}

struct outcome do_on_model(struct model *model, const struct command *command,
                           void (*each)(void *context, const struct model *model), void *context)
{
    struct outcome outcome = {0, 0};
    struct flash_info info = {0};
    struct flash_space space = {0};
    switch (command->what) {
    case OPEN:
        outcome.code = model_open(model, command->path, command->flags, command->moment);
        break;
    case CLOSE:
        outcome.code = model_close(model, command->fd);
        break;
    case READ:
        outcome.code = model_read(model, command->fd, bytes_there, command->size);
        outcome.filled = number_of(bytes_there, outcome.code);
        break;
    case WRITE:
        outcome.code = model_write(model, command->fd, bytes_of(command), command->size, command->moment, each, context);
        break;
    case SEEK:
        outcome.code = model_seek(model, command->fd, command->offset, command->whence);
        break;
    case TRUNCATE:
        outcome.code = model_truncate(model, command->fd, command->offset, command->moment);
        break;
    case FSYNC:
        outcome.code = model_fsync(model, command->fd);
        break;
    case SYNC:
        break;
    case STAT:
        outcome.code = model_stat(model, command->path, &info);
        outcome.filled = number_of(&info, sizeof info);
        break;
    case MKDIR:
        outcome.code = model_mkdir(model, command->path, command->moment);
        break;
    case RMDIR:
        outcome.code = model_rmdir(model, command->path, command->moment);
        break;
    case LINK:
        outcome.code = model_link(model, command->path, command->other, command->moment);
        break;
    case UNLINK:
        outcome.code = model_unlink(model, command->path, command->moment);
        break;
    case RENAME:
        outcome.code = model_rename(model, command->path, command->other, command->moment);
        break;
    case LIST:
        outcome.code = model_list(model, command->path, (char *)bytes_there, command->size);
        outcome.filled = number_of(bytes_there, outcome.code);
        break;
    case SPACE:
        outcome.code = model_space(model, &space);
        outcome.filled = number_of(&space, sizeof space);
        break;
    case PREAD:
        outcome.code = model_pread(model, command->fd, bytes_there, command->size, command->offset);
        outcome.filled = number_of(bytes_there, outcome.code);
        break;
    case PWRITE:
        outcome.code = model_pwrite(model, command->fd, bytes_of(command), command->size, command->offset, command->moment, each,
                                    context);
        break;
    case FSTAT:
        outcome.code = model_fstat(model, command->fd, &info);
        outcome.filled = number_of(&info, sizeof info);
        break;
    case WHATS:
        break;
    }
    if (each != NULL && command->what != WRITE && command->what != PWRITE)
        each(context, model);
    return outcome;
}

const char *name_of(enum what what)
{
    static const char *const names[] = {"open", "close", "read",   "write", "seek",   "truncate", "fsync", "sync", "stat",
                                        "mkdir", "rmdir", "link", "unlink", "rename", "list",     "space", "pread", "pwrite",
                                        "fstat"};
    return names[what];
}

void show_command(const struct command *command)
{
    fprintf(stderr, "%s path '%.60s' other '%.60s' fd %d flags %u whence %d offset %lld size %zu moment %llu\n",
            name_of(command->what), command->path, command->other, command->fd, command->flags, command->whence,
            (long long)command->offset, command->size, (unsigned long long)command->moment);
}

void check(bool holds, const char *form, ...)
{
    if (holds)
        return;
    va_list list;
    va_start(list, form);
    vfprintf(stderr, form, list);
    va_end(list);
    fputc('\n', stderr);
    exit(1);
}
