/* Does the lines of a trace, from its input, with the files that the page's module is made of, on the host. It writes for each part of the
 * trace its length in four bytes, then of each line its code in four bytes and what it filled; then the calls of the device, and the
 * flash.
 */
#include "glue.h"

#include <stdio.h>
#include <stdlib.h>
#include <string.h>

enum { MOST_LINE = 1024, MOST_NUMBERS = 4 };

static uint32_t page_bytes, block_pages, blocks;

/* ---- The part that is being made */

static uint8_t *part;
static size_t length, room;

static void keep(const void *bytes, size_t size)
{
    while (length + size > room) {
        room = room == 0 ? 1 << 20 : 2 * room;
        part = realloc(part, room);
        if (part == NULL)
            exit(2);
    }
    if (size > 0)
        memcpy(part + length, bytes, size);
    length += size;
}

static void end_part(void)
{
    size_t pages = (size_t)block_pages * blocks;
    keep(glue_calls(), sizeof(uint32_t) * glue_call_count());
    keep(glue_kinds(0), pages);
    keep(glue_tags(0), pages * FLASH_TAG_BYTES);
    keep(glue_data(0), pages * page_bytes);
    keep(glue_marks(0), blocks);
    uint32_t size = (uint32_t)length;
    fwrite(&size, sizeof size, 1, stdout);
    fwrite(part, 1, length, stdout);
    length = 0;
    glue_begin_calls();
}

/* ---- The lines */

static int make(const uint32_t *n)
{
    page_bytes = n[0];
    block_pages = n[1];
    blocks = n[2];
    return glue_make(n[0], n[1], n[2]);
}

static int mark(const uint32_t *n)
{
    glue_marks(n[0])[n[1]] = 1;
    return 0;
}

static int fill(const uint32_t *n)
{
    uint32_t state = n[0];
    for (uint32_t i = 0; i < n[1]; i++) {
        state = state * 1103515245u + 12345u;
        glue_bytes()[i] = (uint8_t)(state >> 16);
    }
    return 0;
}

static int cut(const uint32_t *n) { return glue_cut(n[0], n[1], n[2]); }
static int format(const uint32_t *n) { return glue_format(n[0], n[1]); }
static int mount(const uint32_t *n) { return glue_mount(n[0]); }
static int unmount(const uint32_t *n) { return glue_unmount(n[0]); }
static int make_directory(const uint32_t *n) { return glue_mkdir(n[0], n[1]); }
static int remove_directory(const uint32_t *n) { return glue_rmdir(n[0], n[1]); }
static int remove_name(const uint32_t *n) { return glue_unlink(n[0], n[1]); }
static int give_name(const uint32_t *n) { return glue_link(n[0], n[1]); }
static int change_name(const uint32_t *n) { return glue_rename(n[0], n[1]); }
static int open_file(const uint32_t *n) { return glue_open(n[0], n[1], n[2]); }
static int close_file(const uint32_t *n) { return glue_close(n[0], n[1]); }
static int read_file(const uint32_t *n) { return glue_read(n[0], n[1], n[2]); }
static int write_file(const uint32_t *n) { return glue_write(n[0], n[1], n[2], n[3]); }
static int truncate_file(const uint32_t *n) { return glue_truncate(n[0], n[1], n[2], n[3]); }
static int synchronize(const uint32_t *n) { return glue_sync(n[0]); }
static int names(const uint32_t *n) { return glue_list(n[0]); }
static int status(const uint32_t *n) { return glue_stat(n[0]); }
static int space(const uint32_t *n) { return glue_space(n[0]); }

static int abandon(const uint32_t *n)
{
    glue_abandon(n[0]);
    return 0;
}

static int power_up(const uint32_t *n)
{
    glue_power_up(n[0]);
    return 0;
}

static int fail_next_program(const uint32_t *n)
{
    glue_fail_next_program(n[0]);
    return 0;
}

/* Each name of a line: what does it, and how many bytes it fills where it succeeds (below 0: as many as it returns). */
static const struct entry {
    const char *name;
    int (*call)(const uint32_t *numbers);
    int filled;
} entries[] = {
    {"make", make, 0},       {"mark", mark, 0},           {"fill", fill, 0},
    {"cut", cut, 0},         {"power_up", power_up, 0},   {"fail_next_program", fail_next_program, 0},
    {"format", format, 0},   {"mount", mount, 0},         {"unmount", unmount, 0},
    {"abandon", abandon, 0}, {"mkdir", make_directory, 0}, {"rmdir", remove_directory, 0},
    {"unlink", remove_name, 0}, {"link", give_name, 0},   {"rename", change_name, 0},
    {"open", open_file, 0},  {"close", close_file, 0},    {"read", read_file, -1},
    {"write", write_file, 0}, {"truncate", truncate_file, 0}, {"sync", synchronize, 0},
    {"list", names, -1},     {"stat", status, sizeof(struct flash_info)}, {"space", space, sizeof(struct flash_space)},
};

static const struct entry *entry_of(const char *name)
{
    for (size_t i = 0; i < sizeof entries / sizeof *entries; i++)
        if (strcmp(entries[i].name, name) == 0)
            return &entries[i];
    fprintf(stderr, "no line is named %s\n", name);
    exit(2);
}

/* Takes the numbers of a line, and puts its paths in the buffer. */
static void take_words(uint32_t *numbers)
{
    size_t at = 0;
    int count = 0;
    for (char *word = strtok(NULL, " \n"); word != NULL; word = strtok(NULL, " \n")) {
        size_t size = strlen(word) + 1;
        if (*word != '/' && count < MOST_NUMBERS) {
            numbers[count++] = (uint32_t)strtoul(word, NULL, 10);
        } else {
            memcpy(glue_bytes() + at, word, size);
            at += size;
        }
    }
}

int main(void)
{
    char line[MOST_LINE];
    while (fgets(line, sizeof line, stdin) != NULL) {
        const char *name = strtok(line, " \n");
        if (strcmp(name, "end") == 0) {
            end_part();
            continue;
        }
        uint32_t numbers[MOST_NUMBERS] = {0};
        const struct entry *entry = entry_of(name);
        take_words(numbers);
        int32_t code = entry->call(numbers);
        keep(&code, sizeof code);
        if (code >= 0)
            keep(glue_bytes(), (size_t)(entry->filled < 0 ? code : entry->filled));
    }
    return 0;
}
