#include "words.h"

#include <limits.h>
#include <stddef.h>
#include <stdio.h>
#include <string.h>
#include <unistd.h>

struct words words = {.spare = UINT_MAX, .commit = 5, .umask = 022};

#define WORD(text, field) {text, offsetof(struct words, field), 1}
#define NUMBER(text, field) WORD(text "=%u", field)

static const struct fuse_opt known[] = {
    WORD("--format", formats),
    NUMBER("--data", data),
    NUMBER("--pages", pages),
    NUMBER("--blocks", blocks),
    NUMBER("--spare", spare),
    NUMBER("--commit", commit),
    WORD("commit=%u", commit),
    WORD("--ignore-times", ignores_times),
    WORD("ignore_times", ignores_times),
    WORD("--synchronous", synchronous),
    WORD("synchronous", synchronous),
    WORD("uid=%u", uid),
    WORD("gid=%u", gid),
    WORD("umask=%o", umask),
    WORD("ro", read_only),
    FUSE_OPT_KEY("ro", FUSE_OPT_KEY_KEEP), /* the kernel refuses changes too */
    FUSE_OPT_END};

static bool takes_number(const char *word)
{
    static const char *const numbers[] = {"--data", "--pages", "--blocks", "--spare", "--commit"};
    for (size_t i = 0; i < sizeof numbers / sizeof *numbers; i++)
        if (strcmp(word, numbers[i]) == 0)
            return true;
    return false;
}

/* A number may follow its word, as in `--blocks 64`: then they are joined, for fuse_opt_parse. */
static int join_numbers(const struct fuse_args *given, struct fuse_args *joined)
{
    char text[100];
    int code = 0;
    for (int i = 0; i < given->argc && code == 0; i++) {
        bool joins = takes_number(given->argv[i]) && i + 1 < given->argc;
        if (joins && snprintf(text, sizeof text, "%s=%s", given->argv[i], given->argv[i + 1]) >= (int)sizeof text)
            return -1;
        code = fuse_opt_add_arg(joined, joins ? text : given->argv[i]);
        i += joins;
    }
    return code;
}

/* The first word that is no option is the device; the next is FUSE's, the mount point. A long option that is not known ends the
 * program before it has done anything.
 */
static int take(void *data, const char *word, int key, struct fuse_args *left)
{
    (void)data, (void)left;
    if (key == FUSE_OPT_KEY_NONOPT && words.device == NULL) {
        words.device = strdup(word);
        return words.device != NULL ? 0 : -1;
    }
    if (strncmp(word, "--", 2) != 0 || strcmp(word, "--help") == 0 || strcmp(word, "--version") == 0)
        return 1;
    fprintf(stderr, "flash-fuse: unknown option %s; --help has the options\n", word);
    return -1;
}

static void show_help(void)
{
    printf("flash-fuse [OPTIONS] IMAGE|DEVICE MOUNTPOINT\n\n"
           "Mounts the volume in an image file, or on an MTD device (/dev/mtd0), as a folder. `fusermount3 -u MOUNTPOINT` ends it.\n\n"
           "    --format               first make an empty volume: what the image or device held is gone\n"
           "    --data=BYTES           of an image that is made: bytes of a page, 512, 1024, 2048 or 4096 (2048)\n"
           "    --pages=N              pages of a block, 32, 64, 128 or 256 (64)\n"
           "    --blocks=N             blocks, 5 to 4096 (64)\n"
           "    --spare=N              blocks that may go bad (one in 50, and one)\n"
           "    --commit=SECONDS       how often all is synced (5); 0: only by fsync and at the end\n"
           "    --ignore-times         a time that cannot be stored is no error\n"
           "    --synchronous          each change of the image is on the disk before it returns\n"
           "    -o uid=N,gid=N         the owner of everything (who mounts)\n"
           "    -o umask=M             the modes of everything are 0777 without these bits (022)\n"
           "    -o ro                  nothing is changed\n\n"
           "Of FUSE:\n");
    fuse_cmdline_help();
    fuse_lowlevel_help();
}

static bool has_sizes(void) { return words.data != 0 || words.pages != 0 || words.blocks != 0 || words.spare != UINT_MAX; }

bool words_read(const struct fuse_args *given, struct fuse_args *left, int *status)
{
    *status = 1;
    words.uid = getuid(), words.gid = getgid();
    if (join_numbers(given, left) < 0 || fuse_opt_parse(left, &words, known, take) < 0 ||
        fuse_parse_cmdline(left, &words.fuse) < 0)
        return false;
    if (words.fuse.show_help || words.fuse.show_version) {
        *status = 0;
        if (words.fuse.show_help)
            show_help();
        else
            fuse_lowlevel_version();
        return false;
    }
    bool has_places = words.device != NULL && words.fuse.mountpoint != NULL;
    if (!has_places)
        fprintf(stderr, "flash-fuse [OPTIONS] IMAGE|DEVICE MOUNTPOINT; --help has the options\n");
    else if (has_sizes() && !words.formats)
        fprintf(stderr, "flash-fuse: a volume has its sizes; --format makes another with these\n");
    return has_places && (words.formats || !has_sizes());
}
