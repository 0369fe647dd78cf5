/* Shows the tree of a volume in an image file: list IMAGE. With FILE too, it writes that file's bytes: list IMAGE FILE. */
#include "file_nand.h"
#include "flash_fs.h"

#include <stdio.h>
#include <stdlib.h>
#include <string.h>

static struct flash_fs fs;

static int failed(const char *what, int64_t code)
{
    fprintf(stderr, "%s: error %lld\n", what, (long long)code);
    return 1;
}

/* The names of a directory, each with a zero after it; null if there is an error. */
static char *names_of(const char *directory, int64_t *size)
{
    for (size_t room = 1024;; room *= 2) {
        char *names = malloc(room);
        *size = names == NULL ? FLASH_ENOMEM : flash_fs_list(&fs, directory, names, room);
        if (*size >= 0)
            return names;
        free(names);
        if (*size != FLASH_ERANGE)
            return NULL;
    }
}

static int show(const char *directory)
{
    int64_t size;
    char *names = names_of(*directory == '\0' ? "/" : directory, &size); /* the root, with no name before its slash */
    if (names == NULL)
        return failed(directory, size);
    int status = 0;
    for (char *name = names; name < names + size && status == 0; name += strlen(name) + 1) {
        char path[4096];
        struct flash_info info;
        if (snprintf(path, sizeof path, "%s/%s", directory, name) >= (int)sizeof path)
            continue;
        int code = flash_fs_stat(&fs, path, &info);
        if (code < 0) {
            status = failed(path, code);
        } else if (info.kind == FLASH_DIRECTORY) {
            printf("%12s %8llu %s/\n", "", (unsigned long long)info.moment, path);
            status = show(path);
        } else {
            printf("%12llu %8llu %s\n", (unsigned long long)info.size, (unsigned long long)info.moment, path);
        }
    }
    free(names);
    return status;
}

static int copy_out(const char *path)
{
    char buffer[4096];
    int fd = flash_fs_open(&fs, path, FLASH_RDONLY, 0);
    int64_t count = fd;
    while (count >= 0 && (count = flash_fs_read(&fs, fd, buffer, sizeof buffer)) > 0)
        fwrite(buffer, 1, (size_t)count, stdout);
    return count < 0 ? failed(path, count) : 0;
}

int main(int count, char **words)
{
    struct file_nand nand;
    if (count < 2)
        return fprintf(stderr, "list IMAGE [FILE]\n"), 2;
    int code = file_nand_open(&nand, words[1]);
    if (code < 0)
        return failed(words[1], code);
    code = flash_fs_mount(&fs, &nand.driver);
    if (code < 0)
        return failed(words[1], code);
    int status = count > 2 ? copy_out(words[2]) : show("");
    flash_fs_abandon(&fs); /* nothing was changed */
    file_nand_close(&nand);
    return status;
}
