/* What Linux promises of files that are open, in a folder: open_files FOLDER FILES WITHOUT_NAME. Many files are open at once; some
 * of them lose their name, by a removal or by a rename onto it, or have another; a file is mapped; a directory goes while it is
 * open. It prints how many open files lost their last name before one was refused.
 */
#include <errno.h>
#include <fcntl.h>
#include <stdbool.h>
#include <stdio.h>
#include <stdlib.h>
#include <string.h>
#include <sys/mman.h>
#include <sys/stat.h>
#include <unistd.h>

enum { MOST = 4096, MAPPED = 3 * 4096 + 100 };

static int files[MOST];

static void check(bool holds, const char *what, int number)
{
    if (holds)
        return;
    printf("%s %d: %s\n", what, number, strerror(errno));
    exit(1);
}

static const char *name_of(int number)
{
    static char names[2][64];
    static int turn;
    char *name = names[turn++ % 2];
    snprintf(name, sizeof names[0], "file-%d", number);
    return name;
}

static void write_number(int file, int number, off_t offset)
{
    check(pwrite(file, &number, sizeof number, offset) == sizeof number, "write", number);
}

/* The kernel gives up what it keeps of the file, so that the volume is read. */
static void check_number(int file, int number, off_t offset)
{
    int found = -1;
    posix_fadvise(file, 0, 0, POSIX_FADV_DONTNEED);
    check(pread(file, &found, sizeof found, offset) == sizeof found && found == number, "read", number);
}

static void open_all(int count)
{
    for (int i = 0; i < count; i++) {
        files[i] = open(name_of(i), O_RDWR | O_CREAT | O_EXCL, 0666);
        check(files[i] >= 0, "open", i);
        write_number(files[i], i, 0);
    }
}

/* By turns a name is removed, and another file is renamed onto it. */
static int lose_names(int count)
{
    for (int i = 0; i < count; i++) {
        int other = open("other", O_WRONLY | O_CREAT, 0666);
        check(other >= 0 && close(other) == 0, "other", i);
        int code = i % 2 == 0 ? unlink(name_of(i)) : rename("other", name_of(i));
        if (code < 0) {
            check(errno == EMFILE, "lose", i);
            return i;
        }
    }
    return count;
}

/* All are read and written on by what is open, with a name or without. */
static void use_all(int count)
{
    struct stat status;
    for (int i = count - 1; i >= 0; i--) {
        check_number(files[i], i, 0);
        write_number(files[i], i, 5000);
        check(fstat(files[i], &status) == 0 && status.st_size == 5000 + (off_t)sizeof i, "length", i);
    }
    for (int i = 0; i < count; i++)
        check_number(files[i], i, 5000);
}

static void rename_open(int number)
{
    struct stat status, other;
    check(mkdir("deep", 0777) == 0 && rename(name_of(number), "deep/moved") == 0 && rename("deep", "deeper") == 0, "rename", number);
    check(link("deeper/moved", "second") == 0 && unlink("deeper/moved") == 0, "link", number);
    check_number(files[number], number, 0);
    check(fstat(files[number], &status) == 0 && stat("second", &other) == 0, "stat", number);
    check(status.st_ino == other.st_ino && status.st_nlink == 1, "one object", number);
}

/* A file that had a name before is not found by it again, once another has that name. */
static void reuse_name(int count)
{
    const int flags = O_RDWR | O_CREAT | O_EXCL;
    int file = open("moving", flags, 0666);
    check(file >= 0 && rename("moving", "moved") == 0, "moved", 0);
    write_number(file, 1, 0);
    int other = open("moving", flags, 0666);
    check(other >= 0 && unlink("moved") == 0, "moving", 0);
    write_number(other, 2, 0);
    for (int i = 0; i < count; i++)
        check_number(files[i], i, 0);
    check_number(file, 1, 0);
    check_number(other, 2, 0);
    check(close(file) == 0 && close(other) == 0, "close", 0);
}

static void map(void)
{
    char bytes[MAPPED];
    int file = open("mapped", O_RDWR | O_CREAT, 0666);
    check(file >= 0 && ftruncate(file, MAPPED) == 0, "mapped", 0);
    char *at = mmap(NULL, MAPPED, PROT_READ | PROT_WRITE, MAP_SHARED, file, 0);
    check(at != MAP_FAILED, "mmap", 0);
    for (int i = 0; i < MAPPED; i++)
        at[i] = (char)(i % 251);
    check(msync(at, MAPPED, MS_SYNC) == 0 && pread(file, bytes, MAPPED, 0) == MAPPED, "msync", 0);
    check(memcmp(at, bytes, MAPPED) == 0, "what was mapped", 0);
    check(pwrite(file, "written", 7, 4090) == 7 && memcmp(at + 4090, "written", 7) == 0, "what was written", 0);
    check(munmap(at, MAPPED) == 0 && close(file) == 0, "munmap", 0);
}

static void remove_open_directory(void)
{
    struct stat status;
    check(mkdir("going", 0777) == 0, "mkdir", 0);
    int directory = open("going", O_RDONLY | O_DIRECTORY);
    check(directory >= 0 && rmdir("going") == 0 && fstat(directory, &status) == 0 && S_ISDIR(status.st_mode), "rmdir", 0);
    check(openat(directory, "below", O_WRONLY | O_CREAT, 0666) < 0 && errno == ENOENT, "below", 0);
    check(close(directory) == 0, "close", 0);
}

int main(int count, char **words)
{
    if (count != 4 || chdir(words[1]) != 0)
        return 2;
    int all = atoi(words[2]);
    check(all <= MOST, "files", all);
    open_all(all);
    rename_open(all - 1);
    reuse_name(all);
    printf("%d\n", lose_names(atoi(words[3])));
    use_all(all);
    map();
    remove_open_directory();
    for (int i = 0; i < all; i++)
        check(close(files[i]) == 0, "close", i);
    return 0;
}
