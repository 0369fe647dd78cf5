/* Memory that is refused, mounts that fail, many mounts, and several volumes at once.
 *
 *   test_memory [COMMANDS] [SEED]
 */
#include "commands.h"
#include "ram_nand.h"
#include "refused_memory.h"

#include <stdio.h>
#include <stdlib.h>
#include <string.h>

enum { PAGE = 512, PAGES = 32, BLOCKS = 16, SPARE = 2 };

static struct flash_fs fs;
static struct ram_nand nand, before;

static void make_volume(struct draw *draw, struct model *model)
{
    check(ram_nand_make(&nand, PAGE, PAGES, BLOCKS) == 0 && ram_nand_make(&before, PAGE, PAGES, BLOCKS) == 0, "memory");
    nand.driver.tag_bytes = before.driver.tag_bytes = FLASH_PACKED_TAG_BYTES;
    check(flash_fs_format(&fs, &nand.driver, SPARE) == 0 && flash_fs_mount(&fs, &nand.driver) == 0, "a volume");
    for (int i = 0; i < 150; i++) {
        struct command command = draw_command(draw, 3000);
        do_on_model(model, &command, NULL, NULL);
        do_on_volume(&fs, &command);
    }
    check(flash_fs_unmount(&fs) == 0, "unmount");
    model_settle(model);
    ram_nand_copy(&before, &nand);
}

/* A session in which one allocation is refused (and, where `on`, each after it until that call has returned). Returns how many
 * there are in all. */
static uint64_t run_refused(const struct command *commands, int count, const struct model *start, uint64_t at, bool on,
                            uint64_t *refusals, uint64_t *without)
{
    struct model *model = model_clone(start);
    int64_t code;
    ram_nand_copy(&nand, &before);
    refuse(at, on);
    code = flash_fs_mount(&fs, &nand.driver);
    if (memory.refused > 0) {
        check(code == FLASH_ENOMEM, "a mount that is refused memory returned %lld", (long long)code);
        check(memory.blocks == 0, "a mount that failed keeps %lld blocks", (long long)memory.blocks);
        check(flash_fs_unmount(&fs) == FLASH_EINVAL, "an unmount after it");
        flash_fs_abandon(&fs);
        check(memory.blocks == 0, "an abandon after it gave memory back twice");
        ++*refusals;
        memory.refuse_at = 0;
        ram_nand_power_up(&nand);
        code = flash_fs_mount(&fs, &nand.driver);
    }
    check(code == 0, "a mount returned %lld", (long long)code);
    for (int i = 0; i < count; i++) {
        struct command command = commands[i];
        uint64_t refused = memory.refused;
        struct outcome there = do_on_volume(&fs, &command);
        bool is_refused = memory.refused > refused;
        if (is_refused)
            memory.refuse_at = 0;
        if (is_refused && there.code == FLASH_ENOMEM) {
            ++*refusals;
            check(command.what != CLOSE && command.what != SEEK && command.what != FSYNC && command.what != SYNC &&
                      command.what != SPACE && command.what != FSTAT,
                  "%s returned ENOMEM", name_of(command.what));
            check(flash_fs_stopped(&fs) == 0, "a volume that was refused memory has stopped");
            struct outcome again = do_on_volume(&fs, &command), wanted = do_on_model(model, &command, NULL, NULL);
            if (again.code != wanted.code || again.filled != wanted.filled)
                show_command(&command);
            check(again.code == wanted.code && again.filled == wanted.filled, "a call after a refusal returned %lld, and the model %lld",
                  (long long)again.code, (long long)wanted.code);
            continue;
        }
        if (is_refused) { /* done without, or a part of a write */
            ++*without;
            if ((command.what == WRITE || command.what == PWRITE) && there.code > 0)
                command.size = (size_t)there.code;
        }
        struct outcome wanted = do_on_model(model, &command, NULL, NULL);
        if (there.code != wanted.code || there.filled != wanted.filled)
            show_command(&command);
        check(there.code == wanted.code && there.filled == wanted.filled, "a call returned %lld, and the model %lld (refused: %d)",
              (long long)there.code, (long long)wanted.code, is_refused);
    }
    uint64_t tree = volume_tree(&fs, &code);
    model_settle(model);
    check(flash_fs_unmount(&fs) == 0 && nand.misuse == NULL, "the end");
    uint64_t calls = memory.calls;
    check(memory.blocks == 0, "%lld blocks were not given back", (long long)memory.blocks);
    memory.refuse_at = 0;
    ram_nand_power_up(&nand);
    check(flash_fs_mount(&fs, &nand.driver) == 0, "a mount");
    tree = volume_tree(&fs, &code);
    check(code == 0 && tree == model_tree(model), "the tree after a session that was refused memory");
    flash_fs_abandon(&fs);
    model_free(model);
    return calls;
}

static void test_refused(int count, uint64_t seed)
{
    struct draw draw = {seed};
    struct model *model = model_make(PAGE, PAGES, BLOCKS, SPARE);
    struct command *commands = calloc((size_t)count, sizeof *commands);
    uint64_t refusals = 0, without = 0;
    make_volume(&draw, model);
    for (int i = 0; i < count; i++)
        commands[i] = draw_command(&draw, 6000);
    uint64_t calls = run_refused(commands, count, model, 0, false, &refusals, &without);
    for (uint64_t at = 1; at <= calls; at++) {
        run_refused(commands, count, model, at, false, &refusals, &without);
        if (at % 4 == 0)
            run_refused(commands, count, model, at, true, &refusals, &without);
    }
    refuse(0, false);
    printf("  %llu allocations of a mount and %d calls, each refused in turn: %llu times ENOMEM and nothing done, %llu times done without\n",
           (unsigned long long)calls, count, (unsigned long long)refusals, (unsigned long long)without);
    free(commands);
    model_free(model);
}

static void test_refused_format(void)
{
    uint64_t at = 1;
    for (;; at++) {
        ram_nand_copy(&nand, &before);
        refuse(at, false);
        int code = flash_fs_format(&fs, &nand.driver, SPARE);
        check(memory.blocks == 0, "a format keeps memory");
        if (memory.refused == 0)
            break;
        check(code == FLASH_ENOMEM, "a format that is refused memory returned %d", code);
        check(flash_fs_unmount(&fs) == FLASH_EINVAL, "an unmount after it");
    }
    refuse(0, false);
    printf("  a format: %llu allocations, each refused in turn\n", (unsigned long long)(at - 1));
}

static void test_failed_mounts(void)
{
    static struct ram_nand empty;
    check(ram_nand_make(&empty, PAGE, PAGES, BLOCKS) == 0, "memory");
    struct flash_driver sizes = empty.driver;
    sizes.page_bytes = 600;
    for (int turn = 0; turn < 200; turn++) {
        ram_nand_power_up(&empty);
        check(flash_fs_mount(&fs, &empty.driver) == FLASH_ENOVOLUME, "a mount of an erased flash");
        flash_fs_abandon(&fs);
        check(flash_fs_unmount(&fs) == FLASH_EINVAL, "an unmount after it");
        check(flash_fs_mount(&fs, &sizes) == FLASH_EINVAL, "a mount of sizes that are out of range");
        check(flash_fs_format(&fs, &sizes, 1) == FLASH_EINVAL, "a format of sizes that are out of range");
        check(flash_fs_format(&fs, &empty.driver, BLOCKS) == FLASH_EINVAL, "a format with too many spare blocks");
        ram_nand_power_up(&empty);
        empty.cut_at = 1 + (uint64_t)turn;
        check(flash_fs_mount(&fs, &empty.driver) == FLASH_EIO, "a mount in which power goes");
        check(flash_fs_unmount(&fs) == FLASH_EINVAL, "an unmount after it");
        flash_fs_abandon(&fs);
        check(flash_fs_sync(&fs) == FLASH_EINVAL && flash_fs_read_only(&fs) == FLASH_EINVAL &&
                  flash_fs_stopped(&fs) == FLASH_EINVAL && flash_fs_mkdir(&fs, "/x", 0) == FLASH_EINVAL,
              "calls of a volume that is not mounted");
        check(memory.blocks == 0, "a mount that failed keeps %lld blocks, or gave one back twice", (long long)memory.blocks);
    }
    ram_nand_free(&empty);
    printf("  600 mounts and 400 formats that fail: an unmount and an abandon after them do nothing\n");
}

static void test_many_mounts(void)
{
    ram_nand_copy(&nand, &before);
    uint64_t first = 0;
    for (int turn = 0; turn < 1000; turn++) {
        ram_nand_power_up(&nand);
        check(flash_fs_mount(&fs, &nand.driver) == 0, "a mount");
        check(flash_fs_mount(&fs, &nand.driver) == FLASH_EBUSY && flash_fs_format(&fs, &nand.driver, SPARE) == FLASH_EBUSY,
              "a mount of a volume that is mounted");
        int fd = flash_fs_open(&fs, "/turn", FLASH_RDWR | FLASH_CREAT | FLASH_TRUNC, 1);
        int64_t wrote = flash_fs_write(&fs, fd, &turn, sizeof turn, 1);
        check(fd == FLASH_ENOSPC || wrote == sizeof turn || wrote == FLASH_ENOSPC, "a write");
        if (turn % 3 == 0)
            flash_fs_abandon(&fs);
        else
            check(flash_fs_unmount(&fs) == 0, "an unmount");
        check(memory.blocks == 0, "%lld blocks were not given back in turn %d", (long long)memory.blocks, turn);
        first++;
    }
    printf("  %llu mounts of one volume, by unmounts and abandons in turn: no memory is left\n", (unsigned long long)first);
}

static void test_two_volumes(uint64_t seed)
{
    static struct flash_fs others[2];
    struct ram_nand nands[2];
    struct model *models[2];
    struct draw draw = {seed};
    for (uint32_t v = 0; v < 2; v++) {
        check(ram_nand_make(&nands[v], 512 << v, 32 << v, 12) == 0, "memory");
        nands[v].driver.tag_bytes = v == 0 ? FLASH_TAG_BYTES : FLASH_PACKED_TAG_BYTES;
        models[v] = model_make(512 << v, 32 << v, 12, 1 + v);
        check(flash_fs_format(&others[v], &nands[v].driver, 1 + v) == 0 && flash_fs_mount(&others[v], &nands[v].driver) == 0, "a volume");
    }
    for (int i = 0; i < 4000; i++) {
        uint32_t v = random_below(&draw, 2);
        struct command command = draw_command(&draw, 3000);
        struct outcome there = do_on_volume(&others[v], &command), wanted = do_on_model(models[v], &command, NULL, NULL);
        check(there.code == wanted.code && there.filled == wanted.filled, "a call of volume %u", v);
        if (random_below(&draw, 100) == 0) {
            check(flash_fs_unmount(&others[v]) == 0, "an unmount");
            model_settle(models[v]);
            ram_nand_power_up(&nands[v]);
            check(flash_fs_mount(&others[v], &nands[v].driver) == 0, "a mount");
        }
        check(nands[0].misuse == NULL && nands[1].misuse == NULL, "a driver was misused");
    }
    for (int v = 0; v < 2; v++) {
        check(flash_fs_unmount(&others[v]) == 0, "an unmount");
        ram_nand_free(&nands[v]);
        model_free(models[v]);
    }
    check(memory.blocks == 0, "memory is left");
    printf("  two volumes at once, 4,000 calls\n");
}

/* While a volume of a driver is mounted no other one is, whether by the same struct or by another of the same flash. */
static void test_one_driver(void)
{
    static struct flash_fs other;
    struct flash_driver same;
    ram_nand_copy(&nand, &before);
    same = nand.driver;
    check(flash_fs_mount(&fs, &nand.driver) == 0, "a mount");
    for (int turn = 0; turn < 2; turn++) {
        const struct flash_driver *driver = turn == 0 ? &nand.driver : &same;
        check(flash_fs_mount(&other, driver) == FLASH_EBUSY && flash_fs_format(&other, driver, SPARE) == FLASH_EBUSY,
              "a second volume of a driver");
        check(flash_fs_unmount(&other) == FLASH_EINVAL, "an unmount after it");
    }
    check(flash_fs_mkdir(&fs, "/still", 1) == 0 && flash_fs_unmount(&fs) == 0, "the first volume");
    ram_nand_power_up(&nand);
    check(flash_fs_mount(&other, &same) == 0, "a mount of the second after the first");
    flash_fs_abandon(&other);
    printf("  two volumes of one driver: the second is refused while the first is mounted\n");
}

static void make_empty(void)
{
    ram_nand_copy(&nand, &before);
    check(flash_fs_format(&fs, &nand.driver, SPARE) == 0, "a format");
    ram_nand_power_up(&nand);
    check(flash_fs_mount(&fs, &nand.driver) == 0, "a mount");
}

/* A volume at an address that is no multiple of 16, and a list of no bytes. */
static void test_addresses(void)
{
    static struct {
        _Alignas(16) unsigned char bytes[2 * sizeof(struct flash_fs)];
    } room;
    struct flash_fs *crooked = (struct flash_fs *)(void *)(room.bytes + 8);
    ram_nand_copy(&nand, &before);
    check(flash_fs_mount(crooked, &nand.driver) == FLASH_EINVAL && flash_fs_format(crooked, &nand.driver, SPARE) == FLASH_EINVAL,
          "a volume at an odd address");
    make_empty();
    check(flash_fs_list(&fs, "/", NULL, 0) == 0, "a list of no bytes, of no names");
    check(flash_fs_mkdir(&fs, "/a", 1) == 0 && flash_fs_list(&fs, "/", NULL, 0) == FLASH_ERANGE, "a list of no bytes, of a name");
    flash_fs_abandon(&fs);
    printf("  a volume at an odd address is refused; a list of no bytes\n");
}

/* By hand: reads and writes at an offset leave that of the descriptor, and a file without a name is described. */
static void test_placed(void)
{
    struct flash_info named, open;
    char bytes[8] = "";
    make_empty();
    int fd = flash_fs_open(&fs, "/file", FLASH_RDWR | FLASH_CREAT, 1);
    check(flash_fs_write(&fs, fd, "0123456789", 10, 1) == 10 && flash_fs_seek(&fs, fd, 3, FLASH_SEEK_SET) == 3, "a file");
    check(flash_fs_pwrite(&fs, fd, "AB", 2, 6, 77) == 2 && flash_fs_pread(&fs, fd, bytes, 4, 5) == 4, "at an offset");
    check(memcmp(bytes, "5AB8", 4) == 0 && flash_fs_seek(&fs, fd, 0, FLASH_SEEK_CUR) == 3, "the bytes, and the offset");
    check(flash_fs_pread(&fs, fd, bytes, 4, 10) == 0 && flash_fs_pread(&fs, fd, bytes, 4, INT64_MAX) == 0, "past the end");
    check(flash_fs_pwrite(&fs, fd, NULL, 0, 5, 1) == 0 && flash_fs_pread(&fs, fd, NULL, 0, 5) == 0, "of no bytes");
    check(flash_fs_stat(&fs, "/file", &named) == 0 && flash_fs_fstat(&fs, fd, &open) == 0, "a path, and a descriptor");
    check(memcmp(&named, &open, sizeof named) == 0 && open.size == 10 && open.moment == 77 && open.links == 1, "the same");
    check(flash_fs_unlink(&fs, "/file", 2) == 0 && flash_fs_fstat(&fs, fd, &open) == 0, "without a name");
    check(open.object == named.object && open.links == 0 && open.size == 10, "what is reported of a file without a name");
    int log = flash_fs_open(&fs, "/log", FLASH_WRONLY | FLASH_CREAT | FLASH_APPEND, 1);
    check(flash_fs_pwrite(&fs, log, "one", 3, 100, 1) == 3 && flash_fs_pwrite(&fs, log, "two", 3, 0, 1) == 3, "appended");
    check(flash_fs_fstat(&fs, log, &open) == 0 && open.size == 6 && flash_fs_seek(&fs, log, 0, FLASH_SEEK_CUR) == 0, "its end");
    flash_fs_abandon(&fs);
    check(memory.blocks == 0, "memory is left");
    printf("  reads and writes at an offset, and what descriptors stand for, by hand\n");
}

/* By hand: the errors of these calls come in their order. */
static void test_placed_errors(void)
{
    struct flash_info info;
    char bytes[8] = "";
    make_empty();
    int fd = flash_fs_open(&fs, "/file", FLASH_RDWR | FLASH_CREAT, 1), log = flash_fs_open(&fs, "/file", FLASH_WRONLY, 1);
    int root = flash_fs_open(&fs, "/", FLASH_RDONLY, 1);
    check(flash_fs_fstat(&fs, root, &info) == 0 && info.kind == FLASH_DIRECTORY && info.object == 1, "the root");
    check(flash_fs_fstat(&fs, 40, &info) == FLASH_EBADF && flash_fs_fstat(&fs, -1, &info) == FLASH_EBADF, "no descriptor");
    check(flash_fs_pread(&fs, 40, bytes, 1, -1) == FLASH_EBADF && flash_fs_pread(&fs, log, bytes, 1, -1) == FLASH_EBADF &&
              flash_fs_pwrite(&fs, root, bytes, 1, -1, 1) == FLASH_EBADF,
          "not open for this");
    check(flash_fs_pread(&fs, root, bytes, 1, -1) == FLASH_EISDIR, "a directory");
    check(flash_fs_pread(&fs, fd, bytes, 1, -1) == FLASH_EINVAL && flash_fs_pwrite(&fs, fd, bytes, 1, -1, 1) == FLASH_EINVAL,
          "before 0");
    nand.cut_at = nand.calls + 1;
    check(flash_fs_sync(&fs) == FLASH_EIO && flash_fs_fstat(&fs, fd, &info) == FLASH_EIO &&
              flash_fs_pread(&fs, 40, bytes, 1, -1) == FLASH_EIO && flash_fs_pwrite(&fs, fd, bytes, 1, 0, 1) == FLASH_EIO,
          "a stopped volume");
    flash_fs_abandon(&fs);
    check(flash_fs_fstat(&fs, fd, &info) == FLASH_EINVAL && flash_fs_pread(&fs, fd, bytes, 1, 0) == FLASH_EINVAL &&
              flash_fs_pwrite(&fs, fd, bytes, 1, 0, 1) == FLASH_EINVAL,
          "a volume that is not mounted");
    printf("  the errors of these calls, by hand\n");
}

/* By hand: once the cache has its pages a read takes no memory, however large it is, and it leaves what lies past its bytes. */
static void test_large_reads(void)
{
    static unsigned char wrote[60000], bytes[sizeof wrote + 2];
    make_empty();
    for (size_t i = 0; i < sizeof wrote; i++)
        wrote[i] = (unsigned char)(i * 31 + i / 251);
    int fd = flash_fs_open(&fs, "/file", FLASH_RDWR | FLASH_CREAT, 1);
    check(flash_fs_write(&fs, fd, wrote, sizeof wrote, 1) == sizeof wrote && flash_fs_sync(&fs) == 0, "a file");
    check(flash_fs_pread(&fs, fd, bytes, sizeof wrote, 0) == sizeof wrote, "a read that fills the cache");
    memset(bytes, 'x', sizeof bytes);
    refuse(1, true);
    check(flash_fs_pread(&fs, fd, bytes, sizeof bytes, 0) == sizeof wrote && memory.calls == 0, "a read without memory");
    refuse(0, false);
    check(memcmp(bytes, wrote, sizeof wrote) == 0 && bytes[sizeof wrote] == 'x' && bytes[sizeof wrote + 1] == 'x', "its bytes");
    check(flash_fs_pread(&fs, fd, bytes, 9, sizeof wrote - 5) == 5 && memcmp(bytes, wrote + sizeof wrote - 5, 5) == 0 &&
              memcmp(bytes + 5, wrote + 5, 4) == 0,
          "the end of the file");
    flash_fs_abandon(&fs);
    check(memory.blocks == 0, "memory is left");
    printf("  a read of %zu bytes with no memory left, by hand\n", sizeof wrote);
}

static void test_too_many(void)
{
    static struct flash_fs many[FLASH_VOLUMES + 1];
    static struct ram_nand nands[FLASH_VOLUMES + 1];
    for (int turn = 0; turn < 3; turn++) {
        for (int v = 0; v <= FLASH_VOLUMES; v++) {
            check(ram_nand_make(&nands[v], 512, 32, 5) == 0, "memory");
            if (v < FLASH_VOLUMES)
                check(flash_fs_format(&many[v], &nands[v].driver, 0) == 0 && flash_fs_mount(&many[v], &nands[v].driver) == 0,
                      "volume %d", v);
        }
        check(flash_fs_mount(&many[FLASH_VOLUMES], &nands[FLASH_VOLUMES].driver) == FLASH_EMFILE, "one volume too many");
        check(flash_fs_unmount(&many[FLASH_VOLUMES]) == FLASH_EINVAL, "an unmount after it");
        for (int v = 0; v <= FLASH_VOLUMES; v++) {
            flash_fs_abandon(&many[v]);
            ram_nand_free(&nands[v]);
        }
    }
    check(memory.blocks == 0, "memory is left");
    printf("  %d volumes at once, and one too many\n", FLASH_VOLUMES);
}

int main(int count, char **words)
{
    int commands = count > 1 ? atoi(words[1]) : 150;
    uint64_t seed = count > 2 ? strtoull(words[2], NULL, 10) : 1;
    test_refused(commands, seed);
    test_refused_format();
    test_failed_mounts();
    test_many_mounts();
    test_two_volumes(seed);
    test_too_many();
    test_one_driver();
    test_addresses();
    test_placed();
    test_placed_errors();
    test_large_reads();
    ram_nand_free(&nand);
    ram_nand_free(&before);
    return 0;
}
