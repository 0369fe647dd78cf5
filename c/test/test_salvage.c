/* What is left of a volume of which pages are lost: each page of a small volume in turn, and two at a time; memory that is refused,
 * power that goes, and the errors of the calls. It takes no words.
 */
#include "commands.h"
#include "ram_nand.h"
#include "refused_memory.h"

#include <stdio.h>
#include <stdlib.h>
#include <string.h>

enum { PAGE = 512, PAGES = 32, BLOCKS = 16, SPARE = 2, NAMES = 4096 };

static struct flash_fs fs;
static struct flash_salvage left;
static struct ram_nand nand, whole;

/* The files of the volume: bytes from `from` on are written, those before it are a hole. */
static const struct file {
    const char *directory, *name;
    size_t from, size;
} files[] = {
    {"", "empty", 0, 0},           {"", "pages", 0, 3 * PAGE},     {"", "one", 0, 1},
    {"/logs", "today", 0, 2000},   {"/logs", "hole", 3000, 3100},  {"/logs/old", "first", 0, 700},
    {"/logs/old", "second", 0, 2 * PAGE},
};

enum { FILES = sizeof files / sizeof *files };

static uint8_t byte_of(int file, size_t at)
{
    return at < files[file].from ? 0 : (uint8_t)(1 + (at * 31 + at / 251 + (size_t)file * 7) % 255);
}

/* Each file is made durable in a group of its own, and the volume is left without an unmount. */
static void make_volume(struct ram_nand *flash, uint32_t tag_bytes)
{
    check(ram_nand_make(flash, PAGE, PAGES, BLOCKS) == 0, "memory");
    flash->driver.tag_bytes = tag_bytes;
    check(flash_fs_format(&fs, &flash->driver, SPARE) == 0 && flash_fs_mount(&fs, &flash->driver) == 0, "a volume");
    check(flash_fs_mkdir(&fs, "/logs", 5) == 0 && flash_fs_mkdir(&fs, "/logs/old", 6) == 0, "directories");
    for (int i = 0; i < FILES; i++) {
        static uint8_t bytes[4000];
        char path[64];
        for (size_t at = 0; at < files[i].size; at++)
            bytes[at] = byte_of(i, at);
        snprintf(path, sizeof path, "%s/%s", files[i].directory, files[i].name);
        int fd = flash_fs_open(&fs, path, FLASH_WRONLY | FLASH_CREAT, 10);
        int64_t size = (int64_t)(files[i].size - files[i].from);
        check(flash_fs_pwrite(&fs, fd, bytes + files[i].from, (size_t)size, (int64_t)files[i].from, 10) == size, "a write");
        check(flash_fs_close(&fs, fd) == 0 && flash_fs_sync(&fs) == 0, "a sync");
    }
    flash_fs_abandon(&fs);
}

static uint64_t number_at(const uint8_t *bytes)
{
    uint64_t number = 0;
    for (int i = 7; i >= 0; i--)
        number = number << 8 | bytes[i];
    return number;
}

/* The key of a page and its version, by its tag (docs/FORMATS.md). */
struct tag {
    uint64_t object, chunk, version;
};

static bool is_written(const struct ram_nand *flash, uint32_t block, uint32_t page)
{
    return flash->kinds[block * PAGES + page] == FLASH_WRITTEN;
}

static struct tag tag_at(const struct ram_nand *flash, uint32_t block, uint32_t page)
{
    const uint8_t *bytes = flash->tags + (block * PAGES + page) * FLASH_TAG_BYTES;
    return (struct tag){number_at(bytes + 8), number_at(bytes + 16), number_at(bytes + 24)};
}

/* How many pages have the key of a tag, and how many of them an older version. */
static int pages_of(const struct tag *tag, int *older)
{
    int count = 0;
    *older = 0;
    for (uint32_t block = 0; block < BLOCKS; block++)
        for (uint32_t page = 0; page < PAGES; page++)
            if (is_written(&whole, block, page)) {
                struct tag there = tag_at(&whole, block, page);
                bool same = there.object == tag->object && there.chunk == tag->chunk;
                count += same;
                *older += same && there.version < tag->version;
            }
    return count;
}

/* Whether a page behind this one in its block is written. */
static bool has_behind(uint32_t block, uint32_t page)
{
    for (uint32_t next = page + 1; next < PAGES; next++)
        if (is_written(&nand, block, next))
            return true;
    return false;
}

struct names {
    uint8_t bytes[NAMES];
    int64_t size;
    uint64_t lost;
};

static struct names list(uint64_t directory)
{
    struct names names = {.lost = 777};
    names.size = flash_fs_salvage_list(&left, directory, names.bytes, sizeof names.bytes, &names.lost);
    return names;
}

/* The object that a name leads to, or 0. */
static uint64_t object_of(const struct names *names, const char *name)
{
    for (int64_t at = 0; at < names->size; at += 8 + (int64_t)strlen((const char *)names->bytes + at + 8) + 1)
        if (strcmp((const char *)names->bytes + at + 8, name) == 0)
            return number_at(names->bytes + at);
    return 0;
}

/* What was found to be missing. */
struct missing {
    int headers, slots, pages, unreached, orphans;
};

/* Reads a file to its end, a page at a time: each byte is right, or its page is lost. */
static void read_file(int file, uint64_t object, struct missing *missing)
{
    struct flash_salvaged info;
    uint8_t bytes[PAGE + 1];
    int code = flash_fs_salvage_stat(&left, object, &info);
    if (code == FLASH_ENOENT) {
        check(flash_fs_salvage_read(&left, object, 0, bytes, sizeof bytes) == FLASH_ENOENT, "a read without a header");
        missing->headers++;
        return;
    }
    check(code == 0 && info.kind == FLASH_FILE && info.size == files[file].size && info.moment == 10, "a stat of %s", files[file].name);
    for (size_t at = 0, count = 0; at < files[file].size; at += count) {
        count = PAGE - at % PAGE < files[file].size - at ? PAGE - at % PAGE : files[file].size - at;
        memset(bytes, 0, sizeof bytes);
        int64_t read = flash_fs_salvage_read(&left, object, at, bytes, sizeof bytes);
        check(read == (int64_t)count || read == FLASH_ELOST, "a read of %s returned %lld", files[file].name, (long long)read);
        missing->pages += read == FLASH_ELOST;
        for (size_t i = 0; i < sizeof bytes; i++)
            check(bytes[i] == (read > 0 && i < count ? byte_of(file, at + i) : 0), "a byte of %s", files[file].name);
    }
    check(flash_fs_salvage_read(&left, object, files[file].size, bytes, sizeof bytes) == 0, "the end of %s", files[file].name);
    check(flash_fs_salvage_list(&left, object, bytes, sizeof bytes, &(uint64_t){0}) == FLASH_ENOTDIR, "a list of %s", files[file].name);
}

/* The names of a directory, and what does not read of them. */
static struct names read_directory(uint64_t object, struct missing *missing)
{
    struct names names = {0};
    struct flash_salvaged info;
    if (object == 0)
        return names;
    names = list(object);
    int code = flash_fs_salvage_stat(&left, object, &info);
    if (names.size == FLASH_ENOENT) {
        check(code == FLASH_ENOENT && names.lost == 777, "a list without a header");
        missing->headers++;
        return names;
    }
    check(code == 0 && info.kind == FLASH_DIRECTORY && names.size >= 0, "a list returned %lld", (long long)names.size);
    check(flash_fs_salvage_read(&left, object, 0, names.bytes, 0) == FLASH_EISDIR, "a read of a directory");
    missing->slots += (int)names.lost;
    return names;
}

/* Goes through all that is left. */
static struct missing look(void)
{
    struct missing missing = {0};
    uint64_t objects[64];
    struct names root = read_directory(1, &missing), logs = read_directory(object_of(&root, "logs"), &missing),
                 old = read_directory(object_of(&logs, "old"), &missing);
    for (int i = 0; i < FILES; i++) {
        const struct names *names = files[i].directory[0] == 0 ? &root : strcmp(files[i].directory, "/logs") == 0 ? &logs : &old;
        uint64_t object = object_of(names, files[i].name);
        if (object == 0)
            missing.unreached++;
        else
            read_file(i, object, &missing);
    }
    missing.orphans = (int)flash_fs_salvage_orphans(&left, objects, 64);
    check(missing.orphans >= 0 && missing.orphans <= 64, "orphans");
    for (int i = 0; i < missing.orphans; i++) {
        struct flash_salvaged info;
        check(objects[i] != 1 && flash_fs_salvage_stat(&left, objects[i], &info) == 0, "an orphan");
    }
    return missing;
}

/* Whether this is what is missing where the one page with the key is lost. */
static bool is_loss_of(const struct tag *tag, const struct missing *missing)
{
    struct flash_salvaged info;
    if (tag->chunk == 0)
        return missing->headers == 1 && missing->slots == 0 && missing->pages == 0;
    check(flash_fs_salvage_stat(&left, tag->object, &info) == 0, "a header that is there");
    return missing->headers == 0 && (info.kind == FLASH_FILE ? missing->pages == 1 && missing->slots == 0 && missing->unreached == 0
                                                             : missing->pages == 0 && missing->slots > 0);
}

static bool is_all(const struct missing *missing)
{
    return missing->headers + missing->slots + missing->pages + missing->unreached + missing->orphans == 0;
}

/* A flash of which a page is lost, in which a mount returns this: by all tags, or as it goes. */
static int lose(uint32_t block, uint32_t page, bool by_tags)
{
    ram_nand_copy(&nand, &whole);
    ram_nand_lose(&nand, block, page);
    int code = by_tags ? flash_fs_mount_scanned(&fs, &nand.driver, 16) : flash_fs_mount(&fs, &nand.driver);
    flash_fs_abandon(&fs);
    ram_nand_power_up(&nand);
    memset(&nand.counts, 0, sizeof nand.counts);
    return code;
}

static void open_left(void)
{
    check(flash_fs_salvage_open(&left, &nand.driver) == 0, "an open");
}

static void close_left(void)
{
    flash_fs_salvage_close(&left);
    check(memory.blocks == 0, "%lld blocks were not given back", (long long)memory.blocks);
    check(nand.counts.programs + nand.counts.erases + nand.counts.marks == 0 && nand.misuse == NULL, "it is only read");
}

/* Where a mount by all tags finds a tree, a salvage shows that one, and no lost page. (One by a summary may find more: it needs no
 * page of a group but those that are in use.)
 */
static void is_as_mounted(void)
{
    struct flash_salvaged info;
    struct flash_info mounted;
    struct names root = list(1);
    check(root.lost == 0 && flash_fs_salvage_lost(&left, NULL, 0) == 0 && flash_fs_salvage_orphans(&left, NULL, 0) == 0, "a whole tree");
    for (int i = 0; i < FILES; i++) {
        uint64_t object = object_of(&root, files[i].name);
        check(object == 0 || (flash_fs_salvage_stat(&left, object, &info) == 0 && info.size == files[i].size), "a file of a tree");
    }
    flash_fs_salvage_close(&left);
    ram_nand_power_up(&nand);
    check(flash_fs_mount_scanned(&fs, &nand.driver, 16) == 0, "a mount");
    for (int i = 0; i < FILES; i++) {
        char path[64];
        snprintf(path, sizeof path, "/%s", files[i].name);
        int code = flash_fs_stat(&fs, path, &mounted);
        check((code == 0) == (object_of(&root, files[i].name) != 0), "a name of a tree");
        check(code != 0 || mounted.object == object_of(&root, files[i].name), "an object of a tree");
    }
    flash_fs_abandon(&fs);
    ram_nand_power_up(&nand);
    open_left();
}

static void test_each_page(void)
{
    int lost = 0, damaged = 0, exact = 0, older_shown = 0;
    for (uint32_t block = 0; block < BLOCKS; block++)
        for (uint32_t page = 0; page < PAGES; page++) {
            struct flash_place places[2] = {{99, 99}, {99, 99}};
            int older;
            if (!is_written(&whole, block, page))
                continue;
            struct tag tag = tag_at(&whole, block, page);
            int pages = pages_of(&tag, &older), code = lose(block, page, true);
            check(code == 0 || code == FLASH_EDAMAGED || code == FLASH_ENOVOLUME, "a mount returned %d", code);
            lost++;
            open_left();
            if (code == 0) {
                is_as_mounted();
                close_left();
                continue;
            }
            damaged += code == FLASH_EDAMAGED;
            bool behind = has_behind(block, page);
            check(flash_fs_salvage_lost(&left, places, 2) == (behind ? 1 : 0), "one lost page");
            check(!behind || (places[0].block == block && places[0].page == page), "its place");
            check(places[1].block == 99 && places[behind ? 1 : 0].page == 99, "the places behind");
            struct missing missing = look();
            if (pages == 1 && behind) {
                check(is_loss_of(&tag, &missing), "page %u of block %u: %d headers, %d slots, %d pages, %d not reached", page, block,
                      missing.headers, missing.slots, missing.pages, missing.unreached);
                exact++;
            } else if (older == 0 && behind) {
                check(is_all(&missing), "an older page that is lost");
            } else {
                older_shown++;
            }
            close_left();
        }
    check(damaged > 20 && exact > 10, "enough losses");
    printf("  %d pages, each lost in turn: %d times a mount is damaged; %d times exactly that page is missing, %d times older ones are shown\n",
           lost, damaged, exact, older_shown);
}

/* The first page of a file's data, where it is. */
static struct flash_place place_of(uint64_t object, uint64_t chunk)
{
    for (uint32_t block = 0; block < BLOCKS; block++)
        for (uint32_t page = 0; page < PAGES; page++)
            if (is_written(&whole, block, page)) {
                struct tag tag = tag_at(&whole, block, page);
                if (tag.object == object && tag.chunk == chunk)
                    return (struct flash_place){block, page};
            }
    check(false, "no such page");
    return (struct flash_place){0, 0};
}

/* A flash of which the second page of the file `pages` is lost, and which does not mount. Returns the file's object. */
static uint64_t lose_a_page(void)
{
    ram_nand_copy(&nand, &whole);
    open_left();
    struct names root = list(1);
    uint64_t object = object_of(&root, "pages");
    flash_fs_salvage_close(&left);
    struct flash_place place = place_of(object, 2);
    int code = lose(place.block, place.page, true);
    check(code == FLASH_EDAMAGED, "a mount of a damaged volume returned %d", code);
    return object;
}

static void test_calls(void)
{
    static struct {
        _Alignas(16) unsigned char bytes[2 * sizeof(struct flash_salvage)];
    } room;
    struct flash_salvage *crooked = (struct flash_salvage *)(void *)(room.bytes + 8);
    struct flash_driver same, sizes;
    static struct flash_salvage other;
    struct flash_salvaged info;
    struct flash_place place;
    uint8_t bytes[8] = "";
    uint64_t object = lose_a_page(), lost = 777;

    check(flash_fs_salvage_open(crooked, &nand.driver) == FLASH_EINVAL, "a salvage at an odd address");
    sizes = nand.driver;
    sizes.page_bytes = 600;
    check(flash_fs_salvage_open(&left, &sizes) == FLASH_EINVAL, "sizes that are out of range");
    check(flash_fs_salvage_stat(&left, 1, &info) == FLASH_EINVAL && flash_fs_salvage_list(&left, 1, bytes, 8, &lost) == FLASH_EINVAL &&
              flash_fs_salvage_read(&left, 1, 0, bytes, 8) == FLASH_EINVAL && flash_fs_salvage_orphans(&left, &lost, 1) == FLASH_EINVAL &&
              flash_fs_salvage_lost(&left, &place, 1) == FLASH_EINVAL && lost == 777,
          "calls of a salvage that is not open");
    flash_fs_salvage_close(&left);

    open_left();
    same = nand.driver;
    check(flash_fs_salvage_open(&left, &nand.driver) == FLASH_EBUSY && flash_fs_salvage_open(&other, &same) == FLASH_EBUSY,
          "a salvage that is open");
    check(flash_fs_mount(&fs, &same) == FLASH_EBUSY && flash_fs_format(&fs, &nand.driver, SPARE) == FLASH_EBUSY,
          "a mount and a format while a salvage is open");
    check(flash_fs_salvage_stat(&left, 0, &info) == FLASH_ENOENT && flash_fs_salvage_stat(&left, UINT64_MAX, &info) == FLASH_ENOENT &&
              flash_fs_salvage_list(&left, 4000, bytes, 8, &lost) == FLASH_ENOENT && lost == 777 &&
              flash_fs_salvage_read(&left, 4000, 0, bytes, 8) == FLASH_ENOENT,
          "objects that are not there");
    check(flash_fs_salvage_list(&left, 1, NULL, 0, &lost) == FLASH_ERANGE && lost == 0, "a list of no bytes");
    lost = 777;
    check(flash_fs_salvage_list(&left, 1, bytes, 8, &lost) == FLASH_ERANGE && lost == 0 && bytes[0] == 0, "a list of a few bytes");
    check(flash_fs_salvage_read(&left, object, 0, NULL, 0) == 0 && flash_fs_salvage_read(&left, object, PAGE, NULL, 0) == FLASH_ELOST,
          "reads of no bytes");
    check(flash_fs_salvage_read(&left, object, PAGE - 2, bytes, 8) == 2 && flash_fs_salvage_read(&left, object, UINT64_MAX, bytes, 8) == 0,
          "reads at other offsets");
    check(flash_fs_salvage_read(&left, object, 2 * PAGE - 1, bytes, 8) == FLASH_ELOST, "the end of a lost page");
    check(flash_fs_salvage_lost(&left, NULL, 0) == 1 && flash_fs_salvage_orphans(&left, NULL, 0) == 0, "counts alone");
    close_left();
    flash_fs_salvage_close(&left);

    check(flash_fs_format(&fs, &nand.driver, SPARE) == 0 && flash_fs_mount(&fs, &nand.driver) == 0, "a format afterwards");
    check(flash_fs_salvage_open(&left, &same) == FLASH_EBUSY && flash_fs_mkdir(&fs, "/new", 1) == 0, "a salvage of a mounted volume");
    check(flash_fs_unmount(&fs) == 0, "an unmount");
    printf("  the errors of the calls, by hand; a format afterwards\n");
}

/* Each growth of an open, a list and a question for orphans refused in turn; the other calls take none. */
static void test_refused(void)
{
    uint64_t object = lose_a_page(), at = 1, total = 0, lost;
    uint8_t bytes[NAMES];
    struct flash_salvaged info;
    for (;; at++) {
        refuse(at, at % 2 == 0);
        int code = flash_fs_salvage_open(&left, &nand.driver);
        if (memory.refused == 0)
            break;
        check(code == FLASH_ENOMEM && memory.blocks == 0, "an open that was refused memory returned %d", code);
        check(flash_fs_salvage_stat(&left, 1, &info) == FLASH_EINVAL, "a call after it");
        flash_fs_salvage_close(&left);
    }
    total += at - 1;
    for (int call = 0; call < 2; call++)
        for (at = 1;; at++) {
            refuse(at, false);
            lost = 777;
            int64_t code = call == 0 ? flash_fs_salvage_list(&left, 1, bytes, sizeof bytes, &lost) : flash_fs_salvage_orphans(&left, NULL, 0);
            if (memory.refused == 0) {
                check(code >= 0, "a call without a refusal");
                total += at - 1;
                break;
            }
            check(code == FLASH_ENOMEM && lost == 777, "a call that was refused memory returned %lld", (long long)code);
        }
    refuse(1, true);
    check(flash_fs_salvage_stat(&left, object, &info) == 0 && flash_fs_salvage_read(&left, object, 0, bytes, PAGE) == PAGE &&
              flash_fs_salvage_lost(&left, NULL, 0) == 1 && memory.calls == 0,
          "calls without memory");
    refuse(0, false);
    struct missing missing = look();
    check(missing.pages == 1 && missing.headers == 0 && missing.unreached == 0, "all but the page");
    close_left();
    printf("  %llu growths of an open, a list and a question for orphans, each refused in turn\n", (unsigned long long)total);
}

/* Power goes at each call of the device in an open, and in a read after it. */
static void test_cuts(void)
{
    uint64_t object = lose_a_page(), at = 1, lost;
    struct flash_salvaged info;
    uint8_t bytes[NAMES];
    for (;; at++) {
        ram_nand_power_up(&nand);
        nand.cut_at = at;
        int code = flash_fs_salvage_open(&left, &nand.driver);
        if (!nand.gone)
            break;
        check(code == FLASH_EIO && memory.blocks == 0, "an open in which power goes returned %d", code);
        check(flash_fs_salvage_stat(&left, 1, &info) == FLASH_EINVAL, "a call after it");
    }
    nand.cut_at = nand.calls + 1;
    check(flash_fs_salvage_read(&left, object, 0, bytes, PAGE) == FLASH_EIO, "a read in which power goes");
    check(flash_fs_salvage_read(&left, object, 0, bytes, PAGE) == FLASH_EIO && flash_fs_salvage_stat(&left, 1, &info) == FLASH_EIO &&
              flash_fs_salvage_list(&left, 1, bytes, sizeof bytes, &lost) == FLASH_EIO &&
              flash_fs_salvage_orphans(&left, NULL, 0) == FLASH_EIO && flash_fs_salvage_lost(&left, NULL, 0) == 1,
          "calls after it");
    close_left();
    ram_nand_power_up(&nand);
    open_left();
    check(flash_fs_salvage_read(&left, object, 0, bytes, PAGE) == PAGE, "a read after the next open");
    close_left();
    printf("  power that goes at each of %llu calls of an open, and in a read\n", (unsigned long long)(at - 1));
}

/* Volumes that are whole: left without an unmount, with one, and with tags of 24 bytes; and a flash that holds none. */
static void test_whole(void)
{
    for (int turn = 0; turn < 4; turn++) {
        ram_nand_free(&nand);
        make_volume(&nand, turn % 2 == 0 ? FLASH_TAG_BYTES : FLASH_PACKED_TAG_BYTES);
        ram_nand_power_up(&nand);
        if (turn >= 2)
            check(flash_fs_mount(&fs, &nand.driver) == 0 && flash_fs_mkdir(&fs, "/new", 1) == 0 && flash_fs_unmount(&fs) == 0, "an unmount");
        ram_nand_power_up(&nand);
        memset(&nand.counts, 0, sizeof nand.counts);
        open_left();
        struct missing missing = look();
        check(is_all(&missing) && flash_fs_salvage_lost(&left, NULL, 0) == 0, "a volume that is whole");
        close_left();
    }
    struct flash_salvaged info;
    ram_nand_free(&nand);
    check(ram_nand_make(&nand, PAGE, PAGES, BLOCKS) == 0, "memory");
    open_left();
    check(flash_fs_salvage_stat(&left, 1, &info) == FLASH_ENOENT && flash_fs_salvage_orphans(&left, NULL, 0) == 0 &&
              flash_fs_salvage_lost(&left, NULL, 0) == 0,
          "a flash that is erased");
    close_left();
    printf("  four volumes that are whole, and a flash that is erased\n");
}

/* After an unmount a mount goes by a list of pages, and does not find that a page of a file's data is lost; a salvage does. */
static void test_unmounted(void)
{
    uint8_t bytes[PAGE];
    ram_nand_copy(&nand, &whole);
    check(flash_fs_mount(&fs, &nand.driver) == 0 && flash_fs_mkdir(&fs, "/new", 1) == 0 && flash_fs_unmount(&fs) == 0, "an unmount");
    ram_nand_copy(&whole, &nand);
    open_left();
    struct names root = list(1);
    uint64_t object = object_of(&root, "pages");
    flash_fs_salvage_close(&left);
    struct flash_place place = place_of(object, 2);
    check(lose(place.block, place.page, false) == 0, "a mount by a list of pages");
    open_left();
    check(flash_fs_salvage_read(&left, object, 0, bytes, PAGE) == PAGE && flash_fs_salvage_read(&left, object, PAGE, bytes, PAGE) == FLASH_ELOST &&
              flash_fs_salvage_lost(&left, NULL, 0) == 1,
          "a page that is lost after an unmount");
    struct missing missing = look();
    check(missing.pages == 1 && missing.headers + missing.slots + missing.unreached + missing.orphans == 0, "all but the page");
    close_left();
    printf("  a page that is lost after an unmount\n");
}

int main(void)
{
    make_volume(&whole, FLASH_TAG_BYTES);
    check(ram_nand_make(&nand, PAGE, PAGES, BLOCKS) == 0, "memory");
    test_each_page();
    test_calls();
    test_refused();
    test_cuts();
    test_unmounted();
    test_whole();
    ram_nand_free(&nand);
    ram_nand_free(&whole);
    return 0;
}
