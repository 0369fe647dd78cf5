/* A firmware without an operating system, on a machine of 64-bit ARM. It mounts its volume, which it makes at its first start,
 * counts its starts in /boots, and keeps a log of this start, record by record, until power goes or the log is full.
 *
 * What it writes to the serial line, for whoever pulls the plug (resets.sh):
 *   start          it runs
 *   found B L      B is the count of starts, and the log of start B has L bytes; all bytes of the logs are right
 *   durable B L    the same, from here on, whenever power goes
 *   end            the log is full, and the volume unmounted
 */
#include "console.h"
#include "flash_fs.h"
#include "flash_heap.h"
#include "nor_nand.h"

#include <string.h>

enum { SPARE_BLOCKS = 2, HEAP_BYTES = 1 << 20, RECORD_BYTES = 64, RECORDS = 100, LOGS = 8 };

static _Alignas(16) uint8_t heap[HEAP_BYTES];
static struct flash_fs fs;

_Noreturn void power_off(void);

void fault(void)
{
    console_text("a fault of the processor\n");
}

static void require(bool holds, const char *otherwise)
{
    if (!holds) {
        console_text(otherwise);
        power_off();
    }
}

static void report(const char *word, uint64_t boots, uint64_t length)
{
    console_text(word);
    console_number(boots);
    console_text(" ");
    console_number(length);
    console_text("\n");
}

static int mount_or_make(void)
{
    int code = flash_fs_mount(&fs, &nor_nand);
    if (code == FLASH_ENOVOLUME) {
        code = flash_fs_format(&fs, &nor_nand, SPARE_BLOCKS);
        code = code < 0 ? code : flash_fs_mount(&fs, &nor_nand);
    }
    return code;
}

/* The log of a start has the name /log0 to /log7. */
static const char *log_of(uint32_t boot)
{
    static char path[] = "/log0";
    path[sizeof path - 2] = (char)('0' + boot % LOGS);
    return path;
}

static void fill(uint8_t *record, uint32_t boot, uint32_t index)
{
    for (uint32_t i = 0; i < RECORD_BYTES; i++)
        record[i] = (uint8_t)(boot * 31 + index * 7 + i);
}

/* The length of the log of a start, each byte of which must be that start's. A log that is not there is an empty one. */
static uint64_t length_of_log(uint32_t boot)
{
    uint8_t record[RECORD_BYTES], wanted[RECORD_BYTES];
    int64_t count;
    uint64_t length = 0;
    int fd = flash_fs_open(&fs, log_of(boot), FLASH_RDONLY, 0);
    if (fd == FLASH_ENOENT)
        return 0;
    require(fd >= 0, "a log cannot be opened\n");
    for (uint32_t index = 0; (count = flash_fs_read(&fs, fd, record, RECORD_BYTES)) > 0; index++) {
        fill(wanted, boot, index);
        require(count == RECORD_BYTES && memcmp(record, wanted, RECORD_BYTES) == 0, "a log has other bytes\n");
        length += RECORD_BYTES;
    }
    require(count == 0 && flash_fs_close(&fs, fd) == 0, "a log cannot be read\n");
    return length;
}

static uint32_t count_of_boots(void)
{
    uint32_t boots = 0;
    int fd = flash_fs_open(&fs, "/boots", FLASH_RDWR | FLASH_CREAT, 0);
    require(fd >= 0 && flash_fs_read(&fs, fd, &boots, sizeof boots) >= 0 && flash_fs_close(&fs, fd) == 0, "no count\n");
    return boots;
}

/* Removes the log whose name this start takes before it counts the start: one that is in the count finds no older log. */
static void count_boot(uint32_t boots)
{
    int code = flash_fs_unlink(&fs, log_of(boots), boots);
    require(code == 0 || code == FLASH_ENOENT, "a log cannot be removed\n");
    int fd = flash_fs_open(&fs, "/boots", FLASH_WRONLY, boots);
    require(fd >= 0 && flash_fs_write(&fs, fd, &boots, sizeof boots, boots) == sizeof boots, "no count\n");
    require(flash_fs_fsync(&fs, fd) == 0 && flash_fs_close(&fs, fd) == 0, "the count is not durable\n");
    report("durable ", boots, 0);
}

static void keep_log(uint32_t boots)
{
    uint8_t record[RECORD_BYTES];
    int fd = flash_fs_open(&fs, log_of(boots), FLASH_WRONLY | FLASH_CREAT | FLASH_APPEND, boots);
    require(fd >= 0, "no log\n");
    for (uint32_t index = 0; index < RECORDS; index++) {
        fill(record, boots, index);
        require(flash_fs_write(&fs, fd, record, RECORD_BYTES, boots) == RECORD_BYTES, "no record\n");
        require(flash_fs_fsync(&fs, fd) == 0, "a record is not durable\n");
        report("durable ", boots, (uint64_t)(index + 1) * RECORD_BYTES);
    }
}

void main(void)
{
    console_text("start\n");
    flash_heap_give(heap, sizeof heap);
    require(mount_or_make() == 0, "no volume\n");
    uint32_t boots = count_of_boots();
    uint64_t length = 0;
    for (uint32_t boot = boots < LOGS ? 1 : boots - LOGS + 1; boot <= boots; boot++)
        length = length_of_log(boot);
    report("found ", boots, length);
    count_boot(boots + 1);
    keep_log(boots + 1);
    require(flash_fs_unmount(&fs) == 0, "no unmount\n");
    console_text("end\n");
}
