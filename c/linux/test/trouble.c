/* Trouble for flash-fuse, put before some of its functions by the linker: programs and erases that fail at random calls, and
 * remounts amid what programs do. The environment says how much:
 *
 *   TROUBLE_SEED       the seed
 *   TROUBLE_FAILURES   how many programs and erases fail; each costs a spare block
 *   TROUBLE_EACH       about how many of them are done for one that fails
 *   TROUBLE_REMOUNT    after so many changes the mount ends, by turns with an unmount and with a sync alone, and another begins
 *   TROUBLE_REPORT     a file for a line at the end
 */
#include "descriptors.h"
#include "device.h"
#include "volume.h"

#include <stdio.h>
#include <stdlib.h>

int __real_device_open(struct device *device);
uint64_t __real_volume_now(void);
void __real_volume_leave(void);
int __wrap_device_open(struct device *device);
uint64_t __wrap_volume_now(void);
void __wrap_volume_leave(void);

static struct flash_driver failing; /* the driver that the volume is given */
static const struct flash_driver *under;
static uint64_t state, failures, each, until_failure, remount_each, until_remount;
static uint64_t failed, remounts, changes;

static uint64_t number(const char *name, uint64_t otherwise)
{
    const char *text = getenv(name);
    return text != NULL ? strtoull(text, NULL, 10) : otherwise;
}

static uint64_t random_below(uint64_t below)
{
    state = state * 6364136223846793005u + 1442695040888963407u;
    return (state >> 33) % below;
}

static bool is_to_fail(void)
{
    if (failures == 0 || --until_failure > 0)
        return false;
    until_failure = 1 + random_below(2 * each);
    failures--;
    failed++;
    return true;
}

/* What fails is done or not, at random: both are what a flash may do. */
static int program(void *context, uint32_t block, uint32_t page, const uint8_t *data, const uint8_t *tag)
{
    bool fails = is_to_fail(), is_done = !fails || random_below(2) == 0;
    int code = is_done ? under->program(context, block, page, data, tag) : FLASH_DONE;
    return fails && code == FLASH_DONE ? FLASH_FAILED : code;
}

static int erase(void *context, uint32_t block)
{
    bool fails = is_to_fail(), is_done = !fails || random_below(2) == 0;
    int code = is_done ? under->erase(context, block) : FLASH_DONE;
    return fails && code == FLASH_DONE ? FLASH_FAILED : code;
}

int __wrap_device_open(struct device *device)
{
    int code = __real_device_open(device);
    if (code < 0)
        return code;
    state = number("TROUBLE_SEED", 1);
    failures = number("TROUBLE_FAILURES", 0);
    each = number("TROUBLE_EACH", 500);
    until_failure = 1 + random_below(2 * each);
    until_remount = remount_each = number("TROUBLE_REMOUNT", UINT64_MAX);
    under = device->driver;
    failing = *under;
    failing.program = program, failing.erase = erase;
    device->driver = &failing;
    return 0;
}

/* Each change of the volume asks for its moment. */
uint64_t __wrap_volume_now(void)
{
    changes++;
    until_remount -= until_remount > 0;
    return __real_volume_now();
}

/* A file without a name would be lost by a remount, so that waits; the others are opened again by their paths. */
static bool may_remount(void)
{
    if (until_remount > 0 || flash_fs_stopped(&volume) || descriptors_without_name() > 0)
        return false;
    while (descriptor_spare())
        ;
    return true;
}

static void remount(void)
{
    struct flash_space before = {0}, after = {0};
    flash_fs_space(&volume, &before);
    int code = remounts++ % 2 == 0 ? flash_fs_unmount(&volume) : flash_fs_sync(&volume);
    flash_fs_abandon(&volume);
    code = code < 0 ? code : volume_mount(&failing);
    flash_fs_space(&volume, &after);
    if (code < 0 || before.free != after.free) {
        fprintf(stderr, "a remount returned %d; %llu units were free before, %llu after\n", code, (unsigned long long)before.free,
                (unsigned long long)after.free);
        abort();
    }
    until_remount = remount_each;
}

static void report(void)
{
    const char *path = getenv("TROUBLE_REPORT");
    FILE *file = path != NULL ? fopen(path, "a") : NULL;
    if (file == NULL)
        return;
    fprintf(file, "%llu changes, %llu remounts, %llu programs and erases failed\n", (unsigned long long)changes,
            (unsigned long long)remounts, (unsigned long long)failed);
    fclose(file);
}

void __wrap_volume_leave(void)
{
    static bool reports;
    if (!reports)
        reports = true, atexit(report);
    if (may_remount())
        remount();
    __real_volume_leave();
}
