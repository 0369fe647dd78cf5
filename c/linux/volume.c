#include "volume.h"

#include <pthread.h>
#include <time.h>

enum { CACHED_PAGES = 256 };

struct flash_fs volume;

static pthread_mutex_t lock = PTHREAD_MUTEX_INITIALIZER;

void volume_enter(void) { pthread_mutex_lock(&lock); }
void volume_leave(void) { pthread_mutex_unlock(&lock); }

uint64_t volume_now(void)
{
    struct timespec time;
    clock_gettime(CLOCK_REALTIME, &time);
    return (uint64_t)time.tv_sec * 1000000000u + (uint64_t)time.tv_nsec;
}

int volume_mount(const struct flash_driver *driver) { return flash_fs_mount_with(&volume, driver, CACHED_PAGES); }

int volume_end(bool only_read)
{
    if (!only_read)
        return flash_fs_unmount(&volume);
    flash_fs_abandon(&volume);
    return 0;
}
