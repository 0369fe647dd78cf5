#include "commit.h"
#include "volume.h"

#include <errno.h>
#include <pthread.h>
#include <signal.h>
#include <time.h>

static pthread_t thread;
static pthread_mutex_t lock = PTHREAD_MUTEX_INITIALIZER;
static pthread_cond_t end = PTHREAD_COND_INITIALIZER;
static bool runs, ends;
static unsigned period;

/* Waits for the period; false: the end came. */
static bool wait(void)
{
    struct timespec until;
    clock_gettime(CLOCK_REALTIME, &until);
    until.tv_sec += period;
    pthread_mutex_lock(&lock);
    int code = 0;
    while (!ends && code != ETIMEDOUT)
        code = pthread_cond_timedwait(&end, &lock, &until);
    bool goes_on = !ends;
    pthread_mutex_unlock(&lock);
    return goes_on;
}

/* A sync that fails has stopped the volume: the next call of the kernel's is answered so. */
static void *sync_each(void *unused)
{
    while (wait()) {
        volume_enter();
        flash_fs_sync(&volume);
        volume_leave();
    }
    return unused;
}

/* Signals are for the thread that serves: they end its wait. */
int commit_begin(unsigned seconds)
{
    sigset_t all, before;
    if (seconds == 0)
        return 0;
    period = seconds;
    sigfillset(&all);
    pthread_sigmask(SIG_BLOCK, &all, &before);
    int code = pthread_create(&thread, NULL, sync_each, NULL);
    pthread_sigmask(SIG_SETMASK, &before, NULL);
    runs = code == 0;
    return code;
}

void commit_end(void)
{
    if (!runs)
        return;
    pthread_mutex_lock(&lock);
    ends = true;
    pthread_cond_signal(&end);
    pthread_mutex_unlock(&lock);
    pthread_join(thread, NULL);
}
