/* flash-fuse: the volume of an image file or of an MTD device as a folder of Linux, by libfuse 3. docs/LINUX.md says what it has
 * and has not.
 */
#include "commit.h"
#include "device.h"
#include "operations.h"
#include "volume.h"

#include <limits.h>
#include <stdio.h>
#include <stdlib.h>
#include <syslog.h>

static int failed(int code, const char *why)
{
    syslog(LOG_ERR, "%s: %s (error %d)", words.device, why, code);
    return code;
}

static const char *reason(int code)
{
    switch (code) {
    case FLASH_ENOVOLUME:
        return "there is no volume; --format makes one";
    case FLASH_ENEWER:
        return "a volume of a newer format";
    case FLASH_EDAMAGED:
        return "what it holds is no tree that a volume can have";
    case FLASH_EINVAL:
        return "sizes out of range, or too many spare blocks";
    case FLASH_ENOSPC:
        return "more blocks are bad than are spare";
    case FLASH_EIO:
        return "it cannot be read, or not be written";
    default:
        return "it cannot be mounted";
    }
}

static int begin_volume(const struct flash_driver *driver)
{
    unsigned spare = words.spare != UINT_MAX ? words.spare : driver->blocks / 50 + 1;
    int code = words.formats ? flash_fs_format(&volume, driver, spare) : 0;
    code = code < 0 ? code : volume_mount(driver);
    return code < 0 ? failed(code, reason(code)) : 0;
}

/* How the mount is shown, and that the kernel looks at modes; a volume that can only be read is mounted so. */
static int add_options(struct fuse_args *arguments)
{
    char *options = NULL;
    int code = fuse_opt_add_opt(&options, "default_permissions");
    if (code == 0 && flash_fs_read_only(&volume))
        code = fuse_opt_add_opt(&options, "ro");
    char name[PATH_MAX + sizeof "fsname="];
    snprintf(name, sizeof name, "fsname=%s", words.device);
    code = code == 0 ? fuse_opt_add_opt_escaped(&options, name) : code;
    code = code == 0 ? fuse_opt_insert_arg(arguments, 1, "-o") | fuse_opt_insert_arg(arguments, 2, options) : code;
    free(options);
    return code;
}

static int loop(struct fuse_session *session)
{
    if (fuse_daemonize(words.fuse.foreground) != 0 || commit_begin(words.commit) != 0)
        return 1;
    int code = words.fuse.singlethread ? fuse_session_loop(session) : fuse_session_loop_mt(session, words.fuse.clone_fd);
    commit_end();
    return code < 0; /* a signal that ends it is no error */
}

/* Serves the volume until it is unmounted, or a signal comes. Returns the status of the program's end. */
static int serve(struct fuse_args *arguments)
{
    struct fuse_session *session = NULL;
    int status = 1;
    if (add_options(arguments) == 0)
        session = fuse_session_new(arguments, &operations, sizeof operations, NULL);
    if (session != NULL && fuse_set_signal_handlers(session) == 0) {
        if (fuse_session_mount(session, words.fuse.mountpoint) == 0) {
            status = loop(session);
            fuse_session_unmount(session);
        }
        fuse_remove_signal_handlers(session);
    }
    if (session != NULL)
        fuse_session_destroy(session);
    return status;
}

int main(int count, char **texts)
{
    static struct device device;
    const struct fuse_args given = FUSE_ARGS_INIT(count, texts);
    struct fuse_args arguments = FUSE_ARGS_INIT(0, NULL);
    int status;
    openlog("flash-fuse", LOG_PERROR, LOG_DAEMON);
    if (!words_read(&given, &arguments, &status))
        return status;
    if (device_open(&device) < 0)
        return 1;
    status = 1;
    if (begin_volume(device.driver) == 0) {
        status = serve(&arguments);
        int code = volume_end(words.read_only);
        if (code < 0)
            status = 1, failed(code, "the volume had stopped: what was not synced may be lost");
    }
    device_close(&device);
    fuse_opt_free_args(&arguments);
    free(words.fuse.mountpoint);
    free(words.device);
    return status;
}
