/* The volume that is served, and the one lock round it and round the tables of this program. */
#ifndef VOLUME_H
#define VOLUME_H

#include "flash_fs.h"

extern struct flash_fs volume;

/* One thread at a time is between these two. */
void volume_enter(void);
void volume_leave(void);

/* The moment of a change: nanoseconds since 1970. Each change asks for it once. */
uint64_t volume_now(void);

/* Mounts the volume of a device. */
int volume_mount(const struct flash_driver *driver);

/* Ends the mount. What is only read is left as it was. */
int volume_end(bool only_read);

#endif
