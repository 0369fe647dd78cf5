/* SQLite on a mounted volume. */
#ifndef SQLITE_VFS_H
#define SQLITE_VFS_H

#include "flash_fs.h"

/* Makes the volume SQLite's file system, under the name "flash" and as the default. The volume stays mounted while databases on
 * it are open. Called again with another volume, that one is used. Returns SQLITE_OK, or an error of SQLite's.
 *
 * One connection uses a database at a time. Journal mode wal asks for `pragma locking_mode = exclusive` before it, as there is
 * no shared memory.
 */
int flash_sqlite_register(struct flash_fs *fs);

#endif
