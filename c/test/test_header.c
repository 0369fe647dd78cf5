/* The numbers of flash_fs.h: errors are those of Linux, structs have the layout that the library fills. */
#include "flash_fs.h"

#include <assert.h>
#include <errno.h>
#include <stdio.h>

#define IS(name) static_assert(FLASH_##name == -name, #name)
IS(EPERM);
IS(ENOENT);
IS(EIO);
IS(EBADF);
IS(ENOMEM);
IS(EBUSY);
IS(EEXIST);
IS(ENOTDIR);
IS(EISDIR);
IS(EINVAL);
IS(EMFILE);
IS(EFBIG);
IS(ENOSPC);
IS(EROFS);
IS(ERANGE);
IS(ENAMETOOLONG);
IS(ENOTEMPTY);
IS(EOVERFLOW);
static_assert(FLASH_ENOVOLUME == -ENODEV, "ENOVOLUME");
static_assert(FLASH_ELOST == -ENODATA, "ELOST");
static_assert(FLASH_EDAMAGED == -EILSEQ, "EDAMAGED");
static_assert(FLASH_ENEWER == -EOPNOTSUPP, "ENEWER");

static_assert(FLASH_ERASED == 0 && FLASH_WRITTEN == 1 && FLASH_UNCORRECTABLE == 2 && FLASH_WRITTEN_WEAK == 3, "what a read returns");
static_assert(FLASH_DONE == 0 && FLASH_FAILED == 1, "what a change returns");
static_assert(FLASH_TAG_BYTES == 48, "the tag");
static_assert(FLASH_FILE == 1 && FLASH_DIRECTORY == 2, "kinds");
static_assert(FLASH_RDONLY == 1 && FLASH_WRONLY == 2 && FLASH_RDWR == 3 && FLASH_CREAT == 4 && FLASH_EXCL == 8 &&
                  FLASH_TRUNC == 16 && FLASH_APPEND == 32,
              "flags of an open");
static_assert(FLASH_SEEK_SET == 0 && FLASH_SEEK_CUR == 1 && FLASH_SEEK_END == 2, "seeks");

#define LIES_AT(type, field, place) static_assert(offsetof(struct type, field) == (place), #type "." #field)
LIES_AT(flash_info, kind, 0);
LIES_AT(flash_info, object, 8);
LIES_AT(flash_info, links, 16);
LIES_AT(flash_info, size, 24);
LIES_AT(flash_info, moment, 32);
static_assert(sizeof(struct flash_info) == 40, "flash_info");
LIES_AT(flash_space, unit, 0);
LIES_AT(flash_space, total, 8);
LIES_AT(flash_space, free, 16);
static_assert(sizeof(struct flash_space) == 24, "flash_space");
static_assert(sizeof(struct flash_fs) % 16 == 0 && _Alignof(struct flash_fs) == 16, "flash_fs");
LIES_AT(flash_salvaged, kind, 0);
LIES_AT(flash_salvaged, size, 8);
LIES_AT(flash_salvaged, moment, 16);
static_assert(sizeof(struct flash_salvaged) == 24, "flash_salvaged");
LIES_AT(flash_place, block, 0);
LIES_AT(flash_place, page, 4);
static_assert(sizeof(struct flash_place) == 8, "flash_place");
static_assert(sizeof(struct flash_salvage) % 16 == 0 && _Alignof(struct flash_salvage) == 16, "flash_salvage");

size_t flash_slot_bytes(void);
size_t flash_salvage_slot_bytes(void);
size_t flash_port_bytes(void);

int main(void)
{
    size_t volume = flash_slot_bytes(), salvage = flash_salvage_slot_bytes();
    printf("  a volume takes %zu of the %d bytes of a struct flash_fs, a salvage %zu of the %d of a struct flash_salvage\n", volume,
           FLASH_FS_BYTES, salvage, FLASH_SALVAGE_BYTES);
    return flash_port_bytes() == sizeof(int) && volume <= FLASH_FS_BYTES - 128 && salvage <= FLASH_SALVAGE_BYTES - 128 ? 0 : 1;
}
