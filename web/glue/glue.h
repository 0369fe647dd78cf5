/* What the page calls of the module, and what a test calls of the same files on the host: three flashes in memory, a volume on
 * each, and a list of what was asked of the devices.
 *
 * A flash is named by its number, 0 to GLUE_FLASHES - 1. Paths, bytes and what is filled in lie in one buffer: a path ends in
 * a zero, and a second path begins behind it. What returns an int returns what the function of flash_fs.h returns.
 */
#ifndef GLUE_H
#define GLUE_H

#include "flash_fs.h"

enum { GLUE_FLASHES = 3, GLUE_BUFFER_BYTES = 1 << 16, GLUE_MOST_CALLS = 1 << 18 };

/* A call in the list: its kind, block and page in 4, 12 and 16 bits, the highest first. */
enum glue_kind { GLUE_MARK_READ, GLUE_TAG_READ, GLUE_PAGE_READ, GLUE_PROGRAM, GLUE_ERASE, GLUE_MARK };

#ifdef __wasm__
#define GLUE(name) __attribute__((export_name(#name))) glue_##name
#else
#define GLUE(name) glue_##name
#endif

/* ---- The flashes */

/* Makes all flashes of these sizes, erased; those that were there are gone. Returns 0, FLASH_EINVAL or FLASH_ENOMEM. */
int GLUE(make)(uint32_t page_bytes, uint32_t block_pages, uint32_t blocks);

/* Makes one flash what another is, and powers it up. */
void GLUE(copy)(uint32_t to, uint32_t from);
void GLUE(power_up)(uint32_t flash);

/* Power is to go in the call after so many others, and what it touches is left by a fate: one of enum ram_nand_fate, of which
 * there are `fates`. Returns 0, or FLASH_EINVAL for another number.
 */
int GLUE(cut)(uint32_t flash, uint32_t calls, uint32_t fate);
uint32_t GLUE(fates)(void);
void GLUE(fail_next_program)(uint32_t flash);

int GLUE(is_gone)(uint32_t flash);
/* Whether the library broke a promise to the driver. */
int GLUE(is_misused)(uint32_t flash);

/* Of each page its kind, its tag and its data; of each block its mark. They are there until the next `make`. */
uint8_t *GLUE(kinds)(uint32_t flash);
uint8_t *GLUE(tags)(uint32_t flash);
uint8_t *GLUE(data)(uint32_t flash);
uint8_t *GLUE(marks)(uint32_t flash);

/* What was asked of the devices since `begin_calls`: no more than GLUE_MOST_CALLS are kept, all are counted. */
const uint32_t *GLUE(calls)(void);
uint32_t GLUE(call_count)(void);
uint32_t GLUE(most_calls)(void);
void GLUE(begin_calls)(void);

/* ---- The volumes */

uint8_t *GLUE(bytes)(void);

int GLUE(format)(uint32_t flash, uint32_t spare);
int GLUE(mount)(uint32_t flash);
int GLUE(unmount)(uint32_t flash);
void GLUE(abandon)(uint32_t flash);
int GLUE(mkdir)(uint32_t flash, uint32_t moment);
int GLUE(rmdir)(uint32_t flash, uint32_t moment);
int GLUE(unlink)(uint32_t flash, uint32_t moment);
int GLUE(link)(uint32_t flash, uint32_t moment);
int GLUE(rename)(uint32_t flash, uint32_t moment);
int GLUE(open)(uint32_t flash, uint32_t flags, uint32_t moment);
int GLUE(close)(uint32_t flash, uint32_t fd);
int GLUE(read)(uint32_t flash, uint32_t fd, uint32_t size);
int GLUE(write)(uint32_t flash, uint32_t fd, uint32_t size, uint32_t moment);
int GLUE(truncate)(uint32_t flash, uint32_t fd, uint32_t length, uint32_t moment);
int GLUE(sync)(uint32_t flash);

/* Puts the names in the buffer, each with a zero after it; a struct flash_info; a struct flash_space. */
int GLUE(list)(uint32_t flash);
int GLUE(stat)(uint32_t flash);
int GLUE(space)(uint32_t flash);

#endif
