/* The descriptors of the volume, 64 at most, behind any number of handles of the kernel's. An open file has one as long as it is
 * used, which all its handles share; the one that was not used for longest is closed for another, and opened again by its path.
 * That of a file to which no path leads any more stays open until the last handle goes: so 63 files at most are open without
 * a name, and one descriptor is left for all others.
 */
#ifndef DESCRIPTORS_H
#define DESCRIPTORS_H

#include "nodes.h"

enum { DESCRIPTORS = 64, MOST_WITHOUT_NAME = DESCRIPTORS - 1 };

/* Makes a file that is not there, which is not open afterwards. */
int descriptor_make(const char *path, uint64_t moment);

/* The descriptor of a file, by which it is read, and written where the volume can be. */
int descriptor_of(struct node *node);

/* The kernel opened the file, or closed it. What was opened for one call alone is closed by descriptor_rest. */
void descriptor_gain_handle(struct node *node);
int descriptor_lose_handle(struct node *node);
void descriptor_rest(struct node *node);

/* Before a name of the file goes: opens it, if that is the last path to a file that the kernel has open. FLASH_EMFILE: 63 are
 * open without a name.
 */
int descriptor_keep(struct node *node);

/* How many descriptors belong to files without a name. */
unsigned descriptors_without_name(void);

/* Closes the descriptor that was not used for longest, of those that a path opens again. Returns whether there was one. */
bool descriptor_spare(void);

#endif
