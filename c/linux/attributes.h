/* What is reported to the kernel of an object. */
#ifndef ATTRIBUTES_H
#define ATTRIBUTES_H

#include "nodes.h"

#include <sys/stat.h>

/* So long the kernel may cache what was reported to it, in seconds: nobody else changes the volume. */
#define KEPT_SECONDS 86400.0

struct stat attributes_of(const struct flash_info *facts);

/* The facts of a node as they are now: by a path, by its descriptor, or as they were when its last name went. */
int attributes_facts(struct node *node, struct flash_info *facts);

#endif
