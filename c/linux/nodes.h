/* What the kernel knows of the volume: a node for each object, with the names by which the kernel found it. So a file with two
 * names is one file to the kernel too, and a path is made whenever the volume is called.
 */
#ifndef NODES_H
#define NODES_H

#include "flash_fs.h"

enum { PATH_ROOM = 4096 }; /* of a path of 4,095 bytes and its zero */

struct node;

struct name {
    struct name *next;
    struct node *parent;
    char text[];
};

struct node {
    struct flash_info facts; /* its number and kind; the rest is that of the time when its last name went */
    uint64_t lookups;        /* how often the kernel was given the node and has not forgotten it */
    uint32_t children;       /* names that lie in it */
    struct name *names;      /* empty: of the root, and where none leads to it any more */
    bool found;              /* in the table: its number is its own */
    struct node *next;       /* in its row of the table */

    /* Of descriptors.c. */
    unsigned handles; /* how often the kernel has it open */
    int fd;           /* a descriptor of the volume, or -1 */
    uint64_t used;    /* when it was used last */
};

struct node *node_root(void);

/* The node of an object, or null where the kernel knows none. */
struct node *node_find(uint64_t object);

/* Gives the kernel the node of an object that was found by a name: made if there is none, and its count is one more. Null: memory was
 * refused.
 */
struct node *node_refer(const struct flash_info *facts, struct node *parent, const char *text);

/* The kernel forgets a node so many times. */
void node_forget(struct node *node, uint64_t lookups);

/* A name that no node has yet; null: memory was refused. */
struct name *name_make(struct node *parent, const char *text);
void name_drop(struct name *name);

void node_gain(struct node *node, struct name *name);
void node_lose(struct node *node, const struct node *parent, const char *text);

/* No name and no descriptor leads to the object: its number may be another's from here on. */
void node_end(struct node *node);

/* Fills in a path of the node, or that of a name in it. Returns its length; FLASH_ENOENT if no name leads there;
 * FLASH_ENAMETOOLONG.
 */
int node_path(const struct node *node, char path[PATH_ROOM]);
int node_path_in(const struct node *parent, const char *text, char path[PATH_ROOM]);

#endif
