#include "nodes.h"

#include <stdlib.h>
#include <string.h>

enum { ROOT_OBJECT = 1, ROWS = 65536 };

static struct node root = {.facts = {.kind = FLASH_DIRECTORY, .object = ROOT_OBJECT}, .found = true, .fd = -1};
static struct node *rows[ROWS]; /* by the object's number; the root is not in it */

static struct node **row_of(uint64_t object) { return &rows[object % ROWS]; }

struct node *node_root(void) { return &root; }

struct node *node_find(uint64_t object)
{
    struct node *node = object == ROOT_OBJECT ? &root : *row_of(object);
    while (node != NULL && node->facts.object != object)
        node = node->next;
    return node;
}

static void take_out(struct node *node)
{
    struct node **place = row_of(node->facts.object);
    while (*place != node)
        place = &(*place)->next;
    *place = node->next;
    node->found = false;
}

static struct node *make(const struct flash_info *facts)
{
    struct node *node = malloc(sizeof *node);
    if (node == NULL)
        return NULL;
    struct node **row = row_of(facts->object);
    *node = (struct node){.facts = *facts, .found = true, .next = *row, .fd = -1};
    return *row = node;
}

/* Frees a node that neither the kernel nor a name in it refers to, and then perhaps those in which its names lie. */
static void settle(struct node *node)
{
    if (node == &root || node->lookups > 0 || node->children > 0)
        return;
    for (struct name *name; (name = node->names) != NULL;) {
        struct node *parent = name->parent;
        node->names = name->next;
        name_drop(name);
        settle(parent);
    }
    node_end(node);
    free(node);
}

static struct name **place_of(struct node *node, const struct node *parent, const char *text)
{
    struct name **place = &node->names;
    while (*place != NULL && ((*place)->parent != parent || strcmp((*place)->text, text) != 0))
        place = &(*place)->next;
    return place;
}

struct node *node_refer(const struct flash_info *facts, struct node *parent, const char *text)
{
    struct node *node = node_find(facts->object);
    struct name *name = NULL;
    if (node == NULL || *place_of(node, parent, text) == NULL) {
        name = name_make(parent, text);
        node = node != NULL || name == NULL ? node : make(facts);
        if (node == NULL || name == NULL) {
            if (name != NULL)
                name_drop(name);
            return NULL;
        }
        node_gain(node, name);
    }
    node->lookups++;
    return node;
}

void node_forget(struct node *node, uint64_t lookups)
{
    if (node == &root)
        return;
    node->lookups -= lookups;
    settle(node);
}

struct name *name_make(struct node *parent, const char *text)
{
    size_t size = strlen(text) + 1;
    struct name *name = malloc(sizeof *name + size);
    if (name != NULL) {
        *name = (struct name){.parent = parent};
        memcpy(name->text, text, size);
        parent->children++;
    }
    return name;
}

void name_drop(struct name *name)
{
    name->parent->children--;
    free(name);
}

void node_gain(struct node *node, struct name *name)
{
    name->next = node->names;
    node->names = name;
}

void node_lose(struct node *node, const struct node *parent, const char *text)
{
    struct name **place = place_of(node, parent, text), *name = *place;
    if (name != NULL) {
        *place = name->next;
        name_drop(name);
    }
}

void node_end(struct node *node)
{
    if (node->found)
        take_out(node);
}

/* Puts a slash and a name before what begins at `at`; null: it is too long. */
static char *put_before(char *path, char *at, const char *text)
{
    size_t length = strlen(text);
    if ((size_t)(at - path) < length + 1)
        return NULL;
    memcpy(at - length, text, length);
    at -= length + 1;
    *at = '/';
    return at;
}

/* The path is made from its end: `at` is where the part below the node begins. */
static int climb(const struct node *node, char *path, char *at)
{
    for (; node != &root; node = node->names->parent) {
        if (node->names == NULL)
            return FLASH_ENOENT;
        at = put_before(path, at, node->names->text);
        if (at == NULL)
            return FLASH_ENAMETOOLONG;
    }
    int length = (int)(path + PATH_ROOM - 1 - at);
    memmove(path, at, (size_t)length + 1);
    return length;
}

int node_path(const struct node *node, char path[PATH_ROOM])
{
    char *end = path + PATH_ROOM - 1;
    *end = '\0';
    return node != &root ? climb(node, path, end) : climb(node, path, put_before(path, end, ""));
}

int node_path_in(const struct node *parent, const char *text, char path[PATH_ROOM])
{
    char *end = path + PATH_ROOM - 1;
    *end = '\0';
    char *at = put_before(path, end, text);
    return at != NULL ? climb(parent, path, at) : FLASH_ENAMETOOLONG;
}
