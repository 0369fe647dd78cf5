#include "model.h"

#include <stdio.h>
#include <stdlib.h>
#include <string.h>

enum { SLOT_BYTES = 272, MOST_PATH = 4095, MOST_NAME = 255 };

static void *taken(size_t bytes)
{
    void *at = calloc(1, bytes > 0 ? bytes : 1);
    if (at == NULL) {
        fprintf(stderr, "the test itself is out of memory\n");
        exit(3);
    }
    return at;
}

static void *copied(const void *from, size_t bytes)
{
    void *at = taken(bytes);
    if (bytes > 0)
        memcpy(at, from, bytes);
    return at;
}

/* ---- States */

struct model *model_make(uint32_t page_bytes, uint32_t block_pages, uint32_t blocks, uint32_t spare)
{
    struct model *model = taken(sizeof *model);
    uint64_t group = block_pages / 4;
    model->page_bytes = page_bytes;
    model->capacity = (uint64_t)(blocks - spare - 1) * (block_pages - group);
    model->most_written = (group - 3) * page_bytes;
    model->greatest_length = 8 * ((uint64_t)page_bytes - 32) * page_bytes;
    model->objects[MODEL_ROOT].kind = FLASH_DIRECTORY;
    return model;
}

struct model *model_clone(const struct model *model)
{
    struct model *clone = copied(model, sizeof *model);
    for (uint32_t o = 0; o < MODEL_OBJECTS; o++) {
        struct model_object *object = &clone->objects[o];
        if (object->kind == FLASH_FILE)
            object->bytes = copied(object->bytes, object->size);
        if (object->kind == FLASH_DIRECTORY)
            object->entries = copied(object->entries, object->count * sizeof *object->entries);
    }
    return clone;
}

static void forget(struct model_object *object)
{
    free(object->bytes);
    free(object->entries);
    *object = (struct model_object){0};
}

void model_free(struct model *model)
{
    for (uint32_t o = 0; o < MODEL_OBJECTS; o++)
        forget(&model->objects[o]);
    free(model);
}

/* Finds which objects are named, or the root, or open. */
static void find_used(const struct model *model, bool *used)
{
    memset(used, 0, MODEL_OBJECTS * sizeof *used);
    used[MODEL_ROOT] = true;
    for (uint32_t o = 0; o < MODEL_OBJECTS; o++)
        for (uint32_t i = 0; i < model->objects[o].count; i++)
            used[model->objects[o].entries[i].object] = true;
    for (int fd = 0; fd < MODEL_DESCRIPTORS; fd++)
        if (model->handles[fd].object != 0)
            used[model->handles[fd].object] = true;
}

static void prune(struct model *model)
{
    bool used[MODEL_OBJECTS];
    find_used(model, used);
    for (uint32_t o = 0; o < MODEL_OBJECTS; o++)
        if (!used[o])
            forget(&model->objects[o]);
}

void model_settle(struct model *model)
{
    memset(model->handles, 0, sizeof model->handles);
    prune(model);
}

static uint64_t units(uint64_t count, uint64_t unit)
{
    return (count + unit - 1) / unit;
}

static uint64_t cost(const struct model *model, const struct model_object *object)
{
    if (object->kind == FLASH_FILE)
        return 1 + units(object->size, model->page_bytes);
    return object->kind == FLASH_DIRECTORY ? 1 + units(object->count, model->page_bytes / SLOT_BYTES) : 0;
}

static uint64_t charge(const struct model *model)
{
    bool used[MODEL_OBJECTS];
    uint64_t sum = 0;
    find_used(model, used);
    for (uint32_t o = 0; o < MODEL_OBJECTS; o++)
        if (used[o])
            sum += cost(model, &model->objects[o]);
    return sum;
}

static uint64_t links(const struct model *model, uint32_t o)
{
    uint64_t count = 0;
    if (model->objects[o].kind == FLASH_DIRECTORY) {
        for (uint32_t i = 0; i < model->objects[o].count; i++)
            count += model->objects[model->objects[o].entries[i].object].kind == FLASH_DIRECTORY;
        return 2 + count;
    }
    for (uint32_t d = 0; d < MODEL_OBJECTS; d++)
        for (uint32_t i = 0; i < model->objects[d].count; i++)
            count += model->objects[d].entries[i].object == o;
    return count;
}

static struct flash_info info_of(const struct model *model, uint32_t o)
{
    const struct model_object *object = &model->objects[o];
    return (struct flash_info){(uint64_t)object->kind, o, links(model, o), object->kind == FLASH_FILE ? object->size : 0,
                               object->moment};
}

/* ---- Trees as numbers */

static void mix(uint64_t *number, const void *bytes, size_t size)
{
    const uint8_t *at = bytes;
    for (size_t i = 0; i < size; i++)
        *number = (*number ^ at[i]) * UINT64_C(0x100000001b3);
    *number ^= *number >> 29;
}

static void mix_model(const struct model *model, uint32_t o, uint64_t *number)
{
    const struct model_object *object = &model->objects[o];
    struct flash_info info = info_of(model, o);
    mix(number, &info, sizeof info);
    if (object->kind == FLASH_FILE)
        mix(number, object->bytes, object->size);
    for (uint32_t i = 0; i < object->count; i++) {
        mix(number, object->entries[i].name, strlen(object->entries[i].name) + 1);
        mix_model(model, object->entries[i].object, number);
    }
    mix(number, "", 1);
}

uint64_t model_tree(const struct model *model)
{
    uint64_t number = 1;
    mix_model(model, MODEL_ROOT, &number);
    return number;
}

static int64_t mix_volume(struct flash_fs *fs, char *path, uint64_t *number)
{
    struct flash_info info;
    static char buffer[65536];
    int64_t code = flash_fs_stat(fs, *path == 0 ? "/" : path, &info);
    if (code < 0)
        return code;
    mix(number, &info, sizeof info);
    if (info.kind == FLASH_FILE) {
        int fd = flash_fs_open(fs, path, FLASH_RDONLY, 0);
        if (fd < 0)
            return fd;
        uint8_t *bytes = taken(info.size + 1);
        code = flash_fs_read(fs, fd, bytes, info.size + 1);
        if (code >= 0)
            mix(number, bytes, (size_t)code);
        free(bytes);
        int closed = flash_fs_close(fs, fd);
        code = code < 0 ? code : closed < 0 ? closed : (uint64_t)code == info.size ? 0 : FLASH_EINVAL;
    } else {
        code = flash_fs_list(fs, *path == 0 ? "/" : path, buffer, sizeof buffer);
        if (code < 0)
            return code;
        size_t size = (size_t)code, length = strlen(path);
        char *names = copied(buffer, size);
        code = 0;
        for (char *name = names; name < names + size && code >= 0; name += strlen(name) + 1) {
            mix(number, name, strlen(name) + 1);
            snprintf(path + length, 4096 - length, "/%s", name);
            code = mix_volume(fs, path, number);
        }
        path[length] = 0;
        free(names);
    }
    mix(number, "", 1);
    return code;
}

uint64_t volume_tree(struct flash_fs *fs, int64_t *code)
{
    char path[4096] = "";
    uint64_t number = 1;
    *code = mix_volume(fs, path, &number);
    return *code < 0 ? 0 : number;
}

/* ---- Paths */

enum last { ONLY_SLASHES, DOT, DOT_DOT, NAMED };

/* Where a path leads: the directory, the last component, the object (0: the name is absent), whether a slash follows. */
struct place {
    uint32_t directory, object;
    enum last last;
    char name[256];
    bool slash_follows;
};

static uint32_t parent(const struct model *model, uint32_t o)
{
    for (uint32_t d = 0; d < MODEL_OBJECTS; d++)
        for (uint32_t i = 0; i < model->objects[d].count; i++)
            if (model->objects[d].entries[i].object == o)
                return d;
    return MODEL_ROOT;
}

static uint32_t entry_of(const struct model *model, uint32_t directory, const char *name)
{
    const struct model_object *object = &model->objects[directory];
    for (uint32_t i = 0; i < object->count; i++)
        if (strcmp(object->entries[i].name, name) == 0)
            return object->entries[i].object;
    return 0;
}

static int resolve(const struct model *model, const char *path, struct place *place)
{
    size_t length = strlen(path);
    if (length == 0)
        return FLASH_ENOENT;
    if (length > MOST_PATH)
        return FLASH_ENAMETOOLONG;
    for (const char *at = path; *at != 0; at += strcspn(at, "/") + (at[strcspn(at, "/")] == '/'))
        if (strcspn(at, "/") > MOST_NAME)
            return FLASH_ENAMETOOLONG;
    *place = (struct place){.directory = MODEL_ROOT, .object = MODEL_ROOT, .slash_follows = path[length - 1] == '/'};
    for (const char *at = path + strspn(path, "/"); *at != 0;) {
        size_t size = strcspn(at, "/");
        if (place->last != ONLY_SLASHES) { /* the component before was not the last */
            if (place->object == 0)
                return FLASH_ENOENT;
            if (model->objects[place->object].kind == FLASH_FILE)
                return FLASH_ENOTDIR;
            place->directory = place->object;
        }
        memcpy(place->name, at, size);
        place->name[size] = 0;
        if (strcmp(place->name, ".") == 0) {
            place->last = DOT;
            place->object = place->directory;
        } else if (strcmp(place->name, "..") == 0) {
            place->last = DOT_DOT;
            place->object = parent(model, place->directory);
        } else {
            place->last = NAMED;
            place->object = entry_of(model, place->directory, place->name);
        }
        at += size;
        at += strspn(at, "/");
    }
    if (place->last != ONLY_SLASHES && model->objects[place->object].kind == FLASH_FILE && place->slash_follows)
        return FLASH_ENOTDIR;
    return 0;
}

/* ---- Names */

static void add_name(struct model *model, uint32_t directory, const char *name, uint32_t o, uint64_t moment)
{
    struct model_object *object = &model->objects[directory];
    uint32_t at = 0;
    while (at < object->count && strcmp(object->entries[at].name, name) < 0)
        at++;
    object->moment = moment;
    if (at < object->count && strcmp(object->entries[at].name, name) == 0) {
        object->entries[at].object = o;
        return;
    }
    struct model_entry *entries = taken((object->count + 1) * sizeof *entries);
    for (uint32_t i = 0; i < object->count; i++)
        entries[i + (i >= at)] = object->entries[i];
    strcpy(entries[at].name, name);
    entries[at].object = o;
    free(object->entries);
    object->entries = entries;
    object->count++;
}

static void remove_name(struct model *model, uint32_t directory, const char *name, uint64_t moment)
{
    struct model_object *object = &model->objects[directory];
    uint32_t left = 0;
    object->moment = moment;
    for (uint32_t i = 0; i < object->count; i++)
        if (strcmp(object->entries[i].name, name) != 0)
            object->entries[left++] = object->entries[i];
    object->count = left;
}

static uint32_t new_number(const struct model *model)
{
    for (uint32_t o = 2; o < MODEL_OBJECTS; o++)
        if (model->objects[o].kind == 0)
            return o;
    fprintf(stderr, "the model has too few numbers\n");
    exit(3);
}

/* Whether the directory has room for a name more, and the volume for so many units besides. */
static bool has_room(const struct model *model, uint32_t directory, uint64_t besides)
{
    uint64_t slots = model->page_bytes / SLOT_BYTES, count = model->objects[directory].count;
    return charge(model) + besides + units(count + 1, slots) - units(count, slots) <= model->capacity;
}

static int64_t make(struct model *model, const struct place *place, int kind, uint64_t moment)
{
    if (!has_room(model, place->directory, 1))
        return FLASH_ENOSPC;
    uint32_t o = new_number(model);
    model->objects[o].kind = kind;
    model->objects[o].moment = moment;
    add_name(model, place->directory, place->name, o, moment);
    return o;
}

int64_t model_mkdir(struct model *model, const char *path, uint64_t moment)
{
    struct place place;
    int code = resolve(model, path, &place);
    if (code < 0)
        return code;
    if (place.object != 0)
        return FLASH_EEXIST;
    int64_t made = make(model, &place, FLASH_DIRECTORY, moment);
    return made < 0 ? made : 0;
}

int64_t model_rmdir(struct model *model, const char *path, uint64_t moment)
{
    struct place place;
    int code = resolve(model, path, &place);
    if (code < 0)
        return code;
    if (place.last == DOT)
        return FLASH_EINVAL;
    if (place.last == DOT_DOT)
        return FLASH_ENOTEMPTY;
    if (place.last == ONLY_SLASHES)
        return FLASH_EBUSY;
    if (place.object == 0)
        return FLASH_ENOENT;
    if (model->objects[place.object].kind == FLASH_FILE)
        return FLASH_ENOTDIR;
    if (model->objects[place.object].count > 0)
        return FLASH_ENOTEMPTY;
    remove_name(model, place.directory, place.name, moment);
    prune(model);
    return 0;
}

int64_t model_unlink(struct model *model, const char *path, uint64_t moment)
{
    struct place place;
    int code = resolve(model, path, &place);
    if (code < 0)
        return code;
    if (place.object == 0)
        return FLASH_ENOENT;
    if (model->objects[place.object].kind == FLASH_DIRECTORY)
        return FLASH_EPERM;
    remove_name(model, place.directory, place.name, moment);
    prune(model);
    return 0;
}

int64_t model_link(struct model *model, const char *old_path, const char *new_path, uint64_t moment)
{
    struct place from, to;
    int code = resolve(model, old_path, &from);
    if (code < 0)
        return code;
    if (from.object == 0)
        return FLASH_ENOENT;
    if (model->objects[from.object].kind == FLASH_DIRECTORY)
        return FLASH_EPERM;
    code = resolve(model, new_path, &to);
    if (code < 0)
        return code;
    if (to.object != 0)
        return FLASH_EEXIST;
    if (to.slash_follows)
        return FLASH_ENOENT;
    if (!has_room(model, to.directory, 0))
        return FLASH_ENOSPC;
    add_name(model, to.directory, to.name, from.object, moment);
    return 0;
}

static bool is_below(const struct model *model, uint32_t o, uint32_t directory)
{
    while (directory != o && directory != MODEL_ROOT)
        directory = parent(model, directory);
    return directory == o;
}

static int rename_tests(const struct model *model, const struct place *from, const struct place *to)
{
    int kind = model->objects[from->object].kind;
    if (kind == FLASH_DIRECTORY && is_below(model, from->object, to->directory))
        return FLASH_EINVAL;
    if (to->object == 0)
        return kind == FLASH_FILE && to->slash_follows ? FLASH_ENOTDIR : 0;
    const struct model_object *there = &model->objects[to->object];
    if (kind == FLASH_FILE && there->kind == FLASH_DIRECTORY)
        return FLASH_EISDIR;
    if (kind == FLASH_DIRECTORY && there->kind == FLASH_FILE)
        return FLASH_ENOTDIR;
    return kind == FLASH_DIRECTORY && there->count > 0 ? FLASH_ENOTEMPTY : 0;
}

int64_t model_rename(struct model *model, const char *old_path, const char *new_path, uint64_t moment)
{
    struct place from, to;
    int code = resolve(model, old_path, &from);
    code = code < 0 ? code : resolve(model, new_path, &to);
    if (code < 0)
        return code;
    if (from.last == DOT || from.last == DOT_DOT || to.last == DOT || to.last == DOT_DOT)
        return FLASH_EINVAL;
    if (from.last == ONLY_SLASHES || to.last == ONLY_SLASHES)
        return FLASH_EBUSY;
    if (from.object == 0)
        return FLASH_ENOENT;
    if (from.object == to.object)
        return 0;
    code = rename_tests(model, &from, &to);
    if (code < 0)
        return code;
    uint64_t moments[2] = {model->objects[from.directory].moment, model->objects[to.directory].moment};
    remove_name(model, from.directory, from.name, moment);
    add_name(model, to.directory, to.name, from.object, moment);
    if (charge(model) > model->capacity) { /* back again: only where nothing was replaced can it be too much */
        if (to.object != 0)
            add_name(model, to.directory, to.name, to.object, moment);
        else
            remove_name(model, to.directory, to.name, moment);
        add_name(model, from.directory, from.name, from.object, moment);
        model->objects[to.directory].moment = moments[1];
        model->objects[from.directory].moment = moments[0];
        return FLASH_ENOSPC;
    }
    prune(model);
    return 0;
}

int64_t model_stat(struct model *model, const char *path, struct flash_info *info)
{
    struct place place;
    int code = resolve(model, path, &place);
    if (code < 0)
        return code;
    if (place.object == 0)
        return FLASH_ENOENT;
    *info = info_of(model, place.object);
    return 0;
}

int64_t model_list(struct model *model, const char *path, char *buffer, size_t size)
{
    struct place place;
    int code = resolve(model, path, &place);
    if (code < 0)
        return code;
    if (place.object == 0)
        return FLASH_ENOENT;
    const struct model_object *object = &model->objects[place.object];
    if (object->kind == FLASH_FILE)
        return FLASH_ENOTDIR;
    size_t used = 0;
    for (uint32_t i = 0; i < object->count; i++) {
        size_t length = strlen(object->entries[i].name) + 1;
        if (length > size - used)
            return FLASH_ERANGE;
        memcpy(buffer + used, object->entries[i].name, length);
        used += length;
    }
    return (int64_t)used;
}

int64_t model_space(struct model *model, struct flash_space *space)
{
    *space = (struct flash_space){model->page_bytes, model->capacity, model->capacity - charge(model)};
    return 0;
}

/* ---- Descriptors */

static struct model_handle *handle_of(struct model *model, int fd)
{
    return fd >= 0 && fd < MODEL_DESCRIPTORS && model->handles[fd].object != 0 ? &model->handles[fd] : NULL;
}

static int free_descriptor(const struct model *model)
{
    for (int fd = 0; fd < MODEL_DESCRIPTORS; fd++)
        if (model->handles[fd].object == 0)
            return fd;
    return FLASH_EMFILE;
}

static void resize(struct model_object *object, uint64_t size)
{
    uint8_t *bytes = taken(size);
    memcpy(bytes, object->bytes != NULL ? object->bytes : bytes, size < object->size ? size : object->size);
    free(object->bytes);
    object->bytes = bytes;
    object->size = size;
}

int64_t model_open(struct model *model, const char *path, uint32_t flags, uint64_t moment)
{
    struct place place;
    if ((flags & FLASH_RDWR) == 0 || flags >= 64 || ((flags & FLASH_TRUNC) != 0 && (flags & FLASH_WRONLY) == 0))
        return FLASH_EINVAL;
    int64_t code = resolve(model, path, &place);
    if (code < 0)
        return code;
    uint32_t o = place.object;
    if (o != 0) {
        if ((flags & FLASH_CREAT) != 0 && (flags & FLASH_EXCL) != 0)
            return FLASH_EEXIST;
        if (model->objects[o].kind == FLASH_DIRECTORY && (flags & (FLASH_CREAT | FLASH_WRONLY | FLASH_TRUNC)) != 0)
            return FLASH_EISDIR;
    } else if ((flags & FLASH_CREAT) == 0 || place.slash_follows) {
        return FLASH_ENOENT;
    }
    int fd = free_descriptor(model);
    if (fd < 0)
        return fd;
    if (o == 0) {
        code = make(model, &place, FLASH_FILE, moment);
        if (code < 0)
            return code;
        o = (uint32_t)code;
    } else if ((flags & FLASH_TRUNC) != 0) {
        resize(&model->objects[o], 0);
        model->objects[o].moment = moment;
    }
    model->handles[fd] = (struct model_handle){o, flags, 0};
    return fd;
}

int64_t model_close(struct model *model, int fd)
{
    struct model_handle *handle = handle_of(model, fd);
    if (handle == NULL)
        return FLASH_EBADF;
    handle->object = 0;
    prune(model);
    return 0;
}

int64_t model_read(struct model *model, int fd, uint8_t *buffer, size_t size)
{
    struct model_handle *handle = handle_of(model, fd);
    if (handle == NULL || (handle->flags & FLASH_RDONLY) == 0)
        return FLASH_EBADF;
    const struct model_object *object = &model->objects[handle->object];
    if (object->kind == FLASH_DIRECTORY)
        return FLASH_EISDIR;
    uint64_t left = handle->offset < object->size ? object->size - handle->offset : 0;
    uint64_t count = size < left ? size : left;
    if (count > 0)
        memcpy(buffer, object->bytes + handle->offset, count);
    handle->offset += count;
    return (int64_t)count;
}

/* One Write of the profile: as many bytes as it may write, the file may hold and the volume has room for. */
static int64_t write_once(struct model *model, struct model_handle *handle, const uint8_t *bytes, size_t size, uint64_t moment)
{
    struct model_object *object = &model->objects[handle->object];
    uint64_t offset = (handle->flags & FLASH_APPEND) != 0 ? object->size : handle->offset;
    if (offset >= model->greatest_length)
        return FLASH_EFBIG;
    uint64_t count = size < model->most_written ? size : model->most_written;
    if (count > model->greatest_length - offset)
        count = model->greatest_length - offset;
    uint64_t room = (units(object->size, model->page_bytes) + model->capacity - charge(model)) * model->page_bytes;
    if (offset + count > room)
        count = offset < room ? room - offset : 0;
    if (count == 0)
        return FLASH_ENOSPC;
    if (offset + count > object->size)
        resize(object, offset + count);
    memcpy(object->bytes + offset, bytes, count);
    object->moment = moment;
    handle->offset = offset + count;
    return (int64_t)count;
}

int64_t model_write(struct model *model, int fd, const uint8_t *bytes, size_t size, uint64_t moment,
                    void (*each)(void *context, const struct model *model), void *context)
{
    struct model_handle *handle = handle_of(model, fd);
    if (handle == NULL || (handle->flags & FLASH_WRONLY) == 0)
        return FLASH_EBADF;
    size_t done = 0;
    while (done < size) {
        int64_t count = write_once(model, handle, bytes + done, size - done, moment);
        if (count < 0)
            return done > 0 ? (int64_t)done : count;
        done += (size_t)count;
        if (each != NULL)
            each(context, model);
    }
    return (int64_t)done;
}

/* The offset of a read or a write of its own: the descriptor's is set aside. */
int64_t model_pread(struct model *model, int fd, uint8_t *buffer, size_t size, int64_t offset)
{
    int64_t code = model_read(model, fd, buffer, 0);
    if (code < 0 || offset < 0)
        return code < 0 ? code : FLASH_EINVAL;
    struct model_handle *handle = handle_of(model, fd);
    uint64_t before = handle->offset;
    handle->offset = (uint64_t)offset;
    code = model_read(model, fd, buffer, size);
    handle->offset = before;
    return code;
}

int64_t model_pwrite(struct model *model, int fd, const uint8_t *bytes, size_t size, int64_t offset, uint64_t moment,
                     void (*each)(void *context, const struct model *model), void *context)
{
    int64_t code = model_write(model, fd, bytes, 0, moment, NULL, NULL);
    if (code < 0 || offset < 0)
        return code < 0 ? code : FLASH_EINVAL;
    struct model_handle *handle = handle_of(model, fd);
    uint64_t before = handle->offset;
    handle->offset = (uint64_t)offset;
    code = model_write(model, fd, bytes, size, moment, each, context);
    handle->offset = before;
    return code;
}

int64_t model_fstat(struct model *model, int fd, struct flash_info *info)
{
    const struct model_handle *handle = handle_of(model, fd);
    if (handle == NULL)
        return FLASH_EBADF;
    *info = info_of(model, handle->object);
    return 0;
}

int64_t model_seek(struct model *model, int fd, int64_t offset, int whence)
{
    if (whence < FLASH_SEEK_SET || whence > FLASH_SEEK_END)
        return FLASH_EINVAL;
    struct model_handle *handle = handle_of(model, fd);
    if (handle == NULL)
        return FLASH_EBADF;
    const struct model_object *object = &model->objects[handle->object];
    if (object->kind == FLASH_DIRECTORY)
        return FLASH_EINVAL;
    uint64_t origin = whence == FLASH_SEEK_SET ? 0 : whence == FLASH_SEEK_CUR ? handle->offset : object->size;
    if (offset < 0 && (uint64_t)-(offset + 1) >= origin)
        return FLASH_EINVAL;
    uint64_t to = origin + (uint64_t)offset;
    if (to > INT64_MAX)
        return FLASH_EOVERFLOW;
    handle->offset = to;
    return (int64_t)to;
}

int64_t model_truncate(struct model *model, int fd, int64_t length, uint64_t moment)
{
    struct model_handle *handle = handle_of(model, fd);
    if (handle == NULL)
        return FLASH_EBADF;
    if ((handle->flags & FLASH_WRONLY) == 0 || length < 0)
        return FLASH_EINVAL;
    if ((uint64_t)length > model->greatest_length)
        return FLASH_EFBIG;
    struct model_object *object = &model->objects[handle->object];
    uint64_t before = units(object->size, model->page_bytes), after = units((uint64_t)length, model->page_bytes);
    if (after > before && charge(model) + after - before > model->capacity)
        return FLASH_ENOSPC;
    resize(object, (uint64_t)length);
    object->moment = moment;
    return 0;
}

int64_t model_fsync(struct model *model, int fd)
{
    return handle_of(model, fd) == NULL ? FLASH_EBADF : 0;
}
