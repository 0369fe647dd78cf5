#include "sessions.h"

#include <stdio.h>
#include <stdlib.h>
#include <string.h>

enum { MOST_CALLS = 400 };

static struct flash_fs fs;

static struct {
    struct command commands[MOST_CALLS];
    struct outcome outcomes[MOST_CALLS];
    int count;
    uint32_t steps_before[MOST_CALLS + 1], synced_before[MOST_CALLS + 1], steps;
} session;

static void count_step(void *context, const struct model *model)
{
    (void)context, (void)model;
    session.steps++;
}

/* Draws a session and does it on the model. */
static void draw_session(struct model *model, struct draw *draw, int calls, size_t most)
{
    session.count = calls;
    session.steps = session.steps_before[0] = session.synced_before[0] = 0;
    for (int i = 0; i < calls; i++) {
        struct command *command = &session.commands[i];
        *command = draw_command(draw, most);
        if (random_below(draw, 12) == 0)
            command->what = SYNC;
        session.outcomes[i] = do_on_model(model, command, count_step, NULL);
        bool synced = (command->what == SYNC || command->what == FSYNC) && session.outcomes[i].code == 0;
        session.steps_before[i + 1] = session.steps;
        session.synced_before[i + 1] = synced ? session.steps : session.synced_before[i];
    }
}

/* Does it on the volume. Returns the number of the call in which the volume stopped, or the count of the calls. */
static int do_session(void)
{
    for (int i = 0; i < session.count; i++) {
        struct outcome there = do_on_volume(&fs, &session.commands[i]), wanted = session.outcomes[i];
        if (flash_fs_stopped(&fs) == 1)
            return i;
        bool same = there.code == wanted.code && there.filled == wanted.filled;
        if (!same)
            show_command(&session.commands[i]);
        check(same, "call %d returned %lld, and the model %lld%s", i, (long long)there.code, (long long)wanted.code,
              there.code == wanted.code ? ", or filled other bytes" : "");
    }
    return session.count;
}

/* The model after the step, of those between two, whose tree this is. */
static struct {
    uint32_t step, first, last;
    uint64_t tree;
    struct model *model;
} search;

static void look_at_step(void *context, const struct model *model)
{
    (void)context;
    if (search.model == NULL && search.step >= search.first && search.step <= search.last) {
        struct model *settled = model_clone(model);
        model_settle(settled);
        if (model_tree(settled) == search.tree)
            search.model = settled;
        else
            model_free(settled);
    }
    search.step++;
}

static struct model *find(const struct model *before, uint32_t first, uint32_t last, uint64_t tree)
{
    struct model *model = model_clone(before);
    search.step = 0;
    search.first = first;
    search.last = last;
    search.tree = tree;
    search.model = NULL;
    look_at_step(NULL, model);
    for (int i = 0; i < session.count && search.model == NULL && search.step <= last; i++)
        do_on_model(model, &session.commands[i], look_at_step, NULL);
    model_free(model);
    return search.model;
}

/* In words, how the session ended. */
static const char *end_of(const struct cut_nand *cut)
{
    if (!cut->gone)
        return "no cut";
    return cut->in_erase ? "an erase was cut" : cut_nand_way(cut->way);
}

/* Mounts after a session, and returns the model of the tree that is there. */
static struct model *look_after(struct cut_nand *cut, const struct model *before, int number, int ended, bool unmounted)
{
    int64_t code;
    const char *end = end_of(cut);
    cut_nand_power_up(cut);
    int mounted = flash_fs_mount(&fs, &cut->driver);
    check(mounted == 0, "session %d (%s): the mount after it returned %d", number, end, mounted);
    uint64_t tree = volume_tree(&fs, &code);
    check(code == 0, "session %d (%s): the tree cannot be read: %lld", number, end, (long long)code);
    flash_fs_abandon(&fs);
    uint32_t first = unmounted ? session.steps : session.synced_before[ended];
    uint32_t last = session.steps_before[ended < session.count ? ended + 1 : ended];
    struct model *left = find(before, first, last, tree);
    check(left != NULL, "session %d (%s): the tree is of none of the steps %u to %u", number, end, first, last);
    return left;
}

struct session_counts do_sessions(const struct sessions *sessions)
{
    struct cut_nand *cut = sessions->cut;
    struct session_counts counts = {0, 0, 0};
    struct draw draw = {sessions->seed};
    const struct flash_driver *driver = &cut->driver;
    struct model *model = model_make(driver->page_bytes, driver->block_pages, driver->blocks, sessions->spare);
    cut_nand_power_up(cut);
    int code = flash_fs_format(&fs, driver, sessions->spare);
    check(code == 0, "a format returned %d", code);
    for (int number = 0; number < sessions->count; number++) {
        cut_nand_power_up(cut);
        code = flash_fs_mount(&fs, driver);
        check(code == 0, "session %d: the mount before it returned %d", number, code);
        struct model *after = model_clone(model);
        draw_session(after, &draw, sessions->calls, sessions->most);
        model_free(after);
        if (sessions->way_count > 0) {
            cut->cut_at = cut->calls + 1 + random_below(&draw, (uint32_t)sessions->calls / 2);
            cut->way = sessions->ways[random_below(&draw, sessions->way_count)];
        }
        int ended = do_session();
        bool ends = ended == session.count && (sessions->way_count == 0 || random_below(&draw, 2) == 0);
        bool unmounted = ends && flash_fs_unmount(&fs) == 0;
        counts.calls += (uint64_t)ended;
        counts.cuts += cut->gone;
        counts.stops += !cut->gone && (ended < session.count || (ends && !unmounted));
        flash_fs_abandon(&fs);
        struct model *left = look_after(cut, model, number, ended, unmounted);
        model_free(model);
        model = left;
        check(cut->trouble == NULL, "session %d: %s", number, cut->trouble);
    }
    model_free(model);
    return counts;
}
