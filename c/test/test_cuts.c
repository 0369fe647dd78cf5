/* Power goes. Each call of the device in a session is cut with each fate, and random ones in long rows of sessions; each program and
 * erase fails with each fate. A mount then shows the tree after some number of the steps that were done, in their order,
 * at least of those that a completed sync covers.
 *
 *   test_cuts [LIVES] [SEED] [PART]
 *
 * PART, from 0, is one of the eight lines that are written; without it all are.
 */
#include "commands.h"
#include "ram_nand.h"

#include <stdio.h>
#include <stdlib.h>

enum { MOST_COMMANDS = 400, MOST_STEPS = 4000 };

static struct flash_fs fs;

/* A session and what the model makes of it. A step is a call, or a piece of a write. */
struct session {
    struct command commands[MOST_COMMANDS];
    struct outcome outcomes[MOST_COMMANDS];
    int count;
    uint64_t trees[MOST_STEPS + 1];       /* what a mount shows after so many steps */
    uint32_t steps;                       /* in all */
    uint32_t steps_before[MOST_COMMANDS + 1]; /* steps before a command */
    uint32_t synced_before[MOST_COMMANDS + 1];
};

static struct session session;

static uint64_t tree_after_loss(const struct model *model)
{
    struct model *settled = model_clone(model);
    model_settle(settled);
    uint64_t tree = model_tree(settled);
    model_free(settled);
    return tree;
}

static void add_step(void *context, const struct model *model)
{
    (void)context;
    check(session.steps < MOST_STEPS, "the session has too many steps");
    session.trees[++session.steps] = tree_after_loss(model);
}

static void begin_session(const struct model *model)
{
    session.count = 0;
    session.steps = 0;
    session.trees[0] = tree_after_loss(model);
    session.synced_before[0] = 0;
}

static void add_command(struct model *model, const struct command *command)
{
    int i = session.count++;
    session.commands[i] = *command;
    session.steps_before[i] = session.steps;
    session.outcomes[i] = do_on_model(model, command, add_step, NULL);
    bool is_synced = (command->what == SYNC || command->what == FSYNC) && session.outcomes[i].code == 0;
    session.steps_before[i + 1] = session.steps;
    session.synced_before[i + 1] = is_synced ? session.steps : session.synced_before[i];
}

/* Does the session until power goes. Returns the number of the command in which it went, or the count of the commands. */
static int do_session(struct ram_nand *nand)
{
    for (int i = 0; i < session.count; i++) {
        const struct command *command = &session.commands[i];
        struct outcome there = do_on_volume(&fs, command), wanted = session.outcomes[i];
        if (nand->misuse != NULL)
            show_command(command);
        check(nand->misuse == NULL, "the driver was misused: %s", nand->misuse);
        if (!nand->gone) {
            if (there.code != wanted.code || there.filled != wanted.filled)
                show_command(command);
            check(there.code == wanted.code && there.filled == wanted.filled, "command %d returned %lld, and the model %lld", i,
                  (long long)there.code, (long long)wanted.code);
            continue;
        }
        bool is_part = command->what == WRITE && there.code > 0 && there.code <= wanted.code;
        check(there.code == FLASH_EIO || is_part, "command %d, in which power went, returned %lld", i, (long long)there.code);
        check(flash_fs_stopped(&fs) == 1 && flash_fs_sync(&fs) == FLASH_EIO, "the volume is not stopped");
        return i;
    }
    return session.count;
}

/* Mounts after a session that ended in a command, and returns a step whose tree it shows. */
static uint32_t find_step(struct ram_nand *nand, int ended, uint32_t cache_pages)
{
    int64_t code;
    ram_nand_power_up(nand);
    check(flash_fs_mount_with(&fs, &nand->driver, cache_pages) == 0, "a mount after power went");
    uint64_t tree = volume_tree(&fs, &code);
    check(code == 0, "the tree cannot be read: %lld", (long long)code);
    uint32_t first = session.synced_before[ended], last = session.steps_before[ended < session.count ? ended + 1 : ended];
    for (uint32_t step = first; step <= last; step++)
        if (session.trees[step] == tree)
            return step;
    check(false, "the tree is of none of the steps %u to %u: power went in command %d", first, last, ended);
    return 0;
}

struct sizes {
    uint32_t page_bytes, block_pages, blocks, spare, tag_bytes;
    size_t most;      /* about the most bytes of a write */
    int before, then; /* random commands before the session, and in it */
};

static void make_flash(struct ram_nand *nand, const struct sizes *sizes)
{
    check(ram_nand_make(nand, sizes->page_bytes, sizes->block_pages, sizes->blocks) == 0, "memory");
    nand->driver.tag_bytes = sizes->tag_bytes;
}

/* Makes a volume of random commands and a session of others. Returns the model before the session. */
static struct model *prepare(struct ram_nand *nand, const struct sizes *sizes, struct draw *draw)
{
    struct model *model = model_make(sizes->page_bytes, sizes->block_pages, sizes->blocks, sizes->spare);
    make_flash(nand, sizes);
    check(flash_fs_format(&fs, &nand->driver, sizes->spare) == 0 && flash_fs_mount(&fs, &nand->driver) == 0, "a volume");
    for (int i = 0; i < sizes->before; i++) {
        struct command command = draw_command(draw, sizes->most);
        struct outcome wanted = do_on_model(model, &command, NULL, NULL), there = do_on_volume(&fs, &command);
        check(there.code == wanted.code && there.filled == wanted.filled, "a command before the session");
    }
    check(flash_fs_unmount(&fs) == 0, "unmount");
    model_settle(model);
    struct model *after = model_clone(model);
    begin_session(after);
    for (int i = 0; i < sizes->then; i++) {
        struct command command = draw_command(draw, sizes->most);
        if (i % 12 == 11)
            command.what = SYNC;
        add_command(after, &command);
    }
    model_free(after);
    return model;
}

/* After a mount the volume goes on: a directory is made, and is there after another mount. */
static void go_on(struct ram_nand *nand)
{
    struct flash_info info;
    int made = flash_fs_mkdir(&fs, "/then", 1);
    check(made == 0 || made == FLASH_ENOSPC || made == FLASH_EEXIST, "a call after a mount returned %d", made);
    check(flash_fs_unmount(&fs) == 0, "unmount");
    ram_nand_power_up(nand);
    check(flash_fs_mount(&fs, &nand->driver) == 0, "a mount");
    check(made == FLASH_ENOSPC || flash_fs_stat(&fs, "/then", &info) == 0, "what was made after a mount");
}

static void cut_each(const struct sizes *sizes, uint64_t seed)
{
    struct ram_nand nand, before;
    struct draw draw = {seed};
    uint64_t cuts = 0, failures = 0, whole = 0, calls_of_mount = 0;
    model_free(prepare(&before, sizes, &draw));
    make_flash(&nand, sizes);
    bool done = false;
    for (uint64_t at = 1; !done; at++)
        for (int fate = 0; fate < RAM_NAND_FATES && !done; fate++) {
            ram_nand_copy(&nand, &before);
            nand.cut_at = at;
            nand.fate = (enum ram_nand_fate)fate;
            int ended = 0;
            int code = flash_fs_mount(&fs, &nand.driver);
            if (nand.gone) {
                check(code == FLASH_EIO, "a mount in which power went returned %d", code);
                check(flash_fs_unmount(&fs) == FLASH_EINVAL, "an unmount after a mount that failed");
                fate = RAM_NAND_FATES; /* reads have no fate */
                calls_of_mount = at;
            } else {
                check(code == 0, "a mount returned %d", code);
                ended = do_session(&nand);
                if (ended == session.count) { /* power goes in the unmount, or not any more */
                    code = flash_fs_unmount(&fs);
                    check(code == (nand.gone ? FLASH_EIO : 0), "an unmount returned %d", code);
                    done = !nand.gone;
                } else if (at % 2 == 0) {
                    check(flash_fs_unmount(&fs) == FLASH_EIO, "an unmount after power went");
                }
                flash_fs_abandon(&fs);
            }
            uint32_t step = find_step(&nand, ended, at % 3 == 0 ? 16 : 1);
            check(!done || session.trees[step] == session.trees[session.steps], "the tree after the whole session");
            whole += step == session.steps_before[ended < session.count ? ended + 1 : ended];
            cuts += !done;
            if ((at + (uint64_t)fate) % 5 == 0)
                go_on(&nand);
            flash_fs_abandon(&fs);
            check(nand.misuse == NULL, "the driver was misused: %s", nand.misuse);
        }
    done = false;
    for (uint64_t at = calls_of_mount + 1; !done && sizes->spare > 0; at++)
        for (int fate = 0; fate < RAM_NAND_FATES && !done; fate++) {
            ram_nand_copy(&nand, &before);
            nand.fail_at[0] = at;
            nand.fate = (enum ram_nand_fate)fate;
            check(flash_fs_mount(&fs, &nand.driver) == 0, "a mount");
            check(do_session(&nand) == session.count, "a session without a cut");
            check(flash_fs_unmount(&fs) == 0, "an unmount");
            done = nand.calls < at;
            uint64_t marks = 0;
            for (uint32_t block = 0; block < sizes->blocks; block++)
                marks += nand.marked[block];
            failures += marks;
            if (marks == 0)
                fate = RAM_NAND_FATES; /* the call was no program and no erase */
            uint32_t step = find_step(&nand, session.count, 16);
            check(session.trees[step] == session.trees[session.steps], "the tree after a session with a failure");
            flash_fs_abandon(&fs);
        }
    printf("  %u x %u x %u, %d commands after %d: %llu cuts, after %llu of which all that was begun was there; %llu failures\n",
           sizes->blocks, sizes->block_pages, sizes->page_bytes, sizes->then, sizes->before, (unsigned long long)cuts,
           (unsigned long long)whole, (unsigned long long)failures);
    ram_nand_free(&nand);
    ram_nand_free(&before);
}

/* The model after so many steps of the session. */
struct until {
    uint32_t steps, wanted;
    struct model *model;
};

static void keep_step(void *context, const struct model *model)
{
    struct until *until = context;
    if (++until->steps == until->wanted)
        until->model = model_clone(model);
}

static struct model *after_steps(const struct model *before, uint32_t steps)
{
    struct until until = {0, steps, NULL};
    struct model *model = model_clone(before);
    if (steps == 0)
        until.model = model_clone(before);
    for (int i = 0; i < session.count && until.model == NULL; i++)
        do_on_model(model, &session.commands[i], keep_step, &until);
    model_free(model);
    model_settle(until.model);
    return until.model;
}

/* Many sessions, each from the tree that the last one left, cut at a random call. */
static void live(const struct sizes *sizes, uint64_t lives, uint64_t seed)
{
    struct ram_nand nand;
    struct draw draw = {seed};
    uint64_t cuts = 0;
    struct model *model = prepare(&nand, sizes, &draw);
    for (uint64_t life = 0; life < lives; life++) {
        ram_nand_power_up(&nand);
        nand.fate = (enum ram_nand_fate)random_below(&draw, RAM_NAND_FATES);
        check(flash_fs_mount(&fs, &nand.driver) == 0, "a mount");
        nand.cut_at = nand.calls + 1 + random_below(&draw, 80);
        struct model *after = model_clone(model);
        begin_session(after);
        for (int i = 0; i < 40; i++) {
            struct command command = draw_command(&draw, sizes->most);
            if (random_below(&draw, 20) == 0)
                command.what = SYNC;
            add_command(after, &command);
        }
        model_free(after);
        int ended = do_session(&nand);
        if (random_below(&draw, 2) == 0)
            (void)flash_fs_unmount(&fs);
        flash_fs_abandon(&fs);
        cuts += nand.gone;
        uint32_t step = find_step(&nand, ended, random_below(&draw, 4));
        flash_fs_abandon(&fs);
        struct model *left = after_steps(model, step);
        model_free(model);
        model = left;
        check(nand.misuse == NULL, "life %llu: the driver was misused: %s", (unsigned long long)life, nand.misuse);
    }
    printf("  %u x %u x %u: %llu sessions in a row, %llu of them cut\n", sizes->blocks, sizes->block_pages, sizes->page_bytes,
           (unsigned long long)lives, (unsigned long long)cuts);
    ram_nand_free(&nand);
    model_free(model);
}

/* Each call of a format is cut; a format after it makes an empty volume. */
static void cut_format(const struct sizes *sizes, uint64_t seed)
{
    struct ram_nand nand, before;
    struct draw draw = {seed};
    uint64_t cuts = 0, volumes = 0;
    int64_t code;
    model_free(prepare(&before, sizes, &draw));
    struct model *empty = model_make(sizes->page_bytes, sizes->block_pages, sizes->blocks, sizes->spare);
    make_flash(&nand, sizes);
    bool done = false;
    for (uint64_t at = 1; !done; at++)
        for (int fate = 0; fate < RAM_NAND_FATES && !done; fate++) {
            ram_nand_copy(&nand, &before);
            nand.cut_at = at;
            nand.fate = (enum ram_nand_fate)fate;
            code = flash_fs_format(&fs, &nand.driver, sizes->spare);
            done = !nand.gone;
            check(code == (done ? 0 : FLASH_EIO), "a format returned %lld", (long long)code);
            ram_nand_power_up(&nand);
            volumes += flash_fs_mount(&fs, &nand.driver) == 0;
            flash_fs_abandon(&fs);
            ram_nand_power_up(&nand);
            check(flash_fs_format(&fs, &nand.driver, sizes->spare) == 0, "a format after one that was cut");
            check(flash_fs_mount(&fs, &nand.driver) == 0, "a mount after it");
            check(volume_tree(&fs, &code) == model_tree(empty) && code == 0, "the empty volume");
            flash_fs_abandon(&fs);
            check(nand.misuse == NULL, "the driver was misused: %s", nand.misuse);
            cuts += !done;
        }
    printf("  a format of %u x %u x %u: %llu cuts, after %llu of which there was a volume\n", sizes->blocks, sizes->block_pages,
           sizes->page_bytes, (unsigned long long)cuts, (unsigned long long)volumes);
    ram_nand_free(&nand);
    ram_nand_free(&before);
    model_free(empty);
}

int main(int count, char **words)
{
    static const struct sizes each[] = {
        {512, 32, 8, 1, 48, 2000, 60, 50}, {512, 32, 8, 2, 24, 5000, 300, 60}, {1024, 32, 6, 1, 24, 5000, 200, 60}, {512, 64, 8, 1, 48, 9000, 400, 60}};
    static const struct sizes in_a_row[] = {
        {512, 32, 16, 2, 24, 3000, 50, 0}, {512, 32, 7, 1, 48, 5000, 100, 0}, {2048, 64, 8, 1, 48, 60000, 50, 0}};
    uint64_t lives = count > 1 ? strtoull(words[1], NULL, 10) : 1000, seed = count > 2 ? strtoull(words[2], NULL, 10) : 1;
    size_t only = count > 3 ? strtoull(words[3], NULL, 10) : SIZE_MAX, part = 0;
    if (only == SIZE_MAX || only == part++)
        cut_format(&each[0], seed);
    for (size_t i = 0; i < sizeof each / sizeof *each; i++)
        if (only == SIZE_MAX || only == part++)
            cut_each(&each[i], seed * 100 + i);
    for (size_t i = 0; i < sizeof in_a_row / sizeof *in_a_row; i++)
        if (only == SIZE_MAX || only == part++)
            live(&in_a_row[i], lives, seed * 1000 + i);
    return 0;
}
