#include "driver_check.h"

#include <stdarg.h>
#include <stdio.h>
#include <stdlib.h>
#include <string.h>

/* The promises, each with what is said where it falls short. */
enum promise { ERASES, READS_BACK, OTHERS, TAG_READ, STABLE, CUT_PROGRAM, CUT_ERASE, AFTER_CUT, FLIPS, MANY_FLIPS, MARKS, CALLS, PROMISES };

static const char *const said[PROMISES] = {
    [ERASES] = "an erased page does not read as erased",
    [READS_BACK] = "a programmed page does not read back as written",
    [OTHERS] = "a call changed another page than its own",
    [TAG_READ] = "read_tag and read_page differ",
    [STABLE] = "a page reads differently a second time",
    [CUT_PROGRAM] = "after a cut program a page reads as neither erased, nor written, nor uncorrectable",
    [CUT_ERASE] = "after a cut erase a page reads as neither before, nor erased, nor uncorrectable",
    [AFTER_CUT] = "a block whose call was cut cannot be erased and programmed again",
    [FLIPS] = "a page with so few flipped bits that they are corrected reads otherwise",
    [MANY_FLIPS] = "a page with many flipped bits reads as neither before nor uncorrectable",
    [MARKS] = "a mark was lost, or another block has it",
    [CALLS] = "a call returned a number that is not its own",
};

/* What a page may be. */
struct expected {
    bool erased, lost; /* may it read so */
    bool written;      /* may it read as this data and tag */
    unsigned seed;     /* from which these are made */
};

struct state {
    const struct driver_check *check;
    const struct flash_driver *driver;
    uint32_t *blocks; /* those that are exercised */
    uint32_t count;
    uint32_t tag_bytes;
    struct expected *pages; /* of these blocks */
    uint8_t *data, *tag, *wanted, *wanted_tag;
    int way; /* of the last cut; negative: none */
    int lines[PROMISES];
    int short_of;
};

static void falls_short(struct state *state, enum promise promise, const char *form, ...)
{
    char line[256];
    state->short_of++;
    if (state->lines[promise]++ >= 3 || state->check->report == NULL)
        return;
    int length = snprintf(line, sizeof line, "%s: ", said[promise]);
    va_list list;
    va_start(list, form);
    length += vsnprintf(line + length, sizeof line - (size_t)length, form, list);
    va_end(list);
    if (state->way >= 0 && (promise == CUT_PROGRAM || promise == CUT_ERASE) && length < (int)sizeof line)
        snprintf(line + length, sizeof line - (size_t)length, " (way %d%s%s)", state->way, state->check->way_name != NULL ? ": " : "",
                 state->check->way_name != NULL ? state->check->way_name((unsigned)state->way) : "");
    state->check->report(state->check->context, line);
}

/* Bytes by a seed. Those of a tag are never all 0xff. */
static void fill(uint8_t *bytes, size_t size, unsigned seed)
{
    uint32_t random_state = seed * 2654435761u + 12345;
    for (size_t i = 0; i < size; i++) {
        random_state = random_state * 1664525u + 1013904223u;
        bytes[i] = seed % 5 == 0 ? (uint8_t)(i == 0 ? seed : 0xff) : (uint8_t)(random_state >> 24);
    }
    bytes[0] &= 0x7f;
}

static struct expected *page_of(struct state *state, uint32_t index, uint32_t page)
{
    return &state->pages[(size_t)index * state->driver->block_pages + page];
}

/* Reads a page and looks whether it is what it may be; then it must be that. */
static void look(struct state *state, uint32_t index, uint32_t page, enum promise promise)
{
    const struct flash_driver *driver = state->driver;
    struct expected *expected = page_of(state, index, page);
    uint32_t block = state->blocks[index];
    uint8_t tag_alone[FLASH_TAG_BYTES];
    int kind = driver->read_page(driver->context, block, page, state->data, state->tag);
    int kind_alone = driver->read_tag(driver->context, block, page, tag_alone);
    if (kind == FLASH_WRITTEN_WEAK)
        kind = FLASH_WRITTEN;
    if (kind_alone == FLASH_WRITTEN_WEAK)
        kind_alone = FLASH_WRITTEN;
    if (kind < 0 || kind > FLASH_UNCORRECTABLE) {
        falls_short(state, CALLS, "read_page of block %u page %u returned %d", block, page, kind);
        return;
    }
    if (kind_alone != kind || (kind == FLASH_WRITTEN && memcmp(tag_alone, state->tag, state->tag_bytes) != 0))
        falls_short(state, TAG_READ, "block %u page %u, %d and %d", block, page, kind_alone, kind);
    bool same = kind == FLASH_WRITTEN;
    if (same) {
        fill(state->wanted, driver->page_bytes, expected->seed);
        fill(state->wanted_tag, state->tag_bytes, expected->seed + 1);
        same = memcmp(state->data, state->wanted, driver->page_bytes) == 0 &&
               memcmp(state->tag, state->wanted_tag, state->tag_bytes) == 0;
    }
    bool holds = (kind == FLASH_ERASED && expected->erased) || (kind == FLASH_UNCORRECTABLE && expected->lost) ||
                 (same && expected->written);
    if (!holds)
        falls_short(state, promise, "block %u page %u reads as %s", block, page,
                    kind == FLASH_ERASED ? "erased" : kind == FLASH_UNCORRECTABLE ? "uncorrectable"
                    : same                ? "written"
                                          : "written, with other bytes");
    expected->erased = kind == FLASH_ERASED; /* what it reads as now it reads as from now on */
    expected->lost = kind == FLASH_UNCORRECTABLE;
    expected->written = same;
}

static void look_at_all(struct state *state, enum promise promise)
{
    for (uint32_t index = 0; index < state->count; index++)
        for (uint32_t page = 0; page < state->driver->block_pages; page++)
            look(state, index, page, promise);
}

static int program(struct state *state, uint32_t index, uint32_t page, unsigned seed)
{
    const struct flash_driver *driver = state->driver;
    fill(state->wanted, driver->page_bytes, seed);
    fill(state->wanted_tag, state->tag_bytes, seed + 1);
    return driver->program(driver->context, state->blocks[index], page, state->wanted, state->wanted_tag);
}

static bool erase(struct state *state, uint32_t index)
{
    const struct flash_driver *driver = state->driver;
    int returned = driver->erase(driver->context, state->blocks[index]);
    if (returned != FLASH_DONE)
        falls_short(state, CALLS, "erase of block %u returned %d", state->blocks[index], returned);
    for (uint32_t page = 0; page < driver->block_pages; page++)
        *page_of(state, index, page) = (struct expected){.erased = true};
    return returned == FLASH_DONE;
}

/* Programs pages in their order, and looks at each. */
static void fill_block(struct state *state, uint32_t index, uint32_t pages, unsigned seed)
{
    for (uint32_t page = 0; page < pages; page++) {
        int returned = program(state, index, page, seed + 2 * page);
        *page_of(state, index, page) = (struct expected){.written = true, .seed = seed + 2 * page};
        if (returned != FLASH_DONE) {
            falls_short(state, CALLS, "program of block %u page %u returned %d", state->blocks[index], page, returned);
            *page_of(state, index, page) = (struct expected){true, true, true, seed + 2 * page};
            return;
        }
        look(state, index, page, READS_BACK);
    }
}

static void power_up(struct state *state)
{
    if (state->check->power_up != NULL)
        state->check->power_up(state->check->context);
}

/* Erases, programs and erases again, beside blocks that must stay. */
static void check_order(struct state *state)
{
    for (uint32_t index = 0; index < state->count; index++)
        erase(state, index);
    look_at_all(state, ERASES);
    for (uint32_t index = 0; index < state->count; index++)
        fill_block(state, index, state->driver->block_pages, index * 1000 + 1);
    look_at_all(state, OTHERS);
    power_up(state);
    look_at_all(state, STABLE);
    for (uint32_t index = 0; index < state->count; index += 2)
        erase(state, index);
    look_at_all(state, OTHERS);
    for (uint32_t index = 0; index < state->count; index += 2)
        fill_block(state, index, state->driver->block_pages / 2, index * 1000 + 501);
    look_at_all(state, OTHERS);
}

/* Cuts a program at the first, a middle and the last page, then erases of a full and of a half block. */
static void check_cuts(struct state *state, unsigned way)
{
    const struct driver_check *check = state->check;
    const struct flash_driver *driver = state->driver;
    const uint32_t places[3] = {0, driver->block_pages / 2, driver->block_pages - 1};
    for (int i = 0; i < 5; i++) {
        uint32_t index = (uint32_t)i % state->count, block = state->blocks[index];
        unsigned seed = 100000 + way * 1000 + (unsigned)i * 100;
        erase(state, index);
        fill_block(state, index, i < 3 ? places[i] : driver->block_pages / (i == 3 ? 1 : 2), seed);
        state->way = (int)way;
        check->cut_next(check->context, way);
        if (i < 3) {
            *page_of(state, index, places[i]) = (struct expected){true, true, true, seed + 777};
            int returned = program(state, index, places[i], seed + 777);
            if (returned >= 0) /* power went after the call: it must be done */
                *page_of(state, index, places[i]) = (struct expected){.written = true, .seed = seed + 777};
        } else {
            int returned = driver->erase(driver->context, block);
            for (uint32_t page = 0; page < driver->block_pages; page++) {
                struct expected *expected = page_of(state, index, page);
                if (returned >= 0)
                    *expected = (struct expected){.erased = true};
                else
                    expected->erased = expected->lost = true;
            }
        }
        power_up(state);
        look_at_all(state, i < 3 ? CUT_PROGRAM : CUT_ERASE);
        for (int again = 0; again < 3; again++)
            look_at_all(state, STABLE);
        power_up(state);
        look_at_all(state, STABLE);
        int before = state->short_of;
        if (erase(state, index))
            fill_block(state, index, 3, seed + 50);
        if (state->short_of != before)
            falls_short(state, AFTER_CUT, "block %u", block);
    }
}

/* Flips bits of a page that is written and of one that is erased, beside others that must stay. */
static void check_flips(struct state *state, unsigned bits, unsigned seed)
{
    const struct driver_check *check = state->check;
    bool few = bits <= check->corrected_bits;
    uint32_t index = seed % state->count, last = state->driver->block_pages - 1;
    if (!erase(state, index))
        return;
    fill_block(state, index, 3, 200000 + seed * 10);
    for (int i = 0; i < 2; i++) {
        uint32_t page = i == 0 ? 1 : last;
        if (!check->flip(check->context, state->blocks[index], page, bits, seed * 2 + (unsigned)i))
            falls_short(state, CALLS, "bits of block %u page %u could not be flipped", state->blocks[index], page);
        page_of(state, index, page)->lost = !few;
    }
    for (uint32_t page = 0; page <= last; page++)
        look(state, index, page, page != 1 && page != last ? OTHERS : few ? FLIPS : MANY_FLIPS);
    for (int again = 0; again < 2; again++) {
        power_up(state);
        look(state, index, 1, STABLE);
        look(state, index, last, STABLE);
    }
}

static void check_all_flips(struct state *state)
{
    static const unsigned many[] = {2, 3, 4, 5, 6, 8, 12, 20, 40, 100, 500, 3000};
    unsigned corrected = state->check->corrected_bits, seed = 1;
    for (unsigned again = 0; again < 5; again++)
        for (unsigned bits = 1; bits <= corrected; bits++)
            check_flips(state, bits, seed++);
    for (unsigned i = 0; i < sizeof many / sizeof *many; i++)
        for (unsigned again = 0; again < 3; again++)
            if (many[i] > corrected)
                check_flips(state, many[i], seed++);
}

static bool marks_are(struct state *state, uint32_t first, uint32_t second)
{
    const struct flash_driver *driver = state->driver;
    for (uint32_t index = 0; index < state->count; index++) {
        int wanted = state->blocks[index] == first || state->blocks[index] == second;
        if (driver->is_bad(driver->context, state->blocks[index]) != wanted)
            return false;
    }
    return true;
}

/* Marks an erased block and a full one. */
static void check_marks(struct state *state)
{
    const struct flash_driver *driver = state->driver;
    uint32_t empty = 0, full = state->count - 1;
    uint32_t first = state->blocks[empty], second = state->blocks[full];
    erase(state, empty);
    erase(state, full);
    fill_block(state, full, driver->block_pages, 999001);
    for (int i = 0; i < 2; i++)
        if (driver->mark_bad(driver->context, i == 0 ? first : second) != FLASH_DONE)
            falls_short(state, CALLS, "mark_bad of block %u", i == 0 ? first : second);
    if (!marks_are(state, first, second))
        falls_short(state, MARKS, "after the marks");
    power_up(state);
    if (!marks_are(state, first, second))
        falls_short(state, MARKS, "after power came back");
    for (uint32_t page = 0; page < driver->block_pages; page++) /* what a marked block holds is not looked at again */
        *page_of(state, empty, page) = *page_of(state, full, page) = (struct expected){true, true, true, 0};
    for (uint32_t index = 1; index + 1 < state->count; index++)
        for (uint32_t page = 0; page < driver->block_pages; page++)
            look(state, index, page, OTHERS);
}

/* Chooses good blocks, spread over the device. */
static bool choose(struct state *state)
{
    const struct flash_driver *driver = state->driver;
    uint32_t good = 0, most = state->check->most_blocks;
    for (uint32_t block = 0; block < driver->blocks; block++) {
        int bad = driver->is_bad(driver->context, block);
        if (bad != 0 && bad != 1)
            falls_short(state, CALLS, "is_bad of block %u returned %d", block, bad);
        if (bad == 0)
            state->blocks[good++] = block;
    }
    state->count = most != 0 && most < good ? most : good;
    for (uint32_t i = 0; i < state->count; i++)
        state->blocks[i] = state->blocks[(uint64_t)i * (good - 1) / (state->count > 1 ? state->count - 1 : 1)];
    return state->count >= 3;
}

int driver_check(const struct driver_check *check)
{
    const struct flash_driver *driver = check->driver;
    size_t pages = (size_t)driver->blocks * driver->block_pages;
    struct state state = {
        .check = check,
        .driver = driver,
        .way = -1,
        .tag_bytes = check->driver->tag_bytes != 0 ? check->driver->tag_bytes : FLASH_TAG_BYTES,
        .blocks = calloc(driver->blocks, sizeof *state.blocks),
        .pages = calloc(pages, sizeof *state.pages),
        .data = malloc(driver->page_bytes),
        .tag = malloc(FLASH_TAG_BYTES),
        .wanted = malloc(driver->page_bytes),
        .wanted_tag = malloc(FLASH_TAG_BYTES),
    };
    int result = -1;
    if (state.blocks != NULL && state.pages != NULL && state.data != NULL && state.tag != NULL && state.wanted != NULL &&
        state.wanted_tag != NULL) {
        power_up(&state);
        if (choose(&state)) {
            check_order(&state);
            for (unsigned way = 0; check->cut_next != NULL && way < check->ways; way++)
                check_cuts(&state, way);
            if (check->flip != NULL)
                check_all_flips(&state);
            if (check->may_mark)
                check_marks(&state);
            result = state.short_of;
        }
    }
    free(state.blocks);
    free(state.pages);
    free(state.data);
    free(state.tag);
    free(state.wanted);
    free(state.wanted_tag);
    return result;
}
