/* The machine's second flash lies at 0x04000000: 64 MiB, two chips of 16 bits side by side on a bus of 32 bits, with the commands
 * of Intel's (CFI, command set 1). Each chip gets the same command at once, so a command is its byte twice.
 *
 * A sector of 256 KiB is a block. The first holds the marks: a word for each block, and zero is bad. In a block a page has 4,096
 * bytes: its data, its tag, and two words, of which the first is made zero before the data is programmed and the second after it.
 * So a page that a loss of power touched is seen as such, the same each time. There is no error correction, as qemu has no errors.
 */
#include "nor_nand.h"

#include <string.h>

enum {
    PAGE_BYTES = 2048,
    BLOCK_PAGES = 64,
    BLOCKS = 16,
    WORD_BYTES = 4,
    SECTOR_WORDS = (256 << 10) / WORD_BYTES,
    SLOT_WORDS = SECTOR_WORDS / BLOCK_PAGES,
    DATA_WORDS = PAGE_BYTES / WORD_BYTES,
    TAG_WORDS = FLASH_TAG_BYTES / WORD_BYTES,
    BEGUN = DATA_WORDS + TAG_WORDS, /* the words of a page that say how far its program came */
    DONE
};

#define BOTH(byte) ((uint32_t)(byte) | (uint32_t)(byte) << 16)
#define ERASED_WORD UINT32_MAX

enum {
    PROGRAM_WORD = 0x40,
    PROGRAM_BUFFER = 0xe8,
    ERASE_SECTOR = 0x20,
    CONFIRM = 0xd0,
    CLEAR_STATUS = 0x50,
    READ_ARRAY = 0xff,
    READY = 0x80,
    ERRORS = 0x38 /* of an erase, of a program, of the voltage */
};

static volatile uint32_t *const flash = (volatile uint32_t *)0x04000000;

static volatile uint32_t *sector_of(uint32_t block)
{
    return flash + (size_t)(1 + block) * SECTOR_WORDS;
}

static volatile uint32_t *slot_of(uint32_t block, uint32_t page)
{
    return sector_of(block) + (size_t)page * SLOT_WORDS;
}

/* Waits for both chips, which answer a read by their status, and makes them answer by what they hold again. */
static int finish(volatile uint32_t *at)
{
    uint32_t status;
    do
        status = *at;
    while ((status & BOTH(READY)) != BOTH(READY));
    *at = BOTH(CLEAR_STATUS);
    *at = BOTH(READ_ARRAY);
    return status & BOTH(ERRORS) ? FLASH_FAILED : FLASH_DONE;
}

static int program_word(volatile uint32_t *at, uint32_t word)
{
    *at = BOTH(PROGRAM_WORD);
    *at = word;
    return finish(at);
}

static uint32_t word_at(const uint8_t *bytes)
{
    uint32_t word;
    memcpy(&word, bytes, WORD_BYTES);
    return word;
}

/* Data and tag by one command: a chip's buffer holds 1,024 of its words. */
static int program_words(volatile uint32_t *slot, const uint8_t *data, const uint8_t *tag)
{
    *slot = BOTH(PROGRAM_BUFFER);
    while ((*slot & BOTH(READY)) != BOTH(READY)) {
    }
    *slot = BOTH(DATA_WORDS + TAG_WORDS - 1);
    for (uint32_t i = 0; i < DATA_WORDS; i++)
        slot[i] = word_at(data + i * WORD_BYTES);
    for (uint32_t i = 0; i < TAG_WORDS; i++)
        slot[DATA_WORDS + i] = word_at(tag + i * WORD_BYTES);
    *slot = BOTH(CONFIRM);
    return finish(slot);
}

static void read_words(volatile uint32_t *from, uint8_t *to, uint32_t words)
{
    for (uint32_t i = 0; i < words; i++) {
        uint32_t word = from[i];
        memcpy(to + i * WORD_BYTES, &word, WORD_BYTES);
    }
}

static int is_bad(void *context, uint32_t block)
{
    (void)context;
    return flash[block] != ERASED_WORD;
}

static int read_tag(void *context, uint32_t block, uint32_t page, uint8_t *tag)
{
    volatile uint32_t *slot = slot_of(block, page);
    (void)context;
    if (slot[BEGUN] == ERASED_WORD)
        return FLASH_ERASED;
    if (slot[DONE] == ERASED_WORD)
        return FLASH_UNCORRECTABLE;
    read_words(slot + DATA_WORDS, tag, TAG_WORDS);
    return FLASH_WRITTEN;
}

static int read_page(void *context, uint32_t block, uint32_t page, uint8_t *data, uint8_t *tag)
{
    int kind = read_tag(context, block, page, tag);
    if (kind == FLASH_WRITTEN)
        read_words(slot_of(block, page), data, DATA_WORDS);
    return kind;
}

static int program(void *context, uint32_t block, uint32_t page, const uint8_t *data, const uint8_t *tag)
{
    volatile uint32_t *slot = slot_of(block, page);
    (void)context;
    int code = program_word(slot + BEGUN, 0);
    code = code != FLASH_DONE ? code : program_words(slot, data, tag);
    return code != FLASH_DONE ? code : program_word(slot + DONE, 0);
}

static int erase(void *context, uint32_t block)
{
    volatile uint32_t *sector = sector_of(block);
    (void)context;
    *sector = BOTH(ERASE_SECTOR);
    *sector = BOTH(CONFIRM);
    return finish(sector);
}

/* A mark that could not be written is a loss of power: there is no other way to report it. */
static int mark_bad(void *context, uint32_t block)
{
    (void)context;
    return program_word(flash + block, 0) == FLASH_DONE ? FLASH_DONE : -1;
}

const struct flash_driver nor_nand = {NULL,      PAGE_BYTES, BLOCK_PAGES, BLOCKS,   is_bad,         read_tag,
                                      read_page, program,    erase,       mark_bad, FLASH_TAG_BYTES};
