/* A skeleton of a driver for an SPI NAND flash with error correction on the die. It compiles, and is of no use before the
 * four functions at its end are written for the board, and the numbers for the chip are taken from its data sheet.
 *
 * What a tag asks of the spare area: free bytes, which neither the bad-block mark (the first byte or two) nor the parity of the
 * chip takes. 54 and more hold the envelope of a tag of 48 bytes (page_code.h), 30 and more that of one of 24: TAG_BYTES says which
 * it is. The data sheet has a table of the spare area. Chips that keep their parity in 64 bytes of spare area often
 * leave 24 to 32 free; chips that keep it apart, or have 128 bytes, 54 and more.
 *   - The chip need not protect them: the envelope corrects its own bytes, and where the chip corrects them too, all the better.
 *   - They may lie in pieces, as 12 bytes beside each sector of 512: each is a run.
 *   - They are programmed by the same program as the data: a chip may allow one program of a page between two erases.
 */
#include "page_code.h"

#include <string.h>

/* ---- Numbers of the chip; these are those of many chips of 1 Gbit. */

enum {
    PAGE_BYTES = 2048,
    BLOCK_PAGES = 64,
    BLOCKS = 1024,
    SPARE_BYTES = 64,
    TAG_BYTES = FLASH_TAG_BYTES,
    MARK_COLUMN = PAGE_BYTES /* where the bad-block mark is: other than 0xff in a bad block */
};

/* The free bytes of the spare area; these are those of a chip that keeps its parity apart. */
static const struct page_run free_bytes[] = {{2, 62}};

static struct page_code code;
static uint8_t page_data[PAGE_BYTES], spare[SPARE_BYTES];

/* Commands. */
enum {
    WRITE_ENABLE = 0x06,
    GET_FEATURE = 0x0f,
    PAGE_READ = 0x13,       /* a page to the chip's buffer */
    READ_FROM_CACHE = 0x03, /* bytes of the buffer */
    PROGRAM_LOAD = 0x02,    /* bytes to the buffer, the rest of which becomes 0xff */
    PROGRAM_LOAD_MORE = 0x84,
    PROGRAM_EXECUTE = 0x10,
    BLOCK_ERASE = 0xd8
};

/* The status feature. */
enum { STATUS = 0xc0, BUSY = 0x01, ERASE_FAILED = 0x04, PROGRAM_FAILED = 0x08, ECC_MASK = 0x30, ECC_UNCORRECTABLE = 0x20,
       ECC_WEAK = 0x30 /* as many errors as are corrected, or nearly */ };

/* ---- What the board has to do. */

/* Selects the chip, sends the first bytes, then sends or receives the others, and deselects it. Returns whether the bus worked. */
static bool transfer(const uint8_t *sent, size_t sent_size, const uint8_t *more, uint8_t *received, size_t size)
{
    (void)sent, (void)sent_size, (void)more, (void)received, (void)size;
    return false; /* write this */
}

/* Whether the supply is in the range of the chip. A program or an erase that ends below it must not be reported as done. */
static bool has_power(void)
{
    return true; /* write this: a comparator, or a brown-out flag */
}

/* Waits until the chip is ready and returns its status, or -1 after `most_milliseconds` or if the bus does not work. */
static int wait(unsigned most_milliseconds)
{
    /* write this: count milliseconds, or sleep until the time in which the chip is done typically */
    for (unsigned tries = 0; tries <= most_milliseconds * 100; tries++) {
        const uint8_t command[2] = {GET_FEATURE, STATUS};
        uint8_t status;
        if (!transfer(command, sizeof command, NULL, &status, 1))
            return -1;
        if ((status & BUSY) == 0)
            return status;
    }
    return -1;
}

/* Once at power-up, before a mount: resets the chip, unlocks its blocks, and switches error correction on. */
bool spi_nand_start(void)
{
    const uint32_t runs = sizeof free_bytes / sizeof *free_bytes;
    if (!page_code_make(&code, PAGE_BYTES, FLASH_TAG_BYTES, free_bytes, runs, SPARE_BYTES))
        return false;
    return false; /* write this */
}

/* ---- The driver. */

static bool send_row(uint8_t command, uint32_t row)
{
    const uint8_t bytes[4] = {command, (uint8_t)(row >> 16), (uint8_t)(row >> 8), (uint8_t)row};
    return transfer(bytes, sizeof bytes, NULL, NULL, 0);
}

static uint32_t row_of(uint32_t block, uint32_t page)
{
    return block * BLOCK_PAGES + page;
}

static bool take_bytes(uint32_t column, uint8_t *bytes, size_t size)
{
    const uint8_t command[4] = {READ_FROM_CACHE, (uint8_t)(column >> 8), (uint8_t)column, 0};
    return transfer(command, sizeof command, NULL, bytes, size);
}

static bool put_bytes(uint8_t command, uint32_t column, const uint8_t *bytes, size_t size)
{
    const uint8_t sent[3] = {command, (uint8_t)(column >> 8), (uint8_t)column};
    return transfer(sent, sizeof sent, bytes, NULL, size);
}

/* Loads a page to the chip's buffer, whose error correction runs over the whole of it. */
static int load(uint32_t block, uint32_t page)
{
    if (!send_row(PAGE_READ, row_of(block, page)))
        return -1;
    int status = wait(1);
    if (status < 0)
        return -1;
    int ecc = status & ECC_MASK;
    return ecc == ECC_UNCORRECTABLE ? FLASH_UNCORRECTABLE : ecc == ECC_WEAK ? FLASH_WRITTEN_WEAK : FLASH_WRITTEN;
}

/* The mark of the first page, read as it is. A block that the maker marked and one that mark_bad marked look alike. */
static int is_bad(void *context, uint32_t block)
{
    (void)context;
    uint8_t mark;
    if (load(block, 0) < 0 || !take_bytes(MARK_COLUMN, &mark, 1))
        return -1;
    return mark != 0xff;
}

/* What the chip cannot correct may be an erased page with flipped bits, which some chips do not know; else it is uncorrectable. */
static int read_page(void *context, uint32_t block, uint32_t page, uint8_t *data, uint8_t *tag)
{
    (void)context;
    int corrected = load(block, page);
    if (corrected < 0 || !take_bytes(0, data, PAGE_BYTES) || !take_bytes(PAGE_BYTES, spare, SPARE_BYTES))
        return -1;
    int kind = page_code_read(&code, data, spare, tag, NULL);
    return kind == FLASH_WRITTEN ? corrected : kind;
}

/* The whole page is read: a tag alone does not say whether the data is what was programmed with it. */
static int read_tag(void *context, uint32_t block, uint32_t page, uint8_t *tag)
{
    return read_page(context, block, page, page_data, tag);
}

/* Data and envelope go to the buffer, and then by one program to the page. */
static int program(void *context, uint32_t block, uint32_t page, const uint8_t *data, const uint8_t *tag)
{
    (void)context;
    const uint8_t enable = WRITE_ENABLE;
    memset(spare, 0xff, sizeof spare);
    page_code_write(&code, data, tag, spare);
    if (!transfer(&enable, 1, NULL, NULL, 0) || !put_bytes(PROGRAM_LOAD, 0, data, PAGE_BYTES) ||
        !put_bytes(PROGRAM_LOAD_MORE, PAGE_BYTES, spare, sizeof spare) || !send_row(PROGRAM_EXECUTE, row_of(block, page)))
        return -1;
    int status = wait(5);
    if (status < 0 || !has_power())
        return -1;
    return (status & PROGRAM_FAILED) != 0 ? FLASH_FAILED : FLASH_DONE;
}

static int erase(void *context, uint32_t block)
{
    (void)context;
    const uint8_t enable = WRITE_ENABLE;
    if (!transfer(&enable, 1, NULL, NULL, 0) || !send_row(BLOCK_ERASE, row_of(block, 0)))
        return -1;
    int status = wait(50);
    if (status < 0 || !has_power())
        return -1;
    return (status & ERASE_FAILED) != 0 ? FLASH_FAILED : FLASH_DONE;
}

/* Zeros at the place of the mark, in the first page, also where that is programmed already. The program may fail in a bad
 * block: it is enough if the mark reads as other than 0xff afterwards. A driver that cannot be sure of that keeps the marks in
 * a table elsewhere.
 */
static int mark_bad(void *context, uint32_t block)
{
    const uint8_t enable = WRITE_ENABLE, mark[2] = {0, 0};
    if (!transfer(&enable, 1, NULL, NULL, 0) || !put_bytes(PROGRAM_LOAD, MARK_COLUMN, mark, sizeof mark) ||
        !send_row(PROGRAM_EXECUTE, row_of(block, 0)) || wait(5) < 0)
        return -1;
    return is_bad(context, block) == 1 ? FLASH_DONE : -1;
}

const struct flash_driver spi_nand = {NULL,      PAGE_BYTES, BLOCK_PAGES, BLOCKS,   is_bad,   read_tag,
                                      read_page, program,    erase,       mark_bad, TAG_BYTES};
