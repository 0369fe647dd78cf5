/* The envelope of a page: how a tag lies in the free bytes of a spare area, so that a page reads as written only if its data
 * and its tag are those that were programmed together.
 *
 * It is the tag, a CRC-32 of data and tag, the lowest byte first, and as many check bytes of a Reed-Solomon code over both as
 * there is room for, one after the other in runs of the spare area. The code corrects half as many bytes of the envelope as it
 * has. The data is corrected by the chip, its controller or the system; where that went wrong, or where only a part of the page
 * was programmed, the CRC finds it.
 *
 * For drivers: it takes no memory, and of a C library memcpy and memset. Its tables are constant, 639 bytes.
 */
#ifndef PAGE_CODE_H
#define PAGE_CODE_H

#include "flash_fs.h"

#ifdef __cplusplus
extern "C" {
#endif

enum {
    PAGE_CODE_CRC_BYTES = 4,
    PAGE_CODE_LEAST_CHECKS = 2, /* one byte is corrected */
    PAGE_CODE_MOST_CHECKS = 32, /* 16 bytes are corrected: more than codes over the data are made for */
    PAGE_CODE_MOST_BYTES = FLASH_TAG_BYTES + PAGE_CODE_CRC_BYTES + PAGE_CODE_MOST_CHECKS
};

/* So many bytes of a spare area from an offset on that neither a bad-block mark nor another code takes. */
struct page_run {
    uint32_t offset, bytes;
};

struct page_code {
    uint32_t page_bytes;  /* of data */
    uint32_t tag_bytes;   /* 48 or 24 */
    uint32_t check_bytes; /* half of them are the bytes that are corrected */
    uint32_t erased_bits; /* so many bits of an erased page may read as 0; page_code_make makes it check_bytes / 2, at least 1 */
    const struct page_run *runs;
    uint32_t run_count;
    uint8_t generator[PAGE_CODE_MOST_CHECKS];
};

/* Lays an envelope for tags of 48 or 24 bytes out over runs of a spare area, which stay as they are while it is used. False:
 * the tag has another size, two runs share a byte, one leaves the spare area, or all together have fewer than tag_bytes + 6
 * bytes.
 */
bool page_code_make(struct page_code *code, uint32_t page_bytes, uint32_t tag_bytes, const struct page_run *runs,
                    uint32_t run_count, uint32_t spare_bytes);

/* How many bytes the envelope takes: the first of the runs. */
uint32_t page_code_bytes(const struct page_code *code);

/* Fills the envelope's bytes of a spare area; the others stay as they are. */
void page_code_write(const struct page_code *code, const uint8_t *data, const uint8_t *tag, uint8_t *spare);

/* Reads a page by its data and its spare area:
 *   FLASH_WRITTEN        the CRC is that of the data and the tag, which is filled;
 *   FLASH_ERASED         at most erased_bits bits of data and envelope are 0;
 *   FLASH_UNCORRECTABLE  else, as of a page that was programmed in part.
 * `corrected` may be null; else it becomes how many bits of the envelope were corrected, or are 0 in an erased page.
 */
int page_code_read(const struct page_code *code, const uint8_t *data, const uint8_t *spare, uint8_t *tag, uint32_t *corrected);

/* The CRC-32 of Ethernet and zip. The first is 0, and each of the next pieces is given that of those before. */
uint32_t page_code_crc(uint32_t before, const uint8_t *bytes, size_t size);

#ifdef __cplusplus
}
#endif
#endif
