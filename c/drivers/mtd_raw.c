#define _DEFAULT_SOURCE
#define _FILE_OFFSET_BITS 64

#include "mtd_raw.h"

#include <mtd/mtd-user.h>
#include <sys/ioctl.h>

static uint64_t page_place(const struct mtd_nand *nand, uint32_t block, uint32_t page)
{
    return nand->first_byte + ((uint64_t)block * nand->driver.block_pages + page) * nand->driver.page_bytes;
}

static bool read_raw(void *context, uint32_t block, uint32_t page, uint8_t *raw)
{
    const struct mtd_raw *mtd = context;
    struct mtd_read_req request = {
        .start = page_place(mtd->nand, block, page),
        .len = mtd->nand->driver.page_bytes,
        .ooblen = mtd->flash.spare_bytes,
        .usr_data = (uintptr_t)raw,
        .usr_oob = (uintptr_t)(raw + mtd->nand->driver.page_bytes),
        .mode = MTD_OPS_RAW,
    };
    return ioctl(mtd->nand->device, MEMREAD, &request) == 0;
}

static bool write_raw(void *context, uint32_t block, uint32_t page, const uint8_t *raw)
{
    const struct mtd_raw *mtd = context;
    struct mtd_write_req request = {
        .start = page_place(mtd->nand, block, page),
        .len = mtd->nand->driver.page_bytes,
        .ooblen = mtd->flash.spare_bytes,
        .usr_data = (uintptr_t)raw,
        .usr_oob = (uintptr_t)(raw + mtd->nand->driver.page_bytes),
        .mode = MTD_OPS_RAW,
    };
    return ioctl(mtd->nand->device, MEMWRITE, &request) == 0;
}

bool mtd_raw_over(struct mtd_raw *raw, const struct mtd_nand *nand)
{
    struct mtd_info_user info;
    struct nand_ecclayout_user layout;
    uint32_t bytes = 0;
    if (ioctl(nand->device, MEMGETINFO, &info) < 0 || ioctl(nand->device, ECCGETLAYOUT, &layout) < 0)
        return false;
    *raw = (struct mtd_raw){.nand = nand, .flash = {raw, info.oobsize, nand->code.tag_bytes, raw->runs, 0, read_raw, write_raw}};
    for (uint32_t i = 0; i < MTD_RAW_MOST_RUNS && i < MTD_MAX_OOBFREE_ENTRIES && layout.oobfree[i].length > 0; i++) {
        raw->runs[i] = (struct page_run){layout.oobfree[i].offset, layout.oobfree[i].length};
        raw->flash.run_count = i + 1;
        bytes += layout.oobfree[i].length;
    }
    return bytes >= page_code_bytes(&nand->code);
}
