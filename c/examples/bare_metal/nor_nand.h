/* A NAND flash over the NOR flash of the machine `virt`, which a file of the host keeps. */
#ifndef NOR_NAND_H
#define NOR_NAND_H

#include "flash_fs.h"

extern const struct flash_driver nor_nand;

#endif
