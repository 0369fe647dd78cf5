/* A tag of 48 bytes in 24, as the library packs it for a driver whose tag_bytes is FLASH_PACKED_TAG_BYTES: for programs that make or
 * read raw pages without the library. docs/FORMATS.md has the table. Against the library it is tested alone.
 */
#ifndef PACKED_TAG_H
#define PACKED_TAG_H

#include "flash_fs.h"

#ifdef __cplusplus
extern "C" {
#endif

/* Packs a tag of FLASH_TAG_BYTES to FLASH_PACKED_TAG_BYTES. False where a field has no room: no volume comes near (docs/FORMATS.md). */
bool packed_tag_pack(const uint8_t *tag, uint8_t *packed);

/* Unpacks a tag: any 24 bytes are one. */
void packed_tag_unpack(const uint8_t *packed, uint8_t *tag);

#ifdef __cplusplus
}
#endif
#endif
