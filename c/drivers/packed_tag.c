#include "packed_tag.h"

#include <string.h>

/* The fields after index and count: the place and the bytes in a tag, 8 of each there, and in a packed one. */
static const struct field {
    uint8_t place, packed_place, packed_bytes;
} fields[] = {{8, 2, 4}, {16, 6, 4}, {24, 10, 5}, {32, 15, 5}, {40, 20, 4}};

enum { OBJECT = 8, FIELDS = sizeof fields / sizeof *fields };

static uint64_t number_at(const uint8_t *bytes, int count)
{
    uint64_t number = 0;
    for (int i = count; i-- > 0;)
        number = number << 8 | bytes[i];
    return number;
}

void packed_tag_unpack(const uint8_t *packed, uint8_t *tag)
{
    memset(tag, 0, FLASH_TAG_BYTES);
    tag[0] = packed[0];
    tag[4] = (uint8_t)(packed[1] + 1);
    tag[5] = packed[1] == 255;
    for (int i = 0; i < FIELDS; i++)
        memcpy(tag + fields[i].place, packed + fields[i].packed_place, fields[i].packed_bytes);
    if (number_at(tag + OBJECT, 4) >= UINT32_MAX - 1)
        memset(tag + OBJECT + 4, 0xff, 4);
}

/* Its lowest bytes, if these are unpacked to the tag. */
bool packed_tag_pack(const uint8_t *tag, uint8_t *packed)
{
    uint8_t there[FLASH_TAG_BYTES];
    packed[0] = tag[0];
    packed[1] = (uint8_t)(tag[4] - 1);
    for (int i = 0; i < FIELDS; i++)
        memcpy(packed + fields[i].packed_place, tag + fields[i].place, fields[i].packed_bytes);
    packed_tag_unpack(packed, there);
    return memcmp(there, tag, FLASH_TAG_BYTES) == 0;
}
