#include "console.h"

/* The data register of the PL011. qemu's takes a byte at any time. */
static volatile uint32_t *const data = (volatile uint32_t *)0x09000000;

void console_text(const char *text)
{
    for (; *text != 0; text++)
        *data = (uint8_t)*text;
}

void console_number(uint64_t number)
{
    if (number >= 10)
        console_number(number / 10);
    *data = (uint32_t)('0' + number % 10);
}
