/* The serial line of the machine `virt`, which is only written. */
#ifndef CONSOLE_H
#define CONSOLE_H

#include <stdint.h>

void console_text(const char *text);
void console_number(uint64_t number);

#endif
