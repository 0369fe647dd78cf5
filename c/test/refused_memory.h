/* The memory of the library in a test: it counts each allocation and each growth, and refuses those that it is set to refuse. */
#ifndef REFUSED_MEMORY_H
#define REFUSED_MEMORY_H

#include <stdbool.h>
#include <stdint.h>

struct memory_counts {
    uint64_t calls;              /* allocations, and growths of blocks */
    uint64_t refuse_at, refused; /* the number of the one that is refused (0: none), and how many were */
    bool refuse_on;              /* and all after it */
    int64_t blocks;              /* that are not given back */
};

extern struct memory_counts memory;

/* Counts from 0 on, and refuses the allocation of this number, and with `on` all after it; 0 refuses none. */
void refuse(uint64_t at, bool on);

#endif
