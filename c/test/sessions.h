/* Sessions of random calls on a volume, each beside the model, and each ended by an unmount or by power that goes in a program or an
 * erase. After each a mount shows the tree after some number of the calls, at least of those that a sync covers.
 */
#ifndef SESSIONS_H
#define SESSIONS_H

#include "commands.h"
#include "cut_nand.h"

struct sessions {
    struct cut_nand *cut;
    uint32_t spare;   /* blocks to spare */
    int count, calls; /* sessions, and calls in each */
    size_t most;      /* about the most bytes of a write */
    uint64_t seed;
    const unsigned *ways; /* those of cuts */
    unsigned way_count;   /* 0: no session is cut */
};

struct session_counts {
    uint64_t calls, cuts, stops; /* a stop is one by itself: more blocks went bad than are to spare, or the driver lost the flash */
};

/* Formats a volume and does the sessions. Where a call or a tree is not that of the model, or a mount fails, the test ends with a
 * line. */
struct session_counts do_sessions(const struct sessions *sessions);

#endif
