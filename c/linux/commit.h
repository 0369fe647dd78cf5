/* The thread that syncs the volume from time to time. */
#ifndef COMMIT_H
#define COMMIT_H

/* Starts it, where the seconds are not 0. Returns 0, or an errno. */
int commit_begin(unsigned seconds);

/* Ends it, and waits for its end. */
void commit_end(void);

#endif
