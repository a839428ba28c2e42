/* Signals that end the program, held back while it writes a file and tells so. */
#ifndef SIGNALS_H
#define SIGNALS_H

#include <signal.h>
#include <stdbool.h>

struct signals {
    sigset_t held;
    sigset_t before; /* what was held before them */
};

/* Holds the signals that would end the program now; ones that are ignored are not held. 0, or -1 with errno. */
int signals_hold(struct signals *signals);

/* Whether one has come since. */
bool signals_came(const struct signals *signals);

/* Lets them come: one that has come ends the program here. 0, or -1 with errno. */
int signals_release(const struct signals *signals);

#endif
