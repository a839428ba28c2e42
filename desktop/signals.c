/* Signals that end the program, held back while it writes a file and tells so. */
#include "signals.h"

#include <stddef.h>

static const int ENDING[] = {
    SIGALRM, SIGHUP, SIGINT, SIGPIPE, SIGQUIT, SIGTERM, SIGUSR1, SIGUSR2, SIGVTALRM, SIGXCPU,
};

#define ENDING_COUNT (sizeof ENDING / sizeof ENDING[0])

/* Adds the signal, unless it is ignored. */
static int add(sigset_t *set, int number)
{
    struct sigaction action;

    if (sigaction(number, NULL, &action) != 0)
        return -1;
    return action.sa_handler == SIG_IGN ? 0 : sigaddset(set, number);
}

int signals_hold(struct signals *signals)
{
    sigemptyset(&signals->held);
    for (size_t i = 0; i < ENDING_COUNT; i++)
        if (add(&signals->held, ENDING[i]) != 0)
            return -1;
    return sigprocmask(SIG_BLOCK, &signals->held, &signals->before);
}

/* One that was held before would not end the program, and has no say. */
static bool holds(const struct signals *signals, int number)
{
    return sigismember(&signals->held, number) == 1 && sigismember(&signals->before, number) == 0;
}

/* Where that cannot be asked for, it is as if one had come. */
bool signals_came(const struct signals *signals)
{
    sigset_t waiting;

    if (sigpending(&waiting) != 0)
        return true;
    for (size_t i = 0; i < ENDING_COUNT; i++)
        if (holds(signals, ENDING[i]) && sigismember(&waiting, ENDING[i]) == 1)
            return true;
    return false;
}

int signals_release(const struct signals *signals)
{
    return sigprocmask(SIG_SETMASK, &signals->before, NULL);
}
