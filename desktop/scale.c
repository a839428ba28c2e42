/* Round numbers along an axis. */
#include "scale.h"

int64_t scale_step(int64_t span, int64_t most)
{
    int64_t step = 1;

    for (int i = 0; span > step * most; i++)
        step = i % 3 == 1 ? step / 2 * 5 : step * 2;
    return step;
}

int64_t scale_below(int64_t number, int64_t step)
{
    int64_t rest = number % step;

    return rest < 0 ? number - rest - step : number - rest;
}

int64_t scale_above(int64_t number, int64_t step)
{
    return -scale_below(-number, step);
}
