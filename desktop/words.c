/* Names for the numbers of hsc.h; each table has one for every number of its enum. */
#include "words.h"

#include "hsc.h"

#define NAMES_ALL(names, count) _Static_assert(sizeof(names) / sizeof(names)[0] == (count), #names " has " #count)

const char *const KIND_NAMES[] = {
    "blank", "input sample", "staged write", "programming device", "flag write",
    "ACC",   "preset load",  "routine done", "enter run",          "outputs",
};
NAMES_ALL(KIND_NAMES, HSC_KIND_COUNT);

const char *const SETTING_NAMES[] = {
    "PFN", "MOD", "HIP", "LOP", "OVF", "UNF", "OMB", "HPO", "LPO",
};
NAMES_ALL(SETTING_NAMES, HSC_SETTING_COUNT);

const char *const FLAG_NAMES[] = {
    "UIE", "UIL", "FE",  "AS",  "ED",  "CE",  "SP", "LPM", "HPM", "UFM",
    "OFM", "LPI", "HPI", "UFI", "OFI", "DIR", "UF", "OF",  "MD",  "loaded",
};
NAMES_ALL(FLAG_NAMES, HSC_FLAG_COUNT);

const char *const INPUT_NAMES[] = {
    "0", "1", "2", "3",
};
NAMES_ALL(INPUT_NAMES, HSC_INPUT_COUNT);

const char *const SHOWN_NAMES[] = {
    "UIX", "UIP", "CU", "CD", "HPR", "LPR",
};
NAMES_ALL(SHOWN_NAMES, HSC_FIELD_COUNT - HSC_UIX);

const char *const CAUSE_NAMES[] = {
    "none", "low preset", "high preset", "underflow", "overflow",
};
NAMES_ALL(CAUSE_NAMES, HSC_CAUSE_COUNT);

const char *const MODE_NAMES[] = {
    "up",
    "up, with reset and hold",
    "up or down by direction",
    "up or down by direction, with reset and hold",
    "up by one input, down by the other",
    "up by one input, down by the other, with reset and hold",
    "quadrature",
    "quadrature, with reset and hold",
};
NAMES_ALL(MODE_NAMES, HSC_MODE_COUNT);

const char *const ERROR_NAMES[] = {
    "no error",
    "PFN is not 3 to 255",
    "MOD is not 0 to 7",
    "HIP is not above 0 (modes 0, 1) or not above LOP (modes 2 to 7)",
    "HIP is above OVF",
    "LOP is below UNF",
    "OMB has bits of 12 to 15, which are no outputs",
};
NAMES_ALL(ERROR_NAMES, HSC_ER_COUNT);

const char *plural(size_t count)
{
    return count == 1 ? "" : "s";
}
