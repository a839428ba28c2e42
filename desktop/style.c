/* How the parts of a picture look. The colours are told apart by colour-blind people too. */
#include "style.h"

const struct line_style LIMIT_STYLES[LIMIT_COUNT] = {
    [HSC_HIP - HSC_HIP] = {"#d55e00", "9 4", "high preset", true, true},
    [HSC_LOP - HSC_HIP] = {"#007a59", "2 3", "low preset", false, true},
    [HSC_OVF - HSC_HIP] = {"#8e4585", "14 4 2 4", "overflow limit", true, false},
    [HSC_UNF - HSC_HIP] = {"#6b5b00", "14 4 2 4 2 4", "underflow limit", false, false},
};

const struct mark_style MARK_STYLES[MARK_COUNT] = {
    [MARK_OVERFLOW] = {"overflows", "#8e4585", -5, 4, "h10l-5-9z", "past OVF", "rollover", " past OVF"},
    [MARK_UNDERFLOW] = {"underflows", "#6b5b00", -5, -4, "h10l-5 9z", "past UNF", "rollover", " past UNF"},
    [MARK_RETURN] = {"returns", "#d55e00", -5, 0, "l5 5 5-5-5-5z", "HIP to 0", "return", " to 0 at HIP"},
    [MARK_RESET] = {"resets", "#222", -4, -4, "h8v8h-8z", "reset", "reset", ""},
    [MARK_BLANK] = {"blanks", "#777", -12, -5, "h24v10h-24z", "blank", "blank event", ""},
};
