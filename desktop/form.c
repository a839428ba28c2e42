/* The words of every event that can be legal, by document 01's table of events. */
#include "form.h"

#include "hsc.h"

#define NOTHING "nothing more"
#define NUMBER "a number from -2147483648 to 2147483647"
#define SHORT_NUMBER "a number from -32768 to 32767"
#define WORD "a number from 0 to 65535, 0xffff in hexadecimal"
#define BIT "0 or 1"
#define ZERO "0, nothing else is written to this flag"

const struct form FORMS[] = {
    {"blank", NULL, HSC_BLANK, 0, NO_VALUE, NOTHING},
    {"inputs", NULL, HSC_INPUT_SAMPLE, 0, INPUT_LIST, "the inputs that are on, of 0 to 3, each once, or none"},
    {"stage", "HIP", HSC_STAGED_WRITE, HSC_STAGED_HIP, DECIMAL, NUMBER},
    {"stage", "LOP", HSC_STAGED_WRITE, HSC_STAGED_LOP, DECIMAL, NUMBER},
    {"stage", "OVF", HSC_STAGED_WRITE, HSC_STAGED_OVF, DECIMAL, NUMBER},
    {"stage", "UNF", HSC_STAGED_WRITE, HSC_STAGED_UNF, DECIMAL, NUMBER},
    {"stage", "HPO", HSC_STAGED_WRITE, HSC_STAGED_HPO, HEXADECIMAL, WORD},
    {"stage", "LPO", HSC_STAGED_WRITE, HSC_STAGED_LPO, HEXADECIMAL, WORD},
    {"device", "PFN", HSC_DEVICE_WRITE, HSC_DEVICE_PFN, DECIMAL, SHORT_NUMBER},
    {"device", "MOD", HSC_DEVICE_WRITE, HSC_DEVICE_MOD, DECIMAL, SHORT_NUMBER},
    {"device", "OMB", HSC_DEVICE_WRITE, HSC_DEVICE_OMB, HEXADECIMAL, WORD},
    {"device", "AS", HSC_DEVICE_WRITE, HSC_DEVICE_AS, DECIMAL, BIT},
    {"flag", "UIE", HSC_FLAG_WRITE, HSC_FLAG_UIE, DECIMAL, BIT},
    {"flag", "UIL", HSC_FLAG_WRITE, HSC_FLAG_UIL, DECIMAL, ZERO},
    {"flag", "FE", HSC_FLAG_WRITE, HSC_FLAG_FE, DECIMAL, BIT},
    {"flag", "CE", HSC_FLAG_WRITE, HSC_FLAG_CE, DECIMAL, BIT},
    {"flag", "SP", HSC_FLAG_WRITE, HSC_FLAG_SP, DECIMAL, BIT},
    {"flag", "LPM", HSC_FLAG_WRITE, HSC_FLAG_LPM, DECIMAL, BIT},
    {"flag", "HPM", HSC_FLAG_WRITE, HSC_FLAG_HPM, DECIMAL, BIT},
    {"flag", "UFM", HSC_FLAG_WRITE, HSC_FLAG_UFM, DECIMAL, BIT},
    {"flag", "OFM", HSC_FLAG_WRITE, HSC_FLAG_OFM, DECIMAL, BIT},
    {"flag", "LPI", HSC_FLAG_WRITE, HSC_FLAG_LPI, DECIMAL, ZERO},
    {"flag", "HPI", HSC_FLAG_WRITE, HSC_FLAG_HPI, DECIMAL, ZERO},
    {"flag", "UFI", HSC_FLAG_WRITE, HSC_FLAG_UFI, DECIMAL, ZERO},
    {"flag", "OFI", HSC_FLAG_WRITE, HSC_FLAG_OFI, DECIMAL, ZERO},
    {"flag", "UF", HSC_FLAG_WRITE, HSC_FLAG_UF, DECIMAL, ZERO},
    {"flag", "OF", HSC_FLAG_WRITE, HSC_FLAG_OF, DECIMAL, ZERO},
    {"flag", "MD", HSC_FLAG_WRITE, HSC_FLAG_MD, DECIMAL, ZERO},
    {"ACC", NULL, HSC_ACC_WRITE, 0, DECIMAL, NUMBER},
    {"load", NULL, HSC_PRESET_LOAD, 0, NO_VALUE, NOTHING},
    {"done", NULL, HSC_ROUTINE_DONE, 0, NO_VALUE, NOTHING},
    {"run", NULL, HSC_ENTER_RUN, 0, NO_VALUE, NOTHING},
    {"outputs", NULL, HSC_OUTPUT_WRITE, 0, HEXADECIMAL, WORD},
};

const size_t FORM_COUNT = sizeof FORMS / sizeof FORMS[0];

/* Kinds without subs, the subs of the two writes, and every flag but AS, ED, DIR and loaded. */
_Static_assert(sizeof FORMS / sizeof FORMS[0] ==
                   HSC_KIND_COUNT - 3 + HSC_STAGED_LPO + HSC_DEVICE_AS + HSC_FLAG_COUNT - 4,
               "a form for every kind and sub");

const struct form *form_of(uint8_t kind, uint8_t sub)
{
    for (size_t i = 0; i < FORM_COUNT; i++)
        if (FORMS[i].kind == kind && FORMS[i].sub == sub)
            return &FORMS[i];
    return NULL;
}
