/* Names for the numbers of hsc.h, those of document 01 where it has one. */
#ifndef WORDS_H
#define WORDS_H

#include <stddef.h>

/* By enum hsc_kind. */
extern const char *const KIND_NAMES[];

/* By enum hsc_field, the first nine. */
extern const char *const SETTING_NAMES[];

/* By enum hsc_flag. */
extern const char *const FLAG_NAMES[];

/* By their numbers. */
extern const char *const INPUT_NAMES[];

/* By enum hsc_field, those that are shown but not stored, from HSC_UIX on. */
extern const char *const SHOWN_NAMES[];

/* By enum hsc_cause. */
extern const char *const CAUSE_NAMES[];

/* By enum hsc_mode. */
extern const char *const MODE_NAMES[];

/* The rule that the last load broke, by enum hsc_error. */
extern const char *const ERROR_NAMES[];

/* The ending of a noun that is counted. */
const char *plural(size_t count);

#endif
