/* What the program says on standard error, and how a command ends. */
#ifndef TELL_H
#define TELL_H

#include <stdbool.h>
#include <stddef.h>
#include <stdint.h>

/* How a command ends; the program's exit status. */
enum outcome {
    DONE = 0,
    REFUSED = 1,
    FAILED = 2,
    DIFFERENT = 3, /* an answer and no refusal: a table that is not true, or traces that differ */
    OUTCOME_COUNT = 4
};

/* Tells in words why something failed, and answers FAILED. */
enum outcome tell_failure(const char *subject, const char *reason);

/* Tells which action on the subject failed, with the text of errno, and answers FAILED. */
enum outcome tell_errno(const char *subject, const char *action);

/* Sees that what was printed about the file that was written is printed, or tells that it is written all the same. */
enum outcome tell_written(const char *path);

/* Tells that the image has nothing at this index: its things count from 0 to count - 1. Answers FAILED. */
enum outcome tell_no_such(const char *path, const char *thing, uint64_t index, uint64_t count);

/* Tells a refusal in words, with its number and place, and answers REFUSED. */
enum outcome tell_refusal(const char *subject, uint64_t status);

/* The same of a stream, with how many of its bytes had come then. ended: no more of them came. */
enum outcome tell_refusal_after(const char *subject, uint64_t status, size_t bytes, bool ended);

/* Writes the text over the one that was written so last, on a terminal. Whatever is told next stands below it. */
void tell_progress(const char *text);

/* Ends the line of progress, if there is one, so that other lines stand below it. */
void tell_progress_end(void);

#endif
