/* hsc replay: every snapshot written anew, and one line about the final state. */
#include "command.h"
#include "edit.h"
#include "summary.h"
#include "table.h"

/* A file whose table is true is left alone; another one is written whatever the table was. */
static enum outcome replay(struct edit *edit)
{
    struct comparison comparison;
    enum outcome outcome = table_replay(&edit->image, &comparison);

    if (outcome == DONE && (edit->other || comparison.different > 0))
        outcome = edit_write(edit);
    if (outcome == DONE)
        outcome = summary_print(&edit->image, comparison.last);
    if (outcome != DONE)
        return outcome;
    table_print(&edit->image, &comparison, "before");
    return edit_tell(edit);
}

enum outcome command_replay(const struct request *request)
{
    struct edit edit;
    enum outcome outcome = edit_open(&edit, request);

    if (outcome != DONE)
        return outcome;
    outcome = replay(&edit);
    edit_close(&edit);
    return outcome;
}
