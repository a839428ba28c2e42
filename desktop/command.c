/* The commands' rows. */
#include "command.h"

#include <limits.h>
#include <string.h>

const struct command COMMANDS[] = {
    {"info", "IMAGE", "print the header, the events by kind and the gaps", TAKES(OPTION_GAPS), 1, 1, command_info},
    {"events", "IMAGE [FROM [COUNT]]", "print events in words, one on a line",
     TAKES(OPTION_BARE) | TAKES(OPTION_STAMPS), 1, 3, command_events},
    {"show", "IMAGE J", "print snapshot J in words", 0, 2, 2, command_show},
    {"state", "IMAGE [EVENT]", "print the state before EVENT, or after all events, in words", 0, 1, 2, command_state},
    {"draw", "IMAGE", "make a picture (SVG) of the counts, on standard output or as the file OUT",
     TAKES(OPTION_EVENT_COUNT) | TAKES(OPTION_CSV) | TAKES(OPTION_FROM) | TAKES(OPTION_OUT), 1, 1, command_draw},
    {"check", "IMAGE...", "tell whether tables are true, or what differs first", 0, 1, INT_MAX, command_check},
    {"compare", "IMAGE IMAGE", "tell where the events of two images differ", TAKES(OPTION_ALL) | TAKES(OPTION_EVENTS),
     2, 2, command_compare},
    {"replay", "IMAGE", "write every snapshot anew and print the final state",
     TAKES(OPTION_DRY_RUN) | TAKES(OPTION_OUT), 1, 1, command_replay},
    {"mend", "IMAGE FIRST PATCH", "put PATCH over the events from FIRST and mend the table",
     TAKES(OPTION_CHECK) | TAKES(OPTION_DRY_RUN) | TAKES(OPTION_OUT), 3, 3, command_mend},
    {"encode", "TEXT OUT", "make a patch of events in words", 0, 2, 2, command_encode},
    {"build", "EVENTS K OUT", "make an image of events, with a snapshot for every K", 0, 3, 3, command_build},
    {"receive", "OUT [-]", "take an image as it comes on standard input, and write it once it is whole", 0, 1, 2,
     command_receive},
    {"help", "[COMMAND]", "print what the commands, or this one, take and do", 0, 0, 1, command_help},
    {NULL, NULL, NULL, 0, 0, 0, NULL},
};

const struct command *command_find(const char *name)
{
    for (const struct command *command = COMMANDS; command->name != NULL; command++)
        if (strcmp(name, command->name) == 0)
            return command;
    return NULL;
}
