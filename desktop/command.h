/* The commands: a row for each, and what each does in a file of its own. */
#ifndef COMMAND_H
#define COMMAND_H

#include "request.h"
#include "tell.h"

#include <stddef.h>

struct command {
    const char *name;
    const char *operands;
    const char *purpose;
    unsigned options; /* the set of those it takes */
    int least;        /* operands */
    int most;
    enum outcome (*run)(const struct request *request);
};

/* A row with no name is the last. */
extern const struct command COMMANDS[];

/* The command of this name; NULL where there is none. */
const struct command *command_find(const char *name);

/* IMAGE: header, events by kind, gaps. */
enum outcome command_info(const struct request *request);

/* IMAGE: writes every snapshot, prints the final state. */
enum outcome command_replay(const struct request *request);

/* IMAGE FIRST PATCH: copies the patch over the events from FIRST and mends the table. */
enum outcome command_mend(const struct request *request);

/* IMAGE J: snapshot J in words. */
enum outcome command_show(const struct request *request);

/* IMAGE [FROM [COUNT]]: events as lines of text. */
enum outcome command_events(const struct request *request);

/* IMAGE [EVENT]: the state before an event, or after all of them, in words. */
enum outcome command_state(const struct request *request);

/* IMAGE: the counts as a picture. */
enum outcome command_draw(const struct request *request);

/* TEXT OUT: the text's events as a patch. */
enum outcome command_encode(const struct request *request);

/* EVENTS K OUT: an image of these events. */
enum outcome command_build(const struct request *request);

/* IMAGE...: whether each table is true. */
enum outcome command_check(const struct request *request);

/* IMAGE IMAGE: the places where their events differ. */
enum outcome command_compare(const struct request *request);

/* OUT [-]: an image that comes on standard input. */
enum outcome command_receive(const struct request *request);

/* [COMMAND]: what the commands, or this one, take and do. */
enum outcome command_help(const struct request *request);

#endif
