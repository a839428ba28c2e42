/* What the program and its commands take, in words. */
#ifndef HELP_H
#define HELP_H

#include "command.h"

#include <stdio.h>

/* The commands, a line for each. */
void print_usage(FILE *stream);

/* One command's line, with its options. */
void print_command_usage(FILE *stream, const struct command *command);

/* All of one command: its line, its purpose and its options. */
void print_command_help(const struct command *command);

/* All of the program: the commands and what is common to them. */
void print_help(void);

#endif
