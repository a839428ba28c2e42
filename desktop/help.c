/* hsc help: what the program and its commands take, in words. */
#include "help.h"

static bool takes(const struct command *command, int option)
{
    return (command->options & TAKES(option)) != 0;
}

static void print_option(FILE *stream, const struct option_text *text)
{
    fprintf(stream, text->value == NULL ? "%s" : "%s %s", text->word, text->value);
}

void print_command_usage(FILE *stream, const struct command *command)
{
    fprintf(stream, "usage: hsc %s ", command->name);
    for (int option = 0; option < OPTION_COUNT; option++) {
        if (takes(command, option)) {
            fprintf(stream, "[");
            print_option(stream, &OPTION_TEXTS[option]);
            fprintf(stream, "] ");
        }
    }
    fprintf(stream, "%s\n", command->operands);
}

void print_command_help(const struct command *command)
{
    print_command_usage(stdout, command);
    printf("  %s\n", command->purpose);
    for (int option = 0; option < OPTION_COUNT; option++)
        if (takes(command, option))
            printf("  %-9s  %s\n", OPTION_TEXTS[option].word, OPTION_TEXTS[option].purpose);
}

void print_usage(FILE *stream)
{
    fprintf(stream, "usage: hsc COMMAND [OPTION]... [OPERAND]..., or hsc --help, hsc --version\n");
    for (const struct command *command = COMMANDS; command->name != NULL; command++)
        fprintf(stream, "  hsc %-7s %-20s  %s\n", command->name, command->operands, command->purpose);
}

void print_help(void)
{
    print_usage(stdout);
    printf("IMAGE is a trace image, PATCH a file of 12-byte events, TEXT one of events in words, EVENTS either;\n"
           "each may be -, standard input. FIRST, FROM, EVENT and J count from 0.\n"
           "hsc help COMMAND tells a command's options. Operands that begin with a dash stand after --.\n"
           "Exit status: 0 done, 1 refused, 2 wrong usage or system error, 3 (check) a table that is not true\n"
           "or (compare) traces that differ.\n");
}

enum outcome command_help(const struct request *request)
{
    const struct command *command;

    if (request->operand_count == 0) {
        print_help();
        return DONE;
    }
    command = command_find(request->operands[0]);
    if (command == NULL)
        return tell_failure(request->operands[0], "no such command");
    print_command_help(command);
    return DONE;
}
