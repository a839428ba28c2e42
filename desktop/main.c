/* hsc: the desk's program over the library. Finds the command and sees that what it printed was written. */
#include "command.h"
#include "help.h"
#include "hsc.h"
#include "request.h"
#include "tell.h"

#include <fcntl.h>
#include <inttypes.h>
#include <signal.h>
#include <stdio.h>
#include <string.h>
#include <unistd.h>

/* What is wrong with the command's words is told; these are the right ones. */
static enum outcome wrong_words(const struct command *command)
{
    print_command_usage(stderr, command);
    return FAILED;
}

static enum outcome run_command(const struct command *command, int count, char **words)
{
    struct request request;

    if (request_parse(&request, command->options, count, words) != DONE)
        return wrong_words(command);
    if (request_has(&request, OPTION_HELP)) {
        print_command_help(command);
        return DONE;
    }
    if (request.operand_count < command->least || request.operand_count > command->most) {
        tell_failure(command->name, "wrong number of operands");
        return wrong_words(command);
    }
    return command->run(&request);
}

static enum outcome wrong_usage(const char *subject, const char *reason)
{
    tell_failure(subject, reason);
    print_usage(stderr);
    return FAILED;
}

static enum outcome run(int count, char **words)
{
    const struct command *command;

    if (count < 2)
        return wrong_usage("usage", "a command is missing");
    if (strcmp(words[1], "--help") == 0 || strcmp(words[1], "-h") == 0) {
        print_help();
        return DONE;
    }
    if (strcmp(words[1], "--version") == 0) {
        printf("hsc %s\n", HSC_VERSION);
        return DONE;
    }
    command = command_find(words[1]);
    if (command == NULL)
        return wrong_usage(words[1], "no such command");
    return run_command(command, count - 2, words + 2);
}

/* The library's calls are those of the header only where both are of one version. */
static enum outcome check_version(void)
{
    if (hsc_version() == HSC_VERSION_NUMBER)
        return DONE;
    fprintf(stderr, "hsc: built for library version %d, but linked with %" PRIu32 "\n", HSC_VERSION_NUMBER,
            hsc_version());
    return FAILED;
}

/* Fills the places of standard streams that are closed, so that no file of ours stands there; writing to them fails. */
static enum outcome fill_standard_streams(void)
{
    int descriptor;

    do {
        descriptor = open("/dev/null", O_RDONLY);
        if (descriptor < 0)
            return tell_errno("/dev/null", "cannot be opened");
    } while (descriptor <= STDERR_FILENO);
    (void)close(descriptor);
    return DONE;
}

/* A file that grows past the limit of the process is an error of the write, not the program's end. */
static enum outcome ignore_size_signal(void)
{
    struct sigaction action = {.sa_handler = SIG_IGN};

    if (sigaction(SIGXFSZ, &action, NULL) != 0)
        return tell_errno("SIGXFSZ", "cannot be ignored");
    return DONE;
}

/* What was printed is written, or its loss is told. */
static enum outcome finish_output(enum outcome outcome)
{
    int lost = ferror(stdout);

    if (fclose(stdout) != 0)
        return tell_errno("standard output", "cannot be written");
    if (lost != 0)
        return tell_failure("standard output", "was not written whole");
    return outcome;
}

int main(int count, char **words)
{
    enum outcome outcome = fill_standard_streams();

    if (outcome == DONE)
        outcome = ignore_size_signal();
    if (outcome == DONE)
        outcome = check_version();
    if (outcome == DONE)
        outcome = run(count, words);
    outcome = finish_output(outcome);
    return (int)outcome;
}
