/* What the words after a command's name ask for: its options and operands. */
#include "request.h"

#include <stddef.h>
#include <string.h>

const struct option_text OPTION_TEXTS[] = {
    [OPTION_ALL] = {"--all", NULL, "print every difference"},
    [OPTION_BARE] = {"--bare", NULL, "leave the places out, so that lines can be moved"},
    [OPTION_CHECK] = {"--check", NULL, "compare the whole table first; one that is not true is refused"},
    [OPTION_EVENT_COUNT] = {"--count", "N", "so many events, else as many as there are"},
    [OPTION_CSV] = {"--csv", NULL, "lines of place and count instead of a picture"},
    [OPTION_DRY_RUN] = {"--dry-run", NULL, "say what would happen and write nothing"},
    [OPTION_EVENTS] = {"--events", NULL, "the files are bare events of 12 bytes, without header and table"},
    [OPTION_FROM] = {"--from", "N", "from the event at this place on, else from the first"},
    [OPTION_GAPS] = {"--gaps", NULL, "print every gap"},
    [OPTION_HELP] = {"--help", NULL, "print this text"},
    [OPTION_OUT] = {"-o", "OUT", "write the file OUT and leave the image as it is"},
    [OPTION_STAMPS] = {"--stamps", NULL, "print the clock stamps"},
};

_Static_assert(sizeof OPTION_TEXTS / sizeof OPTION_TEXTS[0] == OPTION_COUNT, "every option has its text");

/* The option of this word among those of the set; OPTION_COUNT where there is none. */
static enum option find_option(const char *word, unsigned set)
{
    if (strcmp(word, "-h") == 0)
        return OPTION_HELP;
    for (int option = 0; option < OPTION_COUNT; option++)
        if ((set & TAKES(option)) != 0 && strcmp(word, OPTION_TEXTS[option].word) == 0)
            return (enum option)option;
    return OPTION_COUNT;
}

/* Takes the option that the first of the words is, with its value; used: how many words that were. */
static enum outcome take_option(struct request *request, unsigned set, char **words, int *used)
{
    enum option option = find_option(words[0], set | TAKES(OPTION_HELP));

    if (option == OPTION_COUNT)
        return tell_failure(words[0], "no such option");
    if (request_has(request, option))
        return tell_failure(words[0], "given twice");
    *used = OPTION_TEXTS[option].value == NULL ? 1 : 2;
    request->options[option] = words[*used - 1];
    if (request->options[option] == NULL)
        return tell_failure(words[0], "its value is missing");
    return DONE;
}

enum outcome request_parse(struct request *request, unsigned set, int count, char **words)
{
    enum outcome outcome = DONE;
    int place = 0;

    *request = (struct request){.operands = words};
    while (outcome == DONE && place < count && strcmp(words[place], "--") != 0) {
        int used = 1;

        if (words[place][0] == '-' && words[place][1] != '\0')
            outcome = take_option(request, set, words + place, &used);
        else
            words[request->operand_count++] = words[place];
        place += used;
    }
    for (place++; place < count; place++)
        words[request->operand_count++] = words[place];
    return outcome;
}

bool request_has(const struct request *request, enum option option)
{
    return request->options[option] != NULL;
}
