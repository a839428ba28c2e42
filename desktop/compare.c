/* hsc compare: where the events of two traces differ, and what the longer one has past the other. */
#include "command.h"
#include "file.h"
#include "hsc.h"
#include "line.h"
#include "trace.h"
#include "words.h"

#include <inttypes.h>
#include <stdbool.h>
#include <stdio.h>
#include <stdlib.h>
#include <string.h>

/* So many differences are printed where not all are asked for. */
#define FIRST_DIFFERENCES 20

/* Two traces, and what the library answers of them. */
struct pair {
    struct trace first;
    struct trace second;
    const struct trace *longer;
    size_t places; /* the events of the shorter */
    size_t rest;   /* those of the longer, past them */
    uint32_t *row; /* the places that differ */
    uint32_t count;
};

/*
 * Tells a refusal by the file that it is about. 5 names the trace; 9 names none, and is the first's where the library
 * refuses that one beside an empty trace too.
 */
static enum outcome refuse(const struct trace *first, const struct trace *second, uint64_t status)
{
    bool of_second = hsc_trace(status) == 2;
    uint32_t row;
    uint32_t count;

    if (hsc_number(status) == HSC_REFUSED_SIZE)
        of_second = hsc_compare(first->events, first->size, first->events, 0, &row, 0, &count) != status;
    return tell_refusal(of_second ? second->path : first->path, status);
}

/* The rest of the longer begins where the shorter ends. */
static void find_rest(struct pair *pair)
{
    uint64_t part[2];
    uint32_t longer = hsc_rest(pair->first.events, pair->first.size, pair->second.events, pair->second.size, part);

    pair->longer = longer == 1 ? &pair->first : &pair->second;
    pair->places = (size_t)part[0] / HSC_EVENT_SIZE;
    pair->rest = (size_t)part[1] / HSC_EVENT_SIZE;
}

static void print_event(const struct trace *trace, const char *name, uint32_t place)
{
    struct line line = {.placed = false};

    memcpy(line.event, trace_event(trace, place), HSC_EVENT_SIZE);
    printf("%" PRIu32 "  %-7s ", place, name);
    line_print(stdout, &line);
}

static void print_differences(const struct pair *pair, uint32_t most)
{
    for (uint32_t i = 0; i < pair->count && i < most; i++) {
        print_event(&pair->first, "first:", pair->row[i]);
        print_event(&pair->second, "second:", pair->row[i]);
    }
    if (pair->count > most)
        printf("and %" PRIu32 " more place%s, which --all prints\n", pair->count - most, plural(pair->count - most));
}

static enum outcome print_pair(const struct pair *pair, bool all)
{
    if (pair->count == 0 && pair->rest == 0) {
        printf("same: all %zu events\n", pair->places);
        return DONE;
    }
    printf("%" PRIu32 " of %zu places differ\n", pair->count, pair->places);
    print_differences(pair, all ? pair->count : FIRST_DIFFERENCES);
    if (pair->rest > 0)
        printf("%s is longer by %zu event%s, from place %zu\n", pair->longer->path, pair->rest, plural(pair->rest),
               pair->places);
    return DIFFERENT;
}

/* The row has room for every place that both have. */
static enum outcome compare(struct pair *pair, bool all)
{
    uint64_t status;
    enum outcome outcome;

    find_rest(pair);
    pair->row = malloc((pair->places + 1) * sizeof *pair->row);
    if (pair->row == NULL)
        return tell_errno(pair->first.path, "no memory for the differences");
    status = hsc_compare(pair->first.events, pair->first.size, pair->second.events, pair->second.size, pair->row,
                         pair->places, &pair->count);
    outcome = status == HSC_DONE ? print_pair(pair, all) : refuse(&pair->first, &pair->second, status);
    free(pair->row);
    return outcome;
}

enum outcome command_compare(const struct request *request)
{
    bool bare = request_has(request, OPTION_EVENTS);
    struct pair pair;
    enum outcome outcome;

    if (file_is_standard(request->operands[0]) && file_is_standard(request->operands[1]))
        return tell_failure("standard input", "cannot be read twice");
    outcome = trace_load(&pair.first, request->operands[0], bare);
    if (outcome != DONE)
        return outcome;
    outcome = trace_load(&pair.second, request->operands[1], bare);
    if (outcome == DONE) {
        outcome = compare(&pair, request_has(request, OPTION_ALL));
        free(pair.second.bytes);
    }
    free(pair.first.bytes);
    return outcome;
}
