/* hsc encode: a text of events made a file of 12-byte events, a patch. */
#include "command.h"
#include "output.h"
#include "text.h"
#include "words.h"

#include <inttypes.h>
#include <stdio.h>
#include <stdlib.h>

static enum outcome write_events(const struct encoding *encoding, const char *source, const char *out)
{
    size_t size = (size_t)encoding->count * HSC_EVENT_SIZE;
    enum outcome outcome = output_write(out, source, encoding->events, size);

    if (outcome != DONE)
        return outcome;
    printf("%" PRIu32 " event%s", encoding->count, plural(encoding->count));
    if (encoding->placed)
        printf(" from place %" PRId64, encoding->start);
    printf("\n");
    return output_tell(out);
}

enum outcome command_encode(const struct request *request)
{
    struct contents text;
    struct encoding encoding;
    enum outcome outcome = file_load(&text, request->operands[0], TEXT_LONGEST + 1);

    if (outcome != DONE)
        return outcome;
    outcome = text_encode(&encoding, &text);
    free(text.bytes);
    if (outcome != DONE)
        return outcome;
    outcome = write_events(&encoding, request->operands[0], request->operands[1]);
    free(encoding.events);
    return outcome;
}
