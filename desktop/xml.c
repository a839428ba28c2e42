/* Text within XML: characters of UTF-8 that XML 1.0 allows. */
#include "xml.h"

#include <stdbool.h>
#include <stdint.h>

static bool is_allowed(uint32_t code)
{
    if (code < 0x20)
        return code == '\t' || code == '\n' || code == '\r';
    return code <= 0xd7ff || (code >= 0xe000 && code <= 0xfffd) || (code >= 0x10000 && code <= 0x10ffff);
}

/* The bytes that a character has that begins with this one; 0: none does. */
static size_t size_by(uint8_t byte)
{
    if (byte < 0x80)
        return 1;
    if (byte < 0xc0 || byte >= 0xf8)
        return 0;
    return byte < 0xe0 ? 2 : byte < 0xf0 ? 3 : 4;
}

/* The bytes of the character that stands here; 0: there is none that XML allows. */
static size_t character_size(const uint8_t *at)
{
    static const uint32_t LEAST[] = {0, 0, 0x80, 0x800, 0x10000};
    size_t size = size_by(at[0]);
    uint32_t code = size == 1 ? at[0] : at[0] & 0x7fu >> size;

    for (size_t i = 1; i < size; i++) {
        if ((at[i] & 0xc0) != 0x80)
            return 0;
        code = code << 6 | (at[i] & 0x3f);
    }
    return code >= LEAST[size] && is_allowed(code) ? size : 0;
}

static void print_character(FILE *stream, const uint8_t *at, size_t size)
{
    switch (at[0]) {
    case '&':
        fprintf(stream, "&amp;");
        break;
    case '<':
        fprintf(stream, "&lt;");
        break;
    case '>':
        fprintf(stream, "&gt;");
        break;
    default:
        fwrite(at, 1, size, stream);
    }
}

void xml_print(FILE *stream, const char *text, size_t most)
{
    const uint8_t *at = (const uint8_t *)text;

    for (; *at != '\0' && most > 0; most--) {
        size_t size = character_size(at);

        if (size == 0)
            fprintf(stream, "?");
        else
            print_character(stream, at, size);
        at += size == 0 ? 1 : size;
    }
    if (*at != '\0')
        fprintf(stream, "...");
}
