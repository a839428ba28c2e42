/* Little-endian numbers of one, two or four bytes. */
#include "bytes.h"

uint32_t bytes_number(const uint8_t *bytes, size_t width)
{
    uint32_t number = 0;

    while (width-- > 0)
        number = number << 8 | bytes[width];
    return number;
}

int32_t bytes_signed(const uint8_t *bytes, size_t width)
{
    uint32_t number = bytes_number(bytes, width);

    return width == 2 ? (int16_t)number : (int32_t)number;
}

void bytes_put(uint8_t *bytes, uint32_t number)
{
    for (size_t i = 0; i < 4; i++)
        bytes[i] = (uint8_t)(number >> 8 * i);
}
