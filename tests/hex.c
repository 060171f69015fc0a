#include "hex.h"

#include <stdlib.h>

size_t from_hex(const char *text, uint8_t *bytes)
{
    size_t count = 0;
    char *end;
    for (unsigned long value = strtoul(text, &end, 16); end != text; value = strtoul(text, &end, 16)) {
        bytes[count++] = (uint8_t)value;
        text = end;
    }
    return count;
}
