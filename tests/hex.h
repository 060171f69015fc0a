/* Bytes written as text. */
#ifndef HEX_H
#define HEX_H

#include <stddef.h>
#include <stdint.h>

/* Reads "01 00 ff" and answers the number of bytes. */
size_t from_hex(const char *text, uint8_t *bytes);

#endif
