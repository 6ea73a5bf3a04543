/* Text from outside, as one line of a message shows it: names of files and processes may have control characters, by which a terminal does
 * things. As leak_find has it: a backslash, and what stands for the byte; bytes from 128 on stay as they are. */
#ifndef LEAK_ESCAPE_H
#define LEAK_ESCAPE_H

#include <stddef.h>
#include <string.h>

/* The most bytes that stand for one. */
enum { LONGEST_ESCAPE = 4 };

/* Writes what stands for the byte to a place with room for LONGEST_ESCAPE, and gives how many bytes that is. */
static inline size_t escape_byte(char *to, unsigned char byte)
{
    static const char digits[] = "0123456789abcdef", plain[] = "\\\n\r\t", letters[] = "\\nrt";
    const char *named = byte ? strchr(plain, byte) : NULL;

    if (byte >= 32 && byte != 127 && !named) {
        to[0] = byte;
        return 1;
    }
    to[0] = '\\', to[1] = named ? letters[named - plain] : 'x', to[2] = digits[byte / 16], to[3] = digits[byte % 16];
    return named ? 2 : LONGEST_ESCAPE;
}

/* The text, escaped, as far as there is room. Gives how many bytes it has. */
static inline size_t escape_text(char *to, size_t room, const char *text)
{
    size_t size = 0;

    while (*text && size + LONGEST_ESCAPE < room)
        size += escape_byte(to + size, *text++);
    to[size] = 0;
    return size;
}

#endif
