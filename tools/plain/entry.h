/* What all plain programs share: reading standard input until 4,096 bytes or its end, however it arrives.
   The kit's compiler comes without headers, so the two calls of the C library are declared here. */
#ifndef ENTRY_H
#define ENTRY_H
#include "plain.h"

long read(int, void *, size_t);
long write(int, const void *, size_t);

/* A program's own record, or its chain, takes one line: answers the number; written is the length of the answers. */
typedef int take_line(const unsigned char *line, size_t length, unsigned char *reply, size_t *written);

static size_t read_entry(unsigned char *entry)
{
    size_t length = 0;
    while (length < ENTRY_BYTES) {
        long count = read(0, entry + length, ENTRY_BYTES - length);
        if (count <= 0)
            break;
        length += (size_t)count;
    }
    return length;
}

#endif
