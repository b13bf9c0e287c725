/* The speed program for chains over the plain library: sends one line through one chain many times. A proved program of
   the same interface stands beside it, and tools/speed runs the two against each other.

   Standard input, at most 4,096 bytes:
     bytes 0 to 15   `R REPEAT LENGTH HOMED` LF: REPEAT in eight decimal digits, LENGTH two digits from 01 to 16, HOMED
                     0 or 1. So each number stands at a fixed place, and the whole is also spelled as a motor report.
     bytes 16 on     the line: all bytes that are left, whatever they are.
   What is done:
     The record at place i of LENGTH, from 1, is the fresh one with address i, two axes and device id 99 + i. The buffer
     is 18,432 bytes, all zero, and is lent whole.
     If HOMED is 1, the line `/home` LF goes through the chain into that buffer, and then home reached at 0 is reported
     (kind 3) for axes 1 and 2 of each record. Nothing of this is counted.
     Then the line goes through the chain REPEAT times, each time on the records that the time before left, into that
     same buffer.
   Standard output: `STEPS SUM` LF, in decimal.
     STEPS is REPEAT. SUM is, modulo 2^31, the sum of the numbers and the lengths that the counted calls answered and,
     at the end, of all 18,432 bytes of the buffer.
   A first line that is misspelt, or a LENGTH outside 1 to 16, gives `0 0`. */
#include "plain.h"
#include "repeat.h"

enum { HEAD_BYTES = 16, ROOM = CHAIN_PLACES * ANSWER_BYTES };

static struct device chain[CHAIN_PLACES];
static int places;

static int make(int length)
{
    places = length >= 1 && length <= CHAIN_PLACES ? length : 0;
    for (int i = 1; i <= places; i++)
        plain_fresh(&chain[i - 1], i, 2, 99 + i);
    return places;
}

static int take(const unsigned char *line, size_t length, unsigned char *reply, size_t *written)
{
    return plain_chain(chain, (size_t)places, line, length, reply, ROOM, written);
}

int main(void)
{
    run_repeat(HEAD_BYTES, make, chain, take, ROOM);
    return 0;
}
