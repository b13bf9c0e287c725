/* The speed program over the plain library: steps one record through one line many times. A proved program of the same
   interface stands beside it, and tools/speed runs the two against each other.

   Standard input, at most 4,096 bytes:
     bytes 0 to 14   `R REPEAT AXES HOMED` LF: REPEAT in eight decimal digits, AXES one digit from 1 to 4, HOMED 0 or 1.
                     So each number stands at a fixed place, and the whole is also spelled as a motor report.
     bytes 15 on     the line: all bytes that are left, whatever they are.
   What is done:
     The record is the fresh one with address 1, AXES axes and device id 100. The buffer is 1,152 bytes, all zero.
     If HOMED is 1, the line `/home` LF is stepped into that buffer, and then home reached at 0 is reported (kind 3) for
     axes 1, 2, 3 and 4; reports beyond the count are refused and change nothing. Nothing of this is counted.
     Then the line is stepped REPEAT times, each time on the record that the time before left, into that same buffer.
   Standard output: `STEPS SUM` LF, in decimal.
     STEPS is REPEAT. SUM is, modulo 2^31, the sum of the numbers and the lengths that the counted steps answered and,
     at the end, of all 1,152 bytes of the buffer.
   A first line that is misspelt, or asks for a record that cannot be, gives `0 0`. */
#include "plain.h"
#include "repeat.h"

enum { HEAD_BYTES = 15 };

static struct device device;

static int make(int axes)
{
    return plain_fresh(&device, 1, axes, 100) == 0;
}

static int take(const unsigned char *line, size_t length, unsigned char *reply, size_t *written)
{
    return plain_step(&device, line, length, reply, ANSWER_BYTES, written);
}

int main(void)
{
    run_repeat(HEAD_BYTES, make, &device, take, ANSWER_BYTES);
    return 0;
}
