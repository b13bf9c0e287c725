/* The program `console` over the plain library: bench and, above what it prints for a line whose refusal has a place
   (order 3), a line with a `^` under that place. It reads 4,096 bytes, as bench does; the proved console reads on. */
#include "record.h"
#include "session.h"

/* A place is at most the length of a line; then come `^` and LF, and the answer. */
enum { ROOM = LINE_BYTES + 2 + ANSWER_BYTES };

static int tell(const unsigned char *line, size_t length)
{
    return plain_place(&device, line, length);
}

int main(void)
{
    if (make_fresh() != 0)
        return 1;
    run_session(take, tell, report, ROOM);
    return 0;
}
