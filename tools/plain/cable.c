/* The program `cable` of order 2 over the plain library: for a chain of four fresh records what bench is for one.
   A motor report names the record by its place, 1 to 4, before the axis. */
#include "plain.h"
#include "session.h"

enum { RECORDS = 4, ROOM = RECORDS * ANSWER_BYTES };

static struct device chain[RECORDS];

static int take(const unsigned char *line, size_t length, unsigned char *reply, size_t *written)
{
    return plain_chain(chain, RECORDS, line, length, reply, ROOM, written);
}

static int report(const unsigned char *part, size_t length, unsigned char *alert, size_t *written)
{
    int number[4];
    *written = 0;
    if (plain_read_report(part, length, number, 4) != 0 || number[0] < 1 || number[0] > RECORDS)
        return BADREPORT;
    return plain_report(&chain[number[0] - 1], number[1], number[2], number[3], alert, REPLY_BYTES, written);
}

int main(void)
{
    static const int address[RECORDS] = { 1, 2, 1, 9 }, axes[RECORDS] = { 2, 1, 4, 3 };
    for (int i = 0; i < RECORDS; i++)
        if (plain_fresh(&chain[i], address[i], axes[i], 100 + i) != 0)
            return 1;
    run_session(take, 0, report, ROOM);
    return 0;
}
