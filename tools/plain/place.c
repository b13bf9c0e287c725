/* Where a line went wrong. In a file of its own: were the readers called twice in plain.c, plain_step would no longer
   be compiled in one piece. */
#include "plain.h"
#include "reading.h"

/* What the line reader tells, whatever the record. */
static int place_in_line(const byte *line, size_t length)
{
    struct command command = { .row = NOTHING };
    read_line(line, length, &command);
    return command.wrong ? (int)(command.wrong - line) : NO_PLACE;
}

/* A copy of the record takes the line, so that a refusal which comes before the reader's hides its place. Where an 11
   is not the reader's, the reader has no place for it. */
int plain_place(const struct device *device, const unsigned char *line, size_t length)
{
    struct device copy = *device;
    byte reply[ANSWER_BYTES];
    size_t written;
    int number = plain_step(&copy, line, length, reply, ANSWER_BYTES, &written);
    return number == BADADDRESS || number == BADDATA ? place_in_line(line, length) : NO_PLACE;
}
