/* A chain of records on one cable: the line is read once, and answered by each record that it concerns. */
#include "plain.h"
#include "reading.h"
#include "answering.h"

static int all_good(const struct device *at, const struct device *end)
{
    while (at < end && is_good(at))
        at++;
    return at == end;
}

/* The first record from here on that the command concerns, or the end. What is answered changes the address of its own
   record alone, so each is asked for the one that it had before the line. */
static struct device *next_concerned(const struct command *command, struct device *at, struct device *end)
{
    while (at < end && !concerns(command, at))
        at++;
    return at;
}

int plain_chain(struct device *devices, size_t count, const unsigned char *line, size_t length,
                unsigned char *reply, size_t room, size_t *written)
{
    struct command command = { .row = NOTHING };
    struct device *at, *end;
    unsigned char *to = reply;
    int number;
    *written = 0;
    if (count < 1 || count > CHAIN_PLACES || room < count * REPLY_BYTES)
        return NOROOM;
    end = devices + count;
    if (!all_good(devices, end))
        return BADSTATE;
    number = read_line(line, length, &command);
    if (is_silent(number))
        return number;
    if (lacks_room(&command, number, count, room))
        return NOROOM;
    at = next_concerned(&command, devices, end);
    if (at == end)
        return NOTMINE;
    for (; at < end; at = next_concerned(&command, at + 1, end)) {
        size_t more;
        answer(at, &command, number, to, &more);
        to += more;
    }
    *written = (size_t)(to - reply);
    return ACCEPTED;
}
