/* What speed and chain_speed share: the head of the input, the way home, the counted calls, and what is printed. */
#ifndef REPEAT_H
#define REPEAT_H
#include "entry.h"

static void print(int steps, unsigned sum)
{
    unsigned char text[32], *to = plain_number(text, steps);
    *to++ = ' ';
    to = plain_number(to, (int)(sum & 0x7fffffff));
    *to++ = '\n';
    write(1, text, (size_t)(to - text));
}

/* Reports beyond a record's axis count are refused and change nothing; with comm.alert 0 none writes an alert. */
static void home_all(struct device *devices, int count, take_line *take, unsigned char *reply)
{
    static const unsigned char home[] = { '/', 'h', 'o', 'm', 'e', '\n' };
    size_t written;
    take(home, sizeof home, reply, &written);
    for (int i = 0; i < count; i++)
        for (int axis = 1; axis <= AXIS_PLACES; axis++)
            plain_report(&devices[i], axis, 3, 0, reply, REPLY_BYTES, &written);
}

static unsigned take_often(take_line *take, const unsigned char *line, size_t length,
                           unsigned char *reply, size_t room, int repeat)
{
    unsigned sum = 0;
    for (int i = 0; i < repeat; i++) {
        size_t written;
        sum += (unsigned)take(line, length, reply, &written);
        sum += (unsigned)written;
    }
    for (size_t i = 0; i < room; i++)
        sum += reply[i];
    return sum;
}

/* Reads `R REPEAT NUMBER HOMED` LF, which has head bytes, and takes the line behind it REPEAT times. make makes the
   fresh records that NUMBER asks for and answers how many they are, 0 if none. room is the buffer's length. */
static void run_repeat(size_t head, int (*make)(int number), struct device *devices, take_line *take, size_t room)
{
    static unsigned char entry[ENTRY_BYTES], reply[CHAIN_PLACES * ANSWER_BYTES];
    size_t length = read_entry(entry);
    int number[3], count = 0;
    if (length >= head && plain_read_report(entry, head, number, 3) == 0)
        count = make(number[1]);
    if (count == 0) {
        print(0, 0);
        return;
    }
    if (number[2] == 1)
        home_all(devices, count, take, reply);
    print(number[0], take_often(take, entry + head, length - head, reply, room, number[0]));
}

#endif
