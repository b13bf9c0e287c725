/* What bench and console share: one record, fresh at first, with address 1, two axes and device id 100, and what takes
   its lines and its motor reports. */
#ifndef RECORD_H
#define RECORD_H
#include "plain.h"

static struct device device;

/* Answers 0 if the record is there. */
static int make_fresh(void)
{
    return plain_fresh(&device, 1, 2, 100);
}

static int take(const unsigned char *line, size_t length, unsigned char *reply, size_t *written)
{
    return plain_step(&device, line, length, reply, ANSWER_BYTES, written);
}

static int report(const unsigned char *part, size_t length, unsigned char *alert, size_t *written)
{
    int number[3];
    *written = 0;
    if (plain_read_report(part, length, number, 3) != 0)
        return BADREPORT;
    return plain_report(&device, number[0], number[1], number[2], alert, REPLY_BYTES, written);
}

#endif
