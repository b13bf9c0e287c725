/* What bench, cable and console share: the whole run. Standard input is parted after each LF, and for each part the
   answers to a line, `silent N`, or `report N` and behind it the alert, if there is one, are printed; by console a
   caret first, where a line has a place for it. */
#ifndef SESSION_H
#define SESSION_H
#include "entry.h"

enum { OUTPUT_BYTES = 65536 };

/* Tells where a program's own record finds that a line went wrong, or NO_PLACE. */
typedef int tell_place(const unsigned char *line, size_t length);

/* A program's own record, or its chain, takes one motor report: answers the number; alert has REPLY_BYTES, and written
   is the length of what was written there. */
typedef int take_report(const unsigned char *part, size_t length, unsigned char *alert, size_t *written);

static unsigned char output[OUTPUT_BYTES];
static size_t held;

static void flush(void)
{
    size_t done = 0;
    while (done < held) {
        long count = write(1, output + done, held - done);
        if (count <= 0)
            break;
        done += (size_t)count;
    }
    held = 0;
}

/* Prints `silent N` or `report N`; both words have six letters. */
static void say(const char *word, int number)
{
    unsigned char *to = output + held;
    for (int i = 0; i < 6; i++)
        *to++ = (unsigned char)word[i];
    *to++ = ' ';
    to = plain_number(to, number);
    *to++ = '\n';
    held = (size_t)(to - output);
}

/* Prints `^` under that place of a line. */
static void point(int place)
{
    while (place-- > 0)
        output[held++] = ' ';
    output[held++] = '^';
    output[held++] = '\n';
}

/* The place is asked of the record as it is before the line. */
static void point_at_wrong(const unsigned char *part, size_t length, tell_place *tell)
{
    int place = tell(part, length);
    if (place != NO_PLACE)
        point(place);
}

static void answer_line(const unsigned char *part, size_t length, take_line *line)
{
    size_t written;
    int number = line(part, length, output + held, &written);
    held += written;
    if (written == 0)
        say("silent", number);
}

/* Takes one part that is a line; tell is 0 for a program that points at nothing. */
static void take_part(const unsigned char *part, size_t length, take_line *line, tell_place *tell)
{
    if (tell)
        point_at_wrong(part, length, tell);
    answer_line(part, length, line);
}

/* Number and alert come of one call, and the number is printed first: so the alert waits in a buffer of its own. */
static void answer_report(const unsigned char *part, size_t length, take_report *report)
{
    unsigned char alert[REPLY_BYTES];
    size_t written;
    say("report", report(part, length, alert, &written));
    for (size_t i = 0; i < written; i++)
        output[held++] = alert[i];
}

/* Takes all parts; room is as many bytes as may be printed for one of them, a line or a report. */
static void run_session(take_line *line, tell_place *tell, take_report *report, size_t room)
{
    static unsigned char entry[ENTRY_BYTES];
    size_t length = read_entry(entry), part;
    for (size_t at = 0; at < length; at += part) {
        part = plain_part(entry + at, length - at);
        if (OUTPUT_BYTES - held < room)
            flush();
        if (entry[at] == 'R')
            answer_report(entry + at, part, report);
        else
            take_part(entry + at, part, line, tell);
    }
    flush();
}

#endif
