/* The carriage controller in C, the usual way: read the line, check in document 01's order, change the record in place,
   write the answer. No memory is asked for. Reading and answering stand in reading.h and answering.h, and what a motor
   report does and its alert here. */
#include "plain.h"
#include "reading.h"
#include "answering.h"

static const int fresh_axis[AXIS_SETTINGS] = {
    [LIMIT_MAX] = 305381, [MAXSPEED] = 153600, [ACCEL] = 205,
    [CURRENT_MAX] = 140, [CURRENT_RUN] = 100, [CURRENT_HOLD] = 60,
};

int plain_fresh(struct device *device, int address, int axiscount, int deviceid)
{
    struct axis axis = { .motion = IDLE };
    if (!within(address, 1, 99) || !within(axiscount, 1, AXIS_PLACES) || deviceid < 0)
        return BADSTATE;
    for (int i = 0; i < AXIS_SETTINGS; i++)
        axis.setting[i] = fresh_axis[i];
    *device = (struct device){
        .setting = { [ADDRESS - AXIS_SETTINGS] = address, [CHECKSUM - AXIS_SETTINGS] = 1, [ACCESS - AXIS_SETTINGS] = 1,
                     [DEVICEID - AXIS_SETTINGS] = deviceid, [AXISCOUNT - AXIS_SETTINGS] = axiscount },
        .axis = { axis, axis, axis, axis },
    };
    return ACCEPTED;
}

int plain_step(struct device *device, const unsigned char *line, size_t length,
               unsigned char *reply, size_t room, size_t *written)
{
    struct command command = { .row = NOTHING };
    int number;
    *written = 0;
    if (room < REPLY_BYTES)
        return NOROOM;
    if (!is_good(device))
        return BADSTATE;
    number = read_line(line, length, &command);
    if (is_silent(number))
        return number;
    if (lacks_room(&command, number, 1, room))
        return NOROOM;
    if (!concerns(&command, device))
        return NOTMINE;
    return answer(device, &command, number, reply, written);
}

/* Why the record refuses a report: 21, 22, or 0 if it does not. */
static int report_refusal(const struct device *device, int number, int kind, int p)
{
    if (!is_good(device))
        return BADSTATE;
    if (number < 1 || number > axis_count(device) || kind < 1 || kind > 5)
        return BADREPORT;
    const struct axis *axis = &device->axis[number - 1];
    if (kind <= 3 && !within(p, -FURTHEST, FURTHEST))
        return BADREPORT;
    if (kind <= 2 && axis->motion == IDLE)
        return BADREPORT;
    if (kind == 3 && axis->motion != HOMING)
        return BADREPORT;
    if (kind == 4 && !within(p, 1, 7))
        return BADREPORT;
    return ACCEPTED;
}

static int ends_motion(int kind)
{
    return kind == 2 || kind == 3;
}

static void obey_report(struct axis *axis, int kind, int p)
{
    if (kind <= 3)
        axis->setting[POS] = p;
    if (ends_motion(kind))
        axis->motion = IDLE;
    if (kind == 3)
        axis->reference = 1;
    if (kind == 4)
        axis->warnings |= 1u << (p - 1);
    if (kind == 5)
        axis->warnings &= ~(unsigned)FLAG_FD;
}

static byte *put_alert(byte *to, const struct device *device, int axis)
{
    const byte *from = to;
    to = put_sender(to, '!', device, axis);
    to = put_status(to, device, axis);
    return put_tail(to, device, from);
}

int plain_report(struct device *device, int axis, int kind, int p,
                 unsigned char *alert, size_t room, size_t *written)
{
    int number;
    *written = 0;
    if (room < REPLY_BYTES)
        return NOROOM;
    number = report_refusal(device, axis, kind, p);
    if (number != 0)
        return number;
    obey_report(&device->axis[axis - 1], kind, p);
    if (ends_motion(kind) && device_setting(device, ALERT))
        *written = (size_t)(put_alert(alert, device, axis) - alert);
    return ACCEPTED;
}

int plain_read_report(const unsigned char *line, size_t length, int *number, int count)
{
    static const struct name report_word[] = { NAME("R") };
    size_t end = length > LINE_BYTES ? 0 : without_footer(line, length);
    struct text rest = { line, line + end };
    if (end == 0 || place_of(next_word(&rest), report_word, 1) < 0 || line[0] != 'R')
        return BADREPORT;
    for (int i = 0; i < count; i++)
        if (read_number(next_word(&rest), &number[i]))
            return BADREPORT;
    return no_more(&rest) == 0 ? ACCEPTED : BADREPORT;
}

size_t plain_part(const unsigned char *bytes, size_t left)
{
    size_t length = 0;
    while (length < left && bytes[length] != '\n')
        length++;
    return length < left ? length + 1 : left;
}

unsigned char *plain_number(unsigned char *to, int value)
{
    return put_number(to, value);
}
