/* Answering what was read: the checks in document 01's order, the change of the record in place, the reply and what
   stands behind it. Tables name the settings' ranges and the texts of replies and info lines. */
#ifndef ANSWERING_H
#define ANSWERING_H
#include "reading.h"

void *memcpy(void *, const void *, size_t);

/* ---- tables */

static const int lowest[SETTINGS] = {
    [POS] = -FURTHEST, [LIMIT_MIN] = -FURTHEST, [LIMIT_MAX] = -FURTHEST, [MAXSPEED] = 1,
    [INDEX_COUNT] = -32768, [ADDRESS] = 1, [ACCESS] = 1, [AXISCOUNT] = 1,
};

static const int highest[SETTINGS] = {
    [POS] = FURTHEST, [LIMIT_MIN] = FURTHEST, [LIMIT_MAX] = FURTHEST, [MAXSPEED] = FURTHEST, [ACCEL] = 32767,
    [CURRENT_MAX] = 255, [CURRENT_RUN] = 255, [CURRENT_HOLD] = 255, [DRIVER_DIR] = 1, [INDEX_COUNT] = 32767,
    [ADDRESS] = 99, [ALERT] = 1, [CHECKSUM] = 1, [ACCESS] = 2, [DEVICEID] = HIGHEST, [AXISCOUNT] = AXIS_PLACES,
};

static const byte set_at_rest[SETTINGS] = { [POS] = 1, [LIMIT_MIN] = 1, [LIMIT_MAX] = 1, [DRIVER_DIR] = 1 };

enum { ECHO_WORDS = 17, FLAG_FD = 1, FLAGS = 127, FLAG_WR = 128 };

static const char warning_names[] = "FDFQFSFTFBFPFEWR";

/* From BADCOMMAND to STATUSBUSY. */
static const struct name refusal_names[] = {
    NAME("BADCOMMAND"), NAME("BADDATA"), NAME("BADAXIS"), NAME("DEVICEONLY"),
    NAME("NOACCESS"), NAME("PARKED"), NAME("STATUSBUSY"),
};

static const struct name help_texts[INFO_LINES] = {
    NAME("home"), NAME("stop"), NAME("estop"), NAME("move"), NAME("get"), NAME("set"), NAME("tools storepos"),
    NAME("warnings"), NAME("tools parking"), NAME("tools echo"), NAME("help commands"),
};

/* ---- the record */

static int within(int value, int low, int high)
{
    return (value >= low) & (value <= high);
}

static int device_setting(const struct device *device, enum setting setting)
{
    return device->setting[setting - AXIS_SETTINGS];
}

static int axis_count(const struct device *device)
{
    return device_setting(device, AXISCOUNT);
}

static int axis_is_good(const struct axis *axis)
{
    const int *setting = axis->setting;
    int good = 1;
    for (int i = 0; i < AXIS_SETTINGS; i++)
        good &= within(setting[i], lowest[i], highest[i]);
    for (int i = 0; i < STORED_POSITIONS; i++)
        good &= within(axis->stored[i], -FURTHEST, FURTHEST);
    good &= setting[LIMIT_MIN] <= setting[LIMIT_MAX];
    good &= setting[CURRENT_RUN] <= setting[CURRENT_MAX];
    good &= setting[CURRENT_HOLD] <= setting[CURRENT_MAX];
    good &= axis->motion != TO_POSITION || within(axis->target, -FURTHEST, FURTHEST);
    good &= axis->motion != AT_SPEED || within(axis->speed, -FURTHEST, FURTHEST);
    return good;
}

static int is_good(const struct device *device)
{
    int good = 1;
    for (int i = AXIS_SETTINGS; i < SETTINGS; i++)
        good &= within(device_setting(device, i), lowest[i], highest[i]);
    if (!good)
        return 0;
    for (int i = 0; i < axis_count(device); i++) {
        good &= axis_is_good(&device->axis[i]);
        good &= !device->parked || device->axis[i].motion == IDLE;
    }
    return good;
}

/* The places of the axes that an axis number means: 0 is all of them. */
struct span {
    int from, to;
};

static struct span span_of(const struct device *device, int axis)
{
    if (axis == 0)
        return (struct span){ 0, axis_count(device) };
    return (struct span){ axis - 1, axis };
}

static int moves(const struct device *device, struct span span)
{
    for (int i = span.from; i < span.to; i++)
        if (device->axis[i].motion != IDLE)
            return 1;
    return 0;
}

static unsigned active_warnings(const struct device *device, struct span span)
{
    unsigned active = 0;
    for (int i = span.from; i < span.to; i++) {
        active |= device->axis[i].warnings & FLAGS;
        active |= device->axis[i].reference ? 0 : FLAG_WR;
    }
    return active;
}

/* ---- the checks, in the table's order */

static int is_device_only(const struct command *command)
{
    if (command->row == GET || command->row == SET)
        return command->setting >= AXIS_SETTINGS;
    return command->row >= PARKING_STATE;
}

static int needs_access(const struct command *command)
{
    if (command->row == SET)
        return command->setting == DRIVER_DIR || command->setting == INDEX_COUNT;
    return command->row == GET && command->setting == DRIVER_DIR;
}

static int is_busy(const struct device *device, const struct command *command)
{
    if (command->row == SET && set_at_rest[command->setting])
        return moves(device, span_of(device, command->axis));
    return command->row == PARKING_PARK && moves(device, span_of(device, 0));
}

static int within_limits(const struct axis *axis, long long position)
{
    return position >= axis->setting[LIMIT_MIN] && position <= axis->setting[LIMIT_MAX];
}

static int is_stored_number(int number)
{
    return number >= 1 && number <= STORED_POSITIONS;
}

static long long target_of(const struct axis *axis, const struct command *command)
{
    switch (command->row) {
    case MOVE_REL:
        return (long long)axis->setting[POS] + command->number;
    case MOVE_STORED:
        return axis->stored[command->number - 1];
    case MOVE_MIN:
        return axis->setting[LIMIT_MIN];
    case MOVE_MAX:
        return axis->setting[LIMIT_MAX];
    default:
        return command->number;
    }
}

static int set_permitted(const struct axis *axis, int setting, int value)
{
    if (!within(value, lowest[setting], highest[setting]))
        return 0;
    switch (setting) {
    case LIMIT_MIN:
        return value <= axis->setting[LIMIT_MAX];
    case LIMIT_MAX:
        return value >= axis->setting[LIMIT_MIN];
    case CURRENT_RUN:
    case CURRENT_HOLD:
        return value <= axis->setting[CURRENT_MAX];
    default:
        return 1;
    }
}

/* What one axis permits: value, target, reference and range. */
static int axis_permits(const struct axis *axis, const struct command *command)
{
    int number = command->number;
    switch (command->row) {
    case MOVE_STORED:
        if (!is_stored_number(number))
            return 0;
        /* fall through */
    case MOVE_ABS:
    case MOVE_REL:
    case MOVE_MIN:
    case MOVE_MAX:
        return axis->reference && within_limits(axis, target_of(axis, command));
    case MOVE_VEL:
        return within(number, -axis->setting[MAXSPEED], axis->setting[MAXSPEED]);
    case SET:
        return set_permitted(axis, command->setting, number);
    case STORED_GET:
        return is_stored_number(number);
    case STORED_SET:
        return is_stored_number(number) && within_limits(axis, command->position);
    case STORED_CURRENT:
        return is_stored_number(number) && within_limits(axis, axis->setting[POS]);
    default:
        return 1;
    }
}

static int refusal(const struct device *device, const struct command *command)
{
    struct span span = span_of(device, command->axis);
    if (command->axis > axis_count(device))
        return BADAXIS;
    if (command->axis != 0 && is_device_only(command))
        return DEVICEONLY;
    if (needs_access(command) && device_setting(device, ACCESS) < 2)
        return NOACCESS;
    if (device->parked && command->row >= STOP && command->row <= MOVE_MAX)
        return PARKED;
    if (is_busy(device, command))
        return STATUSBUSY;
    for (int i = span.from; i < span.to; i++)
        if (!axis_permits(&device->axis[i], command))
            return BADDATA;
    return ACCEPTED;
}

/* ---- the effect */

static void obey_on_axis(struct axis *axis, const struct command *command)
{
    switch (command->row) {
    case HOME:
        axis->motion = HOMING;
        break;
    case STOP:
        axis->motion = axis->motion == IDLE ? IDLE : STOPPING;
        break;
    case ESTOP:
        axis->motion = IDLE;
        break;
    case MOVE_VEL:
        axis->motion = AT_SPEED;
        axis->speed = command->number;
        break;
    case SET:
        axis->setting[command->setting] = command->number;
        break;
    case STORED_SET:
        axis->stored[command->number - 1] = command->position;
        break;
    case STORED_CURRENT:
        axis->stored[command->number - 1] = axis->setting[POS];
        break;
    case WARNINGS_CLEAR:
        axis->warnings &= FLAG_FD;
        break;
    default:
        axis->target = (int)target_of(axis, command);
        axis->motion = TO_POSITION;
    }
}

static void obey(struct device *device, const struct command *command)
{
    struct span span = span_of(device, command->axis);
    switch (command->row) {
    case NOTHING:
    case GET:
    case STORED_GET:
    case WARNINGS:
    case PARKING_STATE:
    case ECHO:
    case HELP:
        return;
    case PARKING_PARK:
    case PARKING_UNPARK:
        device->parked = command->row == PARKING_PARK;
        return;
    case SET:
        if (command->setting >= AXIS_SETTINGS) {
            device->setting[command->setting - AXIS_SETTINGS] = command->number;
            return;
        }
        /* fall through */
    default:
        if (command->row == HOME)
            device->parked = 0;
        for (int i = span.from; i < span.to; i++)
            obey_on_axis(&device->axis[i], command);
    }
}

/* ---- what is written */

static byte *put(byte *to, const void *from, size_t length)
{
    memcpy(to, from, length);
    return to + length;
}

static byte *put_two_digits(byte *to, int value)
{
    *to++ = '0' + value / 10;
    *to++ = '0' + value % 10;
    return to;
}

static byte *put_number(byte *to, int value)
{
    byte digits[10];
    int count = 0;
    unsigned size = value < 0 ? 0u - (unsigned)value : (unsigned)value;
    if (value < 0)
        *to++ = '-';
    do {
        digits[count++] = '0' + size % 10;
        size /= 10;
    } while (size > 0);
    while (count > 0)
        *to++ = digits[--count];
    return to;
}

static byte *put_warnings(byte *to, unsigned active)
{
    to = put_two_digits(to, __builtin_popcount(active));
    for (int i = 0; i < 8; i++)
        if (active >> i & 1) {
            *to++ = ' ';
            to = put(to, warning_names + 2 * i, 2);
        }
    return to;
}

static byte *put_echo(byte *to, struct text words)
{
    struct word word = next_word(&words);
    if (word.length == 0)
        *to++ = '0';
    for (int count = 0; count < ECHO_WORDS && word.length > 0; count++) {
        if (count > 0)
            *to++ = ' ';
        to = put(to, word.at, word.length);
        word = next_word(&words);
    }
    return to;
}

static byte *put_values(byte *to, const struct device *device, const struct command *command)
{
    struct span span = span_of(device, command->axis);
    for (int i = span.from; i < span.to; i++) {
        const struct axis *axis = &device->axis[i];
        int value = command->row == GET ? axis->setting[command->setting] : axis->stored[command->number - 1];
        if (i > span.from)
            *to++ = ' ';
        to = put_number(to, value);
    }
    return to;
}

/* The data of an accepted command; warnings are those that were active before it. */
static byte *put_data(byte *to, const struct device *device, const struct command *command, unsigned warnings)
{
    switch (command->row) {
    case GET:
        if (command->setting >= AXIS_SETTINGS)
            return put_number(to, device_setting(device, command->setting));
        return put_values(to, device, command);
    case STORED_GET:
    case STORED_CURRENT:
        return put_values(to, device, command);
    case WARNINGS:
    case WARNINGS_CLEAR:
        return put_warnings(to, warnings);
    case PARKING_STATE:
        return put_number(to, device->parked);
    case ECHO:
        return put_echo(to, command->echo);
    default:
        *to++ = '0';
        return to;
    }
}

/* What all kinds begin with: the byte that tells which it is, the address and the axis. */
static byte *put_sender(byte *to, char kind, const struct device *device, int axis)
{
    *to++ = (byte)kind;
    to = put_two_digits(to, device_setting(device, ADDRESS));
    *to++ = ' ';
    *to++ = '0' + axis;
    return to;
}

/* The status and the highest warning, with a space before each. */
static byte *put_status(byte *to, const struct device *device, int axis)
{
    struct span span = span_of(device, axis);
    unsigned active = active_warnings(device, span);
    to = put(to, moves(device, span) ? " BUSY " : " IDLE ", 6);
    return put(to, active == 0 ? "--" : warning_names + 2 * __builtin_ctz(active), 2);
}

/* Everything of a reply before its data. */
static byte *put_head(byte *to, const struct device *device, int axis, int number)
{
    to = put_sender(to, '@', device, axis);
    to = put(to, number == ACCEPTED ? " OK" : " RJ", 3);
    to = put_status(to, device, axis);
    *to++ = ' ';
    return to;
}

/* What all kinds end with; from is where this one begins. */
static byte *put_tail(byte *to, const struct device *device, const byte *from)
{
    static const char digits[] = "0123456789ABCDEF";
    unsigned sum = 0;
    if (device_setting(device, CHECKSUM)) {
        for (const byte *at = from + 1; at < to; at++)
            sum -= *at;
        *to++ = ':';
        *to++ = digits[sum >> 4 & 15];
        *to++ = digits[sum & 15];
    }
    *to++ = '\r';
    *to++ = '\n';
    return to;
}

static byte *put_info(byte *to, const struct device *device, struct name text)
{
    const byte *from = to;
    to = put_sender(to, '#', device, 0);
    *to++ = ' ';
    to = put(to, text.text, text.length);
    return put_tail(to, device, from);
}

static byte *put_help(byte *to, const struct device *device)
{
    for (int i = 0; i < INFO_LINES; i++)
        to = put_info(to, device, help_texts[i]);
    return to;
}

/* ---- one record and the line that was read */

/* Refused by the line's reader, and with no reply: 1 to 4. */
static int is_silent(int number)
{
    return number >= NOTLINE && number <= BADADDRESS;
}

/* Whether the line was read as the one that needs more room than replies do, and does not have it. */
static int lacks_room(const struct command *command, int number, size_t records, size_t room)
{
    return number == 0 && command->row == HELP && room < records * ANSWER_BYTES;
}

static int concerns(const struct command *command, const struct device *device)
{
    return command->address == 0 || command->address == device_setting(device, ADDRESS);
}

/* Obeys a command, unless its words or the record refuse it, and writes the answer. Answers 10 to 16 or 0. */
static int answer(struct device *device, const struct command *command, int number, byte *reply, size_t *written)
{
    int axis = command->axis > axis_count(device) ? 0 : command->axis;
    unsigned before = active_warnings(device, span_of(device, axis));
    if (number == 0)
        number = refusal(device, command);
    if (number == 0)
        obey(device, command);
    byte *to = put_head(reply, device, axis, number);
    if (number == 0)
        to = put_data(to, device, command, before);
    else
        to = put(to, refusal_names[number - BADCOMMAND].text, refusal_names[number - BADCOMMAND].length);
    to = put_tail(to, device, reply);
    if (number == 0 && command->row == HELP)
        to = put_help(to, device);
    *written = (size_t)(to - reply);
    return number;
}

#endif
