/* Reading, with no record: what a line asks. The frame and the address come first, then the command's own words; tables
   name them. This and answering.h are headers, so that plain_step, plain_chain and plain_place are each compiled in one
   piece, and none pays for a call that it has only because of another. */
#ifndef READING_H
#define READING_H
#include "plain.h"

typedef unsigned char byte;

int memcmp(const void *, const void *, size_t);

/* ---- tables */

enum { FURTHEST = 1000000000, HIGHEST = 2147483647, LAST_ADDRESS = 99 };

struct name {
    const char *text;
    size_t length;
};

#define NAME(text) { text, sizeof(text) - 1 }
#define COUNT(table) ((int)(sizeof(table) / sizeof(table)[0]))

static const struct name setting_names[SETTINGS] = {
    [POS] = NAME("pos"),
    [LIMIT_MIN] = NAME("limit.min"),
    [LIMIT_MAX] = NAME("limit.max"),
    [MAXSPEED] = NAME("maxspeed"),
    [ACCEL] = NAME("accel"),
    [CURRENT_MAX] = NAME("driver.current.max"),
    [CURRENT_RUN] = NAME("driver.current.run"),
    [CURRENT_HOLD] = NAME("driver.current.hold"),
    [DRIVER_DIR] = NAME("driver.dir"),
    [INDEX_COUNT] = NAME("encoder.index.count"),
    [ADDRESS] = NAME("comm.address"),
    [ALERT] = NAME("comm.alert"),
    [CHECKSUM] = NAME("comm.checksum"),
    [ACCESS] = NAME("system.access"),
    [DEVICEID] = NAME("deviceid"),
    [AXISCOUNT] = NAME("system.axiscount"),
};

static const byte read_only[SETTINGS] = { [CURRENT_MAX] = 1, [DEVICEID] = 1, [AXISCOUNT] = 1 };

/* Which word of which row of the command table. */
enum row {
    NOTHING, HOME, STOP, ESTOP,
    MOVE_ABS, MOVE_REL, MOVE_VEL, MOVE_STORED, MOVE_MIN, MOVE_MAX,
    GET, SET,
    STORED_GET, STORED_SET, STORED_CURRENT,
    WARNINGS, WARNINGS_CLEAR,
    PARKING_STATE, PARKING_PARK, PARKING_UNPARK,
    ECHO, HELP
};

enum first_word {
    WORD_HOME, WORD_STOP, WORD_ESTOP, WORD_MOVE, WORD_GET, WORD_SET, WORD_TOOLS, WORD_WARNINGS, WORD_HELP
};
enum tools_word { WORD_STOREPOS, WORD_PARKING, WORD_ECHO };

static const struct name first_words[] = {
    [WORD_HOME] = NAME("home"), [WORD_STOP] = NAME("stop"), [WORD_ESTOP] = NAME("estop"),
    [WORD_MOVE] = NAME("move"), [WORD_GET] = NAME("get"), [WORD_SET] = NAME("set"),
    [WORD_TOOLS] = NAME("tools"), [WORD_WARNINGS] = NAME("warnings"), [WORD_HELP] = NAME("help"),
};
static const struct name tools_words[] = {
    [WORD_STOREPOS] = NAME("storepos"), [WORD_PARKING] = NAME("parking"), [WORD_ECHO] = NAME("echo"),
};
/* In the order of MOVE_ABS to MOVE_MAX and of PARKING_STATE to PARKING_UNPARK. */
static const struct name move_words[] = {
    NAME("abs"), NAME("rel"), NAME("vel"), NAME("stored"), NAME("min"), NAME("max"),
};
static const struct name parking_words[] = { NAME("state"), NAME("park"), NAME("unpark") };
static const struct name clear_word[] = { NAME("clear") };
static const struct name current_word[] = { NAME("current") };
static const struct name commands_word[] = { NAME("commands") };

/* ---- words and numbers */

struct text {
    const byte *at, *end;
};

struct word {
    const byte *at;
    size_t length;
};

struct command {
    int address;
    int axis;
    enum row row;
    int setting;
    int number;             /* N */
    int position;           /* P */
    struct text echo;
    const byte *wrong;      /* where a number was refused, and only numbers were; else 0 */
};

static struct word next_word(struct text *rest)
{
    const byte *at = rest->at, *from;
    while (at < rest->end && *at == ' ')
        at++;
    from = at;
    while (at < rest->end && *at != ' ')
        at++;
    rest->at = at;
    return (struct word){ from, (size_t)(at - from) };
}

/* The word's place in a table of names, or -1. */
static int place_of(struct word word, const struct name *names, int count)
{
    for (int i = 0; i < count; i++)
        if (names[i].length == word.length && memcmp(names[i].text, word.at, word.length) == 0)
            return i;
    return -1;
}

/* The value of a hex digit, or 16. */
static int digit_of(byte c)
{
    if (c >= '0' && c <= '9')
        return c - '0';
    if (c >= 'a' && c <= 'f')
        return c - 'a' + 10;
    if (c >= 'A' && c <= 'F')
        return c - 'A' + 10;
    return 16;
}

/* Reads a number without its sign, up to most. Answers 0, or where it is refused: at the first byte that no such number
   goes on with, so at the digit that carries it past most, whatever follows; at the end if it stops too soon. */
static const byte *read_unsigned(const byte *at, const byte *end, long long most, long long *value)
{
    long long sum = 0;
    int base = 10;
    if (end - at >= 2 && at[0] == '0' && at[1] == 'x') {
        base = 16;
        at += 2;
    }
    if (at == end)
        return at;
    for (; at < end; at++) {
        int digit = digit_of(*at);
        sum = sum * base + digit;
        if (digit >= base || sum > most)
            return at;
    }
    *value = sum;
    return 0;
}

/* Reads a number of 32 bits. Answers 0, or where the word is refused. */
static const byte *read_number(struct word word, int *value)
{
    const byte *at = word.at, *end = word.at + word.length, *wrong;
    long long size;
    int negative = word.length > 0 && *at == '-';
    if (negative || (word.length > 0 && *at == '+'))
        at++;
    wrong = read_unsigned(at, end, (long long)HIGHEST + negative, &size);
    if (!wrong)
        *value = (int)(negative ? -size : size);
    return wrong;
}

/* ---- the line */

static int ends_line(byte c)
{
    return c == '\r' || c == '\n';
}

/* The length without the footer, of a line of at least two bytes whose first is none of a footer; 0 if it has none. */
static size_t without_footer(const byte *line, size_t length)
{
    if (length < 2 || !ends_line(line[length - 1]))
        return 0;
    return length - (ends_line(line[length - 2]) ? 2 : 1);
}

/* Takes off `/`, checksum and footer and leaves the content. Answers 2, 1, 3 or 0. */
static int read_frame(const byte *line, size_t length, struct text *content)
{
    size_t end, colon = 0;
    unsigned sum = 0;
    if (length > LINE_BYTES)
        return TOOLONG;
    end = without_footer(line, length);
    if (end == 0 || line[0] != '/')
        return NOTLINE;
    for (size_t i = 1; i < end; i++) {
        if (line[i] < ' ' || line[i] > '~')
            return NOTLINE;
        if (line[i] == ':' && colon == 0)
            colon = i;
        if (colon == 0)
            sum += line[i];
    }
    *content = (struct text){ line + 1, line + end };
    if (colon == 0)
        return 0;
    if (colon + 3 != end)
        return BADSUM;
    int high = digit_of(line[colon + 1]), low = digit_of(line[colon + 2]);
    if (high > 15 || low > 15 || ((sum + high * 16u + low) & 255) != 0)
        return BADSUM;
    content->end = line + colon;
    return 0;
}

/* Reads address and axis and leaves the first word of the command. Answers 4 or 0. A sign is no byte of an address, so
   it is refused there. */
static int read_address(struct text *content, struct command *command, struct word *first)
{
    long long value;
    command->address = 0;
    command->axis = 0;
    *first = next_word(content);
    if (first->length == 0)
        return 0;
    byte c = first->at[0];
    if (c != '+' && c != '-' && (c < '0' || c > '9'))
        return 0;
    command->wrong = read_unsigned(first->at, first->at + first->length, LAST_ADDRESS, &value);
    if (command->wrong)
        return BADADDRESS;
    command->address = (int)value;
    *first = next_word(content);
    if (first->length == 1 && first->at[0] >= '0' && first->at[0] <= '9') {
        command->axis = first->at[0] - '0';
        *first = next_word(content);
    }
    return 0;
}

/* ---- the command's words */

static int no_more(struct text *rest)
{
    return next_word(rest).length == 0 ? 0 : BADDATA;
}

/* Where the number is missing, or more words follow, there is no row with so many words, and no place to tell. */
static int last_number(struct text *rest, struct command *command)
{
    struct word word = next_word(rest);
    if (word.length == 0 || no_more(rest) != 0)
        return BADDATA;
    command->wrong = read_number(word, &command->number);
    return command->wrong ? BADDATA : 0;
}

static int read_move(struct text *rest, struct command *command)
{
    int place = place_of(next_word(rest), move_words, COUNT(move_words));
    if (place < 0)
        return BADCOMMAND;
    command->row = MOVE_ABS + place;
    return command->row >= MOVE_MIN ? no_more(rest) : last_number(rest, command);
}

static int read_setting(struct text *rest, struct command *command, enum row row)
{
    int place = place_of(next_word(rest), setting_names, SETTINGS);
    if (place < 0 || (row == SET && read_only[place]))
        return BADCOMMAND;
    command->row = row;
    command->setting = place;
    return row == GET ? no_more(rest) : last_number(rest, command);
}

/* Which of the three rows it is goes by their last words; any that is not `current` is a number. */
static enum row storepos_row(struct word last)
{
    if (last.length == 0)
        return STORED_GET;
    return place_of(last, current_word, 1) == 0 ? STORED_CURRENT : STORED_SET;
}

/* Of two numbers that are refused the first is told; of too few or too many words none. */
static int read_storepos(struct text *rest, struct command *command)
{
    struct word number = next_word(rest), last = next_word(rest);
    if (number.length == 0 || no_more(rest) != 0)
        return BADDATA;
    command->row = storepos_row(last);
    command->wrong = read_number(number, &command->number);
    if (!command->wrong && command->row == STORED_SET)
        command->wrong = read_number(last, &command->position);
    return command->wrong ? BADDATA : 0;
}

static int read_parking(struct text *rest, struct command *command)
{
    int place = place_of(next_word(rest), parking_words, COUNT(parking_words));
    if (place < 0)
        return BADDATA;
    command->row = PARKING_STATE + place;
    return no_more(rest);
}

static int read_tools(struct text *rest, struct command *command)
{
    switch (place_of(next_word(rest), tools_words, COUNT(tools_words))) {
    case WORD_STOREPOS:
        return read_storepos(rest, command);
    case WORD_PARKING:
        return read_parking(rest, command);
    case WORD_ECHO:
        command->row = ECHO;
        command->echo = *rest;
        return 0;
    default:
        return BADCOMMAND;
    }
}

static int read_warnings(struct text *rest, struct command *command)
{
    struct word word = next_word(rest);
    command->row = word.length == 0 ? WARNINGS : WARNINGS_CLEAR;
    if (word.length > 0 && place_of(word, clear_word, 1) < 0)
        return BADDATA;
    return no_more(rest);
}

static int read_bare(struct text *rest, struct command *command, enum row row)
{
    command->row = row;
    return no_more(rest);
}

/* Only move, tools, get and set have a second word that is BADCOMMAND if it is wrong. */
static int read_help(struct text *rest, struct command *command)
{
    return place_of(next_word(rest), commands_word, 1) == 0 ? read_bare(rest, command, HELP) : BADDATA;
}

/* Reads the command's words. Answers 10, 11 or 0. */
static int read_command(struct word first, struct text *rest, struct command *command)
{
    if (first.length == 0)
        return read_bare(rest, command, NOTHING);
    switch (place_of(first, first_words, COUNT(first_words))) {
    case WORD_HOME:
        return read_bare(rest, command, HOME);
    case WORD_STOP:
        return read_bare(rest, command, STOP);
    case WORD_ESTOP:
        return read_bare(rest, command, ESTOP);
    case WORD_MOVE:
        return read_move(rest, command);
    case WORD_GET:
        return read_setting(rest, command, GET);
    case WORD_SET:
        return read_setting(rest, command, SET);
    case WORD_TOOLS:
        return read_tools(rest, command);
    case WORD_WARNINGS:
        return read_warnings(rest, command);
    case WORD_HELP:
        return read_help(rest, command);
    default:
        return BADCOMMAND;
    }
}

/* Reads a whole line. Answers 2, 1, 3, 4, 10, 11 or 0; with the last three address and axis are there. */
static int read_line(const byte *line, size_t length, struct command *command)
{
    struct text rest;
    struct word first;
    int number = read_frame(line, length, &rest);
    if (number == 0)
        number = read_address(&rest, command, &first);
    return number == 0 ? read_command(first, &rest, command) : number;
}

#endif
