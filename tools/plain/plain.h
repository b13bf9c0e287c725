/* The carriage controller in C, the usual way: the device record, and what a line and a motor report make of it.
   Written from document 01, and the orders of 02 that have landed, alone: a second opinion on the proved library. */
#ifndef PLAIN_H
#define PLAIN_H

typedef __SIZE_TYPE__ size_t;   /* the kit's compiler comes without headers */

enum {
    AXIS_PLACES = 4,
    STORED_POSITIONS = 16,
    LINE_BYTES = 80,
    REPLY_BYTES = 96,           /* as many as a reply, an info line or an alert may take */
    INFO_LINES = 11,            /* of `help commands` */
    ANSWER_BYTES = (1 + INFO_LINES) * REPLY_BYTES,  /* as many as one record's answer to any line may take */
    CHAIN_PLACES = 16,
    ENTRY_BYTES = 4096,
    NO_PLACE = 255
};

/* The settings in document 01's order: first those of an axis, then those of the device. */
enum setting {
    POS, LIMIT_MIN, LIMIT_MAX, MAXSPEED, ACCEL,
    CURRENT_MAX, CURRENT_RUN, CURRENT_HOLD, DRIVER_DIR, INDEX_COUNT,
    AXIS_SETTINGS,
    ADDRESS = AXIS_SETTINGS, ALERT, CHECKSUM, ACCESS, DEVICEID, AXISCOUNT,
    SETTINGS,
    DEVICE_SETTINGS = SETTINGS - AXIS_SETTINGS
};

enum motion { IDLE, HOMING, TO_POSITION, AT_SPEED, STOPPING };

struct axis {
    int setting[AXIS_SETTINGS];
    int stored[STORED_POSITIONS];
    enum motion motion;
    int target;                 /* in microsteps; counts while TO_POSITION */
    int speed;                  /* in the protocol's speed unit; counts while AT_SPEED */
    int reference;              /* 1: it has one */
    unsigned warnings;          /* bit 0 is FD, bit 6 is FE; WR follows from the reference */
};

struct device {
    int setting[DEVICE_SETTINGS];   /* by enum setting, less AXIS_SETTINGS */
    int parked;
    struct axis axis[AXIS_PLACES];
};

enum refusal {
    ACCEPTED = 0,
    NOTLINE = 1, TOOLONG = 2, BADSUM = 3, BADADDRESS = 4, NOTMINE = 5,
    BADCOMMAND = 10, BADDATA = 11, BADAXIS = 12, DEVICEONLY = 13, NOACCESS = 14, PARKED = 15, STATUSBUSY = 16,
    NOROOM = 20, BADSTATE = 21, BADREPORT = 22
};

/* Makes the fresh record. Answers 0, or 21 and leaves the record as it is. */
int plain_fresh(struct device *device, int address, int axiscount, int deviceid);

/* Obeys one line and writes its answer: the reply and, behind that of an accepted `help commands`, the info lines.
   Answers document 01's number; written is the length of the answer. REPLY_BYTES are enough room for any line but
   `help commands`, which is 20 with under ANSWER_BYTES, whatever its address and axis. */
int plain_step(struct device *device, const unsigned char *line, size_t length,
               unsigned char *reply, size_t room, size_t *written);

/* Tells where a line went wrong, counted from 0 at its `/`: the place of the first byte that made a number refuse, or
   the end of the number's word if that stopped too soon. That is where plain_step answers 4, or 11 since numbers of the
   line's row refuse and nothing else; NO_PLACE with any other answer. The record stays as it is. */
int plain_place(const struct device *device, const unsigned char *line, size_t length);

/* Obeys one line on each record of a chain that it concerns, and writes their answers one behind the other, in the
   order of the chain. Answers 20, 21, 1 to 4, or 5 if it concerns none; else 0, whatever the replies say. Room is asked
   for as by plain_step, for each record of the chain. */
int plain_chain(struct device *devices, size_t count, const unsigned char *line, size_t length,
                unsigned char *reply, size_t room, size_t *written);

/* Takes a motor report; p is the place for kind 4. Answers 0, or 20 with under REPLY_BYTES, 21 or 22 and leaves the
   record as it is. Where comm.alert is 1 and the report ends a motion (kinds 2 and 3) it writes an alert for the axis;
   written is its length, else 0. */
int plain_report(struct device *device, int axis, int kind, int p,
                 unsigned char *alert, size_t room, size_t *written);

/* Reads `R` and so many numbers: three as `R axis kind p`, four as `R device axis kind p`. Answers 0, or 22 if it is
   misspelt, over 80 bytes or without a footer. */
int plain_read_report(const unsigned char *line, size_t length, int *number, int count);

/* The length of the part that begins at bytes: up to and with the first LF, or all that is left. */
size_t plain_part(const unsigned char *bytes, size_t left);

/* Writes a number in decimal and answers the place behind it. */
unsigned char *plain_number(unsigned char *to, int value);

#endif
