/* A user at a station: the host's bytes of a sign-on are given to it, a name and a password are typed, and Enter is
 * pressed. All that the station writes is printed in hex, a line for each piece.
 *
 * The bytes are a shorter examples/sign-on.hex. `signon.out` has what is to be printed. */
#include "ribbonscarp.h"

#include <stdio.h>

#define COUNT(list) (sizeof(list) / sizeof((list)[0]))

/* The options of a session (RFC 1205, section 2): DO TERMINAL-TYPE, its SEND, and DO and WILL of END-OF-RECORD and of
 * TRANSMIT-BINARY. */
static const uint8_t opening[] = {0xff, 0xfd, 0x18, 0xff, 0xfa, 0x18, 0x01, 0xff, 0xf0, 0xff, 0xfd,
                                  0x19, 0xff, 0xfb, 0x19, 0xff, 0xfd, 0x00, 0xff, 0xfb, 0x00};

/* A record of opcode Put/Get: Clear Unit, a write of a heading and of two fields of 10 cells, and Read MDT Fields. */
static const uint8_t record[] = {
    0x00, 0x3e, 0x12, 0xa0, 0x00, 0x00, 0x04, 0x00, 0x00, 0x03,             /* 62 bytes */
    0x04, 0x40,                                                             /* Clear Unit */
    0x04, 0x11, 0x00, 0x08,                                                 /* Write to Display, unlock */
    0x11, 0x01, 0x25, 0xe2, 0x89, 0x87, 0x95, 0x40, 0xd6, 0x95,             /* at 1 37: Sign On */
    0x11, 0x06, 0x11, 0xe4, 0xa2, 0x85, 0x99,                               /* at 6 17: User */
    0x11, 0x06, 0x34, 0x1d, 0x40, 0x00, 0x20, 0x00, 0x0a,                   /* a field from 6 53 */
    0x11, 0x07, 0x11, 0xd7, 0x81, 0xa2, 0xa2,                               /* at 7 17: Pass */
    0x11, 0x07, 0x34, 0x1d, 0x40, 0x00, 0x27, 0x00, 0x0a,                   /* a field from 7 53, not displayed */
    0x04, 0x52, 0x00, 0x00,                                                 /* Read MDT Fields */
    0xff, 0xef};

static void print_hex(const char *what, const uint8_t *bytes, size_t count)
{
    printf("%s ", what);
    for (size_t at = 0; at < count; at++)
        printf("%02X", bytes[at]);
    putchar('\n');
}

static int take(ribbon_station *station, const uint8_t *bytes, size_t count)
{
    uint8_t reply[256];
    ribbon_pushed pushed;
    if (ribbon_station_push(station, bytes, count, reply, sizeof reply, &pushed) != RIBBON_DONE)
        return 1;
    if (pushed.replied > 0)
        print_hex("reply", reply, pushed.replied);
    return 0;
}

static int press(ribbon_station *station, uint32_t kind, uint32_t value)
{
    uint8_t answer[RIBBON_ANSWER_ROOM];
    ribbon_told told;
    ribbon_status status = ribbon_station_key(station, kind, value, answer, sizeof answer, &told);
    if (status == RIBBON_KEY_REFUSED)
        printf("refused: %s\n", ribbon_refusal_text(told.reason));
    else if (status != RIBBON_DONE)
        return 1;
    else if (told.length > 0)
        print_hex("answer", answer, told.length);
    return 0;
}

static int type(ribbon_station *station, const char *text)
{
    for (; *text != 0; text++)
        if (press(station, RIBBON_KEY_CHAR, (uint8_t)*text) != 0)
            return 1;
    return 0;
}

static int print_fields(ribbon_station *station)
{
    ribbon_state screen;
    if (ribbon_station_state(station, &screen) != RIBBON_DONE)
        return 1;
    for (size_t at = 0; at < screen.field_count; at++) {
        ribbon_field field;
        if (ribbon_station_field(station, at, &field) != RIBBON_DONE)
            return 1;
        printf("field %d %d, %d cells, format %04X\n", field.row, field.column, field.length, field.format);
    }
    return 0;
}

static int run(ribbon_station *station)
{
    if (take(station, opening, COUNT(opening)) != 0 || take(station, record, COUNT(record)) != 0)
        return 1;
    if (print_fields(station) != 0)
        return 1;
    if (type(station, "QUSER") != 0 || press(station, RIBBON_KEY_FIELD_EXIT, 0) != 0 || type(station, "SECRET") != 0)
        return 1;
    if (press(station, RIBBON_KEY_AID, RIBBON_AID_ENTER) != 0)
        return 1;
    return press(station, RIBBON_KEY_CHAR, 'A'); /* the keyboard is locked now */
}

/* What a program that errs is told. */
static int check_statuses(ribbon_station *station)
{
    ribbon_pushed pushed;
    ribbon_told told;
    ribbon_state screen;
    uint8_t small[RIBBON_REPLY_ROOM - 1], byte = 0xff, cell;
    char row[RIBBON_ROW_ROOM];
    return ribbon_station_new(station, "IBM-3179-2") == RIBBON_IN_USE && ribbon_station_new(NULL, "IBM-3179-2") == RIBBON_NULL
           && ribbon_station_push(NULL, &byte, 1, small, sizeof small, &pushed) == RIBBON_NULL
           && ribbon_station_push(station, NULL, 1, small, sizeof small, &pushed) == RIBBON_NULL
           && ribbon_station_push(station, &byte, 1, small, sizeof small, &pushed) == RIBBON_BAD_ARGUMENT && pushed.taken == 0
           && ribbon_station_key(station, RIBBON_KEY_TAB, 0, small, sizeof small, &told) == RIBBON_NO_ROOM
           && ribbon_station_row(station, 0, row, sizeof row, &told) == RIBBON_BAD_ARGUMENT
           && ribbon_station_row(station, 25, row, sizeof row, &told) == RIBBON_BAD_ARGUMENT
           && ribbon_station_cell(station, 1, 81, &cell) == RIBBON_BAD_ARGUMENT
           && ribbon_station_cell(station, 1, 37, &cell) == RIBBON_DONE && cell == 0xe2
           && ribbon_station_state(station, NULL) == RIBBON_NULL && ribbon_station_state(station, &screen) == RIBBON_DONE;
}

int main(void)
{
    ribbon_station station = RIBBON_STATION_NONE;
    ribbon_state screen;
    if (ribbon_station_new(&station, "IBM-9999-9") != RIBBON_BAD_ARGUMENT)
        return 1;
    if (ribbon_station_new(&station, "ibm-3179-2") != RIBBON_DONE)
        return 1;
    int failed = run(&station) != 0 || !check_statuses(&station);
    ribbon_station_free(&station);
    ribbon_station_free(&station);
    return failed || ribbon_station_state(&station, &screen) != RIBBON_NOTHING_HELD;
}
